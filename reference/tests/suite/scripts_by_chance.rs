//! Scripts by chance, held against the calls made one by one.

use crate::console::Console;
use crate::random::Chance;
use crate::script::{block, lines, script, Block};
use reference::{Answer, Reason, Request};

/// The parts of a call that it uses; all of them if it is unknown.
fn scripted(request: Request, path: &str, data: &[u8]) -> Block {
    let call = request.call;
    let mut block = block(request.process.into(), call.into());
    let unknown = !(1..=20).contains(&call);
    if unknown || (10..=14).contains(&call) {
        block.descriptor = request.descriptor.into();
    }
    if unknown || [1, 2, 3, 7, 8, 11, 13, 19].contains(&call) {
        block.number = request.number.into();
    }
    if unknown || !(10..17).contains(&call) {
        block.path = path.into();
    }
    if unknown || [6, 12, 18, 20].contains(&call) {
        block.data = data.to_vec();
    }
    block
}

/// The lines that a direct call's answer has in a script.
fn answer_lines(call: u8, answer: &Answer, buffer: &[u8]) -> String {
    let mut data = answer.name.clone();
    if let Some([kind, owner, group, bits, label, length, links, version]) = answer.fields {
        data.extend([kind as u8]);
        data.extend((owner as u16).to_le_bytes());
        data.extend((group as u16).to_le_bytes());
        data.extend((bits as u16).to_le_bytes());
        data.extend([label as u8]);
        data.extend((length as u16).to_le_bytes());
        data.extend((links as u16).to_le_bytes());
        data.extend(version.to_le_bytes());
    }
    if [11, 19].contains(&call) {
        data.extend(&buffer[..answer.value as usize]);
    }
    lines(answer.refusal, answer.value, &data)
}

/// A script by chance, with the answers and the store of the same calls made
/// directly.
fn chance_day(chance: &mut Chance) -> (Vec<Block>, String, Console) {
    let mut console = Console::talking();
    let (mut blocks, mut expected) = (Vec::new(), String::new());
    for _ in 0..100 {
        let mut request = chance.request();
        let reads = [11, 19].contains(&request.call);
        if request.call == 16 || reads && request.number > 512 {
            request.number = 1;
            request.call = 1;
        }
        let (path, data) = (chance.path(), chance.data(request.call));
        let mut buffer = vec![3; usize::from(request.number.min(512))];
        let answer = console.call(request, path.as_bytes(), &data, &mut buffer);
        blocks.push(scripted(request, &path, &data));
        expected += &answer_lines(request.call, &answer, &buffer);
    }
    (blocks, expected, console)
}

#[test]
fn a_script_gives_what_its_calls_give() {
    let mut chance = Chance(4);
    for _ in 0..60 {
        let (blocks, expected, store) = chance_day(&mut chance);
        let mut console = Console::talking();
        assert_eq!(console.answers(&blocks), expected);
        assert_eq!(console, store);

        let text = script(&blocks);
        let mut console = Console::talking();
        let (mut next, mut answers) = (0, String::new());
        while next < text.len() {
            let allowance = 1 + chance.below(9) as u32;
            let size = 1100 + chance.below(200);
            let (done, some) = console.replay(&text[next..], allowance, size);
            answers += &some;
            next += done.next;
        }
        assert_eq!((answers, console), (expected, store));
    }
}

/// A script with some bytes altered runs as the whole one does, up to the
/// block of the first altered byte at least.
#[test]
fn altered_scripts_run_up_to_the_altered_block() {
    let mut chance = Chance(5);
    let mut broken = 0;
    for _ in 0..20 {
        let (blocks, expected, _) = chance_day(&mut chance);
        let text = script(&blocks);
        for _ in 0..50 {
            let mut altered = text.clone();
            let at = chance.below(text.len());
            altered[at] = chance.below(256) as u8;
            let before = blocks_before(&blocks, at);
            let (done, answers) = Console::talking().replay(&altered, 1000, 100_000);
            assert!(done.calls as usize >= before);
            let same: String = expected.split_inclusive('\n').take(3 * before).collect();
            assert!(answers.starts_with(&same));
            assert_ne!(done.reason, Reason::Allowance);
            broken += usize::from(done.reason == Reason::Broken);
        }
    }
    assert!((500..1000).contains(&broken), "{broken}");
}

/// How many blocks end at this byte of their script or before it.
fn blocks_before(blocks: &[Block], at: usize) -> usize {
    let mut end = 0;
    blocks
        .iter()
        .take_while(|block| {
            end += block.text().len();
            end <= at
        })
        .count()
}
