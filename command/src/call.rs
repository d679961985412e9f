//! `call`: one call on a store, its answer in words.

use crate::answers::{self, Told};
use crate::arguments::{Input, Store};
use crate::calls::Asked;
use crate::check;
use crate::failure::Failure;
use crate::held::{Held, Warning};
use crate::input;
use crate::output;
use crate::rom;
use crate::streams;
use crate::text;
use mritvelja::{calls, Answer, Request};

/// Makes the call, saves the store, then prints the answer. Answers whether all is well: the call is
/// granted, and the store's name is on the disk.
pub fn call(store: &Store, asked: &Asked, is_hex: bool) -> Result<bool, Failure> {
    streams::require_output()?;
    let rom = rom::read(store.rom.as_deref())?;
    let given = read_data(asked)?;
    let held = Held::new(store)?;
    let before = held.load(rom)?;
    check::require_sound(&store.path, &before)?;
    let mut after = before.clone();
    let mut buffer = vec![0; asked.number.into()];
    let answer = mritvelja::call(&mut after, &request(asked, given.as_deref()), &mut buffer);
    let warning: Warning = match after != before {
        true => held.save(&after)?,
        false => None,
    };
    let printed = print(asked, &answer, &buffer, is_hex);
    let is_saved = output::tell_warning(warning);
    printed.map(|()| is_saved && answer.is_granted())
}

/// What standard input gives, where a dash asks for it.
fn read_data(asked: &Asked) -> Result<Option<Vec<u8>>, Failure> {
    match asked.call == calls::WRITE.into() && asked.data == b"-" {
        true => input::read(&Input::Standard).map(Some),
        false => Ok(None),
    }
}

fn request<'a>(asked: &'a Asked, data: Option<&'a [u8]>) -> Request<'a> {
    let byte = |number| u8::try_from(number).expect("the words have at most 255");
    Request {
        process: byte(asked.process),
        call: byte(asked.call),
        descriptor: byte(asked.descriptor),
        number: asked.number,
        path: &asked.path,
        data: data.unwrap_or(&asked.data),
    }
}

/// The bytes of a read or a readlink go to standard output, and the words beside them; else the words go there.
fn print(asked: &Asked, answer: &Answer, buffer: &[u8], is_hex: bool) -> Result<(), Failure> {
    let words = answers::words(asked.call, &Told::from(answer));
    if !calls::reads(asked.call) {
        return output::print_line(words);
    }
    let bytes = &buffer[..answer.value as usize];
    let printed = match is_hex {
        true => output::print_line(text::hex(bytes)),
        false if asked.call == calls::READLINK.into() => output::print(&text_line(bytes)),
        false => output::print(bytes),
    };
    output::tell(words);
    printed
}

/// A link's text as a line of its own, as readlink prints it in a shell; nothing where nothing was read.
fn text_line(bytes: &[u8]) -> Vec<u8> {
    match bytes {
        [] => Vec::new(),
        _ => [bytes, b"\n"].concat(),
    }
}
