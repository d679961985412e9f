//! The ways in which a block is broken.

use super::lines::{key_length, Lines, DATA, DESCRIPTOR, NUMBER, NUMBERS, PATH};
use crate::chance::Chance;
use mritvelja::calls::{uses, Field};

/// Whether a way shows in the block of a call, 0 being an unknown one.
type Shows = fn(u16) -> bool;

/// A way to break a block: its name, the calls in whose blocks it shows, and
/// what it does to the lines.
pub struct Way {
    pub name: &'static str,
    pub shows: Shows,
    pub make: fn(&mut Lines, &mut Chance),
}

const ANY: Shows = |_| true;
const WITH_DATA: Shows = |call| uses(call, Field::Data);
const NO_DESCRIPTOR: Shows = |call| !uses(call, Field::Descriptor);
const NO_NUMBER: Shows = |call| !uses(call, Field::Number);
const NO_PATH: Shows = |call| !uses(call, Field::Path);
const NO_DATA: Shows = |call| !uses(call, Field::Data);

const fn way(name: &'static str, shows: Shows, make: fn(&mut Lines, &mut Chance)) -> Way {
    Way { name, shows, make }
}

pub const WAYS: [Way; 22] = [
    way("a key altered", ANY, alter_key),
    way("another line's key", ANY, take_other_key),
    way("lines in another order", ANY, swap_lines),
    way("a line twice", ANY, double_line),
    way("a line left out", ANY, leave_out_line),
    way("byte 10 missing", ANY, leave_out_end),
    way("byte 10 twice", ANY, double_end),
    way("another line end", ANY, replace_end),
    way("a leading zero", ANY, lead_by_zero),
    way("an empty number", ANY, empty_number),
    way("a number over 65,535", ANY, too_high),
    way("a byte that is no digit", ANY, no_digit),
    way("upper-case hex", WITH_DATA, upper_hex),
    way("an odd count of hex digits", WITH_DATA, odd_hex),
    way("a byte that is no hex digit", WITH_DATA, no_hex),
    way("an unused descriptor set", NO_DESCRIPTOR, set_descriptor),
    way("an unused number set", NO_NUMBER, set_number),
    way("an unused path set", NO_PATH, set_path),
    way("unused data set", NO_DATA, set_data),
    way("a space too much", ANY, add_space),
    way("a block cut short", ANY, cut_short),
    way("any byte altered", ANY, alter_byte),
];

fn alter_key(lines: &mut Lines, chance: &mut Chance) {
    let line = lines.any(chance);
    let length = key_length(&lines.lines[line]);
    let at = chance.below(length);
    let byte = lines.lines[line][at];
    let part: &[u8] = match chance.below(5) {
        0 => &[],
        1 => &[byte, byte],
        2 => &[byte ^ 0x20],
        3 => &[byte.wrapping_add(1)],
        _ => &[chance.below(256) as u8],
    };
    lines.lines[line].splice(at..=at, part.iter().copied());
}

fn take_other_key(lines: &mut Lines, chance: &mut Chance) {
    let (line, other) = (lines.any(chance), lines.any(chance));
    let key = lines.lines[other][..key_length(&lines.lines[other])].to_vec();
    let value = lines.value(line);
    lines.lines[line] = [&key, value, b"\n"].concat();
}

fn swap_lines(lines: &mut Lines, chance: &mut Chance) {
    let first = lines.any(chance);
    let other = (first + chance.between(1, 5)) % lines.lines.len();
    lines.lines.swap(first, other);
}

fn double_line(lines: &mut Lines, chance: &mut Chance) {
    let line = lines.any(chance);
    lines.lines.insert(line, lines.lines[line].clone());
}

fn leave_out_line(lines: &mut Lines, chance: &mut Chance) {
    let line = lines.any(chance);
    lines.lines.remove(line);
}

fn leave_out_end(lines: &mut Lines, chance: &mut Chance) {
    let line = lines.any(chance);
    lines.lines[line].pop();
}

fn double_end(lines: &mut Lines, chance: &mut Chance) {
    let line = lines.any(chance);
    lines.lines[line].push(b'\n');
}

fn replace_end(lines: &mut Lines, chance: &mut Chance) {
    let line = lines.any(chance);
    let end: &[u8] = match chance.below(4) {
        0 => b"\r\n",
        1 => b"\r",
        2 => b"\0",
        _ => b"\x0b",
    };
    lines.lines[line].pop();
    lines.lines[line].extend(end);
}

fn lead_by_zero(lines: &mut Lines, chance: &mut Chance) {
    let line = chance.below(NUMBERS);
    let at = key_length(&lines.lines[line]);
    let zeros = chance.pick(&[1, 1, 2, 5, 30]);
    lines.insert(line, at, &vec![b'0'; zeros]);
}

fn empty_number(lines: &mut Lines, chance: &mut Chance) {
    lines.set_value(chance.below(NUMBERS), b"");
}

/// A number that is too high; some would be the old one again if they were cut
/// to 16, 32 or 64 bits.
fn too_high(lines: &mut Lines, chance: &mut Chance) {
    let line = chance.below(NUMBERS);
    let old = String::from_utf8_lossy(lines.value(line)).parse::<u128>();
    let old = old.unwrap_or(0);
    let number = match chance.below(7) {
        0 => 65_536,
        1 => 65_537,
        2 => 99_999,
        3 => (1 << 16) + old,
        4 => (1 << 32) + old,
        5 => (1 << 64) + old,
        _ => u128::MAX,
    };
    lines.set_value(line, number.to_string().as_bytes());
}

fn no_digit(lines: &mut Lines, chance: &mut Chance) {
    let line = chance.below(NUMBERS);
    let byte = chance.pick(b"//::+- ._ax\0\xff");
    lines.insert_into_value(line, byte, chance);
}

fn upper_hex(lines: &mut Lines, chance: &mut Chance) {
    let pairs: [&[u8]; 5] = [b"0A", b"A0", b"fF", b"FF", b"Cd"];
    lines.insert_at_end(DATA, chance.pick(&pairs));
}

fn odd_hex(lines: &mut Lines, chance: &mut Chance) {
    let digit = chance.pick(b"0123456789abcdef");
    lines.insert_at_end(DATA, &[digit]);
}

fn no_hex(lines: &mut Lines, chance: &mut Chance) {
    let byte = chance.pick(b"/:`g@Gx \t\0\xff");
    let pair = if chance.one_in(2) {
        [b'0', byte]
    } else {
        [byte, b'0']
    };
    let pairs = lines.value(DATA).len() / 2;
    let at = key_length(&lines.lines[DATA]) + 2 * chance.below(pairs + 1);
    lines.insert(DATA, at, &pair);
}

/// Numbers but 0, some of which would be 0 if they were cut to a byte.
const SET_NUMBERS: [&[u8]; 6] = [b"1", b"2", b"255", b"256", b"512", b"65535"];

fn set_descriptor(lines: &mut Lines, chance: &mut Chance) {
    lines.set_value(DESCRIPTOR, chance.pick(&SET_NUMBERS));
}

fn set_number(lines: &mut Lines, chance: &mut Chance) {
    lines.set_value(NUMBER, chance.pick(&SET_NUMBERS));
}

fn set_path(lines: &mut Lines, chance: &mut Chance) {
    let paths: [&[u8]; 5] = [b"/", b"x", b" ", b"\0", b"/fares"];
    lines.set_value(PATH, chance.pick(&paths));
}

fn set_data(lines: &mut Lines, chance: &mut Chance) {
    let data: [&[u8]; 4] = [b"00", b"2f", b"0a", b"0000"];
    lines.set_value(DATA, chance.pick(&data));
}

/// A space before or after a line or its value; in a path it is a byte like
/// any other.
fn add_space(lines: &mut Lines, chance: &mut Chance) {
    let line = lines.any(chance);
    let end = lines.lines[line].len();
    let value = key_length(&lines.lines[line]);
    let at = chance.pick(&[0, value - 1, value, end - 1, end]);
    lines.insert(line, at, b" ");
}

/// Cuts a block anywhere: only its start is left.
fn cut_short(lines: &mut Lines, chance: &mut Chance) {
    let mut text = lines.text();
    text.truncate(chance.below(text.len()));
    lines.lines = vec![text];
}

fn alter_byte(lines: &mut Lines, chance: &mut Chance) {
    let line = lines.any(chance);
    let at = chance.below(lines.lines[line].len());
    lines.lines[line][at] = chance.below(256) as u8;
}
