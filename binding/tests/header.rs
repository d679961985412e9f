//! The constants of this package are those of the C header, all of them.

use mritvelja::calls::{self, Part};
use mritvelja::{layout, memories, modes, reasons, refusals};
use std::collections::BTreeMap;

const HEADER: &str = include_str!("../../include/mritvelja.h");
const PREFIX: &str = "MRITVELJA_";

type Values = BTreeMap<String, usize>;

/// Every constant of the header by its name without the prefix.
fn in_header() -> Values {
    let code: String = HEADER
        .split("/*")
        .map(|part| part.rsplit("*/").next().unwrap_or_default())
        .collect();
    let enums = code.split("enum {").skip(1);
    let items = enums.flat_map(|part| part[..part.find('}').unwrap()].split(','));
    let mut values = Values::new();
    for item in items {
        let (name, product) = item.split_once('=').unwrap();
        let factors = product.split('*').map(|factor| value(factor, &values));
        let product = factors.product();
        values.insert(stripped(name).into(), product);
    }
    values
}

fn stripped(name: &str) -> &str {
    name.trim().strip_prefix(PREFIX).unwrap()
}

fn value(factor: &str, values: &Values) -> usize {
    let number = factor.trim().parse();
    number.unwrap_or_else(|_| values[stripped(factor)])
}

macro_rules! constants {
    ($($prefix:literal $module:ident: $($name:ident)*;)*) => {
        Values::from([$($(
            (concat!($prefix, stringify!($name)).into(), $module::$name as usize),
        )*)*])
    };
}

/// Every constant of the package by its name in the header.
fn in_package() -> Values {
    constants! {
        "" layout: SLOTS FILE_WIDTH BLOCK DIRENTS DIRENT_WIDTH NAME PATH NAMES FOLLOWS OPEN_FILES
            OPEN_FILE_WIDTH PROCESSES PROCESS_WIDTH DESCRIPTORS LABELS PROMPTS ROM_FIRST
            NO_TRANSITION FILES_SIZE CONTENTS_SIZE OPEN_FILES_SIZE PROCESSES_SIZE RIGHTS_SIZE POLICY_SIZE
            FILE_KIND FILE_OWNER FILE_GROUP FILE_BITS FILE_LABEL FILE_LENGTH FILE_LINKS FILE_VERSION
            OPEN_SLOT OPEN_MODE OPEN_OFFSET OPEN_REFERENCES
            PROCESS_USED PROCESS_USER PROCESS_GROUP PROCESS_LABEL PROCESS_DESCRIPTOR
            FREE PLAIN DIRECTORY LINK EXECUTE WRITE READ;
        "MODE_" modes: READ WRITE BOTH APPEND TRUNCATE;
        "CALL_" calls: OPEN CREATE MAKE_DIRECTORY UNLINK REMOVE_DIRECTORY LINK LIST CHANGE_BITS
            STAT CLOSE READ WRITE SEEK DUPLICATE FORK EXIT EXECUTE SYMLINK READLINK RENAME;
        "" refusals: GRANTED UNSOUND NO_PROCESS MALFORMED NOT_HELD WRONG_DIRECTION NAME_MISSING
            NOT_A_DIRECTORY WRONG_KIND BITS_FORBID LABEL_FORBIDS NAME_THERE NOT_EMPTY TABLE_FULL
            TOO_LONG TOO_DEEP;
        "REPLAY_" reasons: END ALLOWANCE BROKEN ROOM;
        "IN_" memories: CONTENTS ROM;
    }
}

#[test]
fn the_version_is_the_headers() {
    let version = env!("CARGO_PKG_VERSION");
    let line = format!("#define MRITVELJA_VERSION \"{version}\"\n");
    assert!(HEADER.contains(&line), "{line}");
}

#[test]
fn the_refusals_are_said_in_the_headers_words() {
    const STORE_HEADER: &str = include_str!("../../include/mritvelja_store.h");
    let texts = STORE_HEADER.split("texts[] = {").nth(1).unwrap();
    let texts = texts.split('}').next().unwrap();
    let texts: Vec<&str> = texts.split('"').skip(1).step_by(2).collect();
    let said: Vec<&str> = (0..=refusals::TOO_DEEP).map(refusals::text).collect();
    assert_eq!(texts, said);
}

#[test]
fn the_constants_are_those_of_the_header() {
    assert_eq!(in_package(), in_header());
}

/// What the header calls a part; the path of link and rename has more words, which do not name another part.
fn phrase(part: &Part) -> &'static str {
    match part {
        Part::Descriptor => "descriptor",
        Part::Path => "path",
        Part::Mode => "number: mode",
        Part::Bits => "number: bits",
        Part::Index => "number: index",
        Part::Position => "number: position",
        Part::Data => "data",
        Part::NewPath => "data: new path",
        Part::Target => "data: target",
        Part::Buffer => "buffer",
    }
}

/// The parts that the header names behind each call's number.
fn parts_in_header() -> BTreeMap<u16, String> {
    let lines = HEADER
        .lines()
        .filter_map(|line| line.trim().strip_prefix("MRITVELJA_CALL_"));
    let numbered = lines.filter_map(|line| {
        let (number, comment) = line.split_once(" = ")?.1.split_once("/*")?;
        let number = number.trim().trim_end_matches(',').parse().unwrap();
        let parts = comment
            .split(';')
            .next()?
            .trim()
            .replace("path: old", "path");
        Some((number, parts))
    });
    numbered.collect()
}

#[test]
fn the_parts_of_a_call_are_those_of_the_header() {
    let said = (0..=u16::MAX).filter_map(|call| {
        let parts: Vec<&str> = calls::parts(call)?.iter().map(phrase).collect();
        let parts = parts.join(", ");
        Some((
            call,
            if parts.is_empty() {
                "nothing".into()
            } else {
                parts
            },
        ))
    });
    assert_eq!(said.collect::<BTreeMap<_, _>>(), parts_in_header());
}
