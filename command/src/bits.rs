//! A file's bits: the rights of its owner, of its group and of all others.

use crate::ranges::ALL_RIGHTS;
use crate::text;

/// Whose rights the bits have, in their order.
const CLASSES: [&str; 3] = ["owner", "group", "others"];

/// What bits are, for messages.
pub const FORM: &str =
    "OWNER:GROUP:OTHERS, each none or some of read, write and execute with commas between them";

/// Each class with its rights, of bits from 0 to 511.
pub fn classes(bits: u32) -> [(&'static str, u32); 3] {
    let [owner, group, others] = CLASSES;
    [
        (owner, bits >> 6 & ALL_RIGHTS),
        (group, bits >> 3 & ALL_RIGHTS),
        (others, bits & ALL_RIGHTS),
    ]
}

/// Bits as one word, which [`parse`] takes.
pub fn word(bits: u32) -> String {
    let rights = classes(bits).map(|(_, rights)| text::rights(rights, ","));
    rights.join(":")
}

/// Bits for people: `owner read write, group read, others none`.
pub fn words(bits: u32) -> String {
    let said =
        classes(bits).map(|(class, rights)| format!("{class} {}", text::rights(rights, " ")));
    said.join(", ")
}

/// The bits of a word: the rights of the three classes with colons between them.
pub fn parse(word: &[u8]) -> Option<u32> {
    let rights = word.split(|&byte| byte == b':').map(text::parse_rights);
    let rights: Vec<u32> = rights.collect::<Option<_>>()?;
    let &[owner, group, others] = rights.as_slice() else {
        return None;
    };
    Some(owner << 6 | group << 3 | others)
}

#[cfg(test)]
mod tests {
    use super::*;
    use crate::ranges::LAST_BITS;

    #[test]
    fn bits_are_words() {
        assert_eq!(word(0o640), "read,write:read:none");
        assert_eq!(words(0o640), "owner read write, group read, others none");
        for bits in 0..=LAST_BITS {
            assert_eq!(parse(word(bits).as_bytes()), Some(bits));
        }
        for wrong in [
            "",
            "read",
            "read:read",
            "read:read:read:read",
            "::",
            "read:read:",
            "644",
        ] {
            assert_eq!(parse(wrong.as_bytes()), None, "{wrong}");
        }
    }
}
