//! What is wrong with a broken block of a script, for whoever has to mend it.
//!
//! That a block is broken is the store's verdict; this only says where and why.

use crate::block;

/// Says which block is broken, where it begins, and what is wrong with it.
pub fn message(script: &[u8], start: usize, block_number: u64) -> String {
    let line = 1 + script[..start]
        .iter()
        .filter(|&&byte| byte == b'\n')
        .count();
    let (offset, why) = match block::parse(&script[start..]) {
        Err(found) => found,
        Ok(_) => (0, "it is not in the form of a call".into()),
    };
    format!(
        "block {block_number} is broken, which begins at byte {start}, line {line}; \
         line {}: {why}; nothing was changed",
        line + offset
    )
}

#[cfg(test)]
mod tests {
    use super::*;

    #[test]
    fn the_place_in_the_script_is_named() {
        let fork = "proc=2\ncall=15\nfd=0\narg=0\npath=\ndata=\n";
        let script = fork.to_string() + "proc=2\ncall=16\nfd=0\narg=0\npath=/\ndata=\n";
        assert_eq!(
            message(script.as_bytes(), fork.len(), 2),
            "block 2 is broken, which begins at byte 38, line 7; line 11: call 16 does not use \
             path=, which must be empty; nothing was changed"
        );
    }
}
