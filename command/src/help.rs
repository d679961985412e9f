//! What the command says of itself: all commands in short, and a page for each.

/// The first words of every usage line.
pub const USAGE: &str = "usage: mritvelja ";

const STATUS: &str = "The status is 0 if all is well, 1 if not, 2 if the arguments are wrong.\n";

struct Page {
    command: &'static str,
    /// What follows the command's name.
    arguments: &'static str,
    summary: &'static str,
    text: &'static str,
}

const ROM: &str = "
  --rom FILE      takes the factory part from FILE: its prompts are the files of
                  /rom, where there are none without it. It is not saved
";

const WAIT: &str = "
  --wait SECONDS  waits so long for other runs to let go of the store, and not
                  without end; then nothing is changed, and the status is 1
";

const PAGES: [Page; 8] = [
    Page {
        command: "new",
        arguments: "STORE [--from DESCRIPTION | --empty]",
        summary: "makes a store file",
        text: "
Writes the papers' test console to the new file STORE. A file that is there is
left as it is.

  --from DESCRIPTION  writes the store of a description, as describe prints it;
                      - is standard input
  --empty             writes a store with a root directory and nothing else
",
    },
    Page {
        command: "describe",
        arguments: "STORE [--json] [--wait SECONDS]",
        summary: "prints a store as text, for new --from",
        text: "
Prints the store as text, one line a thing, from which new --from makes the
same store again.

  --json          prints it as JSON, which new does not read
",
    },
    Page {
        command: "replay",
        arguments: "STORE SCRIPT [--calls N] [--explain] [--rom FILE]
                        [--wait SECONDS]",
        summary: "runs a script of calls",
        text: "
Runs a script on the store, saves the store, and prints the answers. SCRIPT may
be - for standard input. If a block of the script is broken nothing is changed.

  --calls N       makes N calls at most
  --explain       puts a line in words before each answer
",
    },
    Page {
        command: "call",
        arguments: "STORE PROCESS CALL [PART..] [--hex] [--rom FILE]
                      [--wait SECONDS]",
        summary: "makes one call",
        text: "
Makes one call for a process of the store, saves the store, and prints the
answer in words. A call that is refused has status 1.

  open PATH MODE             create PATH BITS
  make-directory PATH BITS   unlink PATH
  remove-directory PATH      link PATH NEW
  list PATH INDEX            change-bits PATH BITS
  stat PATH                  execute PATH
  symlink PATH TARGET        readlink PATH [SIZE]
  rename PATH NEW            read DESCRIPTOR [SIZE]
  write DESCRIPTOR DATA      seek DESCRIPTOR POSITION
  duplicate DESCRIPTOR       close DESCRIPTOR
  fork                       exit

MODE is read, write, both or append, with ,truncate after it to truncate. BITS
are the rights of OWNER:GROUP:OTHERS, each none, or some of read, write and
execute with commas between them, as read,write:read:none. NEW is the path of a
name that is not there yet: one more with link, another with rename. TARGET is
the path to which a symbolic link leads. DATA may be - for standard input. The
bytes of a read go to standard output, and so does the target that readlink
gives.

  --hex           prints these bytes as hex digits
",
    },
    Page {
        command: "show",
        arguments: "STORE [--json] [--rom FILE] [--wait SECONDS]",
        summary: "prints what is in a store, for people",
        text: "
Prints the files, open files, processes and policy, a line each.

  --json          prints them as JSON
",
    },
    Page {
        command: "cat",
        arguments: "STORE PATH [--rom FILE] [--wait SECONDS]",
        summary: "prints the bytes of a file",
        text: "
Prints the bytes of a file of the store, whatever its bits and label say.
Symbolic links are followed, 8 at most.
",
    },
    Page {
        command: "check",
        arguments: "STORE [--json] [--rom FILE] [--wait SECONDS]",
        summary: "says whether a store is sound",
        text: "
Says whether the store is sound, or what is wrong and where; then the status
is 1.

  --json          says it as JSON
",
    },
    Page {
        command: "convert",
        arguments: "OLD NEW [--wait SECONDS]",
        summary: "writes a store file of version 1 as one of version 2",
        text: "
Writes the store of the file OLD, of version 1 with 128 or 64 slots, to the new
file NEW, of version 2. Every file and process gets group 1, a file's owner all
rights on it, and its group those of the others: nobody may do more or less than
before. OLD is left as it is.
",
    },
];

fn page(command: &str) -> Option<&'static Page> {
    PAGES.iter().find(|page| page.command == command)
}

/// The usage line of a command, or of all if there is no such command.
pub fn usage(command: &str) -> String {
    match page(command) {
        Some(page) => format!("{USAGE}{} {}", page.command, page.arguments),
        None => {
            let commands: Vec<&str> = PAGES.iter().map(|page| page.command).collect();
            format!("{USAGE}{} ..; --help says more", commands.join("|"))
        }
    }
}

/// The page of a command, or the overview if there is no such command.
pub fn help(command: &str) -> String {
    let Some(page) = page(command) else {
        return overview();
    };
    let shared = [("[--rom FILE]", ROM), ("[--wait SECONDS]", WAIT)];
    let shared = shared
        .iter()
        .filter(|(option, _)| page.arguments.contains(option));
    let shared: String = shared.map(|&(_, text)| text).collect();
    format!("{}\n{}{shared}", usage(command), page.text)
}

fn overview() -> String {
    let commands: String = PAGES
        .iter()
        .map(|page| format!("  {:<10}{}\n", page.command, page.summary))
        .collect();
    format!(
        "{USAGE}COMMAND ..\n\n{commands}\n  -h, --help     prints this, or after a command what it does\n  -V, --version  prints the version\n\n\
         A value may follow its option after = too, and after -- there are no options.\n{STATUS}"
    )
}

#[cfg(test)]
mod tests {
    use super::*;

    #[test]
    fn no_line_is_wider_than_a_terminal() {
        let pages = PAGES.iter().map(|page| help(page.command));
        for text in pages.chain([help("")]) {
            assert!(text.starts_with(USAGE) && text.ends_with('\n'), "{text}");
            let widest = text.lines().map(str::len).max();
            assert!(widest <= Some(80), "{text}");
        }
    }
}
