//! Arguments that are understood, and others.

use super::*;

fn parsed(line: &str) -> Result<Command, String> {
    let words: Vec<OsString> = line.split_whitespace().map(OsString::from).collect();
    parse(&words)
}

fn bus(wait: Option<u64>) -> Store {
    Store {
        path: "bus".into(),
        wait: wait.map(Duration::from_secs),
        rom: None,
    }
}

fn bus_beside(rom: &str) -> Store {
    Store {
        rom: Some(rom.into()),
        ..bus(None)
    }
}

fn replay(script: Input, calls: Option<u64>) -> Result<Command, String> {
    Ok(Command::Replay {
        store: bus(None),
        script,
        calls,
        is_explained: false,
    })
}

#[test]
fn commands_are_understood() {
    let new = |contents| {
        let store = "bus".into();
        Ok(Command::New { store, contents })
    };
    let described = Contents::Description(Input::File("text".into()));
    assert_eq!(parsed("new bus"), new(Contents::TestConsole));
    assert_eq!(parsed("new --empty bus"), new(Contents::Empty));
    assert_eq!(parsed("new bus --from text"), new(described));
    assert_eq!(
        parsed("new --from=- bus"),
        new(Contents::Description(Input::Standard))
    );
    let text = |wait| (bus(wait), Form::Text);
    let show = |(store, form)| Ok(Command::Show { store, form });
    let check = |(store, form)| Ok(Command::Check { store, form });
    let describe = |(store, form)| Ok(Command::Describe { store, form });
    assert_eq!(parsed("describe bus"), describe(text(None)));
    let json = (bus(None), Form::Json);
    assert_eq!(parsed("describe --json bus"), describe(json));
    assert_eq!(parsed("show bus"), show(text(None)));
    assert_eq!(parsed("check bus"), check(text(None)));
    assert_eq!(parsed("show bus --wait 0"), show(text(Some(0))));
    assert_eq!(
        parsed("convert bus bus.new"),
        Ok(Command::Convert {
            old: bus(None),
            new: "bus.new".into()
        })
    );
}

#[test]
fn a_factory_part_may_be_given_to_five_commands() {
    let (store, form) = (|| bus_beside("part"), Form::Text);
    for (line, command) in [
        (
            "show bus --rom part",
            Command::Show {
                store: store(),
                form,
            },
        ),
        (
            "check --rom=part bus",
            Command::Check {
                store: store(),
                form,
            },
        ),
        (
            "cat bus /rom/00 --rom part",
            Command::Cat {
                store: store(),
                file: "/rom/00".into(),
            },
        ),
        (
            "replay bus day --rom part",
            Command::Replay {
                store: store(),
                script: Input::File("day".into()),
                calls: None,
                is_explained: false,
            },
        ),
    ] {
        assert_eq!(parsed(line), Ok(command));
    }
    let Ok(Command::Call { store, .. }) = parsed("call bus 2 fork --rom part") else {
        panic!("a call with a part");
    };
    assert_eq!(store, bus_beside("part"));
}

#[test]
fn help_is_of_the_command_before_it() {
    for (line, page) in [
        ("--help", "--help"),
        ("-h", "-h"),
        ("replay --help", "replay"),
        ("call bus 2 -h", "call"),
    ] {
        assert_eq!(parsed(line), Ok(Command::Help(page.into())));
    }
    assert_eq!(parsed("--version"), Ok(Command::Version));
    assert_eq!(parsed("-V"), Ok(Command::Version));
}

#[test]
fn a_replay_has_a_script_and_may_have_an_allowance() {
    let day = || Input::File("day".into());
    assert_eq!(parsed("replay bus day"), replay(day(), None));
    assert_eq!(parsed("replay bus day --calls 0"), replay(day(), Some(0)));
    assert_eq!(
        parsed("replay --calls 12 bus -"),
        replay(Input::Standard, Some(12))
    );
    assert_eq!(parsed("replay bus day --calls=3"), replay(day(), Some(3)));
    let dashed = || Input::File("-day".into());
    assert_eq!(parsed("replay bus -- -day"), replay(dashed(), None));
}

const WRONG: &[&str] = &[
    "",
    "open bus",
    "-x",
    "--version bus",
    "-V bus",
    "cat bus -- -h more",
    "new",
    "new -x",
    "new bus bus",
    "new -",
    "new --from bus",
    "new bus --from text --empty",
    "new bus --empty=yes",
    "new bus --from=",
    "describe",
    "describe -",
    "show",
    "check a b",
    "convert",
    "convert bus",
    "convert bus -x",
    "convert a b c",
    "replay",
    "replay bus",
    "replay bus a b",
    "replay bus day --calls",
    "replay bus day --calls -1",
    "replay bus day --calls +1",
    "replay bus day --calls 1.5",
    "replay bus day --call 1",
    "replay bus day --calls 99999999999999999999",
    "replay bus day --calls 1 --calls 2",
    "replay bus day --calls=",
    "show bus --wait",
    "show bus --wait soon",
    "new bus --wait 1",
    "replay bus -- day --calls 1",
    "show bus --rom",
    "show bus --rom=",
    "show bus --rom -",
    "show bus --rom part --rom part",
    "new bus --rom part",
    "describe bus --rom part",
    "convert bus new --rom part",
];

#[test]
fn other_arguments_are_refused() {
    for line in WRONG {
        assert!(parsed(line).is_err(), "{line}");
    }
    assert!(parse(&["new".into(), "".into()]).is_err());
}
