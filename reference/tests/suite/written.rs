//! The written form of calls.

use crate::random::Chance;
use reference::{decode, encode, Request, Written};

/// A call with something in each of its parts.
fn full(call: u8) -> Request {
    Request {
        process: 1,
        call,
        descriptor: 2,
        number: 0x0403,
    }
}

#[test]
fn a_symbolic_link_is_its_path_and_text() {
    let written = encode(full(18), b"/fares/today", b"/fares/now").unwrap();
    assert_eq!(written, b"\x01\x12\0\0\0\x0c/fares/today/fares/now");
    let written = encode(full(18), b"", b"").unwrap();
    assert_eq!(written, b"\x01\x12\0\0\0\0");
}

#[test]
fn reading_a_text_is_its_path_and_size() {
    let written = encode(full(19), b"/fares/today", b"unused").unwrap();
    assert_eq!(written, b"\x01\x13\0\x03\x04\x0c/fares/today");
}

#[test]
fn renaming_is_its_two_paths() {
    let written = encode(full(20), b"/fares/now", b"/fares/old").unwrap();
    assert_eq!(written, b"\x01\x14\0\0\0\x0a/fares/now/fares/old");
    for at in [2, 3, 4] {
        let mut altered = written.clone();
        altered[at] = 1; // a part that the call does not use
        assert_eq!(decode(&altered), None);
    }
}

#[test]
fn every_call_is_written_with_the_parts_it_uses() {
    // Calls, whether they use descriptor and number, path and data.
    type Form<'a> = (&'a [u8], [u8; 2], &'a [u8], &'a [u8]);
    let forms: [Form; 8] = [
        (&[1, 2, 3, 7, 8, 19], [0, 1], b"/p", b""),
        (&[4, 5, 9, 17], [0, 0], b"/p", b""),
        (&[6, 18, 20], [0, 0], b"/p", b"/d"),
        (&[10, 14], [1, 0], b"", b""),
        (&[11, 13], [1, 1], b"", b""),
        (&[12], [1, 0], b"", b"/d"),
        (&[15, 16], [0, 0], b"", b""),
        (&[0, 21, 22, 255], [1, 1], b"/p", b"/d"),
    ];
    for (calls, [descriptor, number], path, data) in forms {
        for &call in calls {
            let expected = Written {
                request: Request {
                    process: 1,
                    call,
                    descriptor: 2 * descriptor,
                    number: 0x0403 * u16::from(number),
                },
                path,
                data,
            };
            let written = encode(full(call), b"/p", b"/d").unwrap();
            assert_eq!(decode(&written), Some(expected), "{call}");
            assert_eq!(written.len(), 6 + path.len() + data.len());
        }
    }
}

#[test]
fn paths_and_texts_of_at_most_64_bytes_are_kept() {
    for call in [1, 4, 6, 18, 19, 20, 0, 21] {
        assert!(encode(full(call), &[b'/'; 64], b"/").is_some());
        assert_eq!(encode(full(call), &[b'/'; 65], b"/"), None);
    }
    for call in [6, 18, 20] {
        assert!(encode(full(call), b"/", &[b'/'; 64]).is_some());
        assert_eq!(encode(full(call), b"/", &[b'/'; 65]), None);
    }
    for call in [12, 0, 21, 255] {
        assert!(encode(full(call), b"/", &[b'/'; 512]).is_some());
        assert_eq!(encode(full(call), b"/", &[b'/'; 513]), None);
    }
}

#[test]
fn what_is_not_used_is_not_too_long() {
    assert!(encode(full(19), b"/", &[0; 600]).is_some());
    assert!(encode(full(12), &[0; 600], b"").is_some());
    assert!(encode(full(15), &[0; 600], &[0; 600]).is_some());
}

/// The form is written, whatever the call would be answered.
#[test]
fn a_malformed_call_is_kept_too() {
    for (path, text) in [("", ""), ("x", "y"), ("/", "/a/"), ("/\0", "..")] {
        let written = encode(full(18), path.as_bytes(), text.as_bytes()).unwrap();
        let call = decode(&written).unwrap();
        assert_eq!((call.path, call.data), (path.as_bytes(), text.as_bytes()));
    }
}

#[test]
fn what_is_not_the_written_form_of_a_call_is_refused() {
    let written = b"\x01\x12\0\0\0\x06/today/fares/now".to_vec();
    assert!(decode(&written).is_some());
    for length in 0..12 {
        assert_eq!(decode(&written[..length]), None);
    }
    assert!(decode(&written[..12]).is_some()); // an empty text
    for at in [2, 3, 4] {
        let mut altered = written.clone();
        altered[at] = 1; // a part that the call does not use
        assert_eq!(decode(&altered), None);
    }
    let with_text = |length| [&written[..12], &vec![b'/'; length]].concat();
    assert!(decode(&with_text(64)).is_some());
    assert_eq!(decode(&with_text(65)), None);
    let read = b"\x01\x13\0\x10\0\x06/today".to_vec();
    assert!(decode(&read).is_some());
    assert_eq!(decode(&[&read[..], b"x"].concat()), None);
    let path_of = |length| [&[1, 19, 0, 0, 0, length as u8][..], &vec![b'/'; length]].concat();
    assert!(decode(&path_of(64)).is_some());
    assert_eq!(decode(&path_of(65)), None);
}

#[test]
fn encoding_and_decoding_undo_each_other() {
    let mut chance = Chance(6);
    for _ in 0..20_000 {
        let request = chance.request();
        let (path, data) = (chance.path(), chance.data(request.call));
        let Some(written) = encode(request, path.as_bytes(), &data) else {
            assert!(data.len() > 64);
            continue;
        };
        let call = decode(&written).unwrap();
        assert_eq!(encode(call.request, call.path, call.data), Some(written));
    }
    for _ in 0..200_000 {
        let length = chance.below(10);
        let bytes: Vec<u8> = (0..length)
            .map(|_| chance.below(22) as u8 / 3 * 3)
            .collect();
        if let Some(call) = decode(&bytes) {
            assert_eq!(encode(call.request, call.path, call.data), Some(bytes));
        }
    }
}
