//! An answer as a line has it.

use reference::Answer;

/// As the console writes them.
const FIELDS: [&str; 8] = [
    "kind", "owner", "group", "bits", "label", "length", "names", "stamp",
];

/// Bytes, with `\xNN` for those that are not printed as they are.
pub fn text(bytes: &[u8]) -> String {
    bytes
        .iter()
        .map(|&byte| match byte {
            b'\\' => "\\x5c".to_string(),
            b'!'..=b'~' => char::from(byte).to_string(),
            _ => format!("\\x{byte:02x}"),
        })
        .collect()
}

/// The refusal, stop number and value, the listed name or bytes read, and stat's fields.
pub fn answer(answer: &Answer, read: &[u8]) -> String {
    let Answer {
        refusal,
        stop,
        value,
        name,
        fields,
    } = answer;
    let mut line = format!(
        "answer={refusal} stop={stop} value={value} bytes={}{}",
        text(name),
        text(read)
    );
    if let Some(fields) = fields {
        for (name, field) in FIELDS.iter().zip(fields) {
            line += &format!(" {name}={field}");
        }
    }
    line
}
