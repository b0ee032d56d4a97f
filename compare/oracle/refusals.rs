//! Document 01's number of a refusal: the original's answers have none, but it logs which check refused.

/// How a message of the original begins, and the number.
const NUMBERS: [(&str, u8); 9] = [
    ("Unknown start delimiter", 1),
    ("Length info mismatch", 2),
    ("Length is too short", 3),
    ("Unparseable function code", 4),
    ("Length 0 but ", 5),
    ("Checksum mismatch", 6),
    ("No end delimiter", 7),
    ("Diagnostics cut off", 12),
    ("Unexpected ext diag block", 13),
];

/// The number of the refusal that the last call logged, nothing where it logged none.
pub fn logged() -> Option<u8> {
    let message = log::take()?;
    let (_, number) = NUMBERS.iter().find(|(begin, _)| message.starts_with(begin))?;
    Some(*number)
}
