//! Numbers and byte strings of the bench's text.

pub const LONGEST_BYTES: usize = 4_200;
pub const LARGEST_ROOM: usize = 1_024;

pub fn number(word: &str) -> Option<usize> {
    if word.is_empty() || !word.bytes().all(|digit| digit.is_ascii_digit()) {
        return None;
    }
    word.parse().ok()
}

pub fn byte(word: &str) -> Option<u8> {
    u8::try_from(number(word)?).ok()
}

/// A byte, or `-` where it is absent.
pub fn maybe_byte(word: &str) -> Option<Option<u8>> {
    if word == "-" {
        Some(None)
    } else {
        byte(word).map(Some)
    }
}

pub fn room(word: &str) -> Option<usize> {
    number(word).filter(|&room| room <= LARGEST_ROOM)
}

pub fn bytes(word: &str) -> Option<Vec<u8>> {
    if word == "-" {
        return Some(Vec::new());
    }
    if word.is_empty() || word.len() % 2 != 0 || word.len() > 2 * LONGEST_BYTES {
        return None;
    }
    let digits: Option<Vec<u8>> = word.chars().map(|c| c.to_digit(16).map(|d| d as u8)).collect();
    Some(digits?.chunks(2).map(|pair| pair[0] << 4 | pair[1]).collect())
}

pub fn hex(bytes: &[u8]) -> String {
    if bytes.is_empty() {
        return "-".to_string();
    }
    bytes.iter().map(|byte| format!("{byte:02X}")).collect()
}

pub fn or_dash<T: ToString>(value: Option<T>) -> String {
    value.map_or("-".to_string(), |value| value.to_string())
}

/// Joined by commas, `-` where there is none.
pub fn list<T: ToString>(values: impl Iterator<Item = T>) -> String {
    let words: Vec<String> = values.map(|value| value.to_string()).collect();
    if words.is_empty() {
        "-".to_string()
    } else {
        words.join(",")
    }
}
