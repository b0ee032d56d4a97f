//! A fault put in on purpose, to show that the comparison finds one.

#[derive(Clone, Copy)]
pub enum Plant {
    /// One answer of ours is changed.
    Answer,
    /// One command reaches our side as another.
    Command,
}

impl Plant {
    pub fn named(word: &str) -> Option<Plant> {
        match word {
            "answer" => Some(Plant::Answer),
            "command" => Some(Plant::Command),
            _ => None,
        }
    }
}

/// The place of a command that the Rust answers otherwise than the next one, from the middle on.
pub fn place(rust: &[String]) -> Option<usize> {
    (rust.len() / 2..rust.len() - 1).find(|&place| rust[place] != rust[place + 1])
}

/// The last digit or letter of an answer changed.
pub fn changed(answer: &str) -> String {
    let (rest, last) = answer.split_at(answer.len() - 1);
    format!("{rest}{}", if last == "0" { "1" } else { "0" })
}
