//! The driver: calls the original and the static library by turns on the same inputs.

mod calls;
mod cases;
mod guarded;
mod link;
mod measures;
mod orders;
mod others;
mod stations;
mod telegrams;
mod walks;

/// `driver count | time | stack [WORD]`: goes through the cases whose names hold the word, and measures so.
fn main() {
    let words: Vec<String> = std::env::args().skip(1).collect();
    let measure = match words.first().map(String::as_str) {
        Some("count") => measures::Measure::Count,
        Some("time") => measures::Measure::Time,
        Some("stack") => measures::Measure::Stack,
        _ => {
            eprintln!("use: driver count | time | stack [WORD]");
            std::process::exit(2);
        }
    };
    let word = words.get(1).map_or("", String::as_str);
    cases::run(measure, word);
}
