//! The original Rust reads what the ends wrote. The program that compare/build makes of it answers a line `read HEX` each.
use koyandefa::{read, Reading, Telegram};
use std::io::Write;
use std::process::{Command, Stdio};

/// It takes no more input than 1 MiB at once.
const CHUNK: usize = 1_000;

fn hex(bytes: &[u8]) -> String {
    if bytes.is_empty() {
        return "-".to_string();
    }
    bytes.iter().map(|b| format!("{b:02X}")).collect()
}

/// What `koy_read` says, in the same words.
fn ours(bytes: &[u8]) -> String {
    match read(bytes) {
        Ok(Reading::Telegram { telegram: Telegram::Data { header: h, pdu }, bytes }) => {
            format!("data {} {} {} - - {} {}", bytes.len(), h.da, h.sa, h.fc.to_byte(), hex(pdu))
        }
        other => format!("{other:?}"),
    }
}

fn ask(path: &str, questions: String) -> Result<String, String> {
    let mut child =
        Command::new(path).stdin(Stdio::piped()).stdout(Stdio::piped()).spawn().map_err(|e| format!("{path}: {e}"))?;
    let mut input = child.stdin.take().expect("a pipe");
    let writer = std::thread::spawn(move || input.write_all(questions.as_bytes()));
    let output = child.wait_with_output().map_err(|e| e.to_string())?;
    writer.join().expect("the writer ends").map_err(|e| e.to_string())?;
    String::from_utf8(output.stdout).map_err(|e| e.to_string())
}

/// How many telegrams were read alike, or the first difference.
pub fn compare(path: &str, telegrams: &[Vec<u8>]) -> Result<usize, String> {
    for chunk in telegrams.chunks(CHUNK) {
        let questions: String = chunk.iter().map(|t| format!("read {}\n", hex(t))).collect();
        let answers = ask(path, questions)?;
        let answers: Vec<&str> = answers.lines().collect();
        if answers.len() != chunk.len() {
            return Err(format!("the original answered {} of {} lines", answers.len(), chunk.len()));
        }
        for (telegram, theirs) in chunk.iter().zip(answers) {
            let ours = ours(telegram);
            if ours != theirs {
                return Err(format!("{}: here {ours}, the original {theirs}", hex(telegram)));
            }
        }
    }
    Ok(telegrams.len())
}
