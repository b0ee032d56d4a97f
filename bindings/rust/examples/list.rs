//! Lists a capture with noise in it: a line for each telegram, and one for each run of bytes that begin none.
//!
//!     cargo run --example list -- [--strict] FILE
//!
//! With `--strict` a line below each telegram that strict mode refuses names the sloppy sender, and the last line counts them. The list
//! itself is the same: strict mode says which telegrams are sloppy, and not where the next one begins.
use koyandefa::{read_strict, telegrams, Found, Refusal, Sap, Telegram};
use std::ffi::{OsStr, OsString};
use std::process::exit;

fn line(found: &Found) -> String {
    let Found { at, bytes, telegram } = found;
    let what = match telegram {
        Telegram::ShortConfirmation => "short confirmation".to_string(),
        Telegram::Token { da, sa } => format!("token {sa} to {da}"),
        Telegram::Data { header, pdu } => {
            let sap = |sap: Option<Sap>| sap.map_or(String::new(), |sap| format!(":{sap}"));
            let (from, to) = (sap(header.ssap), sap(header.dsap));
            format!("data {}{from} to {}{to}, {:?}, pdu {pdu:02X?}", header.sa, header.da, header.fc)
        }
    };
    format!("{at:5} {:3} bytes  {what}", bytes.len())
}

/// What is sloppy about a telegram, below the words of its line. Only a data telegram is refused in strict mode, so there is a sender.
fn sloppy_line(found: &Found, refusal: Refusal) -> String {
    let sender = match found.telegram {
        Telegram::Data { header, .. } => header.sa.to_string(),
        Telegram::Token { .. } | Telegram::ShortConfirmation => "-".to_string(),
    };
    let why = refusal.to_string().replacen(' ', "=", 1);
    format!("{:17}sloppy at={} sa={sender} {why}", "", found.at)
}

/// Every line of the list. The capture is at its end, so that incomplete bytes are passed over too.
fn list(capture: &[u8], strict: bool) -> Vec<String> {
    let (mut lines, mut count, mut sloppy) = (Vec::new(), 0, 0);
    let mut all = telegrams(capture);
    while !all.rest().is_empty() {
        for found in &mut all {
            count += 1;
            lines.push(line(&found));
            if let (true, Err(refusal)) = (strict, read_strict(found.bytes)) {
                sloppy += 1;
                lines.push(sloppy_line(&found, refusal));
            }
        }
        let (begin, end) = (all.at(), all.end());
        let noise = all.pass_over_noise();
        if !noise.is_empty() {
            lines.push(format!("{begin:5} {:3} bytes  noise, {end}", noise.len()));
        }
    }
    if strict {
        lines.push(format!("sloppy={sloppy} telegrams={count}"));
    }
    lines
}

fn is_option(word: &OsStr) -> bool {
    word.to_string_lossy().starts_with('-')
}

/// The file, and whether `--strict` is asked for, wherever that stands.
fn asked() -> Option<(OsString, bool)> {
    let (options, mut files): (Vec<_>, Vec<_>) = std::env::args_os().skip(1).partition(|word| is_option(word));
    let known = options.iter().all(|option| option == "--strict");
    let file = files.pop().filter(|_| known && files.is_empty())?;
    Some((file, !options.is_empty()))
}

fn main() {
    let (path, strict) = asked().unwrap_or_else(|| {
        eprintln!("use: list [--strict] FILE");
        exit(2)
    });
    match std::fs::read(&path) {
        Ok(capture) => list(&capture, strict).iter().for_each(|line| println!("{line}")),
        Err(error) => {
            eprintln!("{}: {error}", path.to_string_lossy());
            exit(1);
        }
    }
}
