//! The expected differences: where document 01, or a later request, decides outside the Rust's domain. Each rule says to which commands it
//! belongs and what our side must then answer, letter for letter.

/// A command outside the domain.
pub struct Case<'a> {
    pub words: Vec<&'a str>,
    /// What the Rust answers to it.
    pub rust: &'a str,
    /// What the Rust answers to its twin in the domain.
    pub twin: &'a str,
}

pub struct Rule {
    pub name: &'static str,
    pub reason: &'static str,
    /// What our side must answer, where the rule belongs to this command.
    pub wanted: fn(&Case) -> Option<String>,
}

pub const RULES: [Rule; 10] = [
    Rule {
        name: "address above 127",
        reason: "8; the Rust writes it, or panics on what else is wrong",
        wanted: large_address,
    },
    Rule { name: "length byte above 249", reason: "9; the Rust panics", wanted: too_long },
    Rule { name: "buffer too short", reason: "10; the Rust panics", wanted: no_room },
    Rule { name: "own above 125", reason: "11; the Rust takes 126 and 127 and panics above", wanted: own_address },
    Rule {
        name: "set or removed above 125",
        reason: "11; the Rust takes 126 and 127 and panics above",
        wanted: no_station,
    },
    Rule { name: "store of length 0", reason: "the end; the Rust panics", wanted: empty_store },
    Rule { name: "walked length above the store", reason: "counts as the store's; the Rust panics", wanted: long_walk },
    Rule { name: "block of length zero", reason: "14; the Rust panics", wanted: zero_length },
    Rule { name: "sloppy start in strict mode", reason: "24 or 25; the Rust has no such mode", wanted: sloppy },
    Rule { name: "cycling Inactive", reason: "15; the Rust panics", wanted: inactive },
];

/// The command whose answer by the Rust helps to tell ours: the walked length put to the store's; for a set or removed
/// address that the Rust takes, one on which it panics and leaves the list as it was. Else the command itself.
pub fn twin(command: &str) -> String {
    let words: Vec<&str> = command.split(' ').collect();
    match words[..] {
        ["step", store, _, cursor] => format!("step {store} {} {cursor}", byte_count(store)),
        ["raw", store, _] => format!("raw {store} {}", byte_count(store)),
        [name @ ("ring" | "ready"), own, ref ops @ ..] => {
            let ops = ops.iter().map(|op| if is_bad(op) { format!(" {}:255", &op[..1]) } else { format!(" {op}") });
            format!("{name} {own}{}", ops.collect::<String>())
        }
        _ => command.to_string(),
    }
}

fn number(word: &str) -> usize {
    word.parse().expect("a number that make_inputs wrote")
}

fn byte_count(hex: &str) -> usize {
    if hex == "-" {
        0
    } else {
        hex.len() / 2
    }
}

/// An op that sets or removes an address above 125.
fn is_bad(op: &str) -> bool {
    (op.starts_with("s:") || op.starts_with("r:")) && number(&op[2..]) > 125
}

fn length_byte(dsap: &str, ssap: &str, pdu: &str) -> usize {
    3 + usize::from(dsap != "-") + usize::from(ssap != "-") + byte_count(pdu)
}

fn large_address(case: &Case) -> Option<String> {
    let ["write" | "wstatus" | "wstate", da, sa, ..] = case.words[..] else { return None };
    (number(da) > 127 || number(sa) > 127).then_some("refused 8".to_string())
}

fn too_long(case: &Case) -> Option<String> {
    let ["write", _, _, dsap, ssap, _, pdu, _] = case.words[..] else { return None };
    let panics = case.rust == "panic";
    (panics && length_byte(dsap, ssap, pdu) > 249).then_some("refused 9".to_string())
}

fn no_room(case: &Case) -> Option<String> {
    let (total, room) = match case.words[..] {
        ["write", _, _, dsap, ssap, _, pdu, room] => match length_byte(dsap, ssap, pdu) {
            3 => (6, room),
            11 => (14, room),
            length => (length + 6, room),
        },
        ["wstatus", _, _, room] | ["wstate", _, _, _, _, room] => (6, room),
        ["wtoken", _, _, room] => (3, room),
        ["wack", room] => (1, room),
        _ => return None,
    };
    (case.rust == "panic" && number(room) < total).then_some("refused 10".to_string())
}

/// Of an SD2 telegram whose lengths agree and are not below 3, once six bytes are there: L, then the fourth byte.
fn sloppy(case: &Case) -> Option<String> {
    let ["sread", bytes] = case.words[..] else { return None };
    let byte = |place: usize| u8::from_str_radix(bytes.get(2 * place..2 * place + 2)?, 16).ok();
    let (length, fourth) = (byte(1)?, byte(3)?);
    if byte_count(bytes) < 6 || byte(0)? != 0x68 || byte(2)? != length || length < 3 {
        return None;
    }
    match (length, fourth) {
        (3 | 250..=255, _) => Some("refused 24".to_string()),
        (_, 0x68) => None,
        _ => Some("refused 25".to_string()),
    }
}

fn own_address(case: &Case) -> Option<String> {
    let ["ring" | "ready", own, ..] = case.words[..] else { return None };
    let taken_or_panic = (case.rust == "panic") == (number(own) > 127);
    (taken_or_panic && number(own) > 125).then_some("refused-11".to_string())
}

/// The twin's walk has a panic in the place of each refused op, and no other.
fn no_station(case: &Case) -> Option<String> {
    let ["ring" | "ready", _, ref ops @ ..] = case.words[..] else { return None };
    let bad = ops.iter().filter(|op| is_bad(op)).count();
    let as_wanted = bad > 0 && case.twin.matches("panic ").count() == bad;
    as_wanted.then(|| case.twin.replace("panic ", "refused-11 "))
}

/// A cursor at or past the end stays.
fn empty_store(case: &Case) -> Option<String> {
    let cursor = match case.words[..] {
        ["diag", "-"] | ["store", "0", ..] => 0,
        ["step", "-", _, cursor] => number(cursor),
        _ => return None,
    };
    let before = case.rust.strip_suffix("panic")?;
    Some(format!("{before}end @{cursor}"))
}

fn long_walk(case: &Case) -> Option<String> {
    let (["step", store, length, _] | ["raw", store, length]) = case.words[..] else { return None };
    let panics = case.rust == "panic" && case.twin != "panic";
    (panics && number(length) > byte_count(store)).then(|| case.twin.to_string())
}

/// The walk panics at a header whose low six bits are zero and whose top bit is clear. The refusal moves the cursor to the
/// end of what is walked.
fn zero_length(case: &Case) -> Option<String> {
    let parts: Vec<&str> = case.rust.split(" | ").collect();
    let (last, before) = parts.split_last()?;
    let (store, end) = match case.words[..] {
        ["diag", store] => (store, byte_count(store)),
        ["step", store, length, _] => (store, number(length).min(byte_count(store))),
        ["store", ..] => filled(before)?,
        _ => return None,
    };
    let cursor = match case.words[..] {
        ["step", _, _, cursor] => number(cursor),
        _ => before.last().and_then(|block| block.rsplit_once(" @")).map_or(0, |(_, cursor)| number(cursor)),
    };
    let header = u8::from_str_radix(store.get(2 * cursor..2 * cursor + 2)?, 16).ok()?;
    let refused = format!("refused-14 @{end}");
    (*last == "panic" && header & 0xBF == 0).then(|| [before, &[&refused]].concat().join(" | "))
}

/// The store that the last filling left, and how much of it is walked: `true LEN STORE`.
fn filled<'a>(parts: &[&'a str]) -> Option<(&'a str, usize)> {
    let (length, store) = parts.iter().rev().find_map(|part| part.strip_prefix("true "))?.split_once(' ')?;
    Some((store, number(length)))
}

fn inactive(case: &Case) -> Option<String> {
    (case.words == ["cycle", "Inactive"] && case.rust == "panic").then_some("refused 15".to_string())
}
