//! Commands from standard input, an answer line for each.
use crate::{caught, stations, telegrams, walk};
use std::io::{stdin, stdout, Read, Write};

const LONGEST_INPUT: usize = 1 << 20;
const LONGEST_LINE: usize = 16_384;

pub fn run() {
    caught::quiet();
    let mut input = Vec::new();
    stdin().read_to_end(&mut input).expect("standard input can be read");
    stdout().write_all(answers(&input).as_bytes()).expect("standard output can be written");
}

fn answers(input: &[u8]) -> String {
    if input.len() > LONGEST_INPUT {
        return "error\n".to_string();
    }
    let mut answers = String::new();
    for line in input.split(|&byte| byte == b'\n') {
        let line = line.strip_suffix(b"\r").unwrap_or(line);
        if line.is_empty() || line[0] == b'#' {
            continue;
        }
        answers += &answer(line).unwrap_or("error".to_string());
        answers.push('\n');
    }
    answers
}

/// Nothing where the line is none of the commands that the original has, or cannot be read.
fn answer(line: &[u8]) -> Option<String> {
    if line.len() > LONGEST_LINE {
        return None;
    }
    let words: Vec<&str> = std::str::from_utf8(line).ok()?.split(' ').collect();
    match words[..] {
        // The original has no strict mode: where that answers otherwise, the differ has a rule.
        ["read" | "sread", bytes] => telegrams::read(bytes),
        ["write", da, sa, dsap, ssap, fc, pdu, room] => telegrams::write([da, sa], [dsap, ssap], fc, pdu, room),
        ["wtoken", da, sa, room] => telegrams::write_token(da, sa, room),
        ["wack", room] => telegrams::write_ack(room),
        ["wstatus", da, sa, room] => telegrams::write_status_request(da, sa, room),
        ["wstate", da, sa, state, status, room] => telegrams::write_status_response([da, sa], state, status, room),
        ["fc", byte] => telegrams::function_code(byte),
        ["cycle", fcb] => telegrams::cycle(fcb),
        ["about", bytes] => telegrams::about(bytes),
        ["ring", own, ref ops @ ..] => stations::ring(own, ops, stations::state),
        ["ready", own, ref ops @ ..] => stations::ring(own, ops, stations::ready),
        ["diag", bytes] => walk::diag(bytes),
        ["step", store, length, cursor] => walk::step(store, length, cursor),
        ["raw", store, length] => walk::raw(store, length),
        ["store", room, ref data @ ..] => walk::store(room, data),
        _ => None,
    }
}
