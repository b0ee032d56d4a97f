//! The station list: a fresh one, then each op and what it leaves.
use crate::caught::{original, Panicked};
use crate::fdl::Parameters;
use crate::text;
use crate::token_ring::TokenRing;

enum Op {
    Witness(u8, u8),
    Claim,
    SetNext(u8),
    Remove(u8),
}

/// What `shown` tells of each list.
pub fn ring(own: &str, ops: &[&str], shown: fn(&TokenRing) -> String) -> Option<String> {
    let parameters = Parameters { address: text::byte(own)? };
    let ops: Vec<Op> = ops.iter().map(|op| read_op(op)).collect::<Option<_>>()?;
    let Ok(mut ring) = original(|| TokenRing::new(&parameters)) else {
        return Some("panic".to_string());
    };
    let mut states = vec![shown(&ring)];
    for op in &ops {
        let before = ring.clone();
        states.push(match original(|| apply(&mut ring, op)) {
            Ok(()) => shown(&ring),
            Err(Panicked) => {
                ring = before;
                format!("panic {}", shown(&ring))
            }
        });
    }
    Some(states.join(" | "))
}

fn read_op(op: &str) -> Option<Op> {
    let parts: Vec<&str> = op.split(':').collect();
    match parts[..] {
        ["w", sa, da] => Some(Op::Witness(text::byte(sa)?, text::byte(da)?)),
        ["c"] => Some(Op::Claim),
        ["s", address] => Some(Op::SetNext(text::byte(address)?)),
        ["r", address] => Some(Op::Remove(text::byte(address)?)),
        _ => None,
    }
}

fn apply(ring: &mut TokenRing, op: &Op) {
    match *op {
        Op::Witness(sa, da) => ring.witness_token_pass(sa, da),
        Op::Claim => ring.claim_token(),
        Op::SetNext(address) => ring.set_next_station(address),
        Op::Remove(address) => ring.remove_station(address),
    }
}

pub fn ready(ring: &TokenRing) -> String {
    u8::from(ring.ready_for_ring()).to_string()
}

pub fn state(ring: &TokenRing) -> String {
    let active = text::list(ring.iter_active_stations());
    format!("{} {} {} {active}", ring.phase(), ring.next_station(), ring.previous_station())
}
