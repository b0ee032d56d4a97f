//! Whole walks over a store, one block a call, up to the call that finds the end or refuses.

use crate::calls::*;
use crate::cases::Plan;
use crate::measures::Side;
use original::diagnostics::ExtendedDiagnostics;
use std::hint::black_box;

fn ours_walk(store: &[u8], told: &mut [usize; 9]) -> u32 {
    let (mut cursor, mut calls) = ([0], 0);
    loop {
        calls += 1;
        let store = black_box(store);
        // Sound: pointer and length are a slice's.
        let code = unsafe {
            koy_diagnostics_step(store.as_ptr(), store.len(), store.len(), black_box(&mut cursor), black_box(told))
        };
        if code != 0 {
            return calls;
        }
    }
}

fn rust_walk(store: &mut [u8], told: &mut [usize; 9]) -> u32 {
    let (start, len) = (store.as_ptr() as usize, store.len());
    let diagnostics = ExtendedDiagnostics::of(store, len);
    let mut walk = diagnostics.iter_diag_blocks();
    let mut calls = 0;
    loop {
        calls += 1;
        if rust_diagnostics_step(black_box(start), black_box(&mut walk), black_box(told)) != 0 {
            return calls;
        }
    }
}

fn walk_case(plan: Plan, case: &str, store: &[u8]) {
    if !plan.wants(case) {
        return;
    }
    let (mut ours, mut rust) = ([0; 9], [0; 9]);
    let mut lent = store.to_vec();
    let calls = ours_walk(store, &mut ours);
    assert_eq!(calls, rust_walk(&mut lent, &mut rust), "{case}");
    assert_eq!(ours, rust, "{case}");
    plan.case(
        case,
        Side { calls, entry: koy_diagnostics_step as *const (), run: &mut || _ = ours_walk(store, &mut ours) },
        Side { calls, entry: rust_diagnostics_step as *const (), run: &mut || _ = rust_walk(&mut lent, &mut rust) },
    );
}

pub fn walks(plan: Plan) {
    let sized = |header: u8, body: usize| [vec![header + body as u8 + 1], vec![0x05; body]].concat();
    let channel = |error: u8| vec![0x83, 0xC1, 0x20 | error];
    let identifiers: Vec<u8> = [2, 7, 1, 4].iter().flat_map(|&body| sized(0x40, body)).collect();
    let devices: Vec<u8> = [3, 16, 1, 9].iter().flat_map(|&body| sized(0x00, body)).collect();
    let channels: Vec<u8> = [6, 1, 20, 12].iter().flat_map(|&error| channel(error)).collect();
    walk_case(plan, "walk-identifiers", &identifiers);
    walk_case(plan, "walk-devices", &devices);
    walk_case(plan, "walk-channels", &channels);
    walk_case(plan, "walk-all-kinds", &[identifiers.clone(), channels.clone(), devices.clone()].concat());
    walk_case(plan, "walk-cut-off", &[sized(0x40, 2), vec![0x45, 1]].concat());
    walk_case(plan, "walk-reserved", &[sized(0x40, 2), vec![0xC1, 1]].concat());
}
