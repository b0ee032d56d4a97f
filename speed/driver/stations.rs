//! The station list: token passes heard by a station of a ring of 2, 10 and 32.

use crate::calls::*;
use crate::cases::Plan;
use crate::measures::Side;
use original::token_ring::TokenRing;
use std::hint::black_box;

/// The members of a ring, spread over the addresses, lowest first.
fn members(count: u8) -> Vec<u8> {
    (0..count).map(|i| (u16::from(i) * 126 / u16::from(count)) as u8 + 1).collect()
}

/// One rotation: each member passes to the next, the last wraps.
fn rotation(members: &[u8]) -> Vec<(u8, u8)> {
    (0..members.len()).map(|i| (members[i], members[(i + 1) % members.len()])).collect()
}

fn ours_new(own: u8) -> Stations {
    let mut state = [0; 132];
    // Sound: the array has the stated size.
    assert_eq!(unsafe { koy_stations_new(&mut state, own) }, 0);
    state
}

fn ours_heard(state: &mut Stations, passes: &[(u8, u8)]) {
    for &(sa, da) in passes {
        // Sound: the array has the stated size.
        unsafe { koy_stations_witness(black_box(state), black_box(sa), black_box(da)) };
    }
}

fn rust_heard(ring: &mut TokenRing, passes: &[(u8, u8)]) {
    for &(sa, da) in passes {
        rust_stations_witness(black_box(ring), black_box(sa), black_box(da));
    }
}

/// Both lists must be the same: phase, neighbours and active stations.
fn agree(case: &str, state: &Stations, ring: &TokenRing) {
    let mut told = [0; 4];
    // Sound: the arrays have the stated sizes.
    unsafe { koy_stations_about(state, &mut told) };
    let own = usize::from(ring.this_station());
    let shown = [
        told[0] == 3,
        told[1] == own,
        told[2] == usize::from(ring.next_station()),
        told[3] == usize::from(ring.previous_station()),
    ];
    assert_eq!(shown, [ring.ready_for_ring(), true, true, true], "{case}");
    let active: Vec<u8> = ring.iter_active_stations().collect();
    let ours: Vec<u8> = (0..128).filter(|&a| state[4 + usize::from(a)] != 0).collect();
    assert_eq!(ours, active, "{case}");
}

fn passes_case(plan: Plan, case: &str, state: Stations, ring: TokenRing, passes: &[(u8, u8)]) {
    if !plan.wants(case) {
        return;
    }
    let (mut after, mut rust_after) = (state, ring.clone());
    ours_heard(&mut after, passes);
    rust_heard(&mut rust_after, passes);
    agree(case, &after, &rust_after);
    let calls = passes.len() as u32;
    plan.case(
        case,
        Side { calls, entry: koy_stations_witness as *const (), run: &mut || ours_heard(&mut state.clone(), passes) },
        Side { calls, entry: rust_stations_witness as *const (), run: &mut || rust_heard(&mut ring.clone(), passes) },
    );
    // A rotation leaves a Valid list as it was, so that the next may follow on it; the passes of a startup do not.
    if after == state {
        plan.kept(
            case,
            Side { calls, entry: koy_stations_witness as *const (), run: &mut || ours_heard(&mut after, passes) },
            Side { calls, entry: rust_stations_witness as *const (), run: &mut || rust_heard(&mut rust_after, passes) },
        );
    }
}

/// A call that changes one station of a Valid list.
fn change_case(
    plan: Plan,
    case: &str,
    (state, ring): (Stations, &TokenRing),
    address: u8,
    ours: unsafe extern "C" fn(&mut Stations, u8) -> u8,
    rust: fn(&mut TokenRing, u8) -> u8,
) {
    if !plan.wants(case) {
        return;
    }
    let (mut after, mut rust_after) = (state, ring.clone());
    // Sound: the array has the stated size.
    unsafe { ours(&mut after, address) };
    rust(&mut rust_after, address);
    agree(case, &after, &rust_after);
    plan.case(
        case,
        // Sound: as above.
        Side {
            calls: 1,
            entry: ours as *const (),
            run: &mut || _ = black_box(unsafe { ours(black_box(&mut state.clone()), black_box(address)) }),
        },
        Side {
            calls: 1,
            entry: rust as *const (),
            run: &mut || _ = black_box(rust(black_box(&mut ring.clone()), black_box(address))),
        },
    );
    // The same call once more leaves the list as it is, and goes through the same steps.
    plan.kept(
        case,
        // Sound: as above.
        Side {
            calls: 1,
            entry: ours as *const (),
            run: &mut || _ = black_box(unsafe { ours(black_box(&mut after), black_box(address)) }),
        },
        Side {
            calls: 1,
            entry: rust as *const (),
            run: &mut || _ = black_box(rust(black_box(&mut rust_after), black_box(address))),
        },
    );
}

pub fn list(plan: Plan) {
    if !plan.wants("stations") && !"stations".contains(plan.word) && !plan.word.starts_with("stations") {
        return;
    }
    for count in [2, 10, 32] {
        let members = members(count);
        let own = members[members.len() / 2];
        let once = rotation(&members);
        let startup = [vec![*once.last().unwrap()], once.clone(), once.clone()].concat();
        let (fresh, rust_fresh) = (ours_new(own), rust_stations_new(own));
        passes_case(plan, &format!("stations-{count}-startup"), fresh, rust_fresh.clone(), &startup);
        let (mut valid, mut rust_valid) = (fresh, rust_fresh);
        ours_heard(&mut valid, &startup);
        rust_heard(&mut rust_valid, &startup);
        passes_case(plan, &format!("stations-{count}-valid"), valid, rust_valid.clone(), &once);
        let next = members[members.len() / 2 + 1 - usize::from(count == 2)];
        change_case(
            plan,
            &format!("stations-{count}-set-next"),
            (valid, &rust_valid),
            next,
            koy_stations_set_next,
            rust_stations_set_next,
        );
        change_case(
            plan,
            &format!("stations-{count}-remove"),
            (valid, &rust_valid),
            members[0],
            koy_stations_remove,
            rust_stations_remove,
        );
    }
}
