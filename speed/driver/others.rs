//! The calls that no other case makes, so that the stack of every call is measured.

use crate::calls::*;
use crate::cases::Plan;
use crate::measures::Side;
use std::hint::black_box;

fn case(plan: Plan, case: &str, entry: *const (), run: &mut dyn FnMut()) {
    plan.one_side(case, "ours", Side { calls: 1, entry, run });
}

pub fn calls(plan: Plan) {
    if !plan.wants("other") && !plan.word.starts_with("other") {
        return;
    }
    let telegram = [0x68, 4, 4, 0x68, 5, 2, 0x5C, 1, 0x64, 0x16];
    // Sound, here and below: the arrays have the stated sizes, pointers and lengths are slices'.
    assert_eq!(unsafe { koy_read_strict(telegram.as_ptr(), telegram.len(), &mut [0; 9]) }, 0);
    case(plan, "other-read-strict", koy_read_strict as *const (), &mut || {
        let bytes = black_box(&telegram);
        _ = black_box(unsafe { koy_read_strict(bytes.as_ptr(), bytes.len(), black_box(&mut [0; 9])) })
    });
    let mut state = [0; 132];
    assert_eq!(unsafe { koy_stations_new(&mut state, 5) }, 0);
    case(plan, "other-stations-new", koy_stations_new as *const (), &mut || {
        _ = black_box(unsafe { koy_stations_new(black_box(&mut state.clone()), black_box(5)) })
    });
    case(plan, "other-stations-claim", koy_stations_claim as *const (), &mut || unsafe {
        koy_stations_claim(black_box(&mut state.clone()))
    });
    case(plan, "other-stations-about", koy_stations_about as *const (), &mut || unsafe {
        koy_stations_about(black_box(&state), black_box(&mut [0; 4]))
    });
    case(plan, "other-stations-is-active", koy_stations_is_active as *const (), &mut || {
        _ = black_box(unsafe { koy_stations_is_active(black_box(&state), black_box(5)) })
    });
    case(plan, "other-stations-first-from", koy_stations_first_from as *const (), &mut || {
        _ = black_box(unsafe { koy_stations_first_from(black_box(&state), black_box(6)) })
    });
    case(plan, "other-stations-last-to", koy_stations_last_to as *const (), &mut || {
        _ = black_box(unsafe { koy_stations_last_to(black_box(&state), black_box(4)) })
    });
    let (mut store, mut walked, bytes) = ([0; 64], [0], [0x42, 0x05, 0x83, 0xC1, 0x21]);
    case(plan, "other-diagnostics-fill", koy_diagnostics_fill as *const (), &mut || {
        let bytes = black_box(&bytes);
        _ = black_box(unsafe {
            koy_diagnostics_fill(black_box(&mut store).as_mut_ptr(), 64, &mut walked, bytes.as_ptr(), bytes.len())
        })
    });
    case(plan, "other-diagnostics-module", koy_diagnostics_module as *const (), &mut || {
        _ = black_box(unsafe { koy_diagnostics_module(black_box(&bytes).as_ptr(), bytes.len(), black_box(9)) })
    });
    let (mut text, mut told) = ([0; 64], [0]);
    assert_eq!(unsafe { koy_settings_write(2, 5, 2, text.as_mut_ptr(), 64, &mut told) }, 0);
    let written = text[..told[0]].to_vec();
    case(plan, "other-settings-write", koy_settings_write as *const (), &mut || {
        let (own, peer, tries) = (black_box(2), black_box(5), black_box(2));
        _ = black_box(unsafe { koy_settings_write(own, peer, tries, text.as_mut_ptr(), 64, &mut told) })
    });
    case(plan, "other-settings-read", koy_settings_read as *const (), &mut || {
        _ = black_box(unsafe { koy_settings_read(black_box(&written).as_ptr(), written.len(), black_box(&mut [0; 3])) })
    });
}
