//! Three ways to measure a run of calls: instructions (callgrind counts them between two marks), time, and stack.

use crate::calls::ours;
use std::ffi::CString;
use std::hint::black_box;
use std::time::Instant;

#[derive(Clone, Copy, PartialEq)]
pub enum Measure {
    Count,
    Time,
    Stack,
}

/// So many times a run is repeated while callgrind counts: the counts of a run are the same each time, and the figure is
/// their mean.
pub const COUNTED: u32 = 8;

/// So many times a time is taken: the figure is the least of them.
pub const TIMED: u32 = 12;

/// One side of a case. `calls` is how many calls of the library a run makes: the figures are for one of them. `entry` is the
/// call's first instruction, from which the stack is measured.
pub struct Side<'a> {
    pub calls: u32,
    pub entry: *const (),
    pub run: &'a mut dyn FnMut(),
}

/// Measures one side and prints a line, `measure case side figure`; instructions are printed by callgrind's dump instead,
/// which bears the same name.
pub fn measure(how: Measure, case: &str, side: &str, with: Side) {
    (with.run)();
    match how {
        Measure::Count => {
            request(ZERO_STATS, 0);
            for _ in 0..COUNTED {
                (with.run)();
            }
            let name = CString::new(format!("case={case} side={side} calls={}", COUNTED * with.calls)).unwrap();
            request(DUMP_STATS_AT, name.as_ptr() as u64);
        }
        Measure::Time => {
            let times = (0..TIMED).map(|_| timed(with.run)).fold(f64::MAX, f64::min);
            println!("time {case} {side} {:.2}", times / f64::from(with.calls));
        }
        Measure::Stack => {
            let deepest = deepest(with.entry, with.run);
            let call = ours().into_iter().find(|call| call.0 == with.entry).map_or("-", |call| call.1);
            println!("stack {case} {side} {deepest} {call}");
        }
    }
}

/// Nanoseconds of one run: enough runs for a fiftieth of a second.
fn timed(run: &mut dyn FnMut()) -> f64 {
    let mut runs = 1_u32;
    loop {
        let start = Instant::now();
        for _ in 0..runs {
            run();
        }
        let taken = start.elapsed().as_secs_f64();
        if taken > 0.02 {
            return taken * 1e9 / f64::from(runs);
        }
        runs = runs.saturating_mul(2);
    }
}

extern "C" {
    /// speed/driver/stack.c
    fn deepest_stack(
        entry: *const (),
        call: extern "C" fn(*mut std::ffi::c_void),
        with: *mut std::ffi::c_void,
    ) -> usize;
}

fn deepest(entry: *const (), run: &mut dyn FnMut()) -> usize {
    extern "C" fn call(with: *mut std::ffi::c_void) {
        // Sound: `with` is the reference that is lent below, for the time of the call.
        let run = unsafe { &mut **with.cast::<&mut dyn FnMut()>() };
        run();
    }
    let mut lent = run;
    unsafe { deepest_stack(entry, call, (&raw mut lent).cast()) }
}

const ZERO_STATS: u64 = 0x4354_0001;
const DUMP_STATS_AT: u64 = 0x4354_0003;

/// Speaks to valgrind by its fixed row of instructions, which does nothing without it.
fn request(code: u64, argument: u64) {
    let arguments = [code, argument, 0, 0, 0, 0];
    unsafe {
        std::arch::asm!(
            "rol rdi, 3",
            "rol rdi, 13",
            "rol rdi, 61",
            "rol rdi, 51",
            "xchg rbx, rbx",
            in("rax") arguments.as_ptr(),
            inout("rdx") 0_u64 => _,
        );
    }
    black_box(&arguments);
}
