//! Two ends, a lossy line, restarts at random moments: demand 3's clauses, judged while it runs by a model of its own. Over a restart,
//! and over the making of a record anew, the telegram in flight stays in flight, as on the line of the theorem. The ends are the guarded
//! ones: the application of the cabinet lets orders lie and answers them late, and lost telegrams come out of a queue.
//!
//!     cargo run --release --example soak -- [--seed N] [--seconds N] [--calls N] [--oracle PATH] [--plant FAULT]
//!
//! It ends with status 0 where every clause held, 1 where one did not, and 2 where the words cannot be read. --oracle names the
//! program that compare/build makes of the original Rust: link telegrams written here are read by it and by `koy_read`, and
//! the answers compared. --plant tries the judge itself: the named fault is put between the ends and the judge, which must
//! find it; see plant.rs.
mod judge;
mod oracle;
mod plant;
mod random;
mod scene;

use plant::Fault;
use scene::Scene;
use std::process::exit;
use std::time::{Duration, Instant, SystemTime, UNIX_EPOCH};

struct Words {
    seed: u64,
    seconds: u64,
    calls: u64,
    oracle: Option<String>,
    fault: Fault,
}

fn words() -> Option<Words> {
    let now = SystemTime::now().duration_since(UNIX_EPOCH).map_or(1, |t| t.as_nanos() as u64);
    let mut words = Words { seed: now, seconds: 10, calls: u64::MAX, oracle: None, fault: Fault::None };
    let mut given = std::env::args().skip(1);
    while let Some(word) = given.next() {
        let value = given.next()?;
        match word.as_str() {
            "--seed" => words.seed = value.parse().ok()?,
            "--seconds" => words.seconds = value.parse().ok()?,
            "--calls" => words.calls = value.parse().ok()?,
            "--oracle" => words.oracle = Some(value),
            "--plant" => words.fault = Fault::named(&value)?,
            _ => return None,
        }
    }
    Some(words)
}

fn main() {
    let words = words().unwrap_or_else(|| {
        eprintln!("use: soak [--seed N] [--seconds N] [--calls N] [--oracle PATH] [--plant FAULT]");
        eprintln!("FAULT is one of tries, reply, twice, late, order, notsent, early, mute, row, record, number");
        exit(2);
    });
    println!("seed {}", words.seed);
    let start = Instant::now();
    let mut scene = Scene::new(words.seed, words.fault);
    let mut broken = None;
    while broken.is_none() && scene.calls < words.calls && start.elapsed() < Duration::from_secs(words.seconds) {
        broken = (0..1000).find_map(|_| scene.turn().err());
    }
    let seconds = start.elapsed().as_secs_f64();
    println!("{} calls in {seconds:.1} s, {:.0} a second", scene.calls, scene.calls as f64 / seconds);
    println!("{}", scene.tally());
    if broken.is_none() {
        if let Some(path) = &words.oracle {
            match oracle::compare(path, &scene.telegrams) {
                Ok(count) => println!("{count} telegrams read by the original as by koy_read"),
                Err(difference) => broken = Some(difference),
            }
        }
    }
    match broken {
        None => println!("every clause held"),
        Some(clause) => {
            println!("BROKEN: {clause}");
            exit(1);
        }
    }
}
