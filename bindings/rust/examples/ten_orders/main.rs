//! Ten orders over a line that loses telegrams, damages them and adds noise: a driver for each end that does what docs/DRIVERS.md asks,
//! and an application that handles every outcome.
//!
//!     cargo run --example ten_orders -- [SEED]
//!
//! The line and the clock, in microseconds, are simulated; the drivers could do with a serial port and a timer. head_end.rs and cabinet.rs
//! are the drivers, receiver.rs what both do with bytes that come in.
mod cabinet;
mod head_end;
mod line;
mod receiver;

use cabinet::Cabinet;
use head_end::{HeadEnd, Outcome};
use koyandefa::{Refusal, Settings};
use line::{Line, Station};

/// How often an order is submitted, or a state asked for, before a person is called.
const PATIENCE: u32 = 5;

struct Plant {
    now: usize,
    line: Line,
    head_end: HeadEnd,
    cabinet: Cabinet,
    orders: u32,
    confirmed: Vec<String>,
    not_sent: Vec<String>,
}

impl Plant {
    fn new(seed: u64) -> Result<Plant, Refusal> {
        let settings = Settings::read(b"own=2\npeer=5\ntries=2\n")?;
        Ok(Plant {
            now: 0,
            line: Line::new(seed),
            head_end: HeadEnd::new(settings, 0)?,
            cabinet: Cabinet::new(settings.peer, settings.own, 0)?,
            orders: 0,
            confirmed: Vec::new(),
            not_sent: Vec::new(),
        })
    }

    /// The next thing that happens, and the outcome of the pending order if this was it.
    fn step(&mut self) -> Result<Option<Outcome>, Refusal> {
        let timers = [self.line.next(), self.head_end.timer, self.cabinet.timer()];
        self.now = timers.iter().flatten().copied().min().expect("while an order is pending the head end waits");
        if let Some(portion) = self.line.take(self.now) {
            return match portion.to {
                Station::HeadEnd => self.head_end.came_in(self.now, &portion.bytes, &mut self.line),
                Station::Cabinet => self.cabinet.came_in(self.now, &portion.bytes, &mut self.line).map(|()| None),
            };
        }
        if self.cabinet.timer().map_or(false, |at| at <= self.now) {
            return self.cabinet.timer_ran_out(self.now, &mut self.line).map(|()| None);
        }
        self.head_end.idle(self.now, &mut self.line)
    }

    /// One order, from submitting to its outcome.
    fn order(&mut self, what: &str, feeder: u32) -> Result<Outcome, Refusal> {
        self.orders += 1;
        let order = format!("{} {what} {feeder}", self.orders);
        self.now += 1;
        let mut outcome = self.head_end.submit(self.now, order.as_bytes(), &mut self.line)?;
        let outcome = loop {
            match outcome {
                Some(outcome) => break outcome,
                None => outcome = self.step()?,
            }
        };
        match &outcome {
            Outcome::Confirmed { reply, tries } => {
                println!("{order}: confirmed after {tries} tries, {}", String::from_utf8_lossy(reply));
                self.confirmed.push(order);
            }
            Outcome::NotSent { tries } => {
                println!("{order}: not sent after {tries} tries");
                self.not_sent.push(order);
            }
            Outcome::Unknown { tries } => println!("{order}: unknown after {tries} tries"),
        }
        Ok(outcome)
    }

    /// What a feeder's state is: asking does nothing, so that it may be asked again whatever became of the question.
    fn state(&mut self, feeder: u32) -> Result<Option<Vec<u8>>, Refusal> {
        for _ in 0..PATIENCE {
            if let Outcome::Confirmed { reply, .. } = self.order("state", feeder)? {
                return Ok(Some(reply));
            }
        }
        Ok(None)
    }

    /// Brings a feeder into a state, or calls a person.
    fn settle(&mut self, what: &str, wanted: &str, feeder: u32) -> Result<bool, Refusal> {
        for _ in 0..PATIENCE {
            match self.order(what, feeder)? {
                Outcome::Confirmed { .. } => return Ok(true),
                // Never carried out: it may be submitted again.
                Outcome::NotSent { .. } => {}
                // Perhaps carried out, so it is not simply submitted again: what does the feeder say?
                Outcome::Unknown { .. } => match self.state(feeder)? {
                    Some(state) if state == wanted.as_bytes() => return Ok(true),
                    Some(_) => {}
                    None => break,
                },
            }
        }
        Ok(false)
    }
}

fn main() -> Result<(), Refusal> {
    let seed = std::env::args().nth(1).and_then(|word| word.parse().ok()).unwrap_or(1);
    let mut plant = Plant::new(seed)?;
    for feeder in 1..=10 {
        let (what, wanted) = if feeder % 3 == 0 { ("open", "open") } else { ("close", "closed") };
        if !plant.settle(what, wanted, feeder)? {
            println!("feeder {feeder}: a person is called");
        }
    }
    let Plant { cabinet, confirmed, not_sent, orders, .. } = plant;
    println!("{orders} orders, {} late answers not sent, {} answers dropped", cabinet.late, cabinet.dropped);

    let mut carried_out = cabinet.carried_out;
    carried_out.sort();
    let count = carried_out.len();
    carried_out.dedup();
    assert_eq!(carried_out.len(), count, "no order is carried out twice");
    assert!(confirmed.iter().all(|order| carried_out.contains(order)), "a confirmed order was carried out");
    assert!(!not_sent.iter().any(|order| carried_out.contains(order)), "an order that was not sent was not");
    Ok(())
}
