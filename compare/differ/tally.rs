//! What was compared, counted, and the first difference.
use crate::outside::RULES;
use std::collections::BTreeMap;

pub struct Difference {
    pub command: String,
    pub ours: String,
    pub wanted: String,
    /// Where `wanted` comes from.
    pub because: String,
}

#[derive(Default)]
struct Count {
    compared: usize,
    differing: usize,
}

#[derive(Default)]
pub struct Tally {
    kinds: BTreeMap<String, Count>,
    rules: [Count; RULES.len()],
    ring_calls: usize,
    first: Option<Difference>,
    without_rule: usize,
}

impl Tally {
    pub fn inside(&mut self, command: &str, ours: &str, rust: &str) {
        let kind = command.split(' ').next().unwrap_or_default();
        if matches!(kind, "ring" | "ready") {
            self.ring_calls += command.split(' ').count() - 2;
        }
        let count = self.kinds.entry(kind.to_string()).or_default();
        count.compared += 1;
        if ours != rust {
            count.differing += 1;
            self.differs(command, ours, rust, "the Rust");
        }
    }

    pub fn outside(&mut self, rule: usize, command: &str, ours: &str, wanted: &str) {
        self.rules[rule].compared += 1;
        if ours != wanted {
            self.rules[rule].differing += 1;
            self.differs(command, ours, wanted, &format!("document 01: {}, {}", RULES[rule].name, RULES[rule].reason));
        }
    }

    /// A command outside the domain that no expected difference covers.
    pub fn no_rule(&mut self, command: &str, ours: &str, rust: &str) {
        self.without_rule += 1;
        self.differs(command, ours, rust, "the Rust, and no expected difference covers it");
    }

    fn differs(&mut self, command: &str, ours: &str, wanted: &str, because: &str) {
        let [command, ours, wanted, because] = [command, ours, wanted, because].map(str::to_string);
        self.first.get_or_insert(Difference { command, ours, wanted, because });
    }

    pub fn differences(&self) -> usize {
        let counted = self.kinds.values().chain(&self.rules).map(|count| count.differing).sum::<usize>();
        counted + self.without_rule
    }

    pub fn print(&self) {
        println!("In the Rust's domain, where ours must answer as the Rust:");
        for (kind, count) in &self.kinds {
            println!("  {kind:<8} compared={} differing={}", count.compared, count.differing);
        }
        println!("  (the station list in {} calls)", self.ring_calls);
        println!("Outside it, where ours must answer as document 01 and the Rust does not:");
        for (rule, count) in RULES.iter().zip(&self.rules) {
            println!("  {:<30} compared={} differing={}   {}", rule.name, count.compared, count.differing, rule.reason);
        }
        let compared =
            self.kinds.values().chain(&self.rules).map(|count| count.compared).sum::<usize>() + self.without_rule;
        println!("compared={compared} differences={}", self.differences());
        if let Some(first) = &self.first {
            println!("The first difference:");
            println!("  command  {}", first.command);
            println!("  ours     {}", first.ours);
            println!("  wanted   {}", first.wanted);
            println!("  by       {}", first.because);
        }
    }
}
