//! Puts what was measured into lines.
//!
//! `report cases COUNTS TIMES STACKS`: callgrind's dumps, and what `driver time` and `driver stack` printed.
//! `report pairs COUNTS TIMES STACKS`: the same of the cases that the original has too.
//! `report stacks STACKS`: the most that each call of ours took in any case.
//! `report sizes SYMBOLS SLOTS CODE`: what nm, readelf -r and objdump say of the driver.

use std::collections::{BTreeMap, BTreeSet};
use std::fs::read_to_string;
use std::process::ExitCode;

/// The figures of a case by side: `ours` and `rust`, or `link` and `telegrams`.
type Figures = BTreeMap<(String, String), f64>;

fn main() -> ExitCode {
    let words: Vec<String> = std::env::args().skip(1).collect();
    let text = |index: usize| read_to_string(&words[index]).unwrap_or_else(|error| panic!("{}: {error}", words[index]));
    match words[0].as_str() {
        "cases" => cases(&text(1), &measured(&text(2)), &measured(&text(3)), false),
        "pairs" => cases(&text(1), &measured(&text(2)), &measured(&text(3)), true),
        "stacks" => stacks(&text(1)),
        _ => sizes(&text(1), &text(2), &text(3)),
    }
}

/// The value of `key=…` in a line.
fn value<'a>(line: &'a str, key: &str) -> &'a str {
    let rest = &line[line.find(key).unwrap() + key.len()..];
    rest.split_whitespace().next().unwrap()
}

/// Each dump of callgrind bears the name that the driver gave it, and below it the instructions of all its calls.
fn counted(dumps: &str) -> (Vec<String>, Figures) {
    let (mut order, mut figures) = (Vec::new(), Figures::new());
    let mut named = None;
    for line in dumps.lines() {
        if line.starts_with("desc: Trigger: Client Request: case=") {
            named = Some(line);
        } else if let (Some(name), Some(total)) = (named, line.strip_prefix("totals: ")) {
            let case = value(name, "case=").to_string();
            let calls: f64 = value(name, "calls=").parse().unwrap();
            let total: f64 = total.split_whitespace().next().unwrap().parse().unwrap();
            if !order.contains(&case) {
                order.push(case.clone());
            }
            figures.insert((case, value(name, "side=").to_string()), total / calls);
            named = None;
        }
    }
    order.sort_by_key(|case| natural(case));
    (order, figures)
}

/// Dumps come in no order: by name, with numbers as numbers.
fn natural(case: &str) -> Vec<(usize, String)> {
    case.split('-').map(|word| (word.parse().unwrap_or(usize::MAX), word.to_string())).collect()
}

fn measured(lines: &str) -> Figures {
    let figure = |line: &str| {
        let words: Vec<&str> = line.split_whitespace().collect();
        ((words[1].to_string(), words[2].to_string()), words[3].parse().unwrap())
    };
    lines.lines().map(figure).collect()
}

fn cases(dumps: &str, times: &Figures, stacks: &Figures, pairs_only: bool) -> ExitCode {
    let (mut order, counts) = counted(dumps);
    if pairs_only {
        order.retain(|case| counts.contains_key(&(case.clone(), "rust".to_string())));
    }
    let mut short = Vec::new();
    for case in &order {
        let key = |side: &str| (case.clone(), side.to_string());
        let of = |figures: &Figures, side: &str| {
            figures.get(&key(side)).map_or("-".to_string(), |figure| format!("{figure:.0}"))
        };
        if let (Some(ours), Some(rust)) = (counts.get(&key("ours")), counts.get(&key("rust"))) {
            let more = format!(
                "ns={}/{} stack={}/{}",
                of(times, "ours"),
                of(times, "rust"),
                of(stacks, "ours"),
                of(stacks, "rust")
            );
            let kept = match times.contains_key(&key("ours-kept")) {
                true => format!(" kept={}/{}", of(times, "ours-kept"), of(times, "rust-kept")),
                false => String::new(),
            };
            println!("case={case} ours={ours:.1} rust={rust:.1} ratio={:.2} {more}{kept}", rust / ours);
            if rust < ours {
                short.push(case);
            }
        } else if let (Some(link), Some(telegrams)) = (counts.get(&key("link")), counts.get(&key("telegrams"))) {
            println!("case={case} link={link:.0} telegrams={telegrams:.0} times={:.2}", link / telegrams);
            if *link > 1.2 * telegrams {
                short.push(case);
            }
        } else if let Some(ours) = counts.get(&key("ours")) {
            println!("case={case} ours={ours:.0} ns={} stack={}", of(times, "ours"), of(stacks, "ours"));
        }
    }
    if short.is_empty() {
        println!("all={} short=0", order.len());
        return ExitCode::SUCCESS;
    }
    println!("all={} short={}: {short:?}", order.len(), short.len());
    ExitCode::from(1)
}

/// The most stack that each call of ours took, over all cases that make it.
fn stacks(lines: &str) -> ExitCode {
    let mut most: BTreeMap<&str, u64> = BTreeMap::new();
    for line in lines.lines() {
        let words: Vec<&str> = line.split_whitespace().collect();
        if let [_, _, _, bytes, call] = words[..] {
            if call != "-" {
                let bytes = bytes.parse().unwrap();
                most.entry(call).and_modify(|known| *known = (*known).max(bytes)).or_insert(bytes);
            }
        }
    }
    for (call, bytes) in &most {
        println!("stack={call} bytes={bytes}");
    }
    ExitCode::SUCCESS
}

/// The functions of the driver: each one's text bytes by its name, and its name by its address.
fn functions(symbols: &str) -> (BTreeMap<String, u64>, BTreeMap<u64, String>) {
    let (mut sizes, mut names) = (BTreeMap::new(), BTreeMap::new());
    for line in symbols.lines() {
        let words: Vec<&str> = line.splitn(4, ' ').collect();
        if let [at, size, "t" | "T", name] = words[..] {
            sizes.insert(name.to_string(), u64::from_str_radix(size, 16).unwrap());
            names.insert(u64::from_str_radix(at, 16).unwrap(), name.to_string());
        }
    }
    (sizes, names)
}

/// What each slot of the driver points to: a call into another crate goes through one.
fn pointed(slots: &str) -> BTreeMap<u64, u64> {
    let number = |word: &str| u64::from_str_radix(word, 16).ok();
    let slot = |line: &str| {
        let words: Vec<&str> = line.split_whitespace().collect();
        (words.len() == 4 && words[2] == "R_X86_64_RELATIVE").then(|| Some((number(words[0])?, number(words[3])?)))?
    };
    slots.lines().filter_map(slot).collect()
}

/// Which function calls or jumps into which.
fn calls(code: &str, target: impl Fn(&str) -> Option<String>) -> BTreeMap<String, BTreeSet<String>> {
    let mut graph: BTreeMap<String, BTreeSet<String>> = BTreeMap::new();
    let mut within = String::new();
    for line in code.lines() {
        if let Some(name) = line.strip_suffix(">:") {
            within = name[name.find('<').unwrap() + 1..].to_string();
        } else if line.contains("\tcall") || line.contains("\tj") {
            graph.entry(within.clone()).or_default().extend(target(line));
        }
    }
    graph
}

/// Rust's core and std and C's memory functions stand in neither column.
fn is_counted(name: &str) -> bool {
    !["_ZN4core", "_ZN3std", "_ZN5alloc", "_RNv", "mem", "__"].iter().any(|start| name.starts_with(start))
}

/// A call's text bytes: its own and those of each function that it reaches.
fn sizes(symbols: &str, slots: &str, code: &str) -> ExitCode {
    let ((sizes, names), slots) = (functions(symbols), pointed(slots));
    let target = |line: &str| match line.split_once("# ") {
        Some((_, slot)) => names.get(slots.get(&u64::from_str_radix(slot.split(' ').next()?, 16).ok()?)?).cloned(),
        None => Some(line.get(line.rfind('<')? + 1..line.rfind('>')?)?.split('+').next()?.to_string()),
    };
    let graph = calls(code, target);
    let size = |entry: &str| {
        let (mut todo, mut seen) = (vec![entry.to_string()], BTreeSet::new());
        while let Some(name) = todo.pop() {
            if sizes.contains_key(&name) && is_counted(&name) && seen.insert(name.clone()) {
                todo.extend(graph.get(&name).into_iter().flatten().cloned());
            }
        }
        seen.iter().map(|name| sizes[name]).sum::<u64>()
    };
    for ours in sizes.keys().filter(|name| name.starts_with("koy_")) {
        let rust = ours.replacen("koy_", "rust_", 1);
        let other = if sizes.contains_key(&rust) { size(&rust).to_string() } else { "-".to_string() };
        println!("text={} ours={} rust={other}", &ours[4..], size(ours));
    }
    ExitCode::SUCCESS
}
