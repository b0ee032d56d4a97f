//! differ ORACLE BENCH INPUTS [--plant answer|command]: feeds both programs the same commands, file by file, and compares
//! the answers line by line. Ends with status 0 where there is no difference, 1 where there is one, 2 where the
//! comparison could not be made.
mod outside;
mod plant;
mod programs;
mod tally;

use outside::{twin, Case, RULES};
use plant::Plant;
use programs::Program;
use std::env::args;
use std::fs;
use std::path::{Path, PathBuf};
use std::process::exit;
use tally::Tally;

struct Sides {
    rust: Program,
    ours: Program,
    folder: PathBuf,
}

fn main() {
    let words: Vec<String> = args().skip(1).collect();
    let words: Vec<&str> = words.iter().map(String::as_str).collect();
    let (oracle, bench, inputs, plant) = match words[..] {
        [oracle, bench, inputs] => (oracle, bench, inputs, None),
        [oracle, bench, inputs, "--plant", what] if Plant::named(what).is_some() => {
            (oracle, bench, inputs, Plant::named(what))
        }
        _ => {
            eprintln!("use: differ ORACLE BENCH INPUTS [--plant answer|command]");
            exit(2);
        }
    };
    let sides = Sides {
        rust: Program { name: "the-rust", path: oracle.into() },
        ours: Program { name: "ours", path: bench.into() },
        folder: inputs.into(),
    };
    match compared(&sides, plant) {
        Err(problem) => {
            eprintln!("not compared: {problem}");
            exit(2);
        }
        Ok(tally) => {
            tally.print();
            exit(i32::from(tally.differences() > 0));
        }
    }
}

fn compared(sides: &Sides, mut plant: Option<Plant>) -> Result<Tally, String> {
    let mut tally = Tally::default();
    for file in files(&sides.folder.join("inside"))? {
        let text = read(&file)?;
        let commands: Vec<&str> = text.lines().collect();
        let at = |problem| format!("{}: {problem}", file.display());
        inside(sides, &commands, &mut plant, &mut tally).map_err(at)?;
    }
    for file in files(&sides.folder.join("outside"))? {
        let text = read(&file)?;
        let commands: Vec<&str> = text.lines().collect();
        outside(sides, &commands, &mut tally).map_err(|problem| format!("{}: {problem}", file.display()))?;
    }
    Ok(tally)
}

fn files(folder: &Path) -> Result<Vec<PathBuf>, String> {
    let unread = |error| format!("{}: {error}", folder.display());
    let entries = fs::read_dir(folder).map_err(unread)?;
    let mut files =
        entries.map(|entry| entry.map(|entry| entry.path())).collect::<Result<Vec<_>, _>>().map_err(unread)?;
    files.sort();
    Ok(files)
}

fn read(file: &Path) -> Result<String, String> {
    fs::read_to_string(file).map_err(|error| format!("{}: {error}", file.display()))
}

/// Both sides at once, unless a fault is to be planted: its place depends on the Rust's answers.
fn inside(sides: &Sides, commands: &[&str], plant: &mut Option<Plant>, tally: &mut Tally) -> Result<(), String> {
    let (rust, ours) = match plant.take() {
        None => {
            let rust = sides.rust.start(&sides.folder, commands)?;
            let ours = sides.ours.start(&sides.folder, commands)?;
            (rust.answers(commands.len())?, ours.answers(commands.len())?)
        }
        Some(what) => planted(sides, commands, what)?,
    };
    for ((command, ours), rust) in commands.iter().zip(&ours).zip(&rust) {
        tally.inside(command, ours, rust);
    }
    Ok(())
}

fn planted(sides: &Sides, commands: &[&str], what: Plant) -> Result<(Vec<String>, Vec<String>), String> {
    let rust = sides.rust.start(&sides.folder, commands)?.answers(commands.len())?;
    let place = plant::place(&rust).ok_or("no place for a fault")?;
    let mut fed = commands.to_vec();
    if let Plant::Command = what {
        fed[place] = commands[place + 1];
    }
    let mut ours = sides.ours.start(&sides.folder, &fed)?.answers(fed.len())?;
    if let Plant::Answer = what {
        ours[place] = plant::changed(&ours[place]);
    }
    println!("planted a fault at: {}", commands[place]);
    Ok((rust, ours))
}

/// An expected difference must be one: where the Rust answers as document 01 wants, the list of differences is wrong.
fn outside(sides: &Sides, commands: &[&str], tally: &mut Tally) -> Result<(), String> {
    let rust = sides.rust.start(&sides.folder, commands)?.answers(commands.len())?;
    let ours = sides.ours.start(&sides.folder, commands)?.answers(commands.len())?;
    let twins: Vec<String> = commands.iter().map(|command| twin(command)).collect();
    let twins: Vec<&str> = twins.iter().map(String::as_str).collect();
    let twins = sides.rust.start(&sides.folder, &twins)?.answers(twins.len())?;
    for (place, command) in commands.iter().enumerate() {
        let (rust, twin) = (rust[place].as_str(), twins[place].as_str());
        let case = Case { words: command.split(' ').collect(), rust, twin };
        let found = RULES.iter().enumerate().find_map(|(rule, found)| Some((rule, (found.wanted)(&case)?)));
        match found {
            Some((rule, wanted)) if wanted != rust => tally.outside(rule, command, &ours[place], &wanted),
            _ => tally.no_rule(command, &ours[place], rust),
        }
    }
    Ok(())
}
