//! make_inputs OUT [--seed N] [--size N] [--sample N]: writes the commands of a differential run into OUT/inside, in the
//! Rust's domain, and OUT/outside; where asked, a sample of at most N of each family in the domain into OUT/sample. The
//! same numbers give the same files.
mod chunks;
mod diagnostics;
mod outside;
mod random;
mod reading;
mod sample;
mod stations;
mod strict;
mod telegram;
mod writing;

use chunks::Chunks;
use std::env::args;
use std::io::Result;
use std::path::PathBuf;
use std::process::exit;

struct Asked {
    out: PathBuf,
    seed: u64,
    /// How many random telegrams are made; the other random families follow it, the exhaustive ones do not.
    size: usize,
    sample: Option<usize>,
}

fn main() {
    let words: Vec<String> = args().skip(1).collect();
    let Some(asked) = asked(&words) else {
        eprintln!("use: make_inputs OUT [--seed N] [--size N] [--sample N]");
        exit(2);
    };
    if let Err(error) = make(&asked) {
        eprintln!("{}: {error}", asked.out.display());
        exit(2);
    }
}

fn asked(words: &[String]) -> Option<Asked> {
    let (out, mut options) = words.split_first()?;
    let mut asked = Asked { out: out.into(), seed: 1, size: 100_000, sample: None };
    while let [name, value, rest @ ..] = options {
        match name.as_str() {
            "--seed" => asked.seed = value.parse().ok()?,
            "--size" => asked.size = value.parse().ok()?,
            "--sample" => asked.sample = Some(value.parse().ok()?),
            _ => return None,
        }
        options = rest;
    }
    options.is_empty().then_some(asked)
}

fn make(asked: &Asked) -> Result<()> {
    let Asked { out, seed, size, sample } = asked;
    let mut inside = Chunks::new(out.join("inside"))?;
    reading::make(&mut inside, *seed, *size);
    writing::make(&mut inside, *seed, *size);
    stations::make(&mut inside, *seed, *size);
    diagnostics::make(&mut inside, *seed, *size);
    let mut outside = Chunks::new(out.join("outside"))?;
    outside::make(&mut outside, *seed);
    strict::Strict { inside: &mut inside, outside: &mut outside }.make(*seed, *size);
    println!("seed={seed} size={size} inside={} outside={}", inside.finish(), outside.finish());
    if let Some(each) = sample {
        let count = sample::make(&out.join("inside"), &out.join("sample"), *each)?;
        println!("sample={count}");
    }
    Ok(())
}
