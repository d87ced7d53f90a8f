//! The differential tests.
//!
//!   differential gate [met]            fixed seeds, each group its count of cases;
//!                                      with `met` also how often each thing was met
//!   differential long MINUTES SEED     round after round from this seed
//!   differential case GROUP SEED       one case again, with all inputs
//!
//! Exit status: 0 no difference; 1 a difference, or the gate no longer meets what
//! it has to; 2 bad usage. With DIFFERENTIAL_LAST set to a path, the case at hand
//! is kept there, for the event that the library ends the process.

use ribalonga_differential::groups::{self, Group, GROUPS};
use ribalonga_differential::random::{mix, Random};
use ribalonga_differential::trial::Seen;
use ribalonga_differential::SUBJECT;
use std::fs::File;
use std::os::unix::fs::FileExt;
use std::process::exit;
use std::time::{Duration, Instant};

const GATE_SEED: u64 = 1;
/// After so many differences a group is left.
const MOST_DIFFERENCES: usize = 3;

struct Progress(Option<File>);

impl Progress {
    fn new() -> Progress {
        Progress(std::env::var_os("DIFFERENTIAL_LAST").and_then(|path| File::create(path).ok()))
    }

    fn at(&self, group: &str, seed: u64) {
        if let Some(file) = &self.0 {
            let line = format!("{:<40}\n", format!("{group} {seed:#018x}"));
            let _ = file.write_at(line.as_bytes(), 0);
        }
    }
}

/// The seed of a case of a group.
fn case_seed(base: u64, group: usize, index: usize) -> u64 {
    mix(mix(base, group as u64), index as u64)
}

/// Runs one case; false if something differed.
fn run_case(group: &Group, seed: u64, seen: &mut Seen) -> bool {
    match (group.case)(seen, &mut Random::new(seed)) {
        Ok(()) => true,
        Err(what) => {
            println!("DIFFERENCE in {}, seed {seed:#018x}", group.name);
            println!("  {what}");
            println!("  again, with all inputs: differential case {} {seed:#018x}", group.name);
            false
        }
    }
}

/// One round of all groups: the count of differences.
fn round(base: u64, share: f64, until: Option<Instant>, seen: &mut Seen, loud: bool) -> usize {
    let progress = Progress::new();
    let mut differences = 0;
    for (number, group) in GROUPS.iter().enumerate() {
        let began = Instant::now();
        let calls = seen.calls;
        let cases = ((group.gate as f64 * share) as usize).max(1);
        let mut here = 0;
        for index in 0..cases {
            if until.is_some_and(|end| Instant::now() >= end) {
                return differences;
            }
            let seed = case_seed(base, number, index);
            progress.at(group.name, seed);
            if !run_case(group, seed, seen) {
                here += 1;
                if here >= MOST_DIFFERENCES {
                    println!("  and so on: the rest of {} is left out", group.name);
                    break;
                }
            }
        }
        differences += here;
        if loud {
            println!(
                "{:<22} {:>7} cases {:>8} calls {:>7.2} s   {}",
                group.name,
                cases,
                seen.calls - calls,
                began.elapsed().as_secs_f64(),
                if here == 0 { "no difference" } else { "DIFFERENCES" }
            );
        }
    }
    differences
}

fn gate(print_met: bool) -> i32 {
    println!("tried: {SUBJECT}");
    let began = Instant::now();
    let mut seen = Seen::default();
    let differences = round(GATE_SEED, 1.0, None, &mut seen, true);
    // A group that was left early meets less; then the differences say enough.
    let mut missing = groups::required();
    missing.retain(|what| differences == 0 && !seen.met.contains_key(what));
    if print_met {
        for (what, times) in &seen.met {
            println!("{times:>9}  {what}");
        }
    }
    for what in &missing {
        println!("never met in the gate: {what}");
    }
    println!(
        "{} calls in {:.1} s, differences: {differences}",
        seen.calls,
        began.elapsed().as_secs_f64()
    );
    if differences == 0 && missing.is_empty() {
        0
    } else {
        1
    }
}

fn long(minutes: f64, seed: u64) -> i32 {
    println!("tried: {SUBJECT}, {minutes} minutes from seed {seed}");
    let until = Instant::now() + Duration::from_secs_f64(60.0 * minutes);
    let mut seen = Seen::default();
    let mut base = seed;
    let mut rounds = 0;
    while Instant::now() < until {
        let differences = round(mix(0x10E6, base), 0.5, Some(until), &mut seen, false);
        if differences > 0 {
            println!("{differences} differences in the round of seed {base}");
            return 1;
        }
        base = base.wrapping_add(1);
        rounds += 1;
        if rounds % 10 == 0 {
            println!("{rounds} rounds, {} calls, no difference", seen.calls);
        }
    }
    println!("{rounds} rounds, {} calls, no difference", seen.calls);
    0
}

fn number(word: &str) -> Option<u64> {
    match word.strip_prefix("0x") {
        Some(hex) => u64::from_str_radix(hex, 16).ok(),
        None => word.parse().ok(),
    }
}

fn main() {
    let words: Vec<String> = std::env::args().skip(1).collect();
    let words: Vec<&str> = words.iter().map(|w| w.as_str()).collect();
    let status = match words[..] {
        ["gate"] => gate(false),
        ["gate", "met"] => gate(true),
        ["long", minutes, seed] => match (minutes.parse::<f64>(), number(seed)) {
            (Ok(minutes), Some(seed)) if minutes > 0.0 && minutes.is_finite() => {
                long(minutes, seed)
            }
            _ => 2,
        },
        ["case", group, seed] => {
            let known = GROUPS.iter().find(|g| g.name == group);
            match (known, number(seed)) {
                (Some(group), Some(seed)) => {
                    println!("tried: {SUBJECT}");
                    let mut seen = Seen { verbose: true, ..Default::default() };
                    let same = run_case(group, seed, &mut seen);
                    println!("{}", if same { "no difference" } else { "a difference" });
                    !same as i32
                }
                _ => 2,
            }
        }
        _ => 2,
    };
    if status == 2 {
        eprintln!("usage: differential gate [met] | long MINUTES SEED | case GROUP SEED");
        let names: Vec<&str> = GROUPS.iter().map(|g| g.name).collect();
        eprintln!("groups: {}", names.join(" "));
    }
    exit(status);
}
