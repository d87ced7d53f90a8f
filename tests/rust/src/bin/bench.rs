//! The benchmark: the library, plain Rust with the same algorithm (a linear table
//! of rows, the same checks), and plain Rust as one would write it (sets and maps).
//!
//! In each turn all three do the same work, one after the other, on buffers filled
//! alike before the clock starts; who begins changes from turn to turn. The table
//! gives the medians and the library's share as ratios.

use ribalonga_differential::answers::*;
use ribalonga_differential::groups::{crowded, ring, toggles};
use ribalonga_differential::make::MadeScheme;
use ribalonga_differential::mill;
use ribalonga_differential::model::codes::packed;
use ribalonga_differential::{idiom, plain, subject, SUBJECT};
use std::hint::black_box;
use std::time::Instant;

const TURNS: usize = 31;
const NAMES: [&str; 3] = ["library", "plain", "sets"];

/// One contestant: works on a prepared buffer and gives something to compare.
type Work<'a, B> = &'a dyn Fn(&mut B) -> String;
/// The same without anything to compare, for the clock.
type Timed<'a, B> = &'a dyn Fn(&mut B);

struct Line {
    name: String,
    medians: [f64; 3],
}

/// Times three contestants over `calls` calls a turn, each call on its own copy of
/// the prepared buffer.
fn measure<B: Clone + PartialEq>(
    name: &str,
    calls: usize,
    prepared: &B,
    check: [Work<B>; 3],
    timed: [Timed<B>; 3],
) -> Line {
    // First that all three do the same.
    let mut outcomes = Vec::new();
    for work in check {
        let mut buffer = prepared.clone();
        let answer = work(&mut buffer);
        outcomes.push((answer, buffer));
    }
    for (which, outcome) in outcomes.iter().enumerate() {
        assert!(*outcome == outcomes[0], "{name}: {} differs from {}", NAMES[which], NAMES[0]);
    }
    let mut times: [Vec<f64>; 3] = Default::default();
    let mut buffers: Vec<B> = vec![prepared.clone(); calls];
    for turn in 0..TURNS {
        for place in 0..3 {
            let which = (turn + place) % 3;
            for buffer in buffers.iter_mut() {
                buffer.clone_from(prepared);
            }
            let began = Instant::now();
            for buffer in buffers.iter_mut() {
                timed[which](black_box(buffer));
            }
            times[which].push(began.elapsed().as_nanos() as f64 / calls as f64);
        }
    }
    let medians = times.map(|mut list| {
        list.sort_by(f64::total_cmp);
        list[list.len() / 2]
    });
    Line { name: name.to_string(), medians }
}

type VerdictCall =
    fn(&[Command], usize, usize, usize, usize, usize, usize, usize, &mut [u32]) -> Verdict;

fn listing(name: &str, made: &MadeScheme) -> Line {
    let table = vec![0x5A5A_5A5Au32; 8 * 2048];
    let ask = |call: VerdictCall, table: &mut Vec<u32>| {
        let s = made.scheme();
        // A right that no state has, so that the look over the rows goes to the end.
        call(s.commands, s.types, s.kinds, s.rights, 0, 7, 31, 2048, table)
    };
    let calls: [VerdictCall; 3] =
        [subject::verdict_of_create, plain::verdict_of_create, idiom::verdict_of_create];
    let verdict = ask(calls[1], &mut table.clone());
    assert_eq!((verdict.number, verdict.states), (0, 2048), "{name}");
    let check = calls.map(|call| move |table: &mut Vec<u32>| format!("{:?}", ask(call, table)));
    let timed = calls.map(|call| {
        move |table: &mut Vec<u32>| {
            black_box(ask(call, table));
        }
    });
    measure(name, 1, &table, [&check[0], &check[1], &check[2]], [&timed[0], &timed[1], &timed[2]])
}

/// A scheme of 64 commands over 8 types and 2 kinds; command 0 creates, command k
/// grants right k % 32 from type k % 8 to the next.
fn full_scheme() -> Vec<Command> {
    (0..64u8)
        .map(|k| {
            let source = k % 8;
            if k == 0 {
                Command { form: 1, z: 1, ..Default::default() }
            } else {
                let right = 1 << (k % 32);
                let destination = (source + 1) % 8;
                Command { form: 2, source, destination, kind: 0, x: 0, y: 0, z: right }
            }
        })
        .collect()
}

fn full_roster() -> Vec<u32> {
    let mut words = Vec::new();
    for person in 0..32u32 {
        words.push(person % 8);
        words.extend(packed(format!("PERSON-{person:02}").as_bytes()));
    }
    words
}

fn design_code(at: usize) -> Vec<u8> {
    format!("DESIGN-{at:02}").into_bytes()
}

fn store_of(designs: usize) -> Vec<u32> {
    let mut words = vec![designs as u32];
    for at in 0..designs {
        words.push(0);
        words.extend(packed(&design_code(at)));
        words.extend((0..32u32).map(|person| 0x0101_0101u32.rotate_left(person)));
    }
    words.resize(2305, 0);
    words
}

type RequestCall = fn(
    &[Command],
    usize,
    usize,
    usize,
    &[u32],
    usize,
    &mut [u32],
    usize,
    usize,
    usize,
    &[u8],
) -> u8;

fn one_request() -> Line {
    let commands = full_scheme();
    let roster = full_roster();
    let store = store_of(64);
    let code = design_code(63);
    let ask = |call: RequestCall, store: &mut Vec<u32>| {
        call(&commands, 8, 2, 32, &roster, 32, store, 9, 1, 2, &code)
    };
    let calls: [RequestCall; 3] = [subject::request, plain::request, idiom::request];
    assert_eq!(ask(calls[1], &mut store.clone()), 0);
    let check = calls.map(|call| move |store: &mut Vec<u32>| format!("{}", ask(call, store)));
    let timed = calls.map(|call| {
        move |store: &mut Vec<u32>| {
            black_box(ask(call, store));
        }
    });
    measure(
        "one request, 64 designs, 32 people",
        64,
        &store,
        [&check[0], &check[1], &check[2]],
        [&timed[0], &timed[1], &timed[2]],
    )
}

type BatchCall =
    fn(&[Command], usize, usize, usize, &[u32], usize, &mut [u32], &[u8], &mut [u8]) -> BatchRun;

fn batch_of_256() -> Line {
    let commands = full_scheme();
    let roster = full_roster();
    // 32 creates, then grants over all 64 designs, some refused.
    let requests: Vec<mill::Asked> = (0..256usize)
        .map(|at| {
            if at < 32 {
                (0, 0, 0, design_code(32 + at))
            } else {
                let command = 1 + at % 63;
                let source = (command % 8 + 8 * (at % 4)) as u8;
                let destination = ((command + 1) % 8 + 8 * (at % 3)) as u8;
                (command as u8, source, destination, design_code(at * 7 % 70))
            }
        })
        .collect();
    let card = mill::card(&mill::batch_body(&requests));
    let prepared = (store_of(32), vec![0xEEu8; 256]);
    let ask = |call: BatchCall, (store, answers): &mut (Vec<u32>, Vec<u8>)| {
        call(&commands, 8, 2, 32, &roster, 32, store, &card, answers)
    };
    let calls: [BatchCall; 3] = [subject::run_batch, plain::run_batch, idiom::run_batch];
    let run = ask(calls[1], &mut prepared.clone());
    assert!(run.number == 0 && run.requests == 256 && run.done > 200, "{run:?}");
    let check =
        calls.map(|call| move |both: &mut (Vec<u32>, Vec<u8>)| format!("{:?}", ask(call, both)));
    let timed = calls.map(|call| {
        move |both: &mut (Vec<u32>, Vec<u8>)| {
            black_box(ask(call, both));
        }
    });
    measure(
        "a batch of 256",
        16,
        &prepared,
        [&check[0], &check[1], &check[2]],
        [&timed[0], &timed[1], &timed[2]],
    )
}

type SchemeCall = fn(&[u8], &mut [Command]) -> SchemeRead;

fn scheme_card() -> Line {
    let commands = full_scheme();
    let s = Scheme { commands: &commands, types: 8, kinds: 2, rights: 32 };
    let card = mill::scheme_card(&s);
    let prepared = vec![Command::default(); 64];
    let ask = |call: SchemeCall, commands: &mut Vec<Command>| call(&card, commands);
    let calls: [SchemeCall; 3] = [subject::read_scheme, plain::read_scheme, idiom::read_scheme];
    assert_eq!(ask(calls[1], &mut prepared.clone()).number, 0);
    let check = calls.map(|call| move |c: &mut Vec<Command>| format!("{:?}", ask(call, c)));
    let timed = calls.map(|call| {
        move |c: &mut Vec<Command>| {
            black_box(ask(call, c));
        }
    });
    measure(
        "reading a scheme card, 64 commands",
        512,
        &prepared,
        [&check[0], &check[1], &check[2]],
        [&timed[0], &timed[1], &timed[2]],
    )
}

fn time(ns: f64) -> String {
    match ns {
        n if n >= 1e6 => format!("{:.2} ms", n / 1e6),
        n if n >= 1e3 => format!("{:.2} us", n / 1e3),
        n => format!("{n:.0} ns"),
    }
}

fn main() {
    println!("measured: {SUBJECT}; medians of {TURNS} turns");
    println!(
        "plain: the same algorithm in plain Rust; sets: as one would write it, with sets and maps"
    );
    println!();
    println!(
        "{:<38} {:>11} {:>11} {:>11} {:>15} {:>14}",
        "call", "library", "plain", "sets", "library/plain", "library/sets"
    );
    let lines: [fn() -> Line; 6] = [
        || listing("listing 2,048 states, toggles", &toggles(11)),
        || listing("listing 2,048 states, a ring", &ring(11)),
        || listing("listing 2,048 states, 64 commands", &crowded(11)),
        one_request,
        batch_of_256,
        scheme_card,
    ];
    for line in lines {
        let line = line();
        let [library, plain, sets] = line.medians;
        println!(
            "{:<38} {:>11} {:>11} {:>11} {:>15.2} {:>14.2}",
            line.name,
            time(library),
            time(plain),
            time(sets),
            library / plain,
            library / sets
        );
    }
}
