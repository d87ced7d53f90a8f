//! The cases of the differential tests, in groups. A case is made from its seed
//! alone, so that a seed is enough to see it again.

use crate::answers::*;
use crate::guard::garbage;
use crate::make::{self, damage, huge, odd_number, short, Fault, MadeScheme, Setting};
use crate::make::{ROSTER_FAULTS, SCHEME_FAULTS, STORE_FAULTS};
use crate::mill;
use crate::model::codes::{packed, spelled};
use crate::model::verdicts::{self, Row};
use crate::model::{self, BUDGET, CREATE, GRANT, INTERNAL, STORE_WORDS};
use crate::random::Random;
use crate::trial::{self, Seen, Tried};
use std::collections::{HashMap, HashSet, VecDeque};

pub struct Group {
    pub name: &'static str,
    /// Cases in the gate.
    pub gate: usize,
    pub case: fn(&mut Seen, &mut Random) -> Tried<()>,
}

pub const GROUPS: &[Group] = &[
    Group { name: "document", gate: 1, case: document },
    Group { name: "sizes", gate: 1, case: sizes },
    Group { name: "huge-numbers", gate: 1, case: huge_numbers },
    Group { name: "codes", gate: 1, case: codes },
    Group { name: "scheme-cards", gate: 25_000, case: scheme_cards },
    Group { name: "roster-cards", gate: 25_000, case: roster_cards },
    Group { name: "requests", gate: 40_000, case: requests },
    Group { name: "histories", gate: 300, case: histories },
    Group { name: "batches", gate: 6_000, case: batches },
    Group { name: "questions", gate: 16_000, case: questions },
    Group { name: "access-lists", gate: 16_000, case: access_lists },
    Group { name: "verdicts-of-creates", gate: 40_000, case: verdicts_of_creates },
    Group { name: "verdicts-of-designs", gate: 25_000, case: verdicts_of_designs },
    Group { name: "long-listings", gate: 12, case: long_listings },
    Group { name: "batch-texts", gate: 4_000, case: batch_texts },
    Group { name: "verdict-texts", gate: 2_000, case: verdict_texts },
    Group { name: "wanted", gate: 1_500, case: wanted },
    Group { name: "demand-3", gate: 1_500, case: demand_3 },
    Group { name: "reverse", gate: 1_500, case: reverse },
    Group { name: "like-b", gate: 400, case: like_b },
];

/// What the gate has to have met, so that no group tries less than it says.
pub fn required() -> Vec<String> {
    let mut all = Vec::new();
    let mut numbers = |call: &str, list: &[u8]| {
        all.extend(list.iter().map(|n| format!("{call} {n}")));
    };
    numbers("read_scheme", &[0, 1, 2, 20]);
    numbers("read_roster", &[0, 1, 2, 3, 4, 5, 20]);
    numbers("request", &[0, 2, 3, 4, 5, 6, 7, 8, 9, 10, 11, 12, 13, 14, 20, 21]);
    numbers("run_batch", &[0, 1, 2, 3, 4, 5, 20, 21]);
    numbers("run_batch, a request", &[0, 4, 6, 7, 8, 9, 10, 11, 12, 13, 14]);
    numbers("may_use", &[0, 2, 3, 4, 5, 7, 12, 15, 20, 21]);
    numbers("access_list", &[0, 2, 3, 4, 5, 12, 20, 21]);
    numbers("verdict_of_create", &[0, 2, 15, 16, 18, 19]);
    numbers("verdict_of_design", &[0, 2, 3, 4, 5, 12, 15, 16, 17, 18, 19, 20, 21]);
    numbers("batch_text", &[0, 20]);
    numbers("batch_text, X", &[1, 2, 3, 4, 5]);
    numbers("verdict_text", &[0, 15, 20]);
    numbers("verdict_text, X", &[1, 2]);
    for what in [
        "may_use, yes",
        "may_use, no",
        "access_list, nobody",
        "access_list, 32 people",
        "verdict_of_create, held",
        "verdict_of_create, not held",
        "verdict_of_design, held",
        "verdict_of_design, not held",
        "batch_wanted, none",
        "batch_wanted, more",
        "verdict_wanted, none",
        "verdict_wanted, more",
        "budget one under the count",
        "budget the count",
        "budget one over the count",
        "request 4 for its code",
        "demand 3: a history",
        "demand 3: two people of one type held rights",
        "demand 3: a grant between two people of one type",
        "demand 3: from a design in the store",
        "demand 3: the roster grew",
        "reverse: a right reached",
        "like B: refused with 19",
        "like B: a verdict",
        "reverse: a right not reached",
    ] {
        all.push(what.to_string());
    }
    for call in ["request", "run_batch", "may_use", "access_list", "verdict_of_design"] {
        for fault in SCHEME_FAULTS.iter().chain(ROSTER_FAULTS).chain(STORE_FAULTS) {
            all.push(format!("fault in {call}, {}", fault.name));
        }
    }
    for call in ["read_roster", "verdict_of_create"] {
        all.extend(SCHEME_FAULTS.iter().map(|f| format!("fault in {call}, {}", f.name)));
    }
    all
}

// Damage, and what it has to lead to.

enum Damage {
    None,
    /// The only fault: its number is sure.
    One(&'static Fault),
    Many,
    /// A buffer lacks room: 20.
    Short,
}

impl Damage {
    /// The number that the generator is sure of, whatever the model says.
    fn sure(&self) -> Option<u8> {
        match self {
            Damage::One(fault) => Some(fault.number),
            Damage::Short => Some(20),
            _ => None,
        }
    }

    fn check(&self, seen: &mut Seen, call: &str, number: u8) -> Tried<()> {
        if let Damage::One(fault) = self {
            seen.note(&format!("fault in {call}, {}", fault.name));
        }
        match self.sure() {
            Some(sure) if sure != number => {
                Err(format!("{call}: the model answers {number} where {sure} is due"))
            }
            _ => Ok(()),
        }
    }
}

/// Damages a setting, or not.
fn damaged(rng: &mut Random, set: &mut Setting) -> Damage {
    match rng.below(100) {
        0..=54 => Damage::None,
        55..=84 => match damage(rng, set, &[SCHEME_FAULTS, ROSTER_FAULTS, STORE_FAULTS]) {
            Some(fault) => Damage::One(fault),
            None => Damage::None,
        },
        85..=94 => {
            make::damage_often(rng, set, 60);
            if rng.percent(20) {
                shorten(rng, set);
            }
            Damage::Many
        }
        _ => {
            make::damage_often(rng, set, 30);
            shorten(rng, set);
            Damage::Short
        }
    }
}

fn shorten(rng: &mut Random, set: &mut Setting) {
    if rng.percent(50) {
        let length = short(rng, model::ROSTER_WORDS);
        set.roster.truncate(length);
    } else {
        let length = short(rng, STORE_WORDS);
        set.store.truncate(length);
    }
}

fn expect(what: &str, holds: bool) -> Tried<()> {
    if holds {
        Ok(())
    } else {
        Err(format!("not as the rules have it: {what}"))
    }
}

/// A roster of these people in exactly its room.
pub fn roster_words(people: &[(u8, Vec<u8>)]) -> Vec<u32> {
    let mut words = Vec::new();
    for (of_type, code) in people {
        words.push(*of_type as u32);
        words.extend(packed(code));
    }
    words.resize(words.len().max(model::ROSTER_WORDS), 0);
    words
}

fn mill_setting(commands: &[Command], people: &[(u8, Vec<u8>)]) -> Setting {
    Setting {
        commands: commands.to_vec(),
        types: 3,
        kinds: 1,
        rights: 8,
        roster: roster_words(people),
        people: people.len(),
        store: vec![0; STORE_WORDS],
    }
}

// The fixed cases.

/// P1 to P12, the worked batch and the verdict lines of A.
fn document(seen: &mut Seen, rng: &mut Random) -> Tried<()> {
    let (a, b, c) = (mill::scheme(&mill::A), mill::scheme(&mill::B), mill::scheme(&mill::C));
    let (designer, lab, release) = (mill::DESIGNER, mill::LAB, mill::RELEASE);
    let none = Verdict::default();
    let ask = |seen: &mut Seen, rng: &mut Random, s: &Scheme, t: usize, budget: usize| {
        let table = garbage::<u32>(rng, 8 * budget);
        trial::verdict_of_create(seen, rng, s, 0, t, release, budget, &table).map(|(v, _)| v)
    };
    let p1 = ask(seen, rng, &a, designer, 11)?;
    expect("P1", p1 == Verdict { number: 0, states: 11, held: 1, state: 10, command: 0 })?;
    let p2 = ask(seen, rng, &a, designer, 10)?;
    expect("P2", p2 == Verdict { number: 18, states: 10, ..none })?;
    let p3 = ask(seen, rng, &a, lab, 11)?;
    expect("P3", p3 == Verdict { states: 11, ..none })?;
    let p4 = ask(seen, rng, &b, designer, 21)?;
    expect("P4", p4 == Verdict { number: 19, states: 21, held: 0, state: 2, command: 2 })?;
    let p5 = ask(seen, rng, &b, designer, 20)?;
    expect("P5", p5 == Verdict { number: 18, states: 20, ..none })?;
    let p6 = ask(seen, rng, &c, designer, 11)?;
    expect("P6", p6 == Verdict { number: 16, command: 2, ..none })?;

    // P7: two lab people hold review.
    let people = mill::worked_roster();
    let mut set = mill_setting(&mill::B, &people);
    set.store[0] = 1;
    set.store[2..5].copy_from_slice(&packed(b"W-104"));
    set.store[5 + 1] = 0x10;
    set.store[5 + 2] = 0x10;
    let table = garbage::<u32>(rng, 8 * 11);
    let (p7, after) =
        trial::verdict_of_design(seen, rng, &set, b"W-104", designer, release, 11, &table)?;
    expect("P7", p7 == Verdict { number: 17, ..none } && after == table)?;

    // P8: cell 03 by command 1 of A.
    let mut set = mill_setting(&mill::A, &people);
    set.store = trial::request(seen, rng, &set, 0, 0, 0, b"W-104")?.1;
    expect("P8 before", set.store[5] == 0x03)?;
    let (number, store) = trial::request(seen, rng, &set, 1, 0, 0, b"W-104")?;
    expect("P8", number == 0 && store[5] == 0x0D)?;

    let fresh = mill_setting(&mill::A, &people);
    let create = |seen: &mut Seen, rng: &mut Random, code: &[u8]| {
        trial::request(seen, rng, &fresh, 0, 0, 0, code).map(|(number, _)| number)
    };
    expect("P9", create(seen, rng, b"w-104")? == 4)?;
    expect("P10, 12 letters", create(seen, rng, b"ABCDEFGHIJKL")? == 0)?;
    expect("P10, 13 letters", create(seen, rng, b"ABCDEFGHIJKLM")? == 4)?;
    expect("P11", create(seen, rng, b"-")? == 4)?;

    // P12: a grant from a person to itself.
    let create = Command { form: CREATE, z: 1, ..Default::default() };
    let own = Command { form: GRANT, x: 1, y: 1, z: 1, ..Default::default() };
    let mut set = mill_setting(&[create, own], &people);
    set.store = trial::request(seen, rng, &set, 0, 0, 0, b"W-104")?.1;
    let (number, store) = trial::request(seen, rng, &set, 1, 0, 0, b"W-104")?;
    expect("P12", number == 0 && store[5] == 0x01)?;

    // The worked batch, also with bytes after the last card.
    let mut bytes = mill::worked_batch();
    for _ in 0..2 {
        let text = garbage::<u8>(rng, model::BATCH_TEXT_BYTES);
        let (answer, after) = trial::batch_text(seen, rng, &bytes, &text)?;
        let lines = mill::WORKED_LINES.as_bytes();
        expect("the worked batch", answer.bytes == lines.len() && after.starts_with(lines))?;
        bytes.extend_from_slice(&[1, 0, 200]);
    }
    let card = mill::scheme_card(&a);
    let table = garbage::<u32>(rng, 8 * BUDGET);
    let text = garbage::<u8>(rng, model::VERDICT_TEXT_BYTES);
    let (answer, _, after) = trial::verdict_text(seen, rng, &card, &table, &text)?;
    let lines = mill::VERDICT_LINES_OF_A.as_bytes();
    expect("the verdict lines of A", answer.bytes == lines.len() && after.starts_with(lines))
}

/// People with codes P0, P1, ..
fn crowd(count: usize) -> Vec<(u8, Vec<u8>)> {
    (0..count).map(|at| (0, format!("P{at}").into_bytes())).collect()
}

/// 32 and 33 people, 64 and 65 designs, 64 and 65 commands, a batch of none, and
/// every buffer one short.
fn sizes(seen: &mut Seen, rng: &mut Random) -> Tried<()> {
    let create = Command { form: CREATE, z: 1, ..Default::default() };
    for (count, number) in [(32, 0), (33, 3)] {
        let people = crowd(count);
        let card = mill::card(&mill::roster_body(&people));
        let roster = garbage::<u32>(rng, 140);
        let (read, _) = trial::read_roster(seen, rng, &mill::scheme(&mill::A), &card, &roster)?;
        expect("people on a card", read.number == number)?;
        let set = mill_setting(&[create], &people);
        let asked = trial::request(seen, rng, &set, 0, 31, 31, b"W")?.0;
        expect("people in a roster", asked == number)?;
    }
    for (count, number) in [(64, 0), (65, 2)] {
        let commands = vec![create; count];
        let s = mill::scheme(&commands);
        let buffer = garbage::<Command>(rng, 70);
        let (read, _) = trial::read_scheme(seen, rng, &mill::scheme_card(&s), &buffer)?;
        expect("commands on a card", read.number == number)?;
        let set = mill_setting(&commands, &crowd(1));
        let asked = trial::request(seen, rng, &set, 63, 0, 0, b"W")?.0;
        expect("commands in a list", asked == number)?;
    }
    let mut set = mill_setting(&[create], &crowd(32));
    for at in 0..65 {
        let code = format!("D{at}").into_bytes();
        let (number, store) = trial::request(seen, rng, &set, 0, at % 32, at % 32, &code)?;
        expect("the 65th design", number == if at < 64 { 0 } else { 11 })?;
        set.store = store;
    }
    set.store[0] = 65;
    expect("65 in the store", trial::request(seen, rng, &set, 0, 0, 0, b"N")?.0 == 21)?;

    let set = mill_setting(&mill::A, &crowd(2));
    let answers = garbage::<u8>(rng, 256);
    let (run, store, given) = trial::run_batch(seen, rng, &set, &[1, 0, 2, 0, 0], &answers)?;
    expect(
        "a batch of none",
        run == BatchRun::default() && store == set.store && given == answers,
    )?;
    let mut bytes = mill::scheme_card(&mill::scheme(&mill::A));
    bytes.extend(mill::card(&mill::roster_body(&crowd(1))));
    bytes.extend([1, 0, 2, 0, 0]);
    let text = garbage::<u8>(rng, model::BATCH_TEXT_BYTES);
    let (answer, after) = trial::batch_text(seen, rng, &bytes, &text)?;
    expect("the text of a batch of none", &after[..answer.bytes] == b"E 0 0\n")?;

    // A batch of 256, and of 257.
    for (count, number) in [(256, 0), (257, 1)] {
        let asked: Vec<mill::Asked> = (0..count).map(|_| (0, 0, 0, b"W".to_vec())).collect();
        let card = mill::card(&mill::batch_body(&asked));
        let answers = garbage::<u8>(rng, 300);
        let (run, _, _) = trial::run_batch(seen, rng, &set, &card, &answers)?;
        expect("requests in a batch", run.number == number)?;
    }
    // Cards of 65,536 bytes and of one and two more: a batch of codes of 255 bytes.
    for more in 0..3 {
        let mut asked: Vec<mill::Asked> = (0..253).map(|_| (0, 0, 0, vec![b'A'; 255])).collect();
        asked.push((0, 0, 0, vec![b'A'; more]));
        let body = mill::batch_body(&asked);
        expect("the length of a long card", body.len() == 65_533 + more)?;
        let answers = garbage::<u8>(rng, 256);
        let (run, _, _) = trial::run_batch(seen, rng, &set, &mill::card(&body), &answers)?;
        expect("a long card", run.number == if more == 0 { 0 } else { 1 })?;
    }
    // The most lines of a verdict: 64 creates and 8 types. And the largest listings:
    // as many states as the program's budget, and more.
    let creates = MadeScheme { commands: vec![create; 64], types: 8, kinds: 1, rights: 1 };
    let line = |states: &str| format!("C 0 {states}\n").into_bytes();
    let cases = [
        (creates, line("0 1")),
        (toggles(11), line("0 2048")),
        (ring(11), line("0 2048")),
        (toggles(12), line("18 2048")),
    ];
    for (made, first) in cases {
        let card = mill::scheme_card(&made.scheme());
        let table = garbage::<u32>(rng, 8 * BUDGET + 8);
        let text = garbage::<u8>(rng, model::VERDICT_TEXT_BYTES);
        let (_, _, after) = trial::verdict_text(seen, rng, &card, &table, &text)?;
        expect("the first line of a large verdict", after.starts_with(&first))?;
    }

    one_short(seen, rng)
}

/// Every buffer with exactly its room, and one short.
fn one_short(seen: &mut Seen, rng: &mut Random) -> Tried<()> {
    let people = mill::worked_roster();
    let a = mill::scheme(&mill::A);
    let mut whole = mill_setting(&mill::A, &people);
    whole.store = trial::request(seen, rng, &whole, 0, 0, 0, b"W-104")?.1;
    let roster_card = mill::card(&mill::roster_body(&people));
    let batch_card = mill::card(&mill::batch_body(&mill::worked_requests()));
    for lacking in [0, 1] {
        let due = if lacking == 1 { 20 } else { 0 };
        let buffer = garbage::<Command>(rng, 64 - lacking);
        let read = trial::read_scheme(seen, rng, &mill::scheme_card(&a), &buffer)?.0;
        expect("room for commands", read.number == due)?;
        let buffer = garbage::<u32>(rng, 128 - lacking);
        let read = trial::read_roster(seen, rng, &a, &roster_card, &buffer)?.0;
        expect("room for people", read.number == due)?;
        for which in 0..2 {
            let mut set = whole.clone();
            if which == 0 {
                set.roster.truncate(128 - lacking);
            } else {
                set.store.truncate(2305 - lacking);
            }
            let answers = [7u8; 256];
            let list = [9u32; 64];
            let table = garbage::<u32>(rng, 88);
            let numbers = [
                trial::request(seen, rng, &set, 0, 0, 0, b"W-105")?.0,
                trial::run_batch(seen, rng, &set, &batch_card, &answers)?.0.number,
                trial::may_use(seen, rng, &set, 0, 0, b"W-104")?.number,
                trial::access_list(seen, rng, &set, b"W-104", &list)?.0.number,
                trial::verdict_of_design(seen, rng, &set, b"W-104", 0, 7, 11, &table)?.0.number,
            ];
            expect("room of roster and store", numbers == [due; 5])?;
        }
        let answers = garbage::<u8>(rng, 256 - lacking);
        let run = trial::run_batch(seen, rng, &whole, &batch_card, &answers)?.0;
        expect("room for answers", run.number == due)?;
        let list = garbage::<u32>(rng, 64 - lacking);
        let shown = trial::access_list(seen, rng, &whole, b"W-104", &list)?.0;
        expect("room for a list", shown.number == due)?;
        let text = garbage::<u8>(rng, model::BATCH_TEXT_BYTES - lacking);
        let answer = trial::batch_text(seen, rng, &mill::worked_batch(), &text)?.0;
        expect("room for a batch's text", answer.number == due)?;
        let table = garbage::<u32>(rng, 8 * BUDGET);
        let text = garbage::<u8>(rng, model::VERDICT_TEXT_BYTES - lacking);
        let card = mill::scheme_card(&a);
        let answer = trial::verdict_text(seen, rng, &card, &table, &text)?.0;
        expect("room for a verdict's text", answer.number == due)?;

        let due = if lacking == 1 { 15 } else { 0 };
        let table = garbage::<u32>(rng, 88 - lacking);
        let verdict = trial::verdict_of_create(seen, rng, &a, 0, 0, 7, 11, &table)?.0;
        expect("room for rows", verdict.number == due)?;
        let verdict = trial::verdict_of_design(seen, rng, &whole, b"W-104", 0, 7, 11, &table)?.0;
        expect("room for rows from a design", verdict.number == due)?;
        let table = garbage::<u32>(rng, 8 * BUDGET - lacking);
        let text = garbage::<u8>(rng, model::VERDICT_TEXT_BYTES);
        let answer = trial::verdict_text(seen, rng, &card, &table, &text)?.0;
        expect("room for rows of the program", answer.number == due)?;
    }
    // Nothing lent at all.
    let nothing = Setting { roster: vec![], store: vec![], commands: vec![], ..whole };
    trial::read_scheme(seen, rng, &[], &[])?;
    trial::read_roster(seen, rng, &nothing.scheme(), &[], &[])?;
    trial::request(seen, rng, &nothing, 0, 0, 0, &[])?;
    trial::run_batch(seen, rng, &nothing, &[], &[])?;
    trial::may_use(seen, rng, &nothing, 0, 0, &[])?;
    trial::access_list(seen, rng, &nothing, &[], &[])?;
    trial::verdict_of_create(seen, rng, &nothing.scheme(), 0, 0, 0, 0, &[])?;
    trial::verdict_of_design(seen, rng, &nothing, &[], 0, 0, 0, &[])?;
    trial::batch_text(seen, rng, &[], &[])?;
    trial::verdict_text(seen, rng, &[], &[], &[])?;
    trial::batch_wanted(seen, rng, &[])?;
    trial::verdict_wanted(seen, rng, &[])?;
    Ok(())
}

/// Every number of every call at and past its limit, one at a time, up to the
/// largest; the others are in range.
fn huge_numbers(seen: &mut Seen, rng: &mut Random) -> Tried<()> {
    let people = mill::worked_roster();
    let mut good = mill_setting(&mill::A, &people);
    good.store = trial::request(seen, rng, &good, 0, 0, 0, b"W-104")?.1;
    let roster_card = mill::card(&mill::roster_body(&people));
    let batch_card = mill::card(&mill::batch_body(&mill::worked_requests()));
    let table = garbage::<u32>(rng, 8 * BUDGET + 8);
    let mut numbers: Vec<usize> =
        (0..=70).chain([127, 128, 255, 256, 257, 2047, 2048, 2049]).collect();
    for bits in [8, 16, 31, 32, 33, 58, 59, 60, 61, 62, 63] {
        let power = 1usize << bits;
        numbers.extend([power - 1, power, power + 1, power + 3, power + 7, power + 11]);
    }
    numbers.extend((0..16).map(|less| usize::MAX - less));
    for n in numbers {
        // The counts of the scheme and of the people, in every call that takes them.
        for which in 0..4 {
            let mut set = good.clone();
            match which {
                0 => set.types = n,
                1 => set.kinds = n,
                2 => set.rights = n,
                _ => set.people = n,
            }
            trial::request(seen, rng, &set, 0, 0, 0, b"W-105")?;
            trial::run_batch(seen, rng, &set, &batch_card, &[3; 256])?;
            trial::may_use(seen, rng, &set, 0, 0, b"W-104")?;
            trial::access_list(seen, rng, &set, b"W-104", &[4; 64])?;
            trial::verdict_of_design(seen, rng, &set, b"W-104", 0, 7, 11, &table)?;
            if which < 3 {
                trial::read_roster(seen, rng, &set.scheme(), &roster_card, &[5; 128])?;
                trial::verdict_of_create(seen, rng, &set.scheme(), 0, 0, 7, 11, &table)?;
            }
        }
        // The numbers of a request, a question and a verdict.
        trial::request(seen, rng, &good, n, 0, 0, b"W-104")?;
        trial::request(seen, rng, &good, 1, n, 0, b"W-104")?;
        trial::request(seen, rng, &good, 1, 0, n, b"W-104")?;
        trial::request(seen, rng, &good, 1, n, n, b"W-104")?;
        trial::may_use(seen, rng, &good, n, 0, b"W-104")?;
        trial::may_use(seen, rng, &good, 0, n, b"W-104")?;
        let s = good.scheme();
        trial::verdict_of_create(seen, rng, &s, n, 0, 7, 11, &table)?;
        trial::verdict_of_create(seen, rng, &s, 0, n, 7, 11, &table)?;
        trial::verdict_of_create(seen, rng, &s, 0, 0, n, 11, &table)?;
        trial::verdict_of_create(seen, rng, &s, 0, 0, 7, n, &table)?;
        trial::verdict_of_design(seen, rng, &good, b"W-104", n, 7, 11, &table)?;
        trial::verdict_of_design(seen, rng, &good, b"W-104", 0, n, 11, &table)?;
        trial::verdict_of_design(seen, rng, &good, b"W-104", 0, 7, n, &table)?;
        // A budget past all room, with no room at all.
        trial::verdict_of_create(seen, rng, &s, 0, 0, 7, n, &[])?;
        trial::verdict_of_design(seen, rng, &good, b"W-104", 0, 7, n, &[])?;
    }
    Ok(())
}

/// Every byte at every kind of place in a code, in every place that has codes.
fn codes(seen: &mut Seen, rng: &mut Random) -> Tried<()> {
    let mut tried: Vec<Vec<u8>> = Vec::new();
    for byte in 0..=255u8 {
        tried.push(vec![byte]);
        tried.push(vec![byte, b'A']);
        tried.push(vec![b'A', byte]);
        tried.push(vec![b'A', byte, b'A']);
        for at in [0, 3, 4, 7, 8, 10, 11] {
            let mut code = b"AAAAAAAAAAAA".to_vec();
            code[at] = byte;
            tried.push(code);
        }
    }
    for length in (0..=30).chain([254, 255, 256, 257, 512]) {
        tried.push(vec![b'A'; length]);
        tried.push(vec![b'0'; length]);
        tried.push(vec![b'-'; length]);
        tried.push(vec![0; length]);
    }
    let create = Command { form: CREATE, z: 1, ..Default::default() };
    let base = mill_setting(&[create], &crowd(2));
    for code in &tried {
        let good = spelled(code);
        let (number, store) = trial::request(seen, rng, &base, 0, 1, 1, code)?;
        expect("a code of a create", number == if good { 0 } else { 4 })?;
        let set = Setting { store, ..base.clone() };
        let table = [5u32; 16];
        trial::may_use(seen, rng, &set, 1, 0, code)?;
        trial::access_list(seen, rng, &set, code, &[3; 64])?;
        trial::verdict_of_design(seen, rng, &set, code, 0, 0, 2, &table)?;
        if code.len() <= 255 {
            let card = mill::card(&mill::roster_body(&[(0, b"P9".to_vec()), (0, code.clone())]));
            let (read, _) = trial::read_roster(seen, rng, &base.scheme(), &card, &[1; 128])?;
            expect("a code on a roster card", read.number == if good { 0 } else { 4 })?;
            let card = mill::card(&mill::batch_body(&[(0, 0, 0, code.clone())]));
            let (_, _, given) = trial::run_batch(seen, rng, &base, &card, &[9; 256])?;
            expect("a code of a batch", given[0] == if good { 0 } else { 4 })?;
        }
        if code.len() <= 12 {
            // The same bytes in lent words, as they are.
            let mut set = base.clone();
            set.roster[5..8].copy_from_slice(&packed(code));
            trial::request(seen, rng, &set, 0, 0, 0, b"W")?;
            let mut set = base.clone();
            set.store[0] = 1;
            set.store[2..5].copy_from_slice(&packed(code));
            trial::access_list(seen, rng, &set, code, &[3; 64])?;
        }
    }
    Ok(())
}

// Cards.

fn scheme_cards(seen: &mut Seen, rng: &mut Random) -> Tried<()> {
    let mut set = make::wide_scheme_only(rng);
    let mut sure = Some(0);
    if rng.percent(35) {
        // Numbers out of range that fit a byte, filling exact.
        if let Some(fault) = damage(rng, &mut set, &[SCHEME_FAULTS]) {
            let fits = set.types < 256 && set.kinds < 256 && set.rights < 256;
            sure = if fits && set.commands.len() < 256 { Some(fault.number) } else { None };
        }
    }
    let mut card = make::scheme_card_of(&set);
    if rng.percent(30) {
        make::damage_card(rng, &mut card);
        sure = None;
    }
    let mut length = 64 + if rng.percent(40) { rng.below(20) } else { 0 };
    if rng.percent(5) {
        length = short(rng, 64);
        sure = Some(20);
    }
    let commands = garbage::<Command>(rng, length);
    let (read, _) = trial::read_scheme(seen, rng, &card, &commands)?;
    expect("the number of a scheme card", sure.is_none() || sure == Some(read.number))
}

fn roster_cards(seen: &mut Seen, rng: &mut Random) -> Tried<()> {
    let mut set = make::wide_scheme_only(rng);
    let mut people = make::people_for_card(rng, set.types);
    let mut sure = Some(0);
    if rng.percent(35) {
        sure = Some(make::damage_people(rng, set.types, &mut people));
        if rng.percent(20) {
            if !people.is_empty() {
                make::damage_people(rng, set.types, &mut people);
            }
            sure = None;
        }
    }
    let mut card = mill::card(&mill::roster_body(&people));
    if rng.percent(15) {
        if let Some(fault) = damage(rng, &mut set, &[SCHEME_FAULTS]) {
            seen.note(&format!("fault in read_roster, {}", fault.name));
            sure = Some(fault.number);
        }
    }
    if rng.percent(25) {
        make::damage_card(rng, &mut card);
        sure = None;
    }
    let mut length = 128 + if rng.percent(40) { rng.below(60) } else { 0 };
    if rng.percent(5) {
        length = short(rng, 128);
        sure = Some(20);
    }
    let roster = garbage::<u32>(rng, length);
    let (read, _) = trial::read_roster(seen, rng, &set.scheme(), &card, &roster)?;
    expect("the number of a roster card", sure.is_none() || sure == Some(read.number))
}

// Requests, histories, batches.

fn requests(seen: &mut Seen, rng: &mut Random) -> Tried<()> {
    let mut set = make::wide_setting(rng);
    let mut asked = make::request(rng, &set);
    if rng.percent(45) {
        make::disturb(rng, &set, &mut asked);
        if rng.percent(30) {
            make::disturb(rng, &set, &mut asked);
        }
    }
    let harm = damaged(rng, &mut set);
    let (command, source, destination, code) = asked;
    let (number, _) = trial::request(seen, rng, &set, command, source, destination, &code)?;
    if number == 4 && matches!(harm, Damage::None) {
        seen.note("request 4 for its code");
    }
    harm.check(seen, "request", number)
}

/// A person more, if there is room.
fn grow(rng: &mut Random, set: &mut Setting) -> bool {
    if set.people >= 32 {
        return false;
    }
    let taken: HashSet<Vec<u8>> = (0..set.people).map(|p| set.code_of_person(p)).collect();
    let code = make::new_code(rng, &taken);
    let at = 4 * set.people;
    set.roster[at] = rng.below(set.types) as u32;
    set.roster[at + 1..at + 4].copy_from_slice(&packed(&code));
    set.people += 1;
    true
}

/// Many requests upon one store, the roster growing between them.
fn histories(seen: &mut Seen, rng: &mut Random) -> Tried<()> {
    let mut set =
        if rng.percent(50) { make::wide_setting(rng) } else { make::verdict_setting(rng) };
    for _ in 0..rng.between(20, 120) {
        if rng.percent(5) {
            grow(rng, &mut set);
        }
        let mut asked = make::request(rng, &set);
        if rng.percent(15) {
            make::disturb(rng, &set, &mut asked);
        }
        let (command, source, destination, code) = asked;
        let (_, store) = trial::request(seen, rng, &set, command, source, destination, &code)?;
        set.store = store;
        if rng.percent(10) {
            let list = garbage::<u32>(rng, 64);
            trial::access_list(seen, rng, &set, &code, &list)?;
            let (person, right) = (rng.below(set.people), rng.below(set.rights));
            trial::may_use(seen, rng, &set, person, right, &code)?;
        }
    }
    Ok(())
}

/// Requests for a batch card; the setting goes along, so that later ones may succeed.
fn requests_for_card(rng: &mut Random, set: &Setting) -> Vec<mill::Asked> {
    let count = match rng.below(12) {
        0 => 0,
        1 => 256,
        2 => 255,
        3..=9 => rng.between(1, 16),
        _ => rng.between(1, 256),
    };
    let s = set.scheme();
    let mut going = set.clone();
    let persons = model::lent::roster_of(&s, &set.roster, set.people).expect("valid");
    let mut designs = model::lent::store_of(&s, set.people, &set.store).expect("valid");
    let mut list = Vec::new();
    for _ in 0..count {
        let mut asked = make::request(rng, &going);
        if rng.percent(20) {
            make::disturb(rng, &going, &mut asked);
        }
        asked.3.truncate(255);
        let asked = (asked.0 as u8, asked.1 as u8, asked.2 as u8, asked.3);
        let (c, from, to) = (asked.0 as usize, asked.1 as usize, asked.2 as usize);
        if model::carry_out(&s, &persons, &mut designs, c, from, to, &asked.3) == 0 {
            going.store = model::lent::store_words(&designs, &going.store);
        }
        list.push(asked);
    }
    list
}

fn batches(seen: &mut Seen, rng: &mut Random) -> Tried<()> {
    let mut set = make::wide_setting(rng);
    let list = requests_for_card(rng, &set);
    let mut card = mill::card(&mill::batch_body(&list));
    let mut length = 256 + if rng.percent(40) { rng.below(60) } else { 0 };
    let harm = damaged(rng, &mut set);
    let mut harmed_card = false;
    if rng.percent(20) {
        make::damage_card(rng, &mut card);
        harmed_card = true;
    } else if rng.percent(5) {
        // Counts that the body doesn't bear out, or over 256.
        let count = rng.pick(&[257, 512, 65_535, list.len() as u16 + 1]);
        card[3..5].copy_from_slice(&count.to_be_bytes());
        harmed_card = true;
    }
    if rng.percent(4) {
        length = short(rng, 256);
        harmed_card = true;
    }
    let answers = garbage::<u8>(rng, length);
    let (run, _, _) = trial::run_batch(seen, rng, &set, &card, &answers)?;
    if harmed_card {
        return Ok(());
    }
    harm.check(seen, "run_batch", run.number)
}

// Questions and access lists.

/// A code of the store, or nearly, or not at all.
fn some_code(rng: &mut Random, set: &Setting) -> Vec<u8> {
    let mut code = if set.designs() > 0 && rng.percent(85) {
        set.code_of(rng.below(set.designs()))
    } else {
        make::code(rng)
    };
    if rng.percent(10) {
        code = make::bad_code(rng, &code);
    } else if rng.percent(10) {
        code = make::near_code(rng, &code);
    }
    code
}

fn questions(seen: &mut Seen, rng: &mut Random) -> Tried<()> {
    let mut set = make::wide_setting(rng);
    let code = some_code(rng, &set);
    let mut person = rng.below(set.people);
    let mut right = rng.below(set.rights);
    if rng.percent(12) {
        person = odd_number(rng, set.people);
    }
    if rng.percent(12) {
        right =
            if rng.percent(50) { rng.pick(&[31, 32, 33, 64]) } else { odd_number(rng, set.rights) };
    }
    let harm = damaged(rng, &mut set);
    let answer = trial::may_use(seen, rng, &set, person, right, &code)?;
    harm.check(seen, "may_use", answer.number)
}

fn access_lists(seen: &mut Seen, rng: &mut Random) -> Tried<()> {
    let mut set = make::wide_setting(rng);
    let code = some_code(rng, &set);
    let mut harm = damaged(rng, &mut set);
    let mut length = 64 + if rng.percent(40) { rng.below(20) } else { 0 };
    if rng.percent(4) {
        length = short(rng, 64);
        harm = Damage::Short;
    }
    let list = garbage::<u32>(rng, length);
    let (answer, _) = trial::access_list(seen, rng, &set, &code, &list)?;
    harm.check(seen, "access_list", answer.number)
}

// Verdicts.

/// A table for a budget: its room or more, with garbage, or with rows that will be
/// met, or with one row all over.
fn table(rng: &mut Random, budget: usize, rows: &[Row]) -> Vec<u32> {
    let room = 8 * budget.min(BUDGET + 8);
    let length = room + if rng.percent(50) { rng.between(1, 40) } else { 0 };
    let mut words = match rng.below(4) {
        0 => vec![0; length],
        1 => garbage::<u32>(rng, length),
        // Rows of the listing in another order: none of them is listed yet.
        2 => rows.iter().rev().cycle().take(length / 8 + 1).flatten().copied().collect(),
        _ => {
            let row = rng.pick(rows);
            row.iter().cycle().take(length).copied().collect()
        }
    };
    words.truncate(length);
    words
}

/// A budget near the count of the listing, or at an edge; true if it is in range.
fn budget(seen: &mut Seen, rng: &mut Random, count: usize, whole: bool) -> usize {
    match rng.below(12) {
        0..=3 => {
            if whole {
                seen.note("budget the count");
            }
            count
        }
        4..=6 if count > 1 => {
            if whole {
                seen.note("budget one under the count");
            }
            count - 1
        }
        7 | 8 if count < BUDGET => {
            if whole {
                seen.note("budget one over the count");
            }
            count + 1
        }
        9 => rng.between(1, count),
        10 => 1,
        _ => match rng.below(4) {
            0 => 0,
            1 => BUDGET + 1,
            2 => huge(rng, 0),
            _ => huge(rng, count),
        },
    }
}

/// Type and right, mostly in range.
fn type_and_right(rng: &mut Random, types: usize, rights: usize) -> (usize, usize) {
    let mut of_type = rng.below(types);
    let mut right = rng.below(rights);
    if rng.percent(6) {
        of_type = if rng.percent(50) { odd_number(rng, types) } else { rng.pick(&[7, 8, 9]) };
    }
    if rng.percent(6) {
        right = if rng.percent(50) { odd_number(rng, rights) } else { rng.pick(&[31, 32, 33, 64]) };
    }
    (of_type, right)
}

/// How far a listing is followed before the budget is chosen. Few go to the end.
fn horizon(rng: &mut Random) -> usize {
    match rng.below(40) {
        0 => 600,
        1..=6 => 150,
        _ => 40,
    }
}

fn verdicts_of_creates(seen: &mut Seen, rng: &mut Random) -> Tried<()> {
    let mut made = match rng.below(20) {
        0 => MadeScheme {
            commands: rng.pick(&[mill::A, mill::B, mill::C]).to_vec(),
            types: 3,
            kinds: 1,
            rights: 8,
        },
        1 => make::wide_scheme(rng),
        _ => make::verdict_scheme(rng),
    };
    let creates = made.creates();
    let mut command = if creates.is_empty() { 0 } else { rng.pick(&creates) };
    let horizon = horizon(rng);
    let (rows, whole) = match made.commands.get(command).copied() {
        Some(c) if c.form == CREATE => {
            let start = verdicts::start_of_create(&c);
            let listed = verdicts::listing(&made.scheme(), c.kind as usize, start, horizon);
            (listed.rows, listed.whole)
        }
        _ => (vec![[0; 8]], false),
    };
    if rng.percent(8) {
        command = odd_number(rng, made.commands.len());
    }
    let budget = budget(seen, rng, rows.len(), whole);
    let mut table = table(rng, budget, &rows);
    let (of_type, right) = type_and_right(rng, made.types, made.rights);
    let mut sure = None;
    if rng.percent(4) && (1..=BUDGET).contains(&budget) {
        let length = short(rng, 8 * budget);
        table.truncate(length);
        sure = Some(15);
    }
    let mut harm = None;
    if rng.percent(12) {
        // Only the scheme of this setting counts.
        let mut set = make::scheme_only(made);
        harm = damage(rng, &mut set, &[SCHEME_FAULTS]);
        made = MadeScheme {
            commands: set.commands,
            types: set.types,
            kinds: set.kinds,
            rights: set.rights,
        };
    }
    if let Some(fault) = harm {
        seen.note(&format!("fault in verdict_of_create, {}", fault.name));
        sure = Some(fault.number);
    }
    let s = made.scheme();
    let (verdict, _) =
        trial::verdict_of_create(seen, rng, &s, command, of_type, right, budget, &table)?;
    expect("the number of a verdict", sure.is_none() || sure == Some(verdict.number))
}

fn verdicts_of_designs(seen: &mut Seen, rng: &mut Random) -> Tried<()> {
    let mut set =
        if rng.percent(95) { make::verdict_setting(rng) } else { make::wide_setting(rng) };
    if rng.percent(40) && set.designs() > 0 {
        spread(rng, &mut set);
    }
    let code = some_code(rng, &set);
    let horizon = horizon(rng);
    let s = set.scheme();
    let persons = model::lent::roster_of(&s, &set.roster, set.people).expect("valid");
    let designs = model::lent::store_of(&s, set.people, &set.store).expect("valid");
    let (rows, whole) = match designs.iter().find(|d| d.code == code) {
        None => (vec![[0; 8]], false),
        Some(design) => {
            let start = verdicts::start_of_design(&persons, design);
            let listed = verdicts::listing(&s, design.kind, start, horizon);
            (listed.rows, listed.whole)
        }
    };
    let budget = budget(seen, rng, rows.len(), whole);
    let mut table = table(rng, budget, &rows);
    let (of_type, right) = type_and_right(rng, set.types, set.rights);
    if rng.percent(4) && (1..=BUDGET).contains(&budget) {
        let length = short(rng, 8 * budget);
        table.truncate(length);
    }
    let harm = damaged(rng, &mut set);
    let (verdict, _) =
        trial::verdict_of_design(seen, rng, &set, &code, of_type, right, budget, &table)?;
    harm.check(seen, "verdict_of_design", verdict.number)
}

/// Leaves each right to at most one person of a type, so that nothing overlaps.
fn spread(rng: &mut Random, set: &mut Setting) {
    for at in 0..set.designs() {
        let mut held = [0u32; 8];
        let first = rng.below(set.people);
        for turn in 0..set.people {
            let person = (first + turn) % set.people;
            let of_type = set.type_of(person);
            let cell = &mut set.store[5 + 36 * at + person];
            *cell &= !held[of_type];
            held[of_type] |= *cell;
        }
    }
}

/// Independent toggles: 2^`count` states. A right comes and goes unasked.
pub fn toggles(count: usize) -> MadeScheme {
    let mut commands = vec![Command { form: CREATE, ..Default::default() }];
    for k in 0..count {
        let of_type = (k % 8) as u8;
        let there = Command {
            form: INTERNAL,
            source: of_type,
            destination: of_type,
            z: 1 << k,
            ..Default::default()
        };
        commands.push(there);
        commands.push(Command { y: 1 << k, z: 0, ..there });
    }
    MadeScheme { commands, types: 8, kinds: 1, rights: 32 }
}

/// A ring of 2^`count` states: a counter of so many digits, a right for each digit
/// and value, so that each state has one next state and the last leads to the first.
pub fn ring(count: usize) -> MadeScheme {
    let zero = |k: usize| 1u32 << (2 * k);
    let one = |k: usize| 2u32 << (2 * k);
    let all = |digit: &dyn Fn(usize) -> u32, n: usize| (0..n).fold(0, |set, k| set | digit(k));
    let start = all(&zero, count);
    let mut commands = vec![Command { form: CREATE, z: start, ..Default::default() }];
    for k in 0..=count {
        let (x, z) = if k < count {
            (all(&one, k) | zero(k), all(&zero, k) | one(k))
        } else {
            (all(&one, k), all(&zero, k))
        };
        commands.push(Command { form: INTERNAL, x, y: x, z, ..Default::default() });
    }
    MadeScheme { commands, types: 8, kinds: 1, rights: 32 }
}

/// 64 commands that mostly find listed states: toggles, and again and again the
/// same ones.
pub fn crowded(count: usize) -> MadeScheme {
    let mut made = toggles(count);
    let again: Vec<Command> = made.commands[1..].iter().copied().cycle().take(64).collect();
    made.commands.extend(again);
    made.commands.truncate(64);
    made
}

/// Listings up to the largest budget.
fn long_listings(seen: &mut Seen, rng: &mut Random) -> Tried<()> {
    let size = rng.pick(&[7, 9, 10, 11, 11, 12]);
    let mut made = match rng.below(4) {
        0 => toggles(size),
        1 => ring(size),
        2 => crowded(size.min(10)),
        _ => make::verdict_scheme(rng),
    };
    if rng.percent(50) {
        // Another order of the commands behind the create.
        for at in (2..made.commands.len()).rev() {
            made.commands.swap(at, rng.between(1, at));
        }
    }
    let Some(create) = made.creates().first().copied() else { return Ok(()) };
    let s = made.scheme();
    let c = s.commands[create];
    let listed = verdicts::listing(&s, c.kind as usize, verdicts::start_of_create(&c), BUDGET);
    let count = listed.rows.len();
    let budgets = [count, rng.between(1, count), BUDGET];
    let budget = rng.pick(&budgets);
    let table = table(rng, budget, &listed.rows);
    let (of_type, right) = type_and_right(rng, made.types, made.rights);
    trial::verdict_of_create(seen, rng, &s, create, of_type, right, budget, &table)?;
    Ok(())
}

// The programs.

/// A text buffer with its room or more, or short.
fn text_buffer(rng: &mut Random, room: usize) -> Vec<u8> {
    let length = match rng.below(20) {
        0 => short(rng, room),
        1..=9 => room + rng.below(100),
        _ => room,
    };
    // One garbage byte all over; the guard zones differ from byte to byte.
    vec![rng.byte(); length]
}

/// Bytes on standard input, mostly three cards.
fn batch_bytes(rng: &mut Random) -> Vec<u8> {
    let mut set = make::wide_setting(rng);
    set.store[0] = 0;
    let list = requests_for_card(rng, &set);
    let mut people: Vec<(u8, Vec<u8>)> =
        (0..set.people).map(|p| (set.type_of(p) as u8, set.code_of_person(p))).collect();
    if rng.percent(15) {
        make::damage_people(rng, set.types, &mut people);
    }
    if rng.percent(8) {
        damage(rng, &mut set, &[SCHEME_FAULTS]);
    }
    let mut cards = [
        make::scheme_card_of(&set),
        mill::card(&mill::roster_body(&people)),
        mill::card(&mill::batch_body(&list)),
    ];
    if rng.percent(15) {
        let at = rng.below(3);
        make::damage_card(rng, &mut cards[at]);
    }
    stream(rng, &cards)
}

/// Cards one after the other, sometimes cut off, sometimes with bytes after them.
fn stream(rng: &mut Random, cards: &[Vec<u8>]) -> Vec<u8> {
    let mut bytes = cards.concat();
    match rng.below(10) {
        0 => {
            let keep = rng.below(bytes.len() + 1);
            bytes.truncate(keep);
        }
        1 => {
            let more = rng.between(1, 50);
            bytes.extend(garbage::<u8>(rng, more));
        }
        2 if rng.percent(20) => bytes.extend(vec![1; 70_000]),
        _ => {}
    }
    bytes
}

fn batch_texts(seen: &mut Seen, rng: &mut Random) -> Tried<()> {
    let bytes = batch_bytes(rng);
    let text = text_buffer(rng, model::BATCH_TEXT_BYTES);
    trial::batch_text(seen, rng, &bytes, &text)?;
    Ok(())
}

fn verdict_bytes(rng: &mut Random) -> Vec<u8> {
    let made = if rng.percent(10) {
        // Many creates, few commands else.
        let mut made = make::verdict_scheme(rng);
        let create = Command { form: CREATE, z: 1, ..Default::default() };
        made.commands.resize(rng.between(11, 40), create);
        made
    } else {
        make::verdict_scheme(rng)
    };
    let mut set = make::scheme_only(made);
    // Long listings are tried elsewhere: few commands where many states are likely.
    if set.types >= 4 && set.commands.len() > 6 {
        set.commands.truncate(6);
    }
    if rng.percent(10) {
        damage(rng, &mut set, &[SCHEME_FAULTS]);
    }
    let mut cards = [make::scheme_card_of(&set)];
    if rng.percent(10) {
        make::damage_card(rng, &mut cards[0]);
    }
    stream(rng, &cards)
}

fn verdict_texts(seen: &mut Seen, rng: &mut Random) -> Tried<()> {
    let bytes = verdict_bytes(rng);
    let text = text_buffer(rng, model::VERDICT_TEXT_BYTES);
    let length = match rng.below(20) {
        0 => short(rng, 8 * BUDGET),
        1..=4 => 8 * BUDGET + rng.below(30),
        _ => 8 * BUDGET,
    };
    let table = garbage::<u32>(rng, length);
    trial::verdict_text(seen, rng, &bytes, &table, &text)?;
    Ok(())
}

/// How much more is to be read, upon every beginning of a short stream and some of
/// a long one; and a program that reads by it prints what it would print on all.
fn wanted(seen: &mut Seen, rng: &mut Random) -> Tried<()> {
    let batch = rng.percent(50);
    let bytes = if batch { batch_bytes(rng) } else { verdict_bytes(rng) };
    let ask = if batch { trial::batch_wanted } else { trial::verdict_wanted };
    if bytes.len() <= 120 {
        for keep in 0..=bytes.len() {
            ask(seen, rng, &bytes[..keep])?;
        }
    } else {
        for _ in 0..20 {
            let keep = rng.below(bytes.len() + 1);
            ask(seen, rng, &bytes[..keep])?;
        }
    }
    let mut have = 0;
    loop {
        let more = ask(seen, rng, &bytes[..have])?;
        if more == 0 || have == bytes.len() {
            break;
        }
        have = bytes.len().min(have + more);
    }
    let same = if batch {
        let text = vec![0; model::BATCH_TEXT_BYTES];
        let whole = trial::batch_text(seen, rng, &bytes, &text)?;
        trial::batch_text(seen, rng, &bytes[..have], &text)? == whole
    } else {
        let (table, text) = (vec![0; 8 * BUDGET], vec![0; model::VERDICT_TEXT_BYTES]);
        let whole = trial::verdict_text(seen, rng, &bytes, &table, &text)?;
        trial::verdict_text(seen, rng, &bytes[..have], &table, &text)? == whole
    };
    expect("what a reading program prints", same)
}

// Demand 3: what the verdict says about every history.

/// All rights ever listed at each type, from a table.
fn reach_of(table: &[u32], states: usize) -> Row {
    let mut reach = [0; 8];
    for row in table.chunks_exact(8).take(states) {
        for (all, cell) in reach.iter_mut().zip(row) {
            *all |= cell;
        }
    }
    reach
}

/// The subject's verdict of a create for one question, and its reach by the table.
fn reach_of_create(
    seen: &mut Seen,
    rng: &mut Random,
    made: &MadeScheme,
    create: usize,
) -> Tried<Option<Row>> {
    let s = made.scheme();
    let table = vec![0xAAAA_AAAA; 8 * BUDGET];
    let (verdict, after) = trial::verdict_of_create(seen, rng, &s, create, 0, 0, BUDGET, &table)?;
    if verdict.number != 0 {
        return Ok(None);
    }
    let reach = reach_of(&after, verdict.states);
    // The answers to single questions say the same.
    let pairs: Vec<(usize, usize)> =
        (0..made.types).flat_map(|t| (0..made.rights).map(move |r| (t, r))).collect();
    let asked = if verdict.states <= 40 && pairs.len() <= 40 {
        pairs
    } else {
        (0..8).map(|_| rng.pick(&pairs)).collect()
    };
    for (t, r) in asked {
        let room = vec![0; 8 * verdict.states];
        let budget = verdict.states;
        let (single, _) = trial::verdict_of_create(seen, rng, &s, create, t, r, budget, &room)?;
        expect(
            "held and the rows of the table",
            single.number == 0 && (single.held == 1) == (reach[t] >> r & 1 == 1),
        )?;
    }
    Ok(Some(reach))
}

/// The reach by the subject's verdict of a design, if it gives one.
fn reach_of_design(
    seen: &mut Seen,
    rng: &mut Random,
    set: &Setting,
    code: &[u8],
) -> Tried<Option<Row>> {
    let table = vec![0x5555_5555; 8 * BUDGET];
    let (verdict, after) = trial::verdict_of_design(seen, rng, set, code, 0, 0, BUDGET, &table)?;
    if verdict.number != 0 {
        return Ok(None);
    }
    seen.note("demand 3: from a design in the store");
    Ok(Some(reach_of(&after, verdict.states)))
}

/// A right held somewhere that the verdict called out of reach.
fn out_of_reach(set: &Setting, design: usize, reach: &Row) -> Option<String> {
    let words = set.design(design);
    (0..set.people).find_map(|p| {
        let beyond = words[4 + p] & !reach[set.type_of(p)];
        (beyond != 0).then(|| {
            format!(
                "demand 3: person {p} of type {} holds {:08X}, beyond {:08X}",
                set.type_of(p),
                words[4 + p],
                reach[set.type_of(p)]
            )
        })
    })
}

/// A request that the model would carry out on this design, if there is one.
fn enabled(rng: &mut Random, set: &Setting, design: usize) -> Option<(usize, usize, usize)> {
    let words = set.design(design);
    let mut all = Vec::new();
    for (number, c) in set.commands.iter().enumerate() {
        if c.form == CREATE || c.kind as u32 != words[0] {
            continue;
        }
        for from in (0..set.people).filter(|p| set.type_of(*p) == c.source as usize) {
            if words[4 + from] & c.x != c.x {
                continue;
            }
            if c.form == INTERNAL {
                all.push((number, from, from));
                continue;
            }
            for to in (0..set.people).filter(|p| set.type_of(*p) == c.destination as usize) {
                all.push((number, from, to));
            }
        }
    }
    (!all.is_empty()).then(|| rng.pick(&all))
}

fn demand_3(seen: &mut Seen, rng: &mut Random) -> Tried<()> {
    let Some((made, _)) = make::calm_scheme(rng) else { return Ok(()) };
    let mut reaches: HashMap<usize, Row> = HashMap::new();
    for create in made.creates() {
        if let Some(reach) = reach_of_create(seen, rng, &made, create)? {
            reaches.insert(create, reach);
        }
    }
    let people = rng.between(1, 4);
    let mut set = Setting {
        roster: make::roster_for(rng, made.types, people),
        people,
        store: vec![0; STORE_WORDS],
        commands: made.commands,
        types: made.types,
        kinds: made.kinds,
        rights: made.rights,
    };
    seen.note("demand 3: a history");
    // Which verdicts each design has to keep to.
    let mut kept: HashMap<Vec<u8>, Vec<Row>> = HashMap::new();
    // Some designs are there already, with any rights.
    for at in 0..rng.pick(&[0, 0, 1, 2]) {
        let code = format!("OLD-{at}").into_bytes();
        let place = 1 + 36 * at;
        set.store[0] = at as u32 + 1;
        set.store[place] = rng.below(set.kinds) as u32;
        set.store[place + 1..place + 4].copy_from_slice(&packed(&code));
        // Few rights on everybody, or one right on many.
        let mut known = model::rights_mask(set.rights.min(6));
        let mut share = rng.pick(&[8, 20]);
        if rng.percent(50) {
            known = if rng.percent(50) { 1 } else { 1 << rng.below(set.rights) };
            share = 75;
        }
        for person in 0..set.people {
            set.store[place + 4 + person] = rng.bits(known, share);
        }
        let reach = reach_of_design(seen, rng, &set, &code)?;
        kept.insert(code, reach.into_iter().collect());
    }
    let creates: Vec<usize> =
        reaches.keys().copied().collect::<std::collections::BTreeSet<_>>().into_iter().collect();
    for _ in 0..rng.between(40, 160) {
        if set.people < 14 && rng.percent(8) && grow(rng, &mut set) {
            seen.note("demand 3: the roster grew");
        }
        let designs = set.designs();
        let asked = if designs == 0 || (designs < 4 && rng.percent(8)) {
            let create = rng.pick(&creates);
            let source = set.commands[create].source as usize;
            let Some(person) = (0..set.people).find(|p| set.type_of(*p) == source) else {
                grow(rng, &mut set);
                continue;
            };
            (create, person, person, make::code(rng))
        } else if rng.percent(94) {
            let design = rng.below(designs);
            match enabled(rng, &set, design) {
                Some((command, from, to)) => (command, from, to, set.code_of(design)),
                None => continue,
            }
        } else {
            make::request(rng, &set)
        };
        let (command, from, to, code) = asked;
        let (number, store) = trial::request(seen, rng, &set, command, from, to, &code)?;
        set.store = store;
        if number != 0 {
            continue;
        }
        if set.commands[command].form == CREATE {
            let kept_to = reaches.get(&command).map(|reach| vec![*reach]).unwrap_or_default();
            kept.insert(code.clone(), kept_to);
        } else if from != to && set.type_of(from) == set.type_of(to) {
            seen.note("demand 3: a grant between two people of one type");
        }
        let design = (0..set.designs()).find(|d| set.code_of(*d) == code).expect("just changed");
        let holders: Vec<usize> = (0..set.people)
            .filter(|p| set.design(design)[4 + p] != 0)
            .map(|p| set.type_of(p))
            .collect();
        if holders.iter().collect::<HashSet<_>>().len() < holders.len() {
            seen.note("demand 3: two people of one type held rights");
        }
        for reach in &kept[&code] {
            if let Some(what) = out_of_reach(&set, design, reach) {
                return Err(what);
            }
        }
        // From here on also by the verdict of the design as it stands.
        if rng.percent(6) && kept[&code].len() < 4 {
            let reach = reach_of_design(seen, rng, &set, &code)?;
            kept.get_mut(&code).expect("a design").extend(reach);
        }
    }
    Ok(())
}

/// The other sense: with one person for each type, requests lead to every right
/// that a verdict called held, and to no other. The search is over real designs.
fn reverse(seen: &mut Seen, rng: &mut Random) -> Tried<()> {
    let Some((made, create)) = make::calm_scheme(rng) else { return Ok(()) };
    let Some(reach) = reach_of_create(seen, rng, &made, create)? else {
        return Err("reverse: no verdict where the model has one".to_string());
    };
    let s = made.scheme();
    let people: Vec<(u8, Vec<u8>)> =
        (0..made.types).map(|t| (t as u8, format!("T{t}").into_bytes())).collect();
    let found = one_person_each(&s, create, &people);
    for of_type in 0..made.types {
        for right in 0..made.rights {
            let path = found.iter().find(|(cells, _)| cells[of_type] >> right & 1 == 1);
            expect(
                "a right held by the verdict and reached by requests",
                path.is_some() == (reach[of_type] >> right & 1 == 1),
            )?;
            let Some((_, path)) = path else {
                seen.note("reverse: a right not reached");
                continue;
            };
            seen.note("reverse: a right reached");
            if !rng.percent(10) {
                continue;
            }
            // The same way with the subject.
            let mut set = Setting {
                commands: made.commands.clone(),
                types: made.types,
                kinds: made.kinds,
                rights: made.rights,
                roster: roster_words(&people),
                people: people.len(),
                store: vec![0; STORE_WORDS],
            };
            for command in [create].iter().chain(path) {
                let c = made.commands[*command];
                let (from, to) = (c.source as usize, c.destination as usize);
                let (number, store) = trial::request(seen, rng, &set, *command, from, to, b"W")?;
                expect("a step of the way", number == 0)?;
                set.store = store;
            }
            let may = trial::may_use(seen, rng, &set, of_type, right, b"W")?;
            expect("the end of the way", may == MayUse { number: 0, may: 1 })?;
        }
    }
    Ok(())
}

/// Schemes like B: someone who asks for a review may ask again. Two people of one
/// type can then hold the review at once, which no stand-in shows, so that there is
/// no verdict. Types and rights are numbered anew each time.
fn like_b(seen: &mut Seen, rng: &mut Random) -> Tried<()> {
    let asks_again = [rng.percent(50), rng.percent(50)];
    let (types, rights) = (rng.between(3, 8), rng.between(8, 32));
    let (type_at, right_at) = (shuffled(rng, types), shuffled(rng, rights));
    let moved =
        |set: u32| (0..8).filter(|k| set >> k & 1 == 1).fold(0, |all, k| all | 1u32 << right_at[k]);
    let mut commands = mill::A.to_vec();
    for (command, again) in [2, 3].into_iter().zip(asks_again) {
        if again {
            commands[command].y = 0;
        }
    }
    for c in commands.iter_mut() {
        c.source = type_at[c.source as usize] as u8;
        c.destination = type_at[c.destination as usize] as u8;
        (c.x, c.y, c.z) = (moved(c.x), moved(c.y), moved(c.z));
    }
    let people: Vec<(u8, Vec<u8>)> =
        [(0, "ANN"), (1, "LAB-1"), (1, "LAB-2"), (2, "LIC-1"), (2, "LIC-2")]
            .into_iter()
            .map(|(t, code): (usize, &str)| (type_at[t] as u8, code.as_bytes().to_vec()))
            .collect();
    let mut set = Setting {
        commands,
        types,
        kinds: 1,
        rights,
        roster: roster_words(&people),
        people: people.len(),
        store: vec![0; STORE_WORDS],
    };
    for (command, to) in [(0, 0), (1, 0), (2, 1), (2, 2), (3, 3), (3, 4)] {
        let (_, store) = trial::request(seen, rng, &set, command, 0, to, b"W")?;
        set.store = store;
    }
    let review = moved(0x10);
    let cell = |person: usize| set.store[5 + person] & review;
    let together = cell(1) & cell(2) != 0 || cell(3) & cell(4) != 0;
    expect("two of a type with the review", together == asks_again.contains(&true))?;
    let table = vec![0xAAAA_AAAA; 8 * BUDGET];
    let (verdict, _) = trial::verdict_of_create(
        seen,
        rng,
        &set.scheme(),
        0,
        type_at[0],
        right_at[7],
        BUDGET,
        &table,
    )?;
    seen.note(if together { "like B: refused with 19" } else { "like B: a verdict" });
    expect("a verdict only where none hold it together", verdict.number == 19 * together as u8)
}

/// The numbers below n, in any order.
fn shuffled(rng: &mut Random, n: usize) -> Vec<usize> {
    let mut all: Vec<usize> = (0..n).collect();
    for last in (1..n).rev() {
        all.swap(last, rng.below(last + 1));
    }
    all
}

/// Every state of a design that requests of one person for each type lead to, with
/// the commands that lead there, nearest first.
pub fn one_person_each(
    s: &Scheme,
    create: usize,
    people: &[(u8, Vec<u8>)],
) -> Vec<([u32; 32], Vec<usize>)> {
    let persons =
        model::lent::roster_of(s, &roster_words(people), people.len()).expect("a valid roster");
    let at = s.commands[create].source as usize;
    let mut designs = Vec::new();
    assert_eq!(model::carry_out(s, &persons, &mut designs, create, at, at, b"W"), 0);
    let mut met = HashSet::from([designs[0].cells]);
    let mut found = vec![(designs[0].cells, Vec::new())];
    let mut ahead = VecDeque::from([(designs, Vec::new())]);
    while let Some((designs, path)) = ahead.pop_front() {
        for (number, c) in s.commands.iter().enumerate().filter(|(_, c)| c.form != CREATE) {
            let (from, to) = (c.source as usize, c.destination as usize);
            let mut next = designs.clone();
            if model::carry_out(s, &persons, &mut next, number, from, to, b"W") == 0
                && met.insert(next[0].cells)
            {
                let mut way: Vec<usize> = path.clone();
                way.push(number);
                found.push((next[0].cells, way.clone()));
                ahead.push_back((next, way));
            }
        }
    }
    found
}
