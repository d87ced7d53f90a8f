//! One call of the subject, compared with the model: the answer and all lent
//! memory, read-only buffers and guard zones with it.

use crate::answers::*;
use crate::guard::Guarded;
use crate::make::Setting;
use crate::model;
use crate::random::Random;
use crate::subject;
use std::collections::BTreeMap;
use std::fmt::Debug;

pub type Tried<T> = Result<T, String>;

/// What was met so far, and whether differences come with all inputs.
#[derive(Default)]
pub struct Seen {
    pub verbose: bool,
    pub calls: u64,
    pub met: BTreeMap<String, u64>,
}

impl Seen {
    pub fn note(&mut self, what: &str) {
        *self.met.entry(what.to_string()).or_insert(0) += 1;
    }

    fn answered(&mut self, call: &str, number: u8) {
        self.calls += 1;
        self.note(&format!("{call} {number}"));
    }
}

fn answer<T: PartialEq + Debug>(expected: &T, found: &T) -> Tried<()> {
    if expected == found {
        Ok(())
    } else {
        Err(format!("answer: expected {expected:?}, found {found:?}"))
    }
}

/// The scheme and the read-only roster of a setting, in guarded buffers.
struct Lent {
    commands: Guarded<Command>,
    roster: Guarded<u32>,
    store: Guarded<u32>,
}

impl Lent {
    fn new(rng: &mut Random, set: &Setting) -> Lent {
        Lent {
            commands: Guarded::new(rng, "commands", &set.commands),
            roster: Guarded::new(rng, "roster", &set.roster),
            store: Guarded::new(rng, "store", &set.store),
        }
    }

    fn untouched(&mut self) -> Tried<()> {
        self.commands.untouched()?;
        self.roster.untouched()
    }
}

/// Names the call and, if asked, all inputs.
fn named<T>(
    seen: &Seen,
    outcome: Tried<T>,
    call: &str,
    inputs: impl FnOnce() -> String,
) -> Tried<T> {
    outcome.map_err(|what| {
        if seen.verbose {
            format!("{call}: {what}\ninputs: {}", inputs())
        } else {
            format!("{call}: {what}")
        }
    })
}

pub fn read_scheme(
    seen: &mut Seen,
    rng: &mut Random,
    card: &[u8],
    commands: &[Command],
) -> Tried<(SchemeRead, Vec<Command>)> {
    let (expected, after) = model::read_scheme(card, commands);
    let mut lent_card = Guarded::new(rng, "card", card);
    let mut lent = Guarded::new(rng, "commands", commands);
    let found = subject::read_scheme(lent_card.lent(), lent.lent_mut());
    let mut all = || {
        answer(&expected, &found)?;
        lent_card.untouched()?;
        lent.holds(&after)
    };
    let outcome = all();
    seen.answered("read_scheme", expected.number);
    named(seen, outcome, "read_scheme", || format!("card {card:X?} commands {commands:?}"))?;
    Ok((expected, after))
}

pub fn read_roster(
    seen: &mut Seen,
    rng: &mut Random,
    s: &Scheme,
    card: &[u8],
    roster: &[u32],
) -> Tried<(RosterRead, Vec<u32>)> {
    let (expected, after) = model::read_roster(s, card, roster);
    let mut commands = Guarded::new(rng, "commands", s.commands);
    let mut lent_card = Guarded::new(rng, "card", card);
    let mut lent = Guarded::new(rng, "roster", roster);
    let found = subject::read_roster(
        commands.lent(),
        s.types,
        s.kinds,
        s.rights,
        lent_card.lent(),
        lent.lent_mut(),
    );
    let mut all = || {
        answer(&expected, &found)?;
        commands.untouched()?;
        lent_card.untouched()?;
        lent.holds(&after)
    };
    let outcome = all();
    seen.answered("read_roster", expected.number);
    named(seen, outcome, "read_roster", || format!("{s:?} card {card:X?} roster {roster:X?}"))?;
    Ok((expected, after))
}

/// The answer and the store afterwards.
pub fn request(
    seen: &mut Seen,
    rng: &mut Random,
    set: &Setting,
    command: usize,
    source: usize,
    destination: usize,
    code: &[u8],
) -> Tried<(u8, Vec<u32>)> {
    let s = set.scheme();
    let (expected, after) =
        model::request(&s, &set.roster, set.people, &set.store, command, source, destination, code);
    let mut lent = Lent::new(rng, set);
    let mut lent_code = Guarded::new(rng, "code", code);
    let found = subject::request(
        lent.commands.lent(),
        set.types,
        set.kinds,
        set.rights,
        lent.roster.lent(),
        set.people,
        lent.store.lent_mut(),
        command,
        source,
        destination,
        lent_code.lent(),
    );
    let mut all = || {
        answer(&expected, &found)?;
        lent.untouched()?;
        lent_code.untouched()?;
        lent.store.holds(&after)
    };
    let outcome = all();
    seen.answered("request", expected);
    named(seen, outcome, "request", || {
        format!("{command} {source} {destination} {code:X?} {set:X?}")
    })?;
    Ok((expected, after))
}

/// The answer, the store and the answers of the requests.
pub fn run_batch(
    seen: &mut Seen,
    rng: &mut Random,
    set: &Setting,
    card: &[u8],
    answers: &[u8],
) -> Tried<(BatchRun, Vec<u32>, Vec<u8>)> {
    let s = set.scheme();
    let (expected, after, given) =
        model::run_batch(&s, &set.roster, set.people, &set.store, card, answers);
    let mut lent = Lent::new(rng, set);
    let mut lent_card = Guarded::new(rng, "card", card);
    let mut lent_answers = Guarded::new(rng, "answers", answers);
    let found = subject::run_batch(
        lent.commands.lent(),
        set.types,
        set.kinds,
        set.rights,
        lent.roster.lent(),
        set.people,
        lent.store.lent_mut(),
        lent_card.lent(),
        lent_answers.lent_mut(),
    );
    let mut all = || {
        answer(&expected, &found)?;
        lent.untouched()?;
        lent_card.untouched()?;
        lent_answers.holds(&given)?;
        lent.store.holds(&after)
    };
    let outcome = all();
    seen.answered("run_batch", expected.number);
    for number in &given[..expected.requests] {
        seen.note(&format!("run_batch, a request {number}"));
    }
    named(seen, outcome, "run_batch", || format!("card {card:X?} {set:X?}"))?;
    Ok((expected, after, given))
}

pub fn may_use(
    seen: &mut Seen,
    rng: &mut Random,
    set: &Setting,
    person: usize,
    right: usize,
    code: &[u8],
) -> Tried<MayUse> {
    let s = set.scheme();
    let expected = model::may_use(&s, &set.roster, set.people, &set.store, person, right, code);
    let mut lent = Lent::new(rng, set);
    let mut lent_code = Guarded::new(rng, "code", code);
    let found = subject::may_use(
        lent.commands.lent(),
        set.types,
        set.kinds,
        set.rights,
        lent.roster.lent(),
        set.people,
        lent.store.lent(),
        person,
        right,
        lent_code.lent(),
    );
    let mut all = || {
        answer(&expected, &found)?;
        lent.untouched()?;
        lent.store.untouched()?;
        lent_code.untouched()
    };
    let outcome = all();
    seen.answered("may_use", expected.number);
    if expected.number == 0 {
        seen.note(if expected.may == 1 { "may_use, yes" } else { "may_use, no" });
    }
    named(seen, outcome, "may_use", || format!("{person} {right} {code:X?} {set:X?}"))?;
    Ok(expected)
}

/// The answer and the list afterwards.
pub fn access_list(
    seen: &mut Seen,
    rng: &mut Random,
    set: &Setting,
    code: &[u8],
    list: &[u32],
) -> Tried<(AccessList, Vec<u32>)> {
    let s = set.scheme();
    let (expected, after) = model::access_list(&s, &set.roster, set.people, &set.store, code, list);
    let mut lent = Lent::new(rng, set);
    let mut lent_code = Guarded::new(rng, "code", code);
    let mut lent_list = Guarded::new(rng, "list", list);
    let found = subject::access_list(
        lent.commands.lent(),
        set.types,
        set.kinds,
        set.rights,
        lent.roster.lent(),
        set.people,
        lent.store.lent(),
        lent_code.lent(),
        lent_list.lent_mut(),
    );
    let mut all = || {
        answer(&expected, &found)?;
        lent.untouched()?;
        lent.store.untouched()?;
        lent_code.untouched()?;
        lent_list.holds(&after)
    };
    let outcome = all();
    seen.answered("access_list", expected.number);
    if expected.number == 0 {
        match expected.people {
            0 => seen.note("access_list, nobody"),
            32 => seen.note("access_list, 32 people"),
            _ => {}
        }
    }
    named(seen, outcome, "access_list", || format!("{code:X?} {set:X?}"))?;
    Ok((expected, after))
}

fn note_verdict(seen: &mut Seen, call: &str, verdict: &Verdict) {
    seen.answered(call, verdict.number);
    if verdict.number == 0 {
        seen.note(&format!("{call}, {}", if verdict.held == 1 { "held" } else { "not held" }));
    }
}

/// The answer and the table afterwards.
pub fn verdict_of_create(
    seen: &mut Seen,
    rng: &mut Random,
    s: &Scheme,
    command: usize,
    of_type: usize,
    right: usize,
    budget: usize,
    table: &[u32],
) -> Tried<(Verdict, Vec<u32>)> {
    let (expected, after) = model::verdict_of_create(s, command, of_type, right, budget, table);
    let mut commands = Guarded::new(rng, "commands", s.commands);
    let mut lent = Guarded::new(rng, "table", table);
    let found = subject::verdict_of_create(
        commands.lent(),
        s.types,
        s.kinds,
        s.rights,
        command,
        of_type,
        right,
        budget,
        lent.lent_mut(),
    );
    let mut all = || {
        answer(&expected, &found)?;
        commands.untouched()?;
        lent.holds(&after)
    };
    let outcome = all();
    note_verdict(seen, "verdict_of_create", &expected);
    named(seen, outcome, "verdict_of_create", || {
        format!("{command} {of_type} {right} {budget} {s:X?} table of {}", table.len())
    })?;
    Ok((expected, after))
}

/// The answer and the table afterwards.
pub fn verdict_of_design(
    seen: &mut Seen,
    rng: &mut Random,
    set: &Setting,
    code: &[u8],
    of_type: usize,
    right: usize,
    budget: usize,
    table: &[u32],
) -> Tried<(Verdict, Vec<u32>)> {
    let s = set.scheme();
    let (expected, after) = model::verdict_of_design(
        &s,
        &set.roster,
        set.people,
        &set.store,
        code,
        of_type,
        right,
        budget,
        table,
    );
    let mut lent = Lent::new(rng, set);
    let mut lent_code = Guarded::new(rng, "code", code);
    let mut lent_table = Guarded::new(rng, "table", table);
    let found = subject::verdict_of_design(
        lent.commands.lent(),
        set.types,
        set.kinds,
        set.rights,
        lent.roster.lent(),
        set.people,
        lent.store.lent(),
        lent_code.lent(),
        of_type,
        right,
        budget,
        lent_table.lent_mut(),
    );
    let mut all = || {
        answer(&expected, &found)?;
        lent.untouched()?;
        lent.store.untouched()?;
        lent_code.untouched()?;
        lent_table.holds(&after)
    };
    let outcome = all();
    note_verdict(seen, "verdict_of_design", &expected);
    named(seen, outcome, "verdict_of_design", || {
        format!("{code:X?} {of_type} {right} {budget} {set:X?} table of {}", table.len())
    })?;
    Ok((expected, after))
}

/// The answer and the text afterwards.
pub fn batch_text(
    seen: &mut Seen,
    rng: &mut Random,
    bytes: &[u8],
    text: &[u8],
) -> Tried<(Text, Vec<u8>)> {
    let (expected, after) = model::batch_text(bytes, text);
    let mut lent_bytes = Guarded::new(rng, "bytes", bytes);
    let mut lent = Guarded::new(rng, "text", text);
    let found = subject::batch_text(lent_bytes.lent(), lent.lent_mut());
    let mut all = || {
        answer(&expected, &found)?;
        lent_bytes.untouched()?;
        lent.holds(&after)
    };
    let outcome = all();
    seen.answered("batch_text", expected.number);
    note_refused(seen, "batch_text", expected, &after);
    named(seen, outcome, "batch_text", || format!("bytes {bytes:X?}"))?;
    Ok((expected, after))
}

/// The answer, the table and the text afterwards.
pub fn verdict_text(
    seen: &mut Seen,
    rng: &mut Random,
    bytes: &[u8],
    table: &[u32],
    text: &[u8],
) -> Tried<(Text, Vec<u32>, Vec<u8>)> {
    let (expected, table_after, after) = model::verdict_text(bytes, table, text);
    let mut lent_bytes = Guarded::new(rng, "bytes", bytes);
    let mut lent_table = Guarded::new(rng, "table", table);
    let mut lent = Guarded::new(rng, "text", text);
    let found = subject::verdict_text(lent_bytes.lent(), lent_table.lent_mut(), lent.lent_mut());
    let mut all = || {
        answer(&expected, &found)?;
        lent_bytes.untouched()?;
        lent.holds(&after)?;
        lent_table.holds(&table_after)
    };
    let outcome = all();
    seen.answered("verdict_text", expected.number);
    note_refused(seen, "verdict_text", expected, &after);
    named(seen, outcome, "verdict_text", || format!("bytes {bytes:X?}"))?;
    Ok((expected, table_after, after))
}

fn note_refused(seen: &mut Seen, call: &str, answer: Text, text: &[u8]) {
    if answer.number == 0 && text.first() == Some(&b'X') && answer.bytes > 0 {
        let line = String::from_utf8_lossy(&text[..answer.bytes - 1]).to_string();
        seen.note(&format!("{call}, {line}"));
    }
}

pub fn batch_wanted(seen: &mut Seen, rng: &mut Random, bytes: &[u8]) -> Tried<usize> {
    wanted(seen, rng, bytes, "batch_wanted", model::batch_wanted, subject::batch_wanted)
}

pub fn verdict_wanted(seen: &mut Seen, rng: &mut Random, bytes: &[u8]) -> Tried<usize> {
    wanted(seen, rng, bytes, "verdict_wanted", model::verdict_wanted, subject::verdict_wanted)
}

fn wanted(
    seen: &mut Seen,
    rng: &mut Random,
    bytes: &[u8],
    call: &str,
    model: fn(&[u8]) -> usize,
    subject: fn(&[u8]) -> usize,
) -> Tried<usize> {
    let expected = model(bytes);
    let mut lent = Guarded::new(rng, "bytes", bytes);
    let found = subject(lent.lent());
    let mut all = || {
        answer(&expected, &found)?;
        lent.untouched()
    };
    let outcome = all();
    seen.calls += 1;
    seen.note(&format!("{call}, {}", if expected == 0 { "none" } else { "more" }));
    named(seen, outcome, call, || format!("bytes {bytes:X?}"))?;
    Ok(expected)
}
