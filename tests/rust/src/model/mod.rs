//! The model: the rules, read a second time, with lists, maps and wide numbers.
//!
//! Each call is a pure function from its inputs to the answer and all lent memory
//! at exit. Nothing here was taken from the library's definitions or code.
//!
//! A check gives `Err(number)` when it refuses, so that the order of refusals is
//! the order in which a call asks its checks.

pub mod cards;
pub mod codes;
pub mod lent;
pub mod text;
pub mod verdicts;

use crate::answers::*;
use lent::{Design, Person};

// Sizes: the most of each.
pub const TYPES: usize = 8;
pub const KINDS: usize = 4;
pub const RIGHTS: usize = 32;
pub const COMMANDS: usize = 64;
pub const PEOPLE: usize = 32;
pub const DESIGNS: usize = 64;
pub const CODE_BYTES: usize = 12;
pub const REQUESTS: usize = 256;
pub const BUDGET: usize = 2048;
pub const CARD_BYTES: usize = 65_536;

// Room of the lent buffers.
pub const ROSTER_WORDS: usize = 4 * PEOPLE;
pub const DESIGN_WORDS: usize = 4 + PEOPLE;
pub const STORE_WORDS: usize = 1 + DESIGN_WORDS * DESIGNS;
pub const LIST_WORDS: usize = 2 * PEOPLE;
pub const ROW_WORDS: usize = TYPES;
pub const BATCH_TEXT_BYTES: usize = 52_554;
pub const VERDICT_TEXT_BYTES: usize = 7_488;

// Forms of command.
pub const CREATE: u8 = 1;
pub const GRANT: u8 = 2;
pub const INTERNAL: u8 = 3;

pub type Checked<T> = Result<T, u8>;

/// `Err(number)` when `broken`.
fn refuse(number: u8, broken: bool) -> Checked<()> {
    if broken {
        Err(number)
    } else {
        Ok(())
    }
}

/// 20: a lent buffer lacks room.
fn room(has: usize, most: usize) -> Checked<()> {
    refuse(20, has < most)
}

/// The rights that a scheme with this count of rights knows.
pub fn rights_mask(rights: usize) -> u32 {
    ((1u64 << rights.min(32)) - 1) as u32
}

/// 2: a scheme breaks its sizes or card rules.
pub fn check_scheme(s: &Scheme) -> Checked<()> {
    let within = |n: usize, most: usize| (1..=most).contains(&n);
    refuse(2, !within(s.types, TYPES))?;
    refuse(2, !within(s.kinds, KINDS))?;
    refuse(2, !within(s.rights, RIGHTS))?;
    refuse(2, s.commands.len() > COMMANDS)?;
    let known = rights_mask(s.rights);
    for c in s.commands {
        refuse(2, ![CREATE, GRANT, INTERNAL].contains(&c.form))?;
        refuse(2, c.source as usize >= s.types)?;
        refuse(2, c.destination as usize >= s.types)?;
        refuse(2, c.kind as usize >= s.kinds)?;
        refuse(2, c.form != GRANT && c.source != c.destination)?;
        refuse(2, c.form == CREATE && (c.x != 0 || c.y != 0))?;
        refuse(2, (c.x | c.y | c.z) & !known != 0)?;
    }
    Ok(())
}

/// One request, without the checks of scheme, roster and store: its number, the
/// designs changed when it is 0.
pub fn carry_out(
    s: &Scheme,
    people: &[Person],
    designs: &mut Vec<Design>,
    command: usize,
    source: usize,
    destination: usize,
    code: &[u8],
) -> u8 {
    change(s, people, designs, command, source, destination, code).err().unwrap_or(0)
}

/// Every refusal comes before the first change.
fn change(
    s: &Scheme,
    people: &[Person],
    designs: &mut Vec<Design>,
    command: usize,
    source: usize,
    destination: usize,
    code: &[u8],
) -> Checked<()> {
    let c = s.commands.get(command).ok_or(6u8)?;
    let from = people.get(source).ok_or(7u8)?;
    let to = people.get(destination).ok_or(7u8)?;
    refuse(8, from.of_type != c.source as usize)?;
    refuse(8, to.of_type != c.destination as usize)?;
    refuse(9, c.form != GRANT && source != destination)?;
    refuse(4, !codes::spelled(code))?;
    let place = designs.iter().position(|d| d.code == code);
    if c.form == CREATE {
        refuse(10, place.is_some())?;
        refuse(11, designs.len() >= DESIGNS)?;
        let mut cells = [0u32; PEOPLE];
        cells[source] = c.z;
        designs.push(Design { kind: c.kind as usize, code: code.to_vec(), cells });
    } else {
        let design = &mut designs[place.ok_or(12u8)?];
        refuse(13, design.kind != c.kind as usize)?;
        refuse(14, design.cells[source] & c.x != c.x)?;
        design.cells[source] &= !c.y; // the loss comes first
        design.cells[destination] |= c.z;
    }
    Ok(())
}

pub fn read_scheme(card: &[u8], commands: &[Command]) -> (SchemeRead, Vec<Command>) {
    let read = || -> Checked<cards::SchemeCard> {
        room(commands.len(), COMMANDS)?;
        let written = cards::scheme(card)?;
        check_scheme(&written.scheme())?;
        Ok(written)
    };
    let mut after = commands.to_vec();
    match read() {
        Err(number) => (SchemeRead { number, ..Default::default() }, after),
        Ok(written) => {
            let count = written.commands.len();
            after[..count].copy_from_slice(&written.commands);
            let answer = SchemeRead {
                number: 0,
                types: written.types,
                kinds: written.kinds,
                rights: written.rights,
                commands: count,
            };
            (answer, after)
        }
    }
}

pub fn read_roster(s: &Scheme, card: &[u8], roster: &[u32]) -> (RosterRead, Vec<u32>) {
    let read = || -> Checked<Vec<Person>> {
        room(roster.len(), ROSTER_WORDS)?;
        let people = cards::roster(card)?;
        check_scheme(s)?;
        lent::check_roster(s, &people)?;
        Ok(people)
    };
    match read() {
        Err(number) => (RosterRead { number, people: 0 }, roster.to_vec()),
        Ok(people) => {
            let after = lent::roster_words(&people, roster);
            (RosterRead { number: 0, people: people.len() }, after)
        }
    }
}

/// Scheme, roster and store as far as 2, 3, 4, 5 and 21.
fn setting(
    s: &Scheme,
    roster: &[u32],
    people: usize,
    store: &[u32],
) -> Checked<(Vec<Person>, Vec<Design>)> {
    check_scheme(s)?;
    let persons = lent::roster_of(s, roster, people)?;
    let designs = lent::store_of(s, people, store)?;
    Ok((persons, designs))
}

#[allow(clippy::too_many_arguments)]
pub fn request(
    s: &Scheme,
    roster: &[u32],
    people: usize,
    store: &[u32],
    command: usize,
    source: usize,
    destination: usize,
    code: &[u8],
) -> (u8, Vec<u32>) {
    let done = || -> Checked<Vec<Design>> {
        room(roster.len(), ROSTER_WORDS)?;
        room(store.len(), STORE_WORDS)?;
        let (persons, mut designs) = setting(s, roster, people, store)?;
        change(s, &persons, &mut designs, command, source, destination, code)?;
        Ok(designs)
    };
    match done() {
        Err(number) => (number, store.to_vec()),
        Ok(designs) => (0, lent::store_words(&designs, store)),
    }
}

/// The answer, the store and the answers of the requests.
pub fn run_batch(
    s: &Scheme,
    roster: &[u32],
    people: usize,
    store: &[u32],
    card: &[u8],
    answers: &[u8],
) -> (BatchRun, Vec<u32>, Vec<u8>) {
    let ready = || -> Checked<_> {
        room(roster.len(), ROSTER_WORDS)?;
        room(store.len(), STORE_WORDS)?;
        room(answers.len(), REQUESTS)?;
        let requests = cards::batch(card)?;
        let (persons, designs) = setting(s, roster, people, store)?;
        Ok((requests, persons, designs))
    };
    let mut given = answers.to_vec();
    match ready() {
        Err(number) => (BatchRun { number, requests: 0, done: 0 }, store.to_vec(), given),
        Ok((requests, persons, mut designs)) => {
            for (place, r) in given.iter_mut().zip(&requests) {
                *place = carry_out(
                    s,
                    &persons,
                    &mut designs,
                    r.command,
                    r.source,
                    r.destination,
                    &r.code,
                );
            }
            let done = given[..requests.len()].iter().filter(|n| **n == 0).count();
            let answer = BatchRun { number: 0, requests: requests.len(), done };
            (answer, lent::store_words(&designs, store), given)
        }
    }
}

pub fn may_use(
    s: &Scheme,
    roster: &[u32],
    people: usize,
    store: &[u32],
    person: usize,
    right: usize,
    code: &[u8],
) -> MayUse {
    let asked = || -> Checked<bool> {
        room(roster.len(), ROSTER_WORDS)?;
        room(store.len(), STORE_WORDS)?;
        let (persons, designs) = setting(s, roster, people, store)?;
        refuse(15, right >= s.rights)?;
        refuse(7, person >= persons.len())?;
        refuse(4, !codes::spelled(code))?;
        let design = designs.iter().find(|d| d.code == code).ok_or(12u8)?;
        Ok(design.cells[person] & (1 << right) != 0)
    };
    match asked() {
        Err(number) => MayUse { number, may: 0 },
        Ok(may) => MayUse { number: 0, may: may as u8 },
    }
}

pub fn access_list(
    s: &Scheme,
    roster: &[u32],
    people: usize,
    store: &[u32],
    code: &[u8],
    list: &[u32],
) -> (AccessList, Vec<u32>) {
    let asked = || -> Checked<Vec<(usize, u32)>> {
        room(roster.len(), ROSTER_WORDS)?;
        room(store.len(), STORE_WORDS)?;
        room(list.len(), LIST_WORDS)?;
        let (_, designs) = setting(s, roster, people, store)?;
        refuse(4, !codes::spelled(code))?;
        Ok(designs.iter().find(|d| d.code == code).ok_or(12u8)?.access_list())
    };
    let mut after = list.to_vec();
    match asked() {
        Err(number) => (AccessList { number, people: 0 }, after),
        Ok(shown) => {
            for (at, (person, rights)) in shown.iter().enumerate() {
                after[2 * at] = *person as u32;
                after[2 * at + 1] = *rights;
            }
            (AccessList { number: 0, people: shown.len() }, after)
        }
    }
}

pub use text::{batch_text, batch_wanted, verdict_text, verdict_wanted};
pub use verdicts::{verdict_of_create, verdict_of_design};
