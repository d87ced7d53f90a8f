//! Stand-in states, the listing, and the two verdicts.

use super::lent::{Design, Person};
use super::{check_scheme, codes, refuse, room, setting, Checked};
use super::{BUDGET, CREATE, ROSTER_WORDS, ROW_WORDS, STORE_WORDS};
use crate::answers::{Command, Scheme, Verdict};
use std::collections::HashMap;

/// One cell per type; unused types 0.
pub type Row = [u32; ROW_WORDS];

/// The grants and internals of a kind, with their numbers in the scheme.
fn moves<'a>(s: &Scheme<'a>, kind: usize) -> Vec<(usize, Command)> {
    let all = s.commands.iter().copied().enumerate();
    all.filter(|(_, c)| c.kind as usize == kind && c.form != CREATE).collect()
}

/// Rights that stand in X of a grant or internal of the kind.
pub fn propagation(s: &Scheme, kind: usize) -> u32 {
    moves(s, kind).iter().fold(0, |all, (_, c)| all | c.x)
}

/// Rights that stand in Y of one.
pub fn deletable(s: &Scheme, kind: usize) -> u32 {
    moves(s, kind).iter().fold(0, |all, (_, c)| all | c.y)
}

/// The first command of the kind that isn't normal. A create has no Y.
pub fn first_not_normal(s: &Scheme, kind: usize) -> Option<usize> {
    let propagated = propagation(s, kind);
    moves(s, kind).iter().find(|(_, c)| c.y & propagated & !c.x != 0).map(|(number, _)| *number)
}

/// Two people of one type with one right that is both propagation and deletable.
pub fn overlap(s: &Scheme, people: &[Person], design: &Design) -> bool {
    let both = propagation(s, design.kind) & deletable(s, design.kind);
    let held = |p: usize| design.cells[p] & both;
    (0..people.len())
        .any(|a| (0..a).any(|b| people[a].of_type == people[b].of_type && held(a) & held(b) != 0))
}

/// For each type, all rights of its people put together.
pub fn start_of_design(people: &[Person], design: &Design) -> Row {
    let mut row = [0; ROW_WORDS];
    for (person, cell) in people.iter().zip(design.cells) {
        row[person.of_type] |= cell;
    }
    row
}

pub fn start_of_create(create: &Command) -> Row {
    let mut row = [0; ROW_WORDS];
    row[create.source as usize] = create.z;
    row
}

/// The listed states, at most as many as the budget.
#[derive(Clone, Debug)]
pub struct Listing {
    pub rows: Vec<Row>,
    /// False if there are more states than the budget.
    pub whole: bool,
    /// The first duplicate step of a whole listing: state and command.
    pub duplicate: Option<(usize, usize)>,
}

pub fn listing(s: &Scheme, kind: usize, start: Row, budget: usize) -> Listing {
    let moves = moves(s, kind);
    let both = propagation(s, kind) & deletable(s, kind);
    let mut rows = vec![start];
    let mut number_of: HashMap<Row, usize> = HashMap::from([(start, 0)]);
    let mut duplicate = None;
    let mut at = 0;
    while at < rows.len() {
        for (number, c) in &moves {
            let (from, to) = (c.source as usize, c.destination as usize);
            let mut row = rows[at];
            if row[from] & c.x != c.x {
                continue;
            }
            row[from] &= !c.y;
            if duplicate.is_none() && row[to] & c.z & both != 0 {
                duplicate = Some((at, *number));
            }
            row[to] |= c.z;
            let next = rows.len();
            if *number_of.entry(row).or_insert(next) == next {
                rows.push(row);
                if rows.len() > budget {
                    rows.pop();
                    return Listing { rows, whole: false, duplicate: None };
                }
            }
        }
        at += 1;
    }
    Listing { rows, whole: true, duplicate }
}

/// 16, then what the listing gives; the rows to be left in the table with it.
fn judged(
    s: &Scheme,
    kind: usize,
    start: Row,
    overlapping: bool,
    of_type: usize,
    right: usize,
    budget: usize,
) -> (Verdict, Vec<Row>) {
    let none = Verdict::default();
    if let Some(command) = first_not_normal(s, kind) {
        return (Verdict { number: 16, command, ..none }, Vec::new());
    }
    if overlapping {
        return (Verdict { number: 17, ..none }, Vec::new());
    }
    let listed = listing(s, kind, start, budget);
    let states = listed.rows.len();
    let answer = if !listed.whole {
        Verdict { number: 18, states: budget, ..none }
    } else if let Some((state, command)) = listed.duplicate {
        Verdict { number: 19, states, state, command, ..none }
    } else {
        match listed.rows.iter().position(|row| row[of_type] & (1 << right) != 0) {
            Some(state) => Verdict { number: 0, states, held: 1, state, command: 0 },
            None => Verdict { states, ..none },
        }
    };
    (answer, listed.rows)
}

/// 15 without the start.
fn check_question(
    s: &Scheme,
    of_type: usize,
    right: usize,
    budget: usize,
    table: usize,
) -> Checked<()> {
    refuse(15, of_type >= s.types)?;
    refuse(15, right >= s.rights)?;
    refuse(15, budget == 0 || budget > BUDGET)?;
    refuse(15, table < ROW_WORDS * budget)
}

/// The table with these rows from its beginning, otherwise unchanged.
fn table_with(rows: &[Row], table: &[u32]) -> Vec<u32> {
    let mut after = table.to_vec();
    for (place, row) in after.chunks_exact_mut(ROW_WORDS).zip(rows) {
        place.copy_from_slice(row);
    }
    after
}

fn finished(outcome: Checked<(Verdict, Vec<Row>)>, table: &[u32]) -> (Verdict, Vec<u32>) {
    match outcome {
        Err(number) => (Verdict { number, ..Default::default() }, table.to_vec()),
        Ok((answer, rows)) => (answer, table_with(&rows, table)),
    }
}

pub fn verdict_of_create(
    s: &Scheme,
    command: usize,
    of_type: usize,
    right: usize,
    budget: usize,
    table: &[u32],
) -> (Verdict, Vec<u32>) {
    let asked = || -> Checked<_> {
        check_scheme(s)?;
        check_question(s, of_type, right, budget, table.len())?;
        let create = s.commands.get(command).ok_or(15u8)?;
        refuse(15, create.form != CREATE)?;
        let start = start_of_create(create);
        Ok(judged(s, create.kind as usize, start, false, of_type, right, budget))
    };
    finished(asked(), table)
}

#[allow(clippy::too_many_arguments)]
pub fn verdict_of_design(
    s: &Scheme,
    roster: &[u32],
    people: usize,
    store: &[u32],
    code: &[u8],
    of_type: usize,
    right: usize,
    budget: usize,
    table: &[u32],
) -> (Verdict, Vec<u32>) {
    let asked = || -> Checked<_> {
        room(roster.len(), ROSTER_WORDS)?;
        room(store.len(), STORE_WORDS)?;
        let (persons, designs) = setting(s, roster, people, store)?;
        check_question(s, of_type, right, budget, table.len())?;
        refuse(4, !codes::spelled(code))?;
        let design = designs.iter().find(|d| d.code == code).ok_or(12u8)?;
        let start = start_of_design(&persons, design);
        let overlapping = overlap(s, &persons, design);
        Ok(judged(s, design.kind, start, overlapping, of_type, right, budget))
    };
    finished(asked(), table)
}
