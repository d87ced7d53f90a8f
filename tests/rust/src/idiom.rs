//! The measured calls as one would write them in Rust, with sets and maps. Only
//! the benchmark uses them; the answers and the lent memory are the same.

use crate::answers::*;
use std::collections::{HashMap, HashSet};

type Code = [u32; 3];
/// Command, source and destination.
type Asked = (usize, usize, usize);

fn spelled(code: &[u8]) -> bool {
    let known = |b: &u8| b.is_ascii_uppercase() || b.is_ascii_digit() || *b == b'-';
    (1..=12).contains(&code.len())
        && code.iter().all(known)
        && !code.starts_with(b"-")
        && !code.ends_with(b"-")
}

fn pack(code: &[u8]) -> Code {
    let mut bytes = [0u8; 12];
    bytes[..code.len()].copy_from_slice(code);
    let mut words = bytes.chunks_exact(4).map(|b| u32::from_be_bytes(b.try_into().unwrap()));
    std::array::from_fn(|_| words.next().unwrap())
}

fn packed_well(words: &[u32]) -> bool {
    let bytes: Vec<u8> = words.iter().flat_map(|w| w.to_be_bytes()).collect();
    let length = bytes.iter().rposition(|b| *b != 0).map_or(0, |last| last + 1);
    spelled(&bytes[..length])
}

fn code_at(words: &[u32]) -> Code {
    words.try_into().expect("three words")
}

fn scheme_is_valid(commands: &[Command], types: usize, kinds: usize, rights: usize) -> bool {
    let unknown = |set: u32| rights < 32 && set >> rights != 0;
    (1..=8).contains(&types)
        && (1..=4).contains(&kinds)
        && (1..=32).contains(&rights)
        && commands.len() <= 64
        && commands.iter().all(|c| {
            (1..=3).contains(&c.form)
                && (c.source as usize) < types
                && (c.destination as usize) < types
                && (c.kind as usize) < kinds
                && !unknown(c.x | c.y | c.z)
                && (c.form == 2 || c.source == c.destination)
                && (c.form != 1 || (c.x == 0 && c.y == 0))
        })
}

fn check_roster(types: usize, roster: &[u32], people: usize) -> Result<(), u8> {
    if !(1..=32).contains(&people) {
        return Err(3);
    }
    let persons = || roster.chunks_exact(4).take(people);
    if persons().any(|p| p[0] as usize >= types) {
        return Err(3);
    }
    if persons().any(|p| !packed_well(&p[1..])) {
        return Err(4);
    }
    let codes: HashSet<Code> = persons().map(|p| code_at(&p[1..])).collect();
    if codes.len() < people {
        return Err(5);
    }
    Ok(())
}

/// The places of the designs by their codes, or 21.
fn check_store(
    kinds: usize,
    rights: usize,
    people: usize,
    store: &[u32],
) -> Result<HashMap<Code, usize>, u8> {
    let count = store[0] as usize;
    if count > 64 {
        return Err(21);
    }
    let mut places = HashMap::with_capacity(count);
    for (place, d) in store[1..].chunks_exact(36).take(count).enumerate() {
        let sound = (d[0] as usize) < kinds
            && packed_well(&d[1..4])
            && d[4..4 + people].iter().all(|cell| rights == 32 || cell >> rights == 0)
            && d[4 + people..].iter().all(|cell| *cell == 0);
        if !sound || places.insert(code_at(&d[1..4]), place).is_some() {
            return Err(21);
        }
    }
    Ok(places)
}

fn carry_out(
    commands: &[Command],
    roster: &[u32],
    people: usize,
    store: &mut [u32],
    places: &mut HashMap<Code, usize>,
    (command, source, destination): Asked,
    code: &[u8],
) -> Result<(), u8> {
    let c = commands.get(command).ok_or(6)?;
    if source >= people || destination >= people {
        return Err(7);
    }
    if roster[4 * source] != c.source as u32 || roster[4 * destination] != c.destination as u32 {
        return Err(8);
    }
    if c.form != 2 && source != destination {
        return Err(9);
    }
    if !spelled(code) {
        return Err(4);
    }
    let words = pack(code);
    if c.form == 1 {
        if places.contains_key(&words) {
            return Err(10);
        }
        let count = store[0] as usize;
        if count >= 64 {
            return Err(11);
        }
        let design = &mut store[1 + 36 * count..37 + 36 * count];
        design.fill(0);
        design[0] = c.kind as u32;
        design[1..4].copy_from_slice(&words);
        design[4 + source] = c.z;
        store[0] += 1;
        places.insert(words, count);
    } else {
        let place = *places.get(&words).ok_or(12)?;
        let design = &mut store[1 + 36 * place..37 + 36 * place];
        if design[0] != c.kind as u32 {
            return Err(13);
        }
        if design[4 + source] & c.x != c.x {
            return Err(14);
        }
        design[4 + source] &= !c.y;
        design[4 + destination] |= c.z;
    }
    Ok(())
}

pub fn request(
    commands: &[Command],
    types: usize,
    kinds: usize,
    rights: usize,
    roster: &[u32],
    people: usize,
    store: &mut [u32],
    command: usize,
    source: usize,
    destination: usize,
    code: &[u8],
) -> u8 {
    let mut all = || -> Result<(), u8> {
        if roster.len() < 128 || store.len() < 2305 {
            return Err(20);
        }
        if !scheme_is_valid(commands, types, kinds, rights) {
            return Err(2);
        }
        check_roster(types, roster, people)?;
        let mut places = check_store(kinds, rights, people, store)?;
        let asked = (command, source, destination);
        carry_out(commands, roster, people, store, &mut places, asked, code)
    };
    all().err().unwrap_or(0)
}

fn body(card: &[u8]) -> Result<&[u8], u8> {
    match card {
        [1, high, low, body @ ..]
            if card.len() <= 65_536 && body.len() == u16::from_be_bytes([*high, *low]) as usize =>
        {
            Ok(body)
        }
        _ => Err(1),
    }
}

/// The requests of a batch card.
fn requests(card: &[u8]) -> Result<Vec<(Asked, &[u8])>, u8> {
    let body = body(card)?;
    let (count, mut rest) = body.split_first_chunk::<2>().ok_or(1)?;
    let count = u16::from_be_bytes(*count) as usize;
    if count > 256 {
        return Err(1);
    }
    let mut list = Vec::with_capacity(count);
    for _ in 0..count {
        let (head, tail) = rest.split_first_chunk::<4>().ok_or(1)?;
        let (code, tail) = tail.split_at_checked(head[3] as usize).ok_or(1)?;
        list.push(((head[0] as usize, head[1] as usize, head[2] as usize), code));
        rest = tail;
    }
    if rest.is_empty() {
        Ok(list)
    } else {
        Err(1)
    }
}

pub fn run_batch(
    commands: &[Command],
    types: usize,
    kinds: usize,
    rights: usize,
    roster: &[u32],
    people: usize,
    store: &mut [u32],
    card: &[u8],
    answers: &mut [u8],
) -> BatchRun {
    let mut all = || -> Result<BatchRun, u8> {
        if roster.len() < 128 || store.len() < 2305 || answers.len() < 256 {
            return Err(20);
        }
        let list = requests(card)?;
        if !scheme_is_valid(commands, types, kinds, rights) {
            return Err(2);
        }
        check_roster(types, roster, people)?;
        let mut places = check_store(kinds, rights, people, store)?;
        let mut done = 0;
        for (answer, (asked, code)) in answers.iter_mut().zip(&list) {
            let outcome = carry_out(commands, roster, people, store, &mut places, *asked, code);
            *answer = outcome.err().unwrap_or(0);
            done += outcome.is_ok() as usize;
        }
        Ok(BatchRun { number: 0, requests: list.len(), done })
    };
    all().unwrap_or_else(|number| BatchRun { number, requests: 0, done: 0 })
}

pub fn read_scheme(card: &[u8], commands: &mut [Command]) -> SchemeRead {
    let mut all = || -> Result<SchemeRead, u8> {
        if commands.len() < 64 {
            return Err(20);
        }
        let body = body(card)?;
        let (counts, records) = body.split_first_chunk::<4>().ok_or(1)?;
        let [types, kinds, rights, count] = counts.map(|n| n as usize);
        if records.len() != 16 * count {
            return Err(1);
        }
        let word = |b: &[u8]| u32::from_be_bytes(b.try_into().expect("four bytes"));
        let read: Vec<Command> = records
            .chunks_exact(16)
            .map(|b| Command {
                form: b[0],
                source: b[1],
                destination: b[2],
                kind: b[3],
                x: word(&b[4..8]),
                y: word(&b[8..12]),
                z: word(&b[12..16]),
            })
            .collect();
        if !scheme_is_valid(&read, types, kinds, rights) {
            return Err(2);
        }
        commands[..count].copy_from_slice(&read);
        Ok(SchemeRead { number: 0, types, kinds, rights, commands: count })
    };
    all().unwrap_or_else(|number| SchemeRead { number, ..Default::default() })
}

pub fn verdict_of_create(
    commands: &[Command],
    types: usize,
    kinds: usize,
    rights: usize,
    command: usize,
    of_type: usize,
    right: usize,
    budget: usize,
    table: &mut [u32],
) -> Verdict {
    let none = Verdict::default();
    if !scheme_is_valid(commands, types, kinds, rights) {
        return Verdict { number: 2, ..none };
    }
    let create = match commands.get(command) {
        Some(c)
            if c.form == 1
                && of_type < types
                && right < rights
                && (1..=2048).contains(&budget)
                && table.len() >= 8 * budget =>
        {
            *c
        }
        _ => return Verdict { number: 15, ..none },
    };
    let moves: Vec<(usize, Command)> = commands
        .iter()
        .copied()
        .enumerate()
        .filter(|(_, c)| c.kind == create.kind && c.form != 1)
        .collect();
    let propagated = moves.iter().fold(0, |all, (_, c)| all | c.x);
    let both = propagated & moves.iter().fold(0, |all, (_, c)| all | c.y);
    if let Some((command, _)) = moves.iter().find(|(_, c)| c.y & propagated & !c.x != 0) {
        return Verdict { number: 16, command: *command, ..none };
    }
    let mut start = [0u32; 8];
    start[create.source as usize] = create.z;
    let mut rows = vec![start];
    let mut met = HashSet::from([start]);
    let mut duplicate = None;
    let mut over = false;
    let mut at = 0;
    'listing: while at < rows.len() {
        for (number, c) in &moves {
            let mut row = rows[at];
            if row[c.source as usize] & c.x != c.x {
                continue;
            }
            row[c.source as usize] &= !c.y;
            if duplicate.is_none() && row[c.destination as usize] & c.z & both != 0 {
                duplicate = Some((at, *number));
            }
            row[c.destination as usize] |= c.z;
            if met.insert(row) {
                if rows.len() == budget {
                    over = true;
                    break 'listing;
                }
                rows.push(row);
            }
        }
        at += 1;
    }
    for (place, row) in table.chunks_exact_mut(8).zip(&rows) {
        place.copy_from_slice(row);
    }
    let states = rows.len();
    if over {
        return Verdict { number: 18, states, ..none };
    }
    if let Some((state, command)) = duplicate {
        return Verdict { number: 19, states, state, command, ..none };
    }
    match rows.iter().position(|row| row[of_type] >> right & 1 != 0) {
        Some(state) => Verdict { number: 0, states, held: 1, state, command: 0 },
        None => Verdict { states, ..none },
    }
}
