//! Plain Rust on the lent memory itself: the same checks, a linear table of rows,
//! no allocation. The benchmark measures the library against it, and the
//! differential tests try it when no archive is linked.
//!
//! The parameters are those of the exported functions.

use crate::answers::*;

const CLASS: [u8; 256] = {
    let mut table = [0u8; 256];
    let mut b = 0;
    while b < 256 {
        table[b] = match b as u8 {
            b'A'..=b'Z' => 1,
            b'0'..=b'9' => 2,
            b'-' => 3,
            _ => 0,
        };
        b += 1;
    }
    table
};

fn spelled(code: &[u8]) -> bool {
    if code.is_empty() || code.len() > 12 || code[0] == b'-' || code[code.len() - 1] == b'-' {
        return false;
    }
    code.iter().all(|b| CLASS[*b as usize] != 0)
}

fn pack(code: &[u8]) -> [u32; 3] {
    let mut bytes = [0u8; 12];
    bytes[..code.len()].copy_from_slice(code);
    let word =
        |at: usize| u32::from_be_bytes([bytes[at], bytes[at + 1], bytes[at + 2], bytes[at + 3]]);
    [word(0), word(4), word(8)]
}

fn unpack(words: &[u32]) -> ([u8; 12], usize) {
    let mut bytes = [0u8; 12];
    for (place, word) in bytes.chunks_exact_mut(4).zip(words) {
        place.copy_from_slice(&word.to_be_bytes());
    }
    let mut length = 12;
    while length > 0 && bytes[length - 1] == 0 {
        length -= 1;
    }
    (bytes, length)
}

fn packed_well(words: &[u32]) -> bool {
    let (bytes, length) = unpack(words);
    spelled(&bytes[..length])
}

pub(crate) fn scheme_number(commands: &[Command], types: usize, kinds: usize, rights: usize) -> u8 {
    if types == 0 || types > 8 || kinds == 0 || kinds > 4 || rights == 0 || rights > 32 {
        return 2;
    }
    if commands.len() > 64 {
        return 2;
    }
    let unknown = if rights == 32 { 0 } else { u32::MAX << rights };
    for c in commands {
        if c.form == 0
            || c.form > 3
            || c.source as usize >= types
            || c.destination as usize >= types
            || c.kind as usize >= kinds
            || (c.x | c.y | c.z) & unknown != 0
            || (c.form != 2 && c.source != c.destination)
            || (c.form == 1 && c.x | c.y != 0)
        {
            return 2;
        }
    }
    0
}

fn roster_number(types: usize, roster: &[u32], people: usize) -> u8 {
    if people == 0 || people > 32 {
        return 3;
    }
    let persons = &roster[..4 * people];
    if persons.chunks_exact(4).any(|p| p[0] as usize >= types) {
        return 3;
    }
    if persons.chunks_exact(4).any(|p| !packed_well(&p[1..4])) {
        return 4;
    }
    for a in 1..people {
        for b in 0..a {
            if roster[4 * a + 1..4 * a + 4] == roster[4 * b + 1..4 * b + 4] {
                return 5;
            }
        }
    }
    0
}

fn store_number(kinds: usize, rights: usize, people: usize, store: &[u32]) -> u8 {
    if store[0] > 64 {
        return 21;
    }
    let count = store[0] as usize;
    let unknown = if rights == 32 { 0 } else { u32::MAX << rights };
    for a in 0..count {
        let d = &store[1 + 36 * a..37 + 36 * a];
        if d[0] as usize >= kinds || !packed_well(&d[1..4]) {
            return 21;
        }
        if d[4..4 + people].iter().any(|cell| cell & unknown != 0) {
            return 21;
        }
        if d[4 + people..].iter().any(|cell| *cell != 0) {
            return 21;
        }
        for b in 0..a {
            if store[2 + 36 * b..5 + 36 * b] == d[1..4] {
                return 21;
            }
        }
    }
    0
}

fn setting_number(
    commands: &[Command],
    types: usize,
    kinds: usize,
    rights: usize,
    roster: &[u32],
    people: usize,
    store: &[u32],
) -> u8 {
    let number = scheme_number(commands, types, kinds, rights);
    if number != 0 {
        return number;
    }
    let number = roster_number(types, roster, people);
    if number != 0 {
        return number;
    }
    store_number(kinds, rights, people, store)
}

/// The place of the design with this code, counted in designs.
fn find(store: &[u32], code: [u32; 3]) -> Option<usize> {
    (0..store[0] as usize).find(|a| store[2 + 36 * a..5 + 36 * a] == code)
}

fn step(
    commands: &[Command],
    roster: &[u32],
    people: usize,
    store: &mut [u32],
    command: usize,
    source: usize,
    destination: usize,
    code: &[u8],
) -> u8 {
    if command >= commands.len() {
        return 6;
    }
    let c = commands[command];
    if source >= people || destination >= people {
        return 7;
    }
    if roster[4 * source] != c.source as u32 || roster[4 * destination] != c.destination as u32 {
        return 8;
    }
    if c.form != 2 && source != destination {
        return 9;
    }
    if !spelled(code) {
        return 4;
    }
    let words = pack(code);
    let place = find(store, words);
    if c.form == 1 {
        if place.is_some() {
            return 10;
        }
        if store[0] >= 64 {
            return 11;
        }
        let at = 1 + 36 * store[0] as usize;
        store[at] = c.kind as u32;
        store[at + 1..at + 4].copy_from_slice(&words);
        store[at + 4..at + 36].fill(0);
        store[at + 4 + source] = c.z;
        store[0] += 1;
        return 0;
    }
    let Some(place) = place else { return 12 };
    let at = 1 + 36 * place;
    if store[at] != c.kind as u32 {
        return 13;
    }
    if store[at + 4 + source] & c.x != c.x {
        return 14;
    }
    store[at + 4 + source] &= !c.y;
    store[at + 4 + destination] |= c.z;
    0
}

fn body(card: &[u8]) -> Option<&[u8]> {
    if card.len() < 3 || card.len() > 65_536 || card[0] != 1 {
        return None;
    }
    let said = u16::from_be_bytes([card[1], card[2]]) as usize;
    (card.len() - 3 == said).then(|| &card[3..])
}

pub fn read_scheme(card: &[u8], commands: &mut [Command]) -> SchemeRead {
    let refused = |number| SchemeRead { number, ..Default::default() };
    if commands.len() < 64 {
        return refused(20);
    }
    let Some(body) = body(card) else { return refused(1) };
    if body.len() < 4 || body.len() != 4 + 16 * body[3] as usize {
        return refused(1);
    }
    let (types, kinds, rights) = (body[0] as usize, body[1] as usize, body[2] as usize);
    let count = body[3] as usize;
    if count > 64 {
        return refused(2);
    }
    let word = |b: &[u8]| u32::from_be_bytes([b[0], b[1], b[2], b[3]]);
    let record = |b: &[u8]| Command {
        form: b[0],
        source: b[1],
        destination: b[2],
        kind: b[3],
        x: word(&b[4..8]),
        y: word(&b[8..12]),
        z: word(&b[12..16]),
    };
    // Checked one by one before any is written.
    if scheme_number(&[], types, kinds, rights) != 0 {
        return refused(2);
    }
    for bytes in body[4..].chunks_exact(16) {
        if scheme_number(&[record(bytes)], types, kinds, rights) != 0 {
            return refused(2);
        }
    }
    for (place, bytes) in commands.iter_mut().zip(body[4..].chunks_exact(16)) {
        *place = record(bytes);
    }
    SchemeRead { number: 0, types, kinds, rights, commands: count }
}

/// Where the entries of a body end, if each has `fixed` bytes, the last of them a
/// code length, and then the code.
fn filled(body: &[u8], mut at: usize, count: usize, fixed: usize) -> bool {
    for _ in 0..count {
        if body.len() - at < fixed {
            return false;
        }
        let length = body[at + fixed - 1] as usize;
        at += fixed;
        if body.len() - at < length {
            return false;
        }
        at += length;
    }
    at == body.len()
}

pub fn read_roster(
    commands: &[Command],
    types: usize,
    kinds: usize,
    rights: usize,
    card: &[u8],
    roster: &mut [u32],
) -> RosterRead {
    let refused = |number| RosterRead { number, people: 0 };
    if roster.len() < 128 {
        return refused(20);
    }
    let Some(body) = body(card) else { return refused(1) };
    if body.is_empty() || !filled(body, 1, body[0] as usize, 2) {
        return refused(1);
    }
    if scheme_number(commands, types, kinds, rights) != 0 {
        return refused(2);
    }
    let people = body[0] as usize;
    if people == 0 || people > 32 {
        return refused(3);
    }
    let mut words = [0u32; 128];
    let mut at = 1;
    let mut misspelled = false;
    for place in words.chunks_exact_mut(4).take(people) {
        let length = body[at + 1] as usize;
        let code = &body[at + 2..at + 2 + length];
        if body[at] as usize >= types {
            return refused(3);
        }
        place[0] = body[at] as u32;
        if spelled(code) {
            place[1..].copy_from_slice(&pack(code));
        } else {
            misspelled = true;
        }
        at += 2 + length;
    }
    if misspelled {
        return refused(4);
    }
    let number = roster_number(types, &words, people);
    if number != 0 {
        return refused(number);
    }
    roster[..4 * people].copy_from_slice(&words[..4 * people]);
    RosterRead { number: 0, people }
}

pub fn request(
    commands: &[Command],
    types: usize,
    kinds: usize,
    rights: usize,
    roster: &[u32],
    people: usize,
    store: &mut [u32],
    command: usize,
    source: usize,
    destination: usize,
    code: &[u8],
) -> u8 {
    if roster.len() < 128 || store.len() < 2305 {
        return 20;
    }
    let number = setting_number(commands, types, kinds, rights, roster, people, store);
    if number != 0 {
        return number;
    }
    step(commands, roster, people, store, command, source, destination, code)
}

pub fn run_batch(
    commands: &[Command],
    types: usize,
    kinds: usize,
    rights: usize,
    roster: &[u32],
    people: usize,
    store: &mut [u32],
    card: &[u8],
    answers: &mut [u8],
) -> BatchRun {
    let refused = |number| BatchRun { number, requests: 0, done: 0 };
    if roster.len() < 128 || store.len() < 2305 || answers.len() < 256 {
        return refused(20);
    }
    let Some(body) = body(card) else { return refused(1) };
    if body.len() < 2 {
        return refused(1);
    }
    let requests = u16::from_be_bytes([body[0], body[1]]) as usize;
    if requests > 256 || !filled(body, 2, requests, 4) {
        return refused(1);
    }
    let number = setting_number(commands, types, kinds, rights, roster, people, store);
    if number != 0 {
        return refused(number);
    }
    let mut at = 2;
    let mut done = 0;
    for answer in answers.iter_mut().take(requests) {
        let length = body[at + 3] as usize;
        *answer = step(
            commands,
            roster,
            people,
            store,
            body[at] as usize,
            body[at + 1] as usize,
            body[at + 2] as usize,
            &body[at + 4..at + 4 + length],
        );
        done += (*answer == 0) as usize;
        at += 4 + length;
    }
    BatchRun { number: 0, requests, done }
}

pub fn may_use(
    commands: &[Command],
    types: usize,
    kinds: usize,
    rights: usize,
    roster: &[u32],
    people: usize,
    store: &[u32],
    person: usize,
    right: usize,
    code: &[u8],
) -> MayUse {
    let refused = |number| MayUse { number, may: 0 };
    if roster.len() < 128 || store.len() < 2305 {
        return refused(20);
    }
    let number = setting_number(commands, types, kinds, rights, roster, people, store);
    if number != 0 {
        return refused(number);
    }
    if right >= rights {
        return refused(15);
    }
    if person >= people {
        return refused(7);
    }
    if !spelled(code) {
        return refused(4);
    }
    match find(store, pack(code)) {
        None => refused(12),
        Some(place) => {
            MayUse { number: 0, may: (store[5 + 36 * place + person] >> right & 1) as u8 }
        }
    }
}

pub fn access_list(
    commands: &[Command],
    types: usize,
    kinds: usize,
    rights: usize,
    roster: &[u32],
    people: usize,
    store: &[u32],
    code: &[u8],
    list: &mut [u32],
) -> AccessList {
    let refused = |number| AccessList { number, people: 0 };
    if roster.len() < 128 || store.len() < 2305 || list.len() < 64 {
        return refused(20);
    }
    let number = setting_number(commands, types, kinds, rights, roster, people, store);
    if number != 0 {
        return refused(number);
    }
    if !spelled(code) {
        return refused(4);
    }
    let Some(place) = find(store, pack(code)) else { return refused(12) };
    let mut shown = 0;
    for person in 0..people {
        let cell = store[5 + 36 * place + person];
        if cell != 0 {
            list[2 * shown] = person as u32;
            list[2 * shown + 1] = cell;
            shown += 1;
        }
    }
    AccessList { number: 0, people: shown }
}

/// A row counts as listed when all eight words agree with one earlier row; a row is
/// left at its first word that differs.
fn listed(table: &[u32], rows: usize, row: &[u32; 8]) -> bool {
    'rows: for earlier in table[..8 * rows].chunks_exact(8) {
        for (a, b) in earlier.iter().zip(row) {
            if a != b {
                continue 'rows;
            }
        }
        return true;
    }
    false
}

/// 16, 18, 19 and 0, over a start that has passed every check before.
fn judge(
    commands: &[Command],
    kind: u8,
    start: [u32; 8],
    of_type: usize,
    right: usize,
    budget: usize,
    table: &mut [u32],
) -> Verdict {
    let none = Verdict::default();
    let (propagated, deleted) = propagated_and_deleted(commands, kind);
    let both = propagated & deleted;
    table[..8].copy_from_slice(&start);
    let mut rows = 1;
    let mut duplicate = None;
    let mut at = 0;
    while at < rows {
        for (number, c) in commands.iter().enumerate() {
            if c.kind != kind || c.form == 1 {
                continue;
            }
            let mut row = [0u32; 8];
            row.copy_from_slice(&table[8 * at..8 * at + 8]);
            if row[c.source as usize] & c.x != c.x {
                continue;
            }
            row[c.source as usize] &= !c.y;
            if duplicate.is_none() && row[c.destination as usize] & c.z & both != 0 {
                duplicate = Some((at, number));
            }
            row[c.destination as usize] |= c.z;
            if !listed(table, rows, &row) {
                if rows == budget {
                    return Verdict { number: 18, states: budget, ..none };
                }
                table[8 * rows..8 * rows + 8].copy_from_slice(&row);
                rows += 1;
            }
        }
        at += 1;
    }
    if let Some((state, command)) = duplicate {
        return Verdict { number: 19, states: rows, state, command, ..none };
    }
    for state in 0..rows {
        if table[8 * state + of_type] >> right & 1 != 0 {
            return Verdict { number: 0, states: rows, held: 1, state, command: 0 };
        }
    }
    Verdict { states: rows, ..none }
}

fn propagated_and_deleted(commands: &[Command], kind: u8) -> (u32, u32) {
    let of_kind = commands.iter().filter(|c| c.kind == kind && c.form != 1);
    of_kind.fold((0, 0), |(x, y), c| (x | c.x, y | c.y))
}

fn first_not_normal(commands: &[Command], kind: u8) -> Option<usize> {
    let (propagated, _) = propagated_and_deleted(commands, kind);
    commands.iter().position(|c| c.kind == kind && c.y & propagated & !c.x != 0)
}

pub fn verdict_of_create(
    commands: &[Command],
    types: usize,
    kinds: usize,
    rights: usize,
    command: usize,
    of_type: usize,
    right: usize,
    budget: usize,
    table: &mut [u32],
) -> Verdict {
    let none = Verdict::default();
    if scheme_number(commands, types, kinds, rights) != 0 {
        return Verdict { number: 2, ..none };
    }
    if of_type >= types
        || right >= rights
        || budget == 0
        || budget > 2048
        || table.len() < 8 * budget
        || command >= commands.len()
        || commands[command].form != 1
    {
        return Verdict { number: 15, ..none };
    }
    let create = commands[command];
    if let Some(command) = first_not_normal(commands, create.kind) {
        return Verdict { number: 16, command, ..none };
    }
    let mut start = [0u32; 8];
    start[create.source as usize] = create.z;
    judge(commands, create.kind, start, of_type, right, budget, table)
}

pub fn verdict_of_design(
    commands: &[Command],
    types: usize,
    kinds: usize,
    rights: usize,
    roster: &[u32],
    people: usize,
    store: &[u32],
    code: &[u8],
    of_type: usize,
    right: usize,
    budget: usize,
    table: &mut [u32],
) -> Verdict {
    let refused = |number| Verdict { number, ..Default::default() };
    if roster.len() < 128 || store.len() < 2305 {
        return refused(20);
    }
    let number = setting_number(commands, types, kinds, rights, roster, people, store);
    if number != 0 {
        return refused(number);
    }
    if of_type >= types
        || right >= rights
        || budget == 0
        || budget > 2048
        || table.len() < 8 * budget
    {
        return refused(15);
    }
    if !spelled(code) {
        return refused(4);
    }
    let Some(place) = find(store, pack(code)) else { return refused(12) };
    let kind = store[1 + 36 * place] as u8;
    if let Some(command) = first_not_normal(commands, kind) {
        return Verdict { command, ..refused(16) };
    }
    let (propagated, deleted) = propagated_and_deleted(commands, kind);
    let mut start = [0u32; 8];
    let mut overlapping = 0;
    for person in 0..people {
        let cell = store[5 + 36 * place + person];
        let all = &mut start[roster[4 * person] as usize];
        overlapping |= *all & cell & propagated & deleted;
        *all |= cell;
    }
    if overlapping != 0 {
        return refused(17);
    }
    judge(commands, kind, start, of_type, right, budget, table)
}

/// Writes lines into a lent buffer that has the room.
struct Lines<'a> {
    text: &'a mut [u8],
    at: usize,
}

impl Lines<'_> {
    fn bytes(&mut self, bytes: &[u8]) {
        self.text[self.at..self.at + bytes.len()].copy_from_slice(bytes);
        self.at += bytes.len();
    }

    fn decimal(&mut self, n: usize) {
        if n >= 10 {
            self.decimal(n / 10);
        }
        self.bytes(&[b'0' + (n % 10) as u8]);
    }

    fn letter(&mut self, letter: u8, numbers: &[usize]) {
        self.bytes(&[letter]);
        for n in numbers {
            self.bytes(b" ");
            self.decimal(*n);
        }
    }

    fn hex(&mut self, n: u32) {
        for digit in (0..8).rev() {
            self.bytes(&[b"0123456789ABCDEF"[(n >> (4 * digit) & 15) as usize]]);
        }
    }

    fn refused(mut self, number: u8) -> Text {
        self.letter(b'X', &[number as usize]);
        self.bytes(b"\n");
        Text { number: 0, bytes: self.at }
    }
}

fn next_card(bytes: &[u8]) -> (&[u8], &[u8]) {
    if bytes.len() < 3 {
        return (bytes, &[]);
    }
    let said = 3 + u16::from_be_bytes([bytes[1], bytes[2]]) as usize;
    bytes.split_at(said.min(bytes.len()))
}

pub fn batch_text(bytes: &[u8], text: &mut [u8]) -> Text {
    if text.len() < 52_554 {
        return Text { number: 20, bytes: 0 };
    }
    let mut lines = Lines { text, at: 0 };
    let mut records = [Command::default(); 64];
    let (card, rest) = next_card(bytes);
    let scheme = read_scheme(card, &mut records);
    if scheme.number != 0 {
        return lines.refused(scheme.number);
    }
    let commands = &records[..scheme.commands];
    let (types, kinds, rights) = (scheme.types, scheme.kinds, scheme.rights);
    let mut roster = [0u32; 128];
    let (card, rest) = next_card(rest);
    let read = read_roster(commands, types, kinds, rights, card, &mut roster);
    if read.number != 0 {
        return lines.refused(read.number);
    }
    let people = read.people;
    let mut store = [0u32; 2305];
    let mut answers = [0u8; 256];
    let (card, _) = next_card(rest);
    let run =
        run_batch(commands, types, kinds, rights, &roster, people, &mut store, card, &mut answers);
    if run.number != 0 {
        return lines.refused(run.number);
    }
    for (number, answer) in answers[..run.requests].iter().enumerate() {
        lines.letter(b'R', &[number, *answer as usize]);
        lines.bytes(b"\n");
    }
    for design in store[1..].chunks_exact(36).take(store[0] as usize) {
        let (code, length) = unpack(&design[1..4]);
        lines.bytes(b"D ");
        lines.bytes(&code[..length]);
        lines.letter(b' ', &[]);
        lines.decimal(design[0] as usize);
        lines.bytes(b"\n");
        for person in 0..people {
            if design[4 + person] != 0 {
                let (code, length) = unpack(&roster[4 * person + 1..4 * person + 4]);
                lines.bytes(b"P ");
                lines.bytes(&code[..length]);
                lines.bytes(b" ");
                lines.hex(design[4 + person]);
                lines.bytes(b"\n");
            }
        }
    }
    lines.letter(b'E', &[run.requests, run.done]);
    lines.bytes(b"\n");
    Text { number: 0, bytes: lines.at }
}

pub fn verdict_text(bytes: &[u8], table: &mut [u32], text: &mut [u8]) -> Text {
    if text.len() < 7_488 {
        return Text { number: 20, bytes: 0 };
    }
    if table.len() < 8 * 2048 {
        return Text { number: 15, bytes: 0 };
    }
    let mut lines = Lines { text, at: 0 };
    let mut records = [Command::default(); 64];
    let (card, _) = next_card(bytes);
    let scheme = read_scheme(card, &mut records);
    if scheme.number != 0 {
        return lines.refused(scheme.number);
    }
    let commands = &records[..scheme.commands];
    for (number, c) in commands.iter().enumerate() {
        if c.form != 1 {
            continue;
        }
        let verdict = verdict_of_create(
            commands,
            scheme.types,
            scheme.kinds,
            scheme.rights,
            number,
            0,
            0,
            2048,
            table,
        );
        lines.letter(b'C', &[number, verdict.number as usize, verdict.states]);
        lines.bytes(b"\n");
        if verdict.number == 0 {
            for of_type in 0..scheme.types {
                let rows = table[..8 * verdict.states].chunks_exact(8);
                let ever = rows.fold(0, |all, row| all | row[of_type]);
                lines.letter(b'T', &[of_type]);
                lines.bytes(b" ");
                lines.hex(ever);
                lines.bytes(b"\n");
            }
        }
    }
    Text { number: 0, bytes: lines.at }
}

fn lacking(bytes: &[u8]) -> usize {
    if !bytes.is_empty() && bytes[0] != 1 {
        return 0;
    }
    if bytes.len() < 3 {
        return 3 - bytes.len();
    }
    let said = 3 + u16::from_be_bytes([bytes[1], bytes[2]]) as usize;
    if said > 65_536 {
        return 0;
    }
    said.saturating_sub(bytes.len())
}

pub fn batch_wanted(bytes: &[u8]) -> usize {
    let mut lack = lacking(bytes);
    if lack != 0 {
        return lack;
    }
    let mut records = [Command::default(); 64];
    let (card, rest) = next_card(bytes);
    let scheme = read_scheme(card, &mut records);
    if scheme.number != 0 {
        return 0;
    }
    lack = lacking(rest);
    if lack != 0 {
        return lack;
    }
    let commands = &records[..scheme.commands];
    let mut roster = [0u32; 128];
    let (card, rest) = next_card(rest);
    let (types, kinds, rights) = (scheme.types, scheme.kinds, scheme.rights);
    if read_roster(commands, types, kinds, rights, card, &mut roster).number != 0 {
        return 0;
    }
    lacking(rest)
}

pub fn verdict_wanted(bytes: &[u8]) -> usize {
    lacking(bytes)
}
