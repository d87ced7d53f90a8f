//! Inputs for the trials: schemes, rosters, stores, codes and cards, valid, at the
//! edge and damaged.

use crate::answers::{Command, Scheme};
use crate::guard::garbage;
use crate::mill;
use crate::model::codes::{packed, spelled};
use crate::model::verdicts::{self, Row};
use crate::model::{self, rights_mask, CREATE, GRANT, INTERNAL};
use crate::random::Random;
use std::collections::HashSet;

/// Everything a call about a store is given, save the question itself.
#[derive(Clone, Debug)]
pub struct Setting {
    pub commands: Vec<Command>,
    pub types: usize,
    pub kinds: usize,
    pub rights: usize,
    pub roster: Vec<u32>,
    pub people: usize,
    pub store: Vec<u32>,
}

impl Setting {
    pub fn scheme(&self) -> Scheme<'_> {
        Scheme {
            commands: &self.commands,
            types: self.types,
            kinds: self.kinds,
            rights: self.rights,
        }
    }

    pub fn type_of(&self, person: usize) -> usize {
        self.roster[4 * person] as usize
    }

    pub fn designs(&self) -> usize {
        self.store[0] as usize
    }

    /// The 36 words of a design.
    pub fn design(&self, at: usize) -> &[u32] {
        &self.store[1 + 36 * at..37 + 36 * at]
    }

    pub fn code_of(&self, design: usize) -> Vec<u8> {
        model::codes::unpacked(&self.design(design)[1..4])
    }

    pub fn code_of_person(&self, person: usize) -> Vec<u8> {
        model::codes::unpacked(&self.roster[4 * person + 1..4 * person + 4])
    }
}

// Codes.

const LETTERS: &[u8] = b"ABCDEFGHIJKLMNOPQRSTUVWXYZ0123456789";
const POOL: [&str; 16] = [
    "A",
    "Z",
    "0",
    "9",
    "A-A",
    "AA",
    "AAA",
    "AAAA",
    "AAAAA",
    "AAAAAAAA",
    "AAAAAAAAA",
    "AAAAAAAAAAAA",
    "AAAAAAAAAAAB",
    "W-104",
    "LAB-1",
    "9--9",
];

/// A well spelled code. Codes of the pool come often, so that codes meet.
pub fn code(rng: &mut Random) -> Vec<u8> {
    if rng.percent(40) {
        return rng.pick(&POOL).as_bytes().to_vec();
    }
    let length = rng.between(1, 12);
    let mut code: Vec<u8> = (0..length).map(|_| rng.pick(LETTERS)).collect();
    for inner in code.iter_mut().take(length - 1).skip(1) {
        if rng.percent(15) {
            *inner = b'-';
        }
    }
    code
}

/// A well spelled code that isn't among these.
pub fn new_code(rng: &mut Random, taken: &HashSet<Vec<u8>>) -> Vec<u8> {
    loop {
        let code = code(rng);
        if !taken.contains(&code) {
            return code;
        }
    }
}

/// A code as a parameter that breaks the spelling. `near` is one that doesn't.
pub fn bad_code(rng: &mut Random, near: &[u8]) -> Vec<u8> {
    let mut bad = if near.is_empty() { b"A".to_vec() } else { near.to_vec() };
    match rng.below(12) {
        0 => bad.clear(),
        1 => bad = vec![b'-'; rng.between(1, 12)],
        2 => bad.insert(0, b'-'),
        3 => bad.push(b'-'),
        4 => bad.push(0),
        5 => bad.insert(0, 0),
        6 => {
            // Too long, and well spelled otherwise; it begins like the near one.
            let length = rng.pick(&[13, 13, 13, 14, 16, 24, 255, 256, 257, 300]);
            while bad.len() < length {
                bad.push(rng.pick(LETTERS));
            }
        }
        7 => {
            let at = rng.below(bad.len());
            bad[at] = rng.pick(b"@[/:`{ _.\0");
        }
        8 => {
            let at = rng.below(bad.len());
            bad[at] = rng.between(b'a' as usize, b'z' as usize) as u8;
        }
        9 => bad = bad.iter().map(|b| b.to_ascii_lowercase()).collect(),
        10 => {
            let at = rng.below(bad.len());
            bad[at] |= 0x80;
        }
        _ => {
            let at = rng.below(bad.len());
            bad[at] = rng.byte();
        }
    }
    if spelled(&bad) {
        vec![b'-']
    } else {
        bad
    }
}

/// Three words that aren't a well spelled code.
pub fn bad_packed(rng: &mut Random, near: &[u8]) -> [u32; 3] {
    loop {
        let mut bytes = [0u8; 12];
        bytes[..near.len()].copy_from_slice(near);
        match rng.below(8) {
            0 => bytes = [0; 12],
            1 => bytes[0] = 0,
            2 => bytes[rng.below(near.len())] = 0,
            3 => bytes[11] = rng.pick(b"A-a"),
            4 => bytes[0] = b'-',
            5 => bytes[near.len() - 1] = b'-',
            6 => bytes[rng.below(near.len())] = rng.pick(b"@[/:`{ _az\x7F\x80\xFF"),
            _ => bytes[rng.below(12)] = rng.byte(),
        }
        let words = packed(&bytes);
        if !spelled(&model::codes::unpacked(&words)) {
            return words;
        }
    }
}

// Schemes.

fn count_near_edges(rng: &mut Random, least: usize, most: usize) -> usize {
    match rng.below(6) {
        0 => least,
        1 => most,
        _ => rng.between(least, most),
    }
}

#[derive(Clone, Debug)]
pub struct MadeScheme {
    pub commands: Vec<Command>,
    pub types: usize,
    pub kinds: usize,
    pub rights: usize,
}

impl MadeScheme {
    pub fn scheme(&self) -> Scheme<'_> {
        Scheme {
            commands: &self.commands,
            types: self.types,
            kinds: self.kinds,
            rights: self.rights,
        }
    }

    pub fn creates(&self) -> Vec<usize> {
        (0..self.commands.len()).filter(|at| self.commands[*at].form == CREATE).collect()
    }
}

/// Any valid scheme, up to all its sizes.
pub fn wide_scheme(rng: &mut Random) -> MadeScheme {
    let types = count_near_edges(rng, 1, 8);
    let kinds = count_near_edges(rng, 1, 4);
    let rights = count_near_edges(rng, 1, 32);
    let count = match rng.below(10) {
        0 => 0,
        1 => 64,
        2 => 63,
        3..=6 => rng.between(1, 12),
        _ => rng.between(1, 64),
    };
    let known = rights_mask(rights);
    let few = 160 / rights.max(5);
    let mut commands: Vec<Command> = Vec::new();
    for _ in 0..count {
        if !commands.is_empty() && rng.percent(5) {
            let again = rng.pick(&commands); // equal commands may stand twice
            commands.push(again);
            continue;
        }
        let form = rng.pick(&[CREATE, GRANT, GRANT, INTERNAL]);
        let source = rng.below(types) as u8;
        let destination = if form == GRANT { rng.below(types) as u8 } else { source };
        let (x, y) = match form {
            CREATE => (0, 0),
            _ => {
                let p = rng.pick(&[0, few / 2, few / 2, 100]);
                let x = rng.bits(known, p);
                (x, if rng.percent(50) { rng.bits(x, 50) } else { rng.bits(known, few) })
            }
        };
        let p = rng.pick(&[0, few, few, 50, 100]);
        let z = rng.bits(known, p);
        let kind = rng.below(kinds) as u8;
        commands.push(Command { form, source, destination, kind, x, y, z });
    }
    MadeScheme { commands, types, kinds, rights }
}

/// A valid scheme with few types and rights, so that listings end: sometimes
/// anything, mostly with normal commands only. Most commands ask for rights that
/// an earlier command gives, so that listings get somewhere.
pub fn verdict_scheme(rng: &mut Random) -> MadeScheme {
    let types = rng.pick(&[1, 1, 2, 2, 2, 3, 3, 4, 8]);
    let kinds = rng.pick(&[1, 1, 1, 2, 4]);
    let rights = rng.pick(&[1, 2, 3, 3, 4, 4, 5, 6, 8, 32]);
    // Only some rights are used; in a wide scheme any of the 32.
    let mut known = rights_mask(rights);
    while known.count_ones() > 8 {
        known &= rng.word();
    }
    if rights == 32 && rng.percent(50) {
        known |= 1 << 31;
    }
    let count = rng.between(1, 12);
    // What each type may come to hold, for each kind.
    let mut near = [[0u32; 8]; 4];
    let mut commands: Vec<Command> = Vec::new();
    for at in 0..count {
        let form = if at == 0 && rng.percent(95) {
            CREATE
        } else {
            rng.pick(&[CREATE, GRANT, GRANT, GRANT, GRANT, INTERNAL, INTERNAL, INTERNAL])
        };
        let kind = if rng.percent(80) { 0 } else { rng.below(kinds) as u8 };
        let near = &mut near[kind as usize];
        let mut source = rng.below(types) as u8;
        if form != CREATE && near[source as usize] == 0 {
            source = rng.below(types) as u8;
        }
        let destination = if form == GRANT { rng.below(types) as u8 } else { source };
        let held = near[source as usize];
        let from = if rng.percent(85) { held } else { known };
        let x = rng.bits(from, share_of_few(from));
        let z = rng.bits(known, share_of_few(known));
        let (x, y, z) = match (form, rng.below(5)) {
            (CREATE, _) => (0, 0, rng.bits(known, 60)),
            // A handover: what is asked is lost, and something comes in its place.
            (_, 0 | 1) => (x, x, z),
            // The same rights go over.
            (_, 2) => (x, x, x),
            // A gain only.
            (_, 3) => (x, 0, z),
            _ => (x, rng.bits(known, 25), z),
        };
        near[destination as usize] |= z;
        commands.push(Command { form, source, destination, kind, x, y, z });
    }
    let mut made = MadeScheme { commands, types, kinds, rights };
    if rng.percent(85) {
        make_normal(rng, &mut made);
    }
    made
}

/// A chance in percent that gives about one or two of these rights.
fn share_of_few(rights: u32) -> usize {
    150 / rights.count_ones().max(2) as usize
}

/// Every command normal: a propagation right in Y that isn't in X goes into X or
/// out of Y. No right becomes a propagation right by it.
pub fn make_normal(rng: &mut Random, made: &mut MadeScheme) {
    for kind in 0..made.kinds {
        let propagated = verdicts::propagation(&made.scheme(), kind);
        for c in made.commands.iter_mut().filter(|c| c.kind as usize == kind) {
            let lacking = c.y & propagated & !c.x;
            if rng.percent(60) {
                c.x |= lacking;
            } else {
                c.y &= !lacking;
            }
        }
    }
}

/// A scheme about a token: it goes over from one to another, is turned into one
/// thing or another, and who has both things gets a prize. With one token there is
/// no prize, with two there is: a step that doubles the token, or two holders at the
/// start, makes all the difference. Some parts are there, some not, some altered.
pub fn token_scheme(rng: &mut Random) -> MadeScheme {
    const TOKEN: u32 = 1;
    const THINGS: [u32; 2] = [2, 4];
    const TICKET: u32 = 8;
    const PRIZE: u32 = 16;
    let types = rng.pick(&[1, 1, 1, 2, 2]);
    // Who has no token may get a thing as well, and the prize is for a token and a
    // thing: not normal, as who has the token loses it.
    let loose = rng.percent(30);
    let of_type = |rng: &mut Random| rng.below(types) as u8;
    let first = of_type(rng);
    let z = TOKEN | if rng.percent(70) { TICKET } else { 0 };
    let start =
        Command { form: CREATE, source: first, destination: first, z, ..Default::default() };
    let mut commands = vec![start];
    let mut add = |form: u8, source: u8, destination: u8, x: u32, y: u32, z: u32| {
        commands.push(Command { form, source, destination, kind: 0, x, y, z });
    };
    for thing in THINGS {
        let here = if rng.percent(80) { first } else { of_type(rng) };
        let asked = if loose { 0 } else { TOKEN };
        add(INTERNAL, here, here, asked, TOKEN, thing);
        // Things go over, and may stay as well.
        let lost = if rng.percent(70) { thing } else { 0 };
        add(GRANT, here, of_type(rng), thing, lost, thing);
    }
    if rng.percent(85) {
        let lost = if rng.percent(70) { TOKEN } else { 0 };
        add(GRANT, first, of_type(rng), TOKEN, lost, TOKEN);
    }
    // The ticket is good for one token more.
    if rng.percent(70) {
        let asked = TICKET | if rng.percent(70) { TOKEN } else { 0 };
        add(GRANT, first, of_type(rng), asked, TICKET, TOKEN);
    }
    let winner = if rng.percent(80) { first } else { of_type(rng) };
    let both = if loose { TOKEN | THINGS[0] } else { THINGS[0] | THINGS[1] };
    add(INTERNAL, winner, winner, both, 0, PRIZE);
    if rng.percent(30) {
        // A loss of something that need not be held.
        let lost = rng.pick(&[TOKEN, THINGS[0], TICKET]);
        add(INTERNAL, first, first, rng.bits(31, 20), lost, rng.bits(31, 20));
    }
    for at in (2..commands.len()).rev() {
        commands.swap(at, rng.between(1, at));
    }
    MadeScheme { commands, types, kinds: 1, rights: 5 }
}

/// A scheme with a create (its number comes back) whose verdict is 0, if the
/// tries find one: duplicate steps are mended away. Listings of one or two states
/// are taken only when nothing else comes up.
pub fn calm_scheme(rng: &mut Random) -> Option<(MadeScheme, usize)> {
    let mut last = None;
    for _ in 0..6 {
        if let Some((made, create, states)) = try_calm_scheme(rng) {
            last = Some((made, create));
            if states > 3 {
                break;
            }
        }
    }
    last
}

/// The scheme, the create and its count of states.
fn try_calm_scheme(rng: &mut Random) -> Option<(MadeScheme, usize, usize)> {
    let mut made = if rng.percent(40) { token_scheme(rng) } else { verdict_scheme(rng) };
    if rng.percent(65) {
        make_normal(rng, &mut made);
    }
    let creates = made.creates();
    if creates.is_empty() {
        return None;
    }
    let create = rng.pick(&creates);
    let kind = made.commands[create].kind as usize;
    if verdicts::first_not_normal(&made.scheme(), kind).is_some() {
        return None;
    }
    for _ in 0..40 {
        let s = made.scheme();
        let c = s.commands[create];
        let start = verdicts::start_of_create(&c);
        let listed = verdicts::listing(&s, c.kind as usize, start, model::BUDGET);
        if !listed.whole {
            return None;
        }
        let Some((state, number)) = listed.duplicate else {
            return Some((made, create, listed.rows.len()));
        };
        let both =
            verdicts::propagation(&s, c.kind as usize) & verdicts::deletable(&s, c.kind as usize);
        let step = s.commands[number];
        let mut row: Row = listed.rows[state];
        row[step.source as usize] &= !step.y;
        let doubled = row[step.destination as usize] & step.z & both;
        let mended = &mut made.commands[number];
        if step.source == step.destination && rng.percent(60) {
            // What would be doubled is asked for and lost first.
            mended.x |= doubled;
            mended.y |= doubled;
        } else {
            mended.z &= !doubled;
        }
    }
    None
}

// Rosters and stores.

/// The room and often more, the rest filled with garbage.
fn with_more(rng: &mut Random, mut words: Vec<u32>, room: usize) -> Vec<u32> {
    let length = if rng.percent(60) { room } else { room + rng.between(1, 80) };
    let missing = length.saturating_sub(words.len());
    words.extend(garbage::<u32>(rng, missing));
    words
}

pub fn roster_for(rng: &mut Random, types: usize, people: usize) -> Vec<u32> {
    let mut words = Vec::new();
    let mut taken = HashSet::new();
    for _ in 0..people {
        let code = new_code(rng, &taken);
        words.push(rng.below(types) as u32);
        words.extend(packed(&code));
        taken.insert(code);
    }
    // What comes after may look like the last person again.
    if people > 0 && people < 32 && rng.percent(30) {
        words.extend_from_within(4 * people - 4..4 * people);
    }
    with_more(rng, words, model::ROSTER_WORDS)
}

pub fn store_for(
    rng: &mut Random,
    made: &MadeScheme,
    people: usize,
    designs: usize,
    density: usize,
) -> Vec<u32> {
    let mut words = vec![designs as u32];
    let mut taken = HashSet::new();
    let known = rights_mask(made.rights);
    for _ in 0..designs {
        let code = new_code(rng, &taken);
        words.push(rng.below(made.kinds) as u32);
        words.extend(packed(&code));
        taken.insert(code);
        let empty = rng.pick(&[10, 50, 100]);
        for person in 0..32 {
            let cell =
                if person >= people || rng.percent(empty) { 0 } else { rng.bits(known, density) };
            words.push(cell);
        }
    }
    // What comes after may be a design that was once there, or anything.
    if designs < 64 && rng.percent(40) {
        if designs > 0 && rng.percent(50) {
            let at = 1 + 36 * rng.below(designs);
            words.extend_from_within(at..at + 36);
        } else {
            words.push(0);
            words.extend(packed(rng.pick(&POOL).as_bytes()));
        }
    }
    with_more(rng, words, model::STORE_WORDS)
}

/// Any valid scheme, with nothing in the other places of a setting.
pub fn wide_scheme_only(rng: &mut Random) -> Setting {
    let made = wide_scheme(rng);
    scheme_only(made)
}

pub fn scheme_only(made: MadeScheme) -> Setting {
    Setting {
        commands: made.commands,
        types: made.types,
        kinds: made.kinds,
        rights: made.rights,
        roster: vec![],
        people: 1,
        store: vec![0],
    }
}

/// A valid setting over any scheme.
pub fn wide_setting(rng: &mut Random) -> Setting {
    let made = wide_scheme(rng);
    let people = match rng.below(6) {
        0 => 1,
        1 | 2 => 32,
        3 => 31,
        _ => rng.between(1, 12),
    };
    let designs = match rng.below(10) {
        0 => 0,
        1 | 2 => 64,
        3 => 63,
        _ => rng.between(0, 12),
    };
    let density = rng.pick(&[10, 50, 90, 100]);
    setting_of(rng, made, people, designs, density)
}

/// A valid setting over a scheme for verdicts.
pub fn verdict_setting(rng: &mut Random) -> Setting {
    let made = verdict_scheme(rng);
    let people = rng.pick(&[1, 2, 3, 4, 6, 9, 32]);
    let designs = rng.pick(&[0, 1, 1, 2, 2, 3, 5, 64]);
    let density = rng.pick(&[5, 15, 40]);
    setting_of(rng, made, people, designs, density)
}

fn setting_of(
    rng: &mut Random,
    made: MadeScheme,
    people: usize,
    designs: usize,
    density: usize,
) -> Setting {
    let roster = roster_for(rng, made.types, people);
    let store = store_for(rng, &made, people, designs, density);
    Setting {
        commands: made.commands,
        types: made.types,
        kinds: made.kinds,
        rights: made.rights,
        roster,
        people,
        store,
    }
}

// Faults.

/// One way to damage a setting, and the number it has to be refused with. False
/// comes back where the setting offers no place for it.
pub struct Fault {
    pub name: &'static str,
    pub number: u8,
    pub apply: fn(&mut Random, &mut Setting) -> bool,
}

/// Numbers that look like `n` when they are cut to fewer bits, and the largest.
pub fn huge(rng: &mut Random, n: usize) -> usize {
    match rng.below(9) {
        0 => usize::MAX,
        1 => usize::MAX - n,
        2 => 256 + n,
        3 => 65_536 + n,
        4 => (1 << 32) + n,
        5 => (1 << 61) + n,
        6 => (1 << 62) + n,
        7 => (1 << 63) + n,
        _ => rng.draw() as usize | 1 << 40,
    }
}

/// The same for a word.
fn huge_word(rng: &mut Random, n: u32) -> u32 {
    let top = u32::MAX;
    rng.pick(&[top, top - n, 256 + n, 65_536 + n, (1 << 24) + n, (1 << 31) + n, 1 << 30])
}

fn a_command(rng: &mut Random, set: &Setting, of: fn(&Command) -> bool) -> Option<usize> {
    let fit: Vec<usize> = (0..set.commands.len()).filter(|at| of(&set.commands[*at])).collect();
    (!fit.is_empty()).then(|| rng.pick(&fit))
}

fn above(rng: &mut Random, rights: usize) -> u32 {
    1 << rng.between(rights, 31)
}

fn damage_command(
    rng: &mut Random,
    set: &mut Setting,
    of: fn(&Command) -> bool,
    damage: fn(&mut Random, &mut Command, usize, usize, usize),
) -> bool {
    match a_command(rng, set, of) {
        None => false,
        Some(at) => {
            let (types, kinds, rights) = (set.types, set.kinds, set.rights);
            damage(rng, &mut set.commands[at], types, kinds, rights);
            true
        }
    }
}

fn any(_: &Command) -> bool {
    true
}
fn create(c: &Command) -> bool {
    c.form == CREATE
}
fn grant(c: &Command) -> bool {
    c.form == GRANT
}
fn not_grant(c: &Command) -> bool {
    c.form != GRANT
}

pub const SCHEME_FAULTS: &[Fault] = &[
    Fault {
        name: "scheme: no types",
        number: 2,
        apply: |_, s| {
            s.types = 0;
            true
        },
    },
    Fault {
        name: "scheme: nine types",
        number: 2,
        apply: |_, s| {
            s.types = 9;
            true
        },
    },
    Fault {
        name: "scheme: types huge",
        number: 2,
        apply: |r, s| {
            s.types = huge(r, s.types);
            true
        },
    },
    Fault {
        name: "scheme: no kinds",
        number: 2,
        apply: |_, s| {
            s.kinds = 0;
            true
        },
    },
    Fault {
        name: "scheme: five kinds",
        number: 2,
        apply: |_, s| {
            s.kinds = 5;
            true
        },
    },
    Fault {
        name: "scheme: kinds huge",
        number: 2,
        apply: |r, s| {
            s.kinds = huge(r, s.kinds);
            true
        },
    },
    Fault {
        name: "scheme: no rights",
        number: 2,
        apply: |_, s| {
            s.rights = 0;
            true
        },
    },
    Fault {
        name: "scheme: 33 rights",
        number: 2,
        apply: |_, s| {
            s.rights = 33;
            true
        },
    },
    Fault {
        name: "scheme: rights huge",
        number: 2,
        apply: |r, s| {
            s.rights = huge(r, s.rights);
            true
        },
    },
    Fault {
        name: "scheme: 65 commands or more",
        number: 2,
        apply: |r, s| {
            let plain = Command { form: CREATE, ..Default::default() };
            let again = s.commands.first().copied().unwrap_or(plain);
            let count = r.pick(&[65, 65, 65, 66, 256, 257, 300]);
            s.commands.resize(count, again);
            true
        },
    },
    Fault {
        name: "scheme: form 0",
        number: 2,
        apply: |r, s| damage_command(r, s, any, |_, c, _, _, _| c.form = 0),
    },
    Fault {
        name: "scheme: form 4 or more",
        number: 2,
        apply: |r, s| {
            damage_command(r, s, any, |r, c, _, _, _| c.form = r.pick(&[4, 5, 128, 254, 255]))
        },
    },
    Fault {
        name: "scheme: source of a grant out of range",
        number: 2,
        apply: |r, s| {
            damage_command(r, s, grant, |r, c, types, _, _| {
                c.source = r.between(types, 255) as u8;
            })
        },
    },
    Fault {
        name: "scheme: destination of a grant out of range",
        number: 2,
        apply: |r, s| {
            damage_command(r, s, grant, |r, c, types, _, _| {
                c.destination =
                    if r.percent(50) { types as u8 } else { r.between(types, 255) as u8 };
            })
        },
    },
    Fault {
        name: "scheme: both types of a create or internal out of range",
        number: 2,
        apply: |r, s| {
            damage_command(r, s, not_grant, |r, c, types, _, _| {
                c.source = if r.percent(50) { types as u8 } else { r.between(types, 255) as u8 };
                c.destination = c.source;
            })
        },
    },
    Fault {
        name: "scheme: destination of a create or internal isn't the source",
        number: 2,
        apply: |r, s| {
            s.types >= 2
                && damage_command(r, s, not_grant, |r, c, types, _, _| {
                    c.destination = ((c.source as usize + r.between(1, types - 1)) % types) as u8;
                })
        },
    },
    Fault {
        name: "scheme: kind out of range",
        number: 2,
        apply: |r, s| {
            damage_command(r, s, any, |r, c, _, kinds, _| {
                c.kind = if r.percent(50) { kinds as u8 } else { r.between(kinds, 255) as u8 };
            })
        },
    },
    Fault {
        name: "scheme: X above the rights",
        number: 2,
        apply: |r, s| {
            s.rights < 32
                && damage_command(
                    r,
                    s,
                    |c| c.form != CREATE,
                    |r, c, _, _, rights| {
                        c.x |= above(r, rights);
                    },
                )
        },
    },
    Fault {
        name: "scheme: Y above the rights",
        number: 2,
        apply: |r, s| {
            s.rights < 32
                && damage_command(
                    r,
                    s,
                    |c| c.form != CREATE,
                    |r, c, _, _, rights| {
                        c.y |= above(r, rights);
                    },
                )
        },
    },
    Fault {
        name: "scheme: Z above the rights",
        number: 2,
        apply: |r, s| {
            s.rights < 32 && damage_command(r, s, any, |r, c, _, _, rights| c.z |= above(r, rights))
        },
    },
    Fault {
        name: "scheme: create with X",
        number: 2,
        apply: |r, s| damage_command(r, s, create, |r, c, _, _, n| c.x = 1 << r.below(n)),
    },
    Fault {
        name: "scheme: create with Y",
        number: 2,
        apply: |r, s| damage_command(r, s, create, |r, c, _, _, n| c.y = 1 << r.below(n)),
    },
];

pub const ROSTER_FAULTS: &[Fault] = &[
    Fault {
        name: "roster: no people",
        number: 3,
        apply: |_, s| {
            s.people = 0;
            true
        },
    },
    Fault {
        name: "roster: 33 people",
        number: 3,
        apply: |_, s| {
            s.people = 33;
            true
        },
    },
    Fault {
        name: "roster: people huge",
        number: 3,
        apply: |r, s| {
            s.people = huge(r, s.people);
            true
        },
    },
    Fault {
        name: "roster: type out of range",
        number: 3,
        apply: |r, s| {
            let at = 4 * r.below(s.people);
            s.roster[at] = s.types as u32;
            true
        },
    },
    Fault {
        name: "roster: type huge",
        number: 3,
        apply: |r, s| {
            let at = 4 * r.below(s.people);
            s.roster[at] = huge_word(r, s.roster[at]);
            true
        },
    },
    Fault {
        name: "roster: bad code",
        number: 4,
        apply: |r, s| {
            let person = r.below(s.people);
            let bad = bad_packed(r, &s.code_of_person(person));
            s.roster[4 * person + 1..4 * person + 4].copy_from_slice(&bad);
            true
        },
    },
    Fault {
        name: "roster: two people with one code",
        number: 5,
        apply: |r, s| {
            if s.people < 2 {
                return false;
            }
            let a = r.below(s.people);
            let b = (a + r.between(1, s.people - 1)) % s.people;
            s.roster.copy_within(4 * a + 1..4 * a + 4, 4 * b + 1);
            true
        },
    },
];

pub const STORE_FAULTS: &[Fault] = &[
    Fault {
        name: "store: 65 designs",
        number: 21,
        apply: |_, s| {
            s.store[0] = 65;
            true
        },
    },
    Fault {
        name: "store: count huge",
        number: 21,
        apply: |r, s| {
            s.store[0] = huge_word(r, s.store[0]);
            true
        },
    },
    Fault {
        name: "store: bad code",
        number: 21,
        apply: |r, s| {
            if s.designs() == 0 {
                return false;
            }
            let at = r.below(s.designs());
            let bad = bad_packed(r, &s.code_of(at));
            s.store[2 + 36 * at..5 + 36 * at].copy_from_slice(&bad);
            true
        },
    },
    Fault {
        name: "store: repeated code",
        number: 21,
        apply: |r, s| {
            if s.designs() < 2 {
                return false;
            }
            let a = r.below(s.designs());
            let b = (a + r.between(1, s.designs() - 1)) % s.designs();
            s.store.copy_within(2 + 36 * a..5 + 36 * a, 2 + 36 * b);
            true
        },
    },
    Fault {
        name: "store: kind out of range",
        number: 21,
        apply: |r, s| {
            if s.designs() == 0 {
                return false;
            }
            let at = 1 + 36 * r.below(s.designs());
            s.store[at] = s.kinds as u32;
            true
        },
    },
    Fault {
        name: "store: kind huge",
        number: 21,
        apply: |r, s| {
            if s.designs() == 0 {
                return false;
            }
            let at = 1 + 36 * r.below(s.designs());
            s.store[at] = huge_word(r, s.store[at]);
            true
        },
    },
    Fault {
        name: "store: rights above the count",
        number: 21,
        apply: |r, s| {
            if s.designs() == 0 || s.rights == 32 {
                return false;
            }
            let at = 5 + 36 * r.below(s.designs()) + r.below(s.people);
            s.store[at] |= if r.percent(50) { 1 << s.rights } else { above(r, s.rights) };
            true
        },
    },
    Fault {
        name: "store: rights past the roster",
        number: 21,
        apply: |r, s| {
            if s.designs() == 0 || s.people == 32 {
                return false;
            }
            let person = match r.below(3) {
                0 => s.people,
                1 => 31,
                _ => r.between(s.people, 31),
            };
            let at = 5 + 36 * r.below(s.designs()) + person;
            s.store[at] = 1 << r.below(s.rights);
            true
        },
    },
];

/// One fault of these; the first try that finds a place.
pub fn damage<'a>(
    rng: &mut Random,
    set: &mut Setting,
    faults: &[&'a [Fault]],
) -> Option<&'a Fault> {
    for _ in 0..8 {
        let list = faults[rng.below(faults.len())];
        let fault = &list[rng.below(list.len())];
        if (fault.apply)(rng, set) {
            return Some(fault);
        }
    }
    None
}

/// Several faults at once, one of each list with this chance; for the order of refusals.
pub fn damage_often(rng: &mut Random, set: &mut Setting, p: usize) {
    // From the store upwards: the faults of a list need a sound rest to find places.
    for list in [STORE_FAULTS, ROSTER_FAULTS, SCHEME_FAULTS] {
        if rng.percent(p) {
            damage(rng, set, &[list]);
        }
    }
}

/// A length for a lent buffer that lacks room.
pub fn short(rng: &mut Random, room: usize) -> usize {
    match rng.below(4) {
        0 | 1 => room - 1,
        2 => 0,
        _ => rng.below(room),
    }
}

// Cards.

/// A card damaged in its version, length, filling or anywhere.
pub fn damage_card(rng: &mut Random, card: &mut Vec<u8>) {
    match rng.below(12) {
        0 => card[0] = rng.pick(&[0, 2, 3, 129, 255]),
        1 => {
            let at = rng.between(1, 2);
            card[at] = card[at].wrapping_add(rng.pick(&[1, 255]));
        }
        2 => card.push(rng.byte()),
        3 => {
            card.pop();
        }
        4 => {
            let keep = rng.below(card.len() + 1);
            card.truncate(keep);
        }
        5 => {
            // One byte more or less in the body, and the length says so.
            let mut body = card[3..].to_vec();
            if rng.percent(50) || body.is_empty() {
                body.insert(rng.below(body.len() + 1), rng.byte());
            } else {
                body.remove(rng.below(body.len()));
            }
            *card = mill::card(&body);
        }
        6 => {
            let mut body = card[3..].to_vec();
            body.truncate(rng.below(body.len() + 1));
            *card = mill::card(&body);
        }
        7 => {
            let more = rng.between(1, 40);
            let mut body = card[3..].to_vec();
            body.extend(garbage::<u8>(rng, more));
            *card = mill::card(&body);
        }
        8 => {
            // Padded to the most a card may have, or one or two more.
            let length = rng.pick(&[65_535, 65_536, 65_537, 65_538]);
            let mut body = card[3..].to_vec();
            body.resize(length - 3, 0);
            *card = mill::card(&body);
        }
        9 => *card = vec![1, 0, 0],
        10 => card.clear(),
        _ => {
            if !card.is_empty() {
                let at = rng.below(card.len());
                card[at] = rng.byte();
            }
        }
    }
}

/// A scheme card whose numbers are as they are in the setting, cut to bytes, with
/// the filling exact.
pub fn scheme_card_of(set: &Setting) -> Vec<u8> {
    mill::card(&mill::scheme_body(
        set.types as u8,
        set.kinds as u8,
        set.rights as u8,
        &set.commands[..set.commands.len().min(255)],
    ))
}

/// People for a roster card: types and codes, mostly valid.
pub fn people_for_card(rng: &mut Random, types: usize) -> Vec<(u8, Vec<u8>)> {
    let count = match rng.below(6) {
        0 => 1,
        1 => 32,
        _ => rng.between(1, 12),
    };
    let mut taken = HashSet::new();
    let mut people = Vec::new();
    for _ in 0..count {
        let code = new_code(rng, &taken);
        taken.insert(code.clone());
        people.push((rng.below(types) as u8, code));
    }
    people
}

/// Damages what a roster card says and keeps its filling exact: the number that
/// has to be given by a valid scheme.
pub fn damage_people(rng: &mut Random, types: usize, people: &mut Vec<(u8, Vec<u8>)>) -> u8 {
    match rng.below(6) {
        0 => {
            people.clear();
            3
        }
        1 => {
            let count = rng.pick(&[33, 33, 34, 64, 128, 255]);
            let mut taken: HashSet<Vec<u8>> = people.iter().map(|p| p.1.clone()).collect();
            while people.len() < count {
                let code = new_code(rng, &taken);
                taken.insert(code.clone());
                people.push((0, code));
            }
            3
        }
        2 => {
            let at = rng.below(people.len());
            people[at].0 =
                if rng.percent(50) { types as u8 } else { rng.between(types, 255) as u8 };
            3
        }
        3 if people.len() >= 2 => {
            let a = rng.below(people.len());
            let b = (a + rng.between(1, people.len() - 1)) % people.len();
            people[b].1 = people[a].1.clone();
            5
        }
        _ => {
            let at = rng.below(people.len());
            let mut bad = bad_code(rng, &people[at].1);
            bad.truncate(255);
            people[at].1 = bad;
            4
        }
    }
}

// Requests.

/// A request that may well succeed, over a valid setting.
pub fn request(rng: &mut Random, set: &Setting) -> (usize, usize, usize, Vec<u8>) {
    let mut asked = (0, 0, 0, code(rng));
    for _ in 0..12 {
        if set.commands.is_empty() {
            break;
        }
        let number = rng.below(set.commands.len());
        let c = set.commands[number];
        let of_type = |t: u8| -> Vec<usize> {
            (0..set.people).filter(|p| set.type_of(*p) == t as usize).collect()
        };
        let (sources, destinations) = (of_type(c.source), of_type(c.destination));
        if sources.is_empty() || destinations.is_empty() {
            continue;
        }
        let source = rng.pick(&sources);
        let destination = if c.form == GRANT { rng.pick(&destinations) } else { source };
        asked = (number, source, destination, code(rng));
        if c.form == CREATE {
            break;
        }
        let fit: Vec<usize> = (0..set.designs())
            .filter(|d| {
                let words = set.design(*d);
                words[0] == c.kind as u32 && words[4 + source] & c.x == c.x
            })
            .collect();
        if !fit.is_empty() {
            asked.3 = set.code_of(rng.pick(&fit));
            break;
        }
        if set.designs() > 0 {
            asked.3 = set.code_of(rng.below(set.designs()));
        }
    }
    asked
}

/// A number at or past `limit`, or any.
pub fn odd_number(rng: &mut Random, limit: usize) -> usize {
    match rng.below(4) {
        0 => limit,
        1 => limit + 1,
        2 => rng.below(limit.max(1)),
        _ => {
            let n = rng.below(limit.max(1));
            huge(rng, n)
        }
    }
}

/// One part of a request made odd; the setting is valid.
pub fn disturb(rng: &mut Random, set: &Setting, asked: &mut (usize, usize, usize, Vec<u8>)) {
    match rng.below(9) {
        0 => asked.0 = odd_number(rng, set.commands.len()),
        1 => asked.1 = odd_number(rng, set.people),
        2 => asked.2 = odd_number(rng, set.people),
        3 => {
            // Any two people.
            asked.1 = rng.below(set.people);
            asked.2 = rng.below(set.people);
        }
        4 => {
            // Another person of the same type.
            if asked.1 < set.people {
                let same: Vec<usize> =
                    (0..set.people).filter(|p| set.type_of(*p) == set.type_of(asked.1)).collect();
                asked.2 = rng.pick(&same);
            }
        }
        5 => asked.3 = bad_code(rng, &asked.3.clone()),
        6 => asked.3 = near_code(rng, &asked.3),
        7 => {
            if set.designs() > 0 {
                asked.3 = set.code_of(rng.below(set.designs()));
            }
        }
        _ => asked.0 = rng.below(set.commands.len().max(1)),
    }
}

/// A well spelled code that differs little from this one.
pub fn near_code(rng: &mut Random, code: &[u8]) -> Vec<u8> {
    let mut near = code.to_vec();
    match rng.below(3) {
        0 if near.len() < 12 => near.push(rng.pick(LETTERS)),
        1 if near.len() > 1 => {
            near.pop();
        }
        _ if !near.is_empty() => {
            let at = rng.below(near.len());
            near[at] = rng.pick(LETTERS);
        }
        _ => {}
    }
    if spelled(&near) {
        near
    } else {
        code.to_vec()
    }
}
