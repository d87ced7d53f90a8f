//! The library from Rust: reads the cards of the worked batch, runs it, and asks what the README asks. Built and run by tests/examples/run.
//! A slice goes over as its pointer, then its length.

#[repr(C)]
#[derive(Clone, Copy)]
struct Command {
    form: u8,
    source: u8,
    destination: u8,
    kind: u8,
    x: u32,
    y: u32,
    z: u32,
}

#[repr(C)]
struct SchemeRead {
    number: u8,
    types: usize,
    kinds: usize,
    rights: usize,
    commands: usize,
}

#[repr(C)]
struct RosterRead {
    number: u8,
    people: usize,
}

#[repr(C)]
struct BatchRun {
    number: u8,
    requests: usize,
    done: usize,
}

#[repr(C)]
struct MayUse {
    number: u8,
    may: u8,
}

#[repr(C)]
struct AccessList {
    number: u8,
    people: usize,
}

#[repr(C)]
struct Verdict {
    number: u8,
    states: usize,
    held: u8,
    state: usize,
    command: usize,
}

#[rustfmt::skip]
extern "C" {
    fn read_scheme(card: *const u8, n: usize, commands: *mut Command, m: usize) -> SchemeRead;
    fn read_roster(commands: *const Command, n: usize, types: usize, kinds: usize, rights: usize, card: *const u8, c: usize, roster: *mut u32, r: usize) -> RosterRead;
    fn run_batch(commands: *const Command, n: usize, types: usize, kinds: usize, rights: usize, roster: *const u32, r: usize, people: usize, store: *mut u32, s: usize, card: *const u8, c: usize, answers: *mut u8, a: usize) -> BatchRun;
    fn may_use(commands: *const Command, n: usize, types: usize, kinds: usize, rights: usize, roster: *const u32, r: usize, people: usize, store: *const u32, s: usize, person: usize, right: usize, code: *const u8, c: usize) -> MayUse;
    fn access_list(commands: *const Command, n: usize, types: usize, kinds: usize, rights: usize, roster: *const u32, r: usize, people: usize, store: *const u32, s: usize, code: *const u8, c: usize, list: *mut u32, l: usize) -> AccessList;
    fn verdict_of_create(commands: *const Command, n: usize, types: usize, kinds: usize, rights: usize, command: usize, person_type: usize, right: usize, budget: usize, table: *mut u32, t: usize) -> Verdict;
}

fn main() {
    let card = |name: &str| std::fs::read(format!("examples/{name}.card")).unwrap();
    let none = Command { form: 0, source: 0, destination: 0, kind: 0, x: 0, y: 0, z: 0 };
    let mut commands = [none; 64];
    let (mut roster, mut store, mut list) = ([0u32; 128], [0u32; 2305], [0u32; 64]);
    let (mut answers, mut table) = ([0u8; 256], vec![0u32; 16384]);
    let (scheme_card, roster_card, batch_card, code) = (card("scheme-a"), card("roster"), card("batch"), b"W-104");

    // Each slice is valid for its length, and those that are written overlap no other.
    let s = unsafe { read_scheme(scheme_card.as_ptr(), scheme_card.len(), commands.as_mut_ptr(), commands.len()) };
    println!("scheme {}: {} types, {} kinds, {} rights, {} commands", s.number, s.types, s.kinds, s.rights, s.commands);
    let scheme = &commands[..s.commands];
    let (at, n) = (scheme.as_ptr(), scheme.len());

    let r = unsafe { read_roster(at, n, s.types, s.kinds, s.rights, roster_card.as_ptr(), roster_card.len(), roster.as_mut_ptr(), roster.len()) };
    println!("roster {}: {} people", r.number, r.people);

    // A store of zeros is an empty one.
    let b = unsafe {
        run_batch(
            at, n, s.types, s.kinds, s.rights, roster.as_ptr(), roster.len(), r.people, store.as_mut_ptr(), store.len(),
            batch_card.as_ptr(), batch_card.len(), answers.as_mut_ptr(), answers.len(),
        )
    };
    println!("batch {}: {} requests, {} done", b.number, b.requests, b.done);

    let m = unsafe {
        may_use(
            at, n, s.types, s.kinds, s.rights, roster.as_ptr(), roster.len(), r.people, store.as_ptr(), store.len(),
            0, 5, code.as_ptr(), code.len(),
        )
    };
    println!("may person 0 use right 5 on W-104: {}, {}", m.number, m.may);

    let a = unsafe {
        access_list(
            at, n, s.types, s.kinds, s.rights, roster.as_ptr(), roster.len(), r.people, store.as_ptr(), store.len(),
            code.as_ptr(), code.len(), list.as_mut_ptr(), list.len(),
        )
    };
    print!("access list of W-104: {}, {} people", a.number, a.people);
    for pair in list.chunks(2).take(a.people) {
        print!(", {} with {:08X}", pair[0], pair[1]);
    }
    println!();

    for t in 0..s.types {
        let v = unsafe { verdict_of_create(at, n, s.types, s.kinds, s.rights, 0, t, 7, 2048, table.as_mut_ptr(), table.len()) };
        println!("right 7 for type {t}: {}, {} states, held {}, state {}", v.number, v.states, v.held, v.state);
    }
}
