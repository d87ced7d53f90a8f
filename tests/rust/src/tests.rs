//! Tests of the model itself. They need no library: what the rules say outright
//! is held against the model here, and the generators and guards are tried as well.

use crate::answers::*;
use crate::groups::{self, crowded, one_person_each, ring, roster_words, toggles, GROUPS};
use crate::guard::{garbage, Guarded};
use crate::make::{self, Setting, ROSTER_FAULTS, SCHEME_FAULTS, STORE_FAULTS};
use crate::mill::{self, DESIGNER, LAB, RELEASE};
use crate::model::codes::{packed, spelled, unpacked};
use crate::model::lent::{roster_of, store_of, Design, Person};
use crate::model::verdicts::{self, listing, Row};
use crate::model::{self, BUDGET, CREATE, GRANT, INTERNAL, STORE_WORDS};
use crate::random::{mix, Random};
use crate::trial::Seen;
use crate::{idiom, plain};
use std::collections::{HashSet, VecDeque};

const NONE: Verdict = Verdict { number: 0, states: 0, held: 0, state: 0, command: 0 };

fn ask(s: &Scheme, of_type: usize, right: usize, budget: usize) -> Verdict {
    let table = vec![0xDEAD_BEEF; 8 * budget];
    model::verdict_of_create(s, 0, of_type, right, budget, &table).0
}

fn mill_setting(commands: &[Command]) -> Setting {
    let people = mill::worked_roster();
    Setting {
        commands: commands.to_vec(),
        types: 3,
        kinds: 1,
        rights: 8,
        roster: roster_words(&people),
        people: people.len(),
        store: vec![0; STORE_WORDS],
    }
}

/// A request of the model upon a setting, which it changes.
fn do_request(set: &mut Setting, command: usize, from: usize, to: usize, code: &[u8]) -> u8 {
    let (number, store) =
        model::request(&set.scheme(), &set.roster, set.people, &set.store, command, from, to, code);
    set.store = store;
    number
}

// The proved cases: P1 to P12.

#[test]
fn p1_to_p6_verdicts() {
    let (a, b, c) = (mill::scheme(&mill::A), mill::scheme(&mill::B), mill::scheme(&mill::C));
    let p1 = Verdict { number: 0, states: 11, held: 1, state: 10, command: 0 };
    assert_eq!(ask(&a, DESIGNER, RELEASE, 11), p1);
    assert_eq!(ask(&a, DESIGNER, RELEASE, 10), Verdict { number: 18, states: 10, ..NONE });
    assert_eq!(ask(&a, LAB, RELEASE, 11), Verdict { states: 11, ..NONE });
    let p4 = Verdict { number: 19, states: 21, held: 0, state: 2, command: 2 };
    assert_eq!(ask(&b, DESIGNER, RELEASE, 21), p4);
    assert_eq!(ask(&b, DESIGNER, RELEASE, 20), Verdict { number: 18, states: 20, ..NONE });
    assert_eq!(ask(&c, DESIGNER, RELEASE, 11), Verdict { number: 16, command: 2, ..NONE });
}

#[test]
fn p7_overlap() {
    let mut set = mill_setting(&mill::B);
    set.store[0] = 1;
    set.store[2..5].copy_from_slice(&packed(b"W-104"));
    let ask = |set: &Setting| {
        let table = vec![7; 8 * 11];
        let (s, r, p) = (set.scheme(), &set.roster, set.people);
        let (verdict, after) =
            model::verdict_of_design(&s, r, p, &set.store, b"W-104", DESIGNER, RELEASE, 11, &table);
        (verdict, after == table)
    };
    // LAB-1 alone holds review: no overlap. LAB-1 and LAB-2: overlap.
    set.store[5 + 1] = 0x10;
    assert_ne!(ask(&set).0.number, 17);
    set.store[5 + 2] = 0x10;
    assert_eq!(ask(&set), (Verdict { number: 17, ..NONE }, true));
    // A lab and the desk hold it: two types, no overlap.
    set.store[5 + 2] = 0;
    set.store[5 + 3] = 0x10;
    assert_ne!(ask(&set).0.number, 17);
}

#[test]
fn p8_and_p12_cells() {
    let mut set = mill_setting(&mill::A);
    assert_eq!(do_request(&mut set, 0, 0, 0, b"W-104"), 0);
    assert_eq!(set.store[5], 0x03);
    assert_eq!(do_request(&mut set, 1, 0, 0, b"W-104"), 0);
    assert_eq!(set.store[5], 0x0D);

    let create = Command { form: CREATE, z: 1, ..Default::default() };
    let own = Command { form: GRANT, x: 1, y: 1, z: 1, ..Default::default() };
    let mut set = mill_setting(&[create, own]);
    assert_eq!(do_request(&mut set, 0, 0, 0, b"W-104"), 0);
    assert_eq!(do_request(&mut set, 1, 0, 0, b"W-104"), 0);
    assert_eq!(set.store[5], 0x01);
}

#[test]
fn p9_to_p11_codes() {
    let create = |code: &[u8]| do_request(&mut mill_setting(&mill::A), 0, 0, 0, code);
    assert_eq!(create(b"w-104"), 4);
    assert_eq!(create(b"ABCDEFGHIJKL"), 0);
    assert_eq!(create(b"ABCDEFGHIJKLM"), 4);
    assert_eq!(create(b"-"), 4);
}

// What the programs print.

#[test]
fn the_worked_batch_prints_its_eleven_lines() {
    assert_eq!(mill::WORKED_LINES.lines().count(), 11);
    let mut bytes = mill::worked_batch();
    for _ in 0..2 {
        let text = vec![0xEE; model::BATCH_TEXT_BYTES + 3];
        let (answer, after) = model::batch_text(&bytes, &text);
        assert_eq!(answer, Text { number: 0, bytes: mill::WORKED_LINES.len() });
        assert_eq!(&after[..answer.bytes], mill::WORKED_LINES.as_bytes());
        assert!(after[answer.bytes..].iter().all(|b| *b == 0xEE));
        bytes.extend_from_slice(b"bytes after the last card");
    }
}

#[test]
fn the_verdict_program_prints_the_lines_of_a() {
    let card = mill::scheme_card(&mill::scheme(&mill::A));
    let table = vec![3; 8 * BUDGET];
    let text = vec![0; model::VERDICT_TEXT_BYTES];
    let (answer, after, text) = model::verdict_text(&card, &table, &text);
    assert_eq!(&text[..answer.bytes], mill::VERDICT_LINES_OF_A.as_bytes());
    // Eleven rows are written, the rest is as it was.
    assert_eq!(after[..8], [3, 0, 0, 0, 0, 0, 0, 0]);
    assert!(after[..8 * 11].chunks_exact(8).all(|row| row[3..] == [0; 5]));
    assert!(after[8 * 11..].iter().all(|w| *w == 3));
    // B and C are refused a verdict, and no T follows.
    for (commands, line) in [(&mill::B, "C 0 19 21\n"), (&mill::C, "C 0 16 0\n")] {
        let card = mill::scheme_card(&mill::scheme(commands));
        let (answer, _, text) = model::verdict_text(&card, &table, &text);
        assert_eq!(&text[..answer.bytes], line.as_bytes());
    }
}

#[test]
fn a_refused_card_prints_only_x() {
    let printed = |bytes: &[u8]| {
        let (answer, text) = model::batch_text(bytes, &vec![0; model::BATCH_TEXT_BYTES]);
        assert_eq!(answer.number, 0);
        String::from_utf8(text[..answer.bytes].to_vec()).unwrap()
    };
    let whole = mill::worked_batch();
    // Cut off anywhere: some card is too short.
    for keep in 0..whole.len() {
        assert_eq!(printed(&whole[..keep]), "X 1\n", "{keep} bytes");
    }
    let scheme = mill::scheme_card(&mill::scheme(&mill::A));
    let batch = mill::card(&mill::batch_body(&mill::worked_requests()));
    let with_people = |people: &[(u8, &str)]| {
        let people: Vec<(u8, Vec<u8>)> =
            people.iter().map(|(t, c)| (*t, c.as_bytes().to_vec())).collect();
        [scheme.clone(), mill::card(&mill::roster_body(&people)), batch.clone()].concat()
    };
    assert_eq!(printed(&with_people(&[])), "X 3\n");
    assert_eq!(printed(&with_people(&[(3, "ANN")])), "X 3\n");
    assert_eq!(printed(&with_people(&[(0, "ann")])), "X 4\n");
    assert_eq!(printed(&with_people(&[(0, "ANN"), (1, "ANN")])), "X 5\n");
    let mut broken = whole.clone();
    broken[3] = 0; // no types
    assert_eq!(printed(&broken), "X 2\n");
    // The first refused card decides, whatever comes after it.
    assert_eq!(printed(&broken[..scheme.len()]), "X 2\n");
}

// The sizes, and the room that follows from them.

#[test]
fn rooms_follow_from_the_longest_lines() {
    let line = |text: &str| text.len() + 1;
    let code = "ABCDEFGHIJKL";
    let batch = 256 * line("R 255 14")
        + 64 * (line(&format!("D {code} 3")) + 32 * line(&format!("P {code} FFFFFFFF")))
        + line("E 256 256");
    assert_eq!(batch, model::BATCH_TEXT_BYTES);
    let verdict = 64 * (line("C 63 18 2048") + 8 * line("T 7 FFFFFFFF"));
    assert_eq!(verdict, model::VERDICT_TEXT_BYTES);
    assert_eq!(model::STORE_WORDS, 2305);
    assert_eq!(std::mem::size_of::<Command>(), 16);
}

fn crowd(count: usize) -> Vec<(u8, Vec<u8>)> {
    (0..count).map(|at| (0, format!("P{at}").into_bytes())).collect()
}

#[test]
fn people_32_and_33() {
    let s = mill::scheme(&mill::A);
    for (count, number) in [(0, 3), (1, 0), (32, 0), (33, 3), (255, 3)] {
        let card = mill::card(&mill::roster_body(&crowd(count)));
        let (read, words) = model::read_roster(&s, &card, &[9; 140]);
        assert_eq!(read.number, number);
        if number == 0 {
            assert_eq!(read.people, count);
            assert_eq!(words[..4 * count], roster_words(&crowd(count))[..4 * count]);
            assert!(words[4 * count..].iter().all(|w| *w == 9));
        } else {
            assert_eq!((read.people, words), (0, vec![9; 140]));
        }
    }
}

#[test]
fn commands_64_and_65() {
    let create = Command { form: CREATE, z: 1, ..Default::default() };
    for (count, number) in [(0, 0), (1, 0), (64, 0), (65, 2), (255, 2)] {
        let commands = vec![create; count];
        let card = mill::scheme_card(&mill::scheme(&commands));
        let other = Command { form: 200, ..create };
        let (read, after) = model::read_scheme(&card, &[other; 70]);
        assert_eq!(read.number, number);
        assert_eq!(read.commands, if number == 0 { count } else { 0 });
        assert!(after[read.commands..].iter().all(|c| *c == other));
        assert_eq!(model::check_scheme(&mill::scheme(&commands)).err().unwrap_or(0), number);
    }
}

#[test]
fn designs_64_and_65() {
    let create = Command { form: CREATE, z: 1, ..Default::default() };
    let mut set = mill_setting(&[create]);
    for at in 0..64 {
        assert_eq!(do_request(&mut set, 0, 0, 0, format!("D{at}").as_bytes()), 0);
    }
    assert_eq!(set.store[0], 64);
    // 10 comes before 11.
    assert_eq!(do_request(&mut set, 0, 0, 0, b"D63"), 10);
    assert_eq!(do_request(&mut set, 0, 0, 0, b"D64"), 11);
    set.store[0] = 65;
    assert_eq!(do_request(&mut set, 0, 0, 0, b"D64"), 21);
}

#[test]
fn batches_of_0_256_and_257() {
    let set = mill_setting(&mill::A);
    for (count, number) in [(0, 0), (256, 0), (257, 1)] {
        let asked: Vec<mill::Asked> = (0..count).map(|_| (0, 0, 0, b"W".to_vec())).collect();
        let card = mill::card(&mill::batch_body(&asked));
        let (s, r, p) = (set.scheme(), &set.roster, set.people);
        let (run, store, given) = model::run_batch(&s, r, p, &set.store, &card, &[99; 300]);
        assert_eq!(run.number, number);
        let answered = if number == 0 { count } else { 0 };
        assert_eq!((run.requests, run.done), (answered, answered.min(1)));
        assert_eq!(store[0] as usize, answered.min(1));
        assert!(given[answered..].iter().all(|b| *b == 99));
        assert!(given[..answered].iter().skip(1).all(|b| *b == 10));
    }
}

#[test]
fn cards_of_65_536_bytes_and_more() {
    let set = mill_setting(&mill::A);
    for more in 0..3 {
        let mut asked: Vec<mill::Asked> = (0..253).map(|_| (0, 0, 0, vec![b'A'; 255])).collect();
        asked.push((0, 0, 0, vec![b'A'; more]));
        let card = mill::card(&mill::batch_body(&asked));
        assert_eq!(card.len(), 65_536 + more);
        let (s, r, p) = (set.scheme(), &set.roster, set.people);
        let (run, _, _) = model::run_batch(&s, r, p, &set.store, &card, &[0; 256]);
        assert_eq!(run.number, if more == 0 { 0 } else { 1 });
    }
}

#[test]
fn budgets_1_to_2048() {
    let s = mill::scheme(&mill::A);
    let table = vec![0; 8 * 2048];
    let number = |budget: usize, room: usize| {
        model::verdict_of_create(&s, 0, 0, 0, budget, &table[..room]).0.number
    };
    assert_eq!(number(0, 64), 15);
    assert_eq!(number(1, 7), 15);
    assert_eq!(number(1, 8), 18);
    assert_eq!(number(2048, 8 * 2048), 0);
    assert_eq!(number(2048, 8 * 2048 - 1), 15);
    for budget in [2049, 1 << 61, (1 << 61) + 1, usize::MAX] {
        assert_eq!(number(budget, 8 * 2048), 15);
    }
}

// Codes.

#[test]
fn every_byte_has_its_class() {
    for byte in 0..=255u8 {
        let letter_or_digit = "ABCDEFGHIJKLMNOPQRSTUVWXYZ0123456789".as_bytes().contains(&byte);
        assert_eq!(spelled(&[byte]), letter_or_digit);
        assert_eq!(spelled(&[byte, b'A']), letter_or_digit);
        assert_eq!(spelled(&[b'A', byte]), letter_or_digit);
        assert_eq!(spelled(&[b'A', byte, b'A']), letter_or_digit || byte == b'-');
    }
    for length in 0..=300 {
        assert_eq!(spelled(&vec![b'Q'; length]), (1..=12).contains(&length));
    }
}

#[test]
fn packing_keeps_codes_apart() {
    let mut rng = Random::new(7);
    let mut met = std::collections::HashMap::new();
    for _ in 0..20_000 {
        let code = make::code(&mut rng);
        assert!(spelled(&code));
        let words = packed(&code);
        assert_eq!(unpacked(&words), code);
        assert_eq!(*met.entry(words).or_insert_with(|| code.clone()), code);
        let bad = make::bad_code(&mut rng, &code);
        assert!(!spelled(&bad));
    }
    assert_eq!(packed(b"W-104"), [0x572D_3130, 0x3400_0000, 0]);
}

// The numbers and their order.

#[test]
fn every_fault_gives_its_number() {
    let mut rng = Random::new(11);
    let faults = || SCHEME_FAULTS.iter().chain(ROSTER_FAULTS).chain(STORE_FAULTS);
    let mut met = HashSet::new();
    for fault in faults().cycle().take(20 * faults().count()) {
        let mut set = make::wide_setting(&mut rng);
        if !(fault.apply)(&mut rng, &mut set) {
            continue;
        }
        met.insert(fault.name);
        let (s, r, p, st) = (set.scheme(), &set.roster, set.people, &set.store);
        let none = [1u8, 0, 2, 0, 0];
        assert_eq!(model::request(&s, r, p, st, 0, 0, 0, b"W").0, fault.number);
        assert_eq!(model::run_batch(&s, r, p, st, &none, &[0; 256]).0.number, fault.number);
        assert_eq!(model::may_use(&s, r, p, st, 0, 0, b"W").number, fault.number);
        assert_eq!(model::access_list(&s, r, p, st, b"W", &[0; 64]).0.number, fault.number);
        let design = model::verdict_of_design(&s, r, p, st, b"W", 0, 0, 1, &[0; 8]).0;
        assert_eq!(design.number, fault.number);
    }
    assert_eq!(met.len(), faults().count());
}

#[test]
fn valid_settings_are_valid() {
    let mut rng = Random::new(12);
    for turn in 0..400 {
        let set = if turn % 2 == 0 {
            make::wide_setting(&mut rng)
        } else {
            make::verdict_setting(&mut rng)
        };
        let s = set.scheme();
        assert_eq!(model::check_scheme(&s), Ok(()));
        assert!(roster_of(&s, &set.roster, set.people).is_ok());
        assert!(store_of(&s, set.people, &set.store).is_ok());
    }
}

/// One cause after the other is taken away, in the order of the rules.
#[test]
fn a_request_is_refused_in_order() {
    let good = Command { form: GRANT, source: 0, destination: 1, kind: 0, x: 4, y: 4, z: 16 };
    let create = Command { form: CREATE, kind: 1, z: 1, ..Default::default() };
    let own = Command { form: INTERNAL, ..Default::default() };
    let mut set = mill_setting(&[good, create, own]);
    set.kinds = 2;
    let mut asked = (3, 4, 4, b"w".to_vec());
    let number = |set: &mut Setting, asked: &(usize, usize, usize, Vec<u8>)| {
        let before = set.store.clone();
        let number = do_request(set, asked.0, asked.1, asked.2, &asked.3);
        assert!(number == 0 || set.store == before);
        number
    };
    assert_eq!(number(&mut set, &asked), 6);
    asked.0 = 0;
    assert_eq!(number(&mut set, &asked), 7);
    asked.1 = 0;
    assert_eq!(number(&mut set, &asked), 7);
    asked.2 = 0;
    assert_eq!(number(&mut set, &asked), 8);
    asked.2 = 1;
    assert_eq!(number(&mut set, &asked), 4);
    asked.3 = b"W".to_vec();
    assert_eq!(number(&mut set, &asked), 12);
    // The design is there, of another kind.
    assert_eq!(number(&mut set, &(1, 0, 0, b"W".to_vec())), 0);
    assert_eq!(number(&mut set, &asked), 13);
    assert_eq!(number(&mut set, &(1, 0, 0, b"W".to_vec())), 10);
    set.store[1] = 0;
    assert_eq!(number(&mut set, &asked), 14);
    set.store[5] = 5;
    assert_eq!(number(&mut set, &asked), 0);
    assert_eq!(set.store[5..7], [1, 16]);
    // 9 before 4: create and internal with two people of one type (LAB-1, LAB-2).
    set.commands[1] = Command { source: 1, destination: 1, ..create };
    set.commands[2] = Command { source: 1, destination: 1, ..own };
    for command in [1, 2] {
        assert_eq!(number(&mut set, &(command, 1, 2, b"w".to_vec())), 9);
    }
}

#[test]
fn calls_are_refused_in_order() {
    // Everything is wrong at once; then one thing after the other is mended.
    let good = mill_setting(&mill::A);
    let mut set = good.clone();
    set.roster.truncate(127);
    set.types = 0;
    set.people = 0;
    set.store[0] = 65;
    let mut card = vec![2u8, 0, 2, 0, 0];
    let numbers = |set: &Setting, card: &[u8], asked: (usize, usize, &[u8], usize)| {
        let (person, right, code, budget) = asked;
        let (s, r, p, st) = (set.scheme(), &set.roster, set.people, &set.store);
        [
            model::run_batch(&s, r, p, st, card, &[0; 256]).0.number,
            model::may_use(&s, r, p, st, person, right, code).number,
            model::access_list(&s, r, p, st, code, &[0; 64]).0.number,
            model::verdict_of_design(&s, r, p, st, code, 0, right, budget, &[0; 88]).0.number,
        ]
    };
    let mut asked: (usize, usize, &[u8], usize) = (4, 8, b"w", 12);
    assert_eq!(numbers(&set, &card, asked), [20; 4]);
    set.roster = good.roster.clone();
    assert_eq!(numbers(&set, &card, asked), [1, 2, 2, 2]);
    card[0] = 1;
    assert_eq!(numbers(&set, &card, asked), [2; 4]);
    set.types = 3;
    assert_eq!(numbers(&set, &card, asked), [3; 4]);
    set.people = 4;
    set.roster[0] = 3;
    set.roster[1] = 0;
    set.roster[8..12].copy_from_slice(&good.roster[4..8]);
    assert_eq!(numbers(&set, &card, asked), [3; 4]);
    set.roster[0] = 0;
    assert_eq!(numbers(&set, &card, asked), [4; 4]);
    set.roster[1] = good.roster[1];
    assert_eq!(numbers(&set, &card, asked), [5; 4]);
    set.roster = good.roster.clone();
    assert_eq!(numbers(&set, &card, asked), [21; 4]);
    set.store[0] = 0;
    assert_eq!(numbers(&set, &card, asked), [0, 15, 4, 15]);
    asked.1 = 7;
    assert_eq!(numbers(&set, &card, asked), [0, 7, 4, 15]);
    asked.0 = 3;
    asked.3 = 11;
    assert_eq!(numbers(&set, &card, asked), [0, 4, 4, 4]);
    asked.2 = b"W";
    assert_eq!(numbers(&set, &card, asked), [0, 12, 12, 12]);
    set.store = model::request(&set.scheme(), &set.roster, 4, &set.store, 0, 0, 0, b"W").1;
    assert_eq!(numbers(&set, &card, asked), [0; 4]);
}

#[test]
fn a_card_is_filled_as_its_numbers_are_written() {
    let s = mill::scheme(&mill::A);
    let number = |body: &[u8]| model::read_roster(&s, &mill::card(body), &[0; 128]).0.number;
    assert_eq!(number(&[]), 1);
    assert_eq!(number(&[0]), 3);
    assert_eq!(number(&[1, 0]), 1);
    assert_eq!(number(&[1, 0, 0]), 4);
    assert_eq!(number(&[1, 9, 0]), 3);
    assert_eq!(number(&[1, 0, 1, b'A']), 0);
    assert_eq!(number(&[1, 0, 1, b'A', b'A']), 1);
    assert_eq!(number(&[1, 0, 2, b'A']), 1);
    // A code of 13 bytes fills its place and is 4; of 12 bytes it is cut nowhere.
    assert_eq!(number(b"\x01\x00\x0DABCDEFGHIJKLM"), 4);
    assert_eq!(number(b"\x01\x00\x0CABCDEFGHIJKLM"), 1);
    assert_eq!(number(b"\x01\x00\x0CABCDEFGHIJKL"), 0);
    // A scheme with 65 commands: exact filling is 2, any other 1.
    let mut body = vec![1, 1, 1, 65];
    body.resize(4 + 16 * 65, 0);
    let scheme =
        |body: &[u8]| model::read_scheme(&mill::card(body), &[Command::default(); 64]).0.number;
    assert_eq!(scheme(&body), 2);
    body.push(0);
    assert_eq!(scheme(&body), 1);
    // Header alone, and less than a header.
    for card in [&[][..], &[1], &[1, 0], &[1, 0, 0], &[2, 0, 0], &[1, 0, 1]] {
        assert_eq!(model::read_scheme(card, &[Command::default(); 64]).0.number, 1);
    }
}

#[test]
fn access_lists_and_questions() {
    let mut set = mill_setting(&mill::A);
    set.store[0] = 1;
    set.store[2..5].copy_from_slice(&packed(b"W-104"));
    let shown = |set: &Setting| {
        let (s, r, p) = (set.scheme(), &set.roster, set.people);
        model::access_list(&s, r, p, &set.store, b"W-104", &[77; 66])
    };
    // A design with nobody on its list still exists.
    let (answer, list) = shown(&set);
    assert_eq!((answer, list), (AccessList { number: 0, people: 0 }, vec![77; 66]));
    set.store[5 + 3] = 0x80;
    set.store[5 + 1] = 0x10;
    let (answer, list) = shown(&set);
    assert_eq!(answer.people, 2);
    assert_eq!(list[..5], [1, 0x10, 3, 0x80, 77]);
    let (s, r, p) = (set.scheme(), &set.roster, set.people);
    let may = |person, right| model::may_use(&s, r, p, &set.store, person, right, b"W-104");
    assert_eq!(may(3, 7), MayUse { number: 0, may: 1 });
    assert_eq!(may(3, 6), MayUse { number: 0, may: 0 });
    assert_eq!(may(3, 8), MayUse { number: 15, may: 0 });
    assert_eq!(may(4, 8), MayUse { number: 15, may: 0 });
    assert_eq!(may(4, 7), MayUse { number: 7, may: 0 });
}

// The listing.

/// The listing once more, by its words and with nothing but lists.
fn listing_by_words(s: &Scheme, kind: usize, start: Row) -> Vec<Row> {
    let mut rows = vec![start];
    let mut at = 0;
    while at < rows.len() {
        for c in s.commands.iter().filter(|c| c.kind as usize == kind && c.form != CREATE) {
            let mut row = rows[at];
            if c.x & !row[c.source as usize] == 0 {
                row[c.source as usize] &= !c.y;
                row[c.destination as usize] |= c.z;
                if !rows.contains(&row) {
                    rows.push(row);
                }
            }
        }
        at += 1;
    }
    rows
}

#[test]
fn listings_by_words_and_by_map_agree() {
    let mut rng = Random::new(21);
    let mut long = 0;
    for _ in 0..600 {
        let made = make::verdict_scheme(&mut rng);
        let s = made.scheme();
        for create in made.creates() {
            let c = s.commands[create];
            let start = verdicts::start_of_create(&c);
            let listed = listing(&s, c.kind as usize, start, 300);
            if !listed.whole {
                continue;
            }
            let rows = listing_by_words(&s, c.kind as usize, start);
            assert_eq!(listed.rows, rows);
            long += (rows.len() >= 8) as usize;
            // Cut off at any budget below, the first rows are the same.
            for budget in 1..rows.len() {
                let cut = listing(&s, c.kind as usize, start, budget);
                assert!(!cut.whole && cut.rows == rows[..budget]);
            }
        }
    }
    println!("{long} listings of eight states or more");
    assert!(long > 50, "{long} long listings");
}

#[test]
fn the_large_listings_have_2048_states() {
    for (made, commands) in [(toggles(11), 23), (ring(11), 13), (crowded(11), 64)] {
        assert_eq!(made.commands.len(), commands);
        let s = made.scheme();
        assert_eq!(ask(&s, 0, 0, 2048), Verdict { states: 2048, ..ask(&s, 0, 0, 2048) });
        assert_eq!(ask(&s, 0, 0, 2048).number, 0);
        assert_eq!(ask(&s, 0, 0, 2047), Verdict { number: 18, states: 2047, ..NONE });
    }
}

#[test]
fn refusals_leave_the_table_save_18_and_19() {
    let table = vec![0x1234_5678u32; 8 * 30 + 5];
    let left = |commands: &[Command], budget: usize| {
        let s = mill::scheme(commands);
        let (verdict, after) = model::verdict_of_create(&s, 0, 0, 7, budget, &table);
        let rows = after.chunks_exact(8).take_while(|row| row[7] == 0).count();
        assert!(after[8 * rows..] == table[8 * rows..]);
        (verdict.number, rows)
    };
    assert_eq!(left(&mill::A, 30), (0, 11));
    assert_eq!(left(&mill::A, 10), (18, 10));
    assert_eq!(left(&mill::B, 30), (19, 21));
    assert_eq!(left(&mill::B, 20), (18, 20));
    assert_eq!(left(&mill::C, 30), (16, 0));
    assert_eq!(left(&mill::A, 31), (15, 0));
}

// Shortcuts that the rules shut out.

#[test]
fn a_handover_within_one_type_gets_a_verdict() {
    // Own goes from designer to designer; by the cell before the loss it would be
    // a duplicate step.
    let create = Command { form: CREATE, z: 1, ..Default::default() };
    let over = Command { form: GRANT, x: 1, y: 1, z: 1, ..Default::default() };
    let s = Scheme { commands: &[create, over], types: 1, kinds: 1, rights: 1 };
    assert_eq!(ask(&s, 0, 0, 1), Verdict { states: 1, held: 1, ..NONE });
    // Without the loss it is one, though it leads to a listed state.
    let copy = Command { y: 0, ..over };
    let drop = Command { form: INTERNAL, x: 1, y: 1, ..Default::default() };
    let s = Scheme { commands: &[create, copy, drop], types: 1, kinds: 1, rights: 1 };
    let due = Verdict { number: 19, states: 2, state: 0, command: 1, held: 0 };
    assert_eq!(ask(&s, 0, 0, 2), due);
}

#[test]
fn a_type_may_grant_to_itself() {
    let create = Command { form: CREATE, z: 1, ..Default::default() };
    let other = Command { form: GRANT, x: 1, z: 2, ..Default::default() };
    let s = Scheme { commands: &[create, other], types: 1, kinds: 1, rights: 2 };
    assert_eq!(ask(&s, 0, 1, 2), Verdict { states: 2, held: 1, state: 1, ..NONE });
}

#[test]
fn only_commands_of_the_kind_count() {
    // The other kind's command is not normal here, asks for rights and loses them;
    // none of it touches the verdict of kind 0.
    let create = Command { form: CREATE, z: 1, ..Default::default() };
    let gain = Command { form: INTERNAL, x: 1, z: 2, ..Default::default() };
    let other = Command { form: INTERNAL, kind: 1, x: 2, y: 3, z: 4, ..Default::default() };
    let again = Command { kind: 1, x: 1, y: 0, ..other };
    let s = Scheme { commands: &[create, gain, other, again], types: 1, kinds: 2, rights: 3 };
    assert_eq!(ask(&s, 0, 2, 2), Verdict { states: 2, ..NONE });
    let of_other = Command { kind: 1, ..create };
    let s = Scheme { commands: &[of_other, gain, other, again], types: 1, kinds: 2, rights: 3 };
    assert_eq!(ask(&s, 0, 2, 2), Verdict { number: 16, command: 2, ..NONE });
}

// Demand 3, in the model alone.

/// All states of a design that any requests of these people lead to, up to a limit;
/// none if there are more.
fn every_history(
    s: &Scheme,
    people: &[Person],
    start: &Design,
    limit: usize,
) -> Option<HashSet<[u32; 32]>> {
    let mut met = HashSet::from([start.cells]);
    let mut ahead = VecDeque::from([start.clone()]);
    while let Some(design) = ahead.pop_front() {
        for number in 0..s.commands.len() {
            if s.commands[number].form == CREATE {
                continue;
            }
            for from in 0..people.len() {
                for to in 0..people.len() {
                    let mut next = vec![design.clone()];
                    let code = &design.code;
                    if model::carry_out(s, people, &mut next, number, from, to, code) == 0
                        && met.insert(next[0].cells)
                    {
                        if met.len() > limit {
                            return None;
                        }
                        ahead.push_back(next.remove(0));
                    }
                }
            }
        }
    }
    Some(met)
}

/// Rights that people hold somewhere in these states, beyond what is listed.
fn beyond(people: &[Person], states: &HashSet<[u32; 32]>, rows: &[Row]) -> u32 {
    let mut reach = [0u32; 8];
    for row in rows {
        (0..8).for_each(|t| reach[t] |= row[t]);
    }
    let mut all = 0;
    for cells in states {
        for (person, cell) in people.iter().zip(cells) {
            all |= cell & !reach[person.of_type];
        }
    }
    all
}

fn persons(types: &[usize]) -> Vec<Person> {
    types
        .iter()
        .enumerate()
        .map(|(at, of_type)| Person { of_type: *of_type, code: format!("P{at}").into_bytes() })
        .collect()
}

/// Where the verdict is 0, every history of several people for each type keeps to
/// the listing: tried over all histories, not some.
#[test]
fn demand_3_over_every_history() {
    let mut rng = Random::new(31);
    let (mut tried, mut moved, mut several) = (0, 0, 0);
    for _ in 0..2_500 {
        let Some((made, create)) = make::calm_scheme(&mut rng) else { continue };
        if made.types > 2 {
            continue;
        }
        let s = made.scheme();
        let c = s.commands[create];
        let rows = listing(&s, c.kind as usize, verdicts::start_of_create(&c), BUDGET).rows;
        let crowd: Vec<usize> = if made.types == 1 { vec![0, 0, 0] } else { vec![0, 0, 1, 1] };
        let people = persons(&crowd);
        let who = crowd.iter().position(|t| *t == c.source as usize).unwrap();
        let mut designs = Vec::new();
        assert_eq!(model::carry_out(&s, &people, &mut designs, create, who, who, b"W"), 0);
        let Some(states) = every_history(&s, &people, &designs[0], 1_500) else { continue };
        assert_eq!(beyond(&people, &states, &rows), 0, "{made:?}");
        tried += 1;
        moved += (rows.len() > 3) as usize;
        let spread = |cells: &[u32; 32]| {
            (0..crowd.len())
                .any(|a| (0..a).any(|b| crowd[a] == crowd[b] && cells[a] != 0 && cells[b] != 0))
        };
        several += states.iter().any(spread) as usize;
    }
    println!("{tried} schemes, {moved} with more than three states, {several} with rights on two of a type");
    assert!(tried > 300 && moved > 100 && several > 100, "{tried} {moved} {several}");
}

/// The same from designs in a store.
#[test]
fn demand_3_from_designs_over_every_history() {
    let mut rng = Random::new(32);
    let (mut tried, mut several) = (0, 0);
    for _ in 0..12_000 {
        let mut made = make::verdict_scheme(&mut rng);
        if made.types > 2 {
            continue;
        }
        make::make_normal(&mut rng, &mut made);
        let s = made.scheme();
        let crowd: Vec<usize> = if made.types == 1 { vec![0, 0, 0] } else { vec![0, 0, 1, 1] };
        let people = persons(&crowd);
        let known = model::rights_mask(made.rights);
        let mut cells = [0u32; 32];
        for cell in cells.iter_mut().take(crowd.len()) {
            *cell = rng.bits(known, 15);
        }
        let design = Design { kind: rng.below(made.kinds), code: b"W".to_vec(), cells };
        if verdicts::first_not_normal(&s, design.kind).is_some()
            || verdicts::overlap(&s, &people, &design)
        {
            continue;
        }
        let start = verdicts::start_of_design(&people, &design);
        let listed = listing(&s, design.kind, start, 400);
        if !listed.whole || listed.duplicate.is_some() || listed.rows.len() < 2 {
            continue;
        }
        let Some(states) = every_history(&s, &people, &design, 1_500) else { continue };
        assert_eq!(beyond(&people, &states, &listed.rows), 0, "{made:?} {design:?}");
        tried += 1;
        several += (states.len() > 8) as usize;
    }
    println!("{tried} designs, {several} with more than eight real states");
    assert!(tried > 300 && several > 100, "{tried} {several}");
}

/// The refusals 16, 17 and 19 are needed: where they are given, a history of two
/// people may get what no listed state has.
#[test]
fn without_16_17_and_19_demand_3_would_break() {
    const R: u32 = 1;
    const A: u32 = 2;
    const B: u32 = 4;
    const S: u32 = 8;
    const WIN: u32 = 16;
    let create = |z| Command { form: CREATE, z, ..Default::default() };
    let own = |x, y, z| Command { form: INTERNAL, x, y, z, ..Default::default() };
    let grant = |x, y, z| Command { form: GRANT, x, y, z, ..Default::default() };
    let people = persons(&[0, 0]);
    let check = |commands: &[Command], cells: [u32; 2], due: u8| {
        let s = Scheme { commands, types: 1, kinds: 1, rights: 5 };
        let mut all = [0; 32];
        all[..2].copy_from_slice(&cells);
        let design = Design { kind: 0, code: b"W".to_vec(), cells: all };
        let states = every_history(&s, &people, &design, 10_000).unwrap();
        let rows = listing(&s, 0, verdicts::start_of_design(&people, &design), BUDGET).rows;
        assert_eq!(beyond(&people, &states, &rows) & WIN, WIN);
        let mut set = mill_setting(commands);
        (set.types, set.rights, set.people) = (1, 5, 2);
        set.roster = roster_words(&crowd(2));
        set.store[..5].copy_from_slice(&[1, 0, 0x5700_0000, 0, 0]);
        set.store[5..7].copy_from_slice(&cells);
        let (s, r, st) = (set.scheme(), &set.roster, &set.store);
        let table = vec![0; 8 * BUDGET];
        let verdict = model::verdict_of_design(&s, r, 2, st, b"W", 0, 4, BUDGET, &table).0;
        assert_eq!(verdict.number, due);
    };
    let turns = [own(R, R, A), own(R, R, B), grant(R, R, R), grant(A, A, A), own(A | B, 0, WIN)];
    // 17: two people hold R at the start.
    check(&turns, [R, R], 17);
    // 19: one person gets a second R for another, once.
    let mut more = turns.to_vec();
    more.insert(0, grant(S | R, S, R));
    check(&more, [S | R, 0], 19);
    more.insert(0, create(S | R));
    let s = Scheme { commands: &more, types: 1, kinds: 1, rights: 5 };
    assert_eq!(ask(&s, 0, 4, BUDGET).number, 19);
    // 16: R is lost by one who need not hold it.
    check(&[own(0, R, A), grant(A, A, A), own(R | A, 0, WIN)], [R, 0], 16);
}

/// A held verdict is reached by requests of one person for each type, and nothing
/// else is.
#[test]
fn held_rights_are_reached_by_one_person_each() {
    let mut rng = Random::new(33);
    let (mut held, mut not) = (0, 0);
    for _ in 0..400 {
        let Some((made, create)) = make::calm_scheme(&mut rng) else { continue };
        let s = made.scheme();
        let people: Vec<(u8, Vec<u8>)> =
            (0..made.types).map(|t| (t as u8, format!("T{t}").into_bytes())).collect();
        let found = one_person_each(&s, create, &people);
        let table = vec![0; 8 * BUDGET];
        for of_type in 0..made.types {
            for right in 0..made.rights {
                let verdict =
                    model::verdict_of_create(&s, create, of_type, right, BUDGET, &table).0;
                assert_eq!(verdict.number, 0);
                assert_eq!(verdict.states, found.len());
                let reached = found.iter().any(|(cells, _)| cells[of_type] >> right & 1 == 1);
                assert_eq!(verdict.held == 1, reached);
                held += reached as usize;
                not += !reached as usize;
            }
        }
    }
    println!("{held} rights held and reached, {not} neither");
    assert!(held > 300 && not > 300, "{held} {not}");
}

// Reading by parts.

#[test]
fn a_program_reads_no_byte_after_the_last_card() {
    let mut bytes = mill::worked_batch();
    let end = bytes.len();
    bytes.extend([1, 0, 9, 9, 9]);
    let mut have = 0;
    let mut turns = 0;
    while model::batch_wanted(&bytes[..have]) > 0 {
        have += model::batch_wanted(&bytes[..have]);
        turns += 1;
    }
    assert_eq!((have, turns), (end, 6));
    let scheme = 3 + 4 + 16 * 7;
    assert_eq!(model::verdict_wanted(&bytes[..scheme]), 0);
    assert_eq!(model::verdict_wanted(&bytes[..scheme - 1]), 1);
    assert_eq!(model::verdict_wanted(&[]), 3);
    assert_eq!(model::verdict_wanted(&[1]), 2);
    assert_eq!(model::verdict_wanted(&[1, 1, 0]), 256);
}

#[test]
fn a_program_reads_no_byte_after_a_refused_card() {
    assert_eq!(model::verdict_wanted(&[2]), 0);
    assert_eq!(model::verdict_wanted(&[1, 255, 254]), 0);
    assert_eq!(model::verdict_wanted(&[1, 255, 253]), 65_533);
    let none = mill::card(&mill::scheme_body(0, 1, 1, &[]));
    assert_eq!(model::batch_wanted(&none), 0);
    let mut bytes = mill::scheme_card(&mill::scheme(&mill::A));
    assert_eq!(model::batch_wanted(&bytes), 3);
    bytes.extend(mill::card(&mill::roster_body(&[])));
    assert_eq!(model::batch_wanted(&bytes), 0);
}

// The tools of the differential tests.

#[test]
fn guards_notice_every_change() {
    let mut rng = Random::new(41);
    for at in -4i32..=12 {
        let mut buffer = Guarded::<u32>::new(&mut rng, "buffer", &[1, 2, 3, 4]);
        let from = buffer.lent().as_ptr();
        assert!(buffer.untouched().is_ok());
        // One word changed, in the buffer or in a guard zone.
        let word = unsafe { &mut *(from.offset(at as isize) as *mut u32) };
        *word = word.wrapping_add(1);
        assert!(buffer.untouched().is_err(), "{at}");
    }
    let mut buffer = Guarded::<u8>::new(&mut rng, "buffer", &[1, 2]);
    buffer.lent_mut()[1] = 9;
    assert!(buffer.holds(&[1, 9]).is_ok());
    assert!(buffer.holds(&[1, 2]).is_err());
}

/// A share of every group. Without a library the plain version is tried.
#[test]
fn a_share_of_every_group() {
    let mut seen = Seen::default();
    for (number, group) in GROUPS.iter().enumerate() {
        for index in 0..(group.gate / 100).max(1) {
            let seed = mix(mix(99, number as u64), index as u64);
            if let Err(what) = (group.case)(&mut seen, &mut Random::new(seed)) {
                panic!("{} with seed {seed:#x}: {what}", group.name);
            }
        }
    }
    assert!(seen.calls > 5_000);
    assert!(groups::required().len() > 200);
}

/// The versions that the benchmark measures do what the model does.
#[test]
fn the_measured_versions_agree_with_the_model() {
    let mut rng = Random::new(51);
    for _ in 0..300 {
        let set = make::wide_setting(&mut rng);
        let (s, r, p) = (set.scheme(), &set.roster, set.people);
        let (commands, t, k, n) = (s.commands, s.types, s.kinds, s.rights);
        let (command, from, to, code) = make::request(&mut rng, &set);
        let (number, after) = model::request(&s, r, p, &set.store, command, from, to, &code);
        for call in [plain::request, idiom::request] {
            let mut store = set.store.clone();
            assert_eq!(call(commands, t, k, n, r, p, &mut store, command, from, to, &code), number);
            assert_eq!(store, after);
        }
        let card = make::scheme_card_of(&set);
        let buffer = garbage::<Command>(&mut rng, 64);
        let (read, after) = model::read_scheme(&card, &buffer);
        for call in [plain::read_scheme, idiom::read_scheme] {
            let mut commands = buffer.clone();
            assert_eq!(call(&card, &mut commands), read);
            assert_eq!(commands, after);
        }
        let code: Vec<u8> = code.into_iter().take(255).collect();
        let asked: Vec<mill::Asked> = (0..20)
            .map(|_| {
                let (command, from, to, other) = make::request(&mut rng, &set);
                let code = if rng.percent(50) { code.clone() } else { other };
                (command as u8, from as u8, to as u8, code)
            })
            .collect();
        let card = mill::card(&mill::batch_body(&asked));
        let (run, after, given) = model::run_batch(&s, r, p, &set.store, &card, &[5; 256]);
        for call in [plain::run_batch, idiom::run_batch] {
            let (mut store, mut answers) = (set.store.clone(), vec![5; 256]);
            assert_eq!(call(commands, t, k, n, r, p, &mut store, &card, &mut answers), run);
            assert_eq!((store, answers), (after.clone(), given.clone()));
        }
        let made = make::verdict_scheme(&mut rng);
        let s = made.scheme();
        let (of_type, right) = (rng.below(s.types), rng.below(s.rights));
        let budget = rng.between(1, 60);
        let table = garbage::<u32>(&mut rng, 8 * budget + 3);
        let (verdict, after) = model::verdict_of_create(&s, 0, of_type, right, budget, &table);
        for call in [plain::verdict_of_create, idiom::verdict_of_create] {
            let mut rows = table.clone();
            let (c, t, k, n) = (s.commands, s.types, s.kinds, s.rights);
            assert_eq!(call(c, t, k, n, 0, of_type, right, budget, &mut rows), verdict);
            assert_eq!(rows, after);
        }
    }
}
