//! The two programs: what they print for the bytes of standard input, and how
//! many bytes more they want.

use super::lent::Design;
use super::{cards, check_scheme, lent, refuse, Checked};
use super::{carry_out, verdict_of_create};
use super::{BATCH_TEXT_BYTES, BUDGET, CREATE, ROW_WORDS, VERDICT_TEXT_BYTES};
use crate::answers::Text;

/// The first card of a stream and what comes after it. A card that is cut off is
/// handed over as far as it goes, and is refused for its length.
fn next_card(bytes: &[u8]) -> (&[u8], &[u8]) {
    let said = match bytes {
        [_, high, low, ..] => 3 + *high as usize * 256 + *low as usize,
        _ => bytes.len(),
    };
    bytes.split_at(said.min(bytes.len()))
}

fn batch_lines(bytes: &[u8]) -> Checked<String> {
    let (card, rest) = next_card(bytes);
    let written = cards::scheme(card)?;
    let s = written.scheme();
    check_scheme(&s)?;
    let (card, rest) = next_card(rest);
    let people = cards::roster(card)?;
    lent::check_roster(&s, &people)?;
    let (card, _) = next_card(rest);
    let requests = cards::batch(card)?;

    let mut text = String::new();
    let mut designs: Vec<Design> = Vec::new();
    let mut done = 0;
    for (number, r) in requests.iter().enumerate() {
        let answer =
            carry_out(&s, &people, &mut designs, r.command, r.source, r.destination, &r.code);
        done += (answer == 0) as usize;
        text += &format!("R {number} {answer}\n");
    }
    let spelled = |code: &[u8]| String::from_utf8(code.to_vec()).expect("codes are ASCII");
    for design in &designs {
        text += &format!("D {} {}\n", spelled(&design.code), design.kind);
        for (person, rights) in design.access_list() {
            text += &format!("P {} {rights:08X}\n", spelled(&people[person].code));
        }
    }
    text += &format!("E {} {done}\n", requests.len());
    Ok(text)
}

/// The lines, and the table after one listing upon the other.
fn verdict_lines(bytes: &[u8], table: &[u32]) -> Checked<(String, Vec<u32>)> {
    let (card, _) = next_card(bytes);
    let written = cards::scheme(card)?;
    let s = written.scheme();
    check_scheme(&s)?;

    let mut text = String::new();
    let mut after = table.to_vec();
    for (number, _) in s.commands.iter().enumerate().filter(|(_, c)| c.form == CREATE) {
        let (verdict, left) = verdict_of_create(&s, number, 0, 0, BUDGET, &after);
        after = left;
        text += &format!("C {number} {} {}\n", verdict.number, verdict.states);
        if verdict.number == 0 {
            for of_type in 0..s.types {
                let rows = after.chunks_exact(ROW_WORDS).take(verdict.states);
                let ever = rows.fold(0, |all, row| all | row[of_type]);
                text += &format!("T {of_type} {ever:08X}\n");
            }
        }
    }
    Ok((text, after))
}

fn put(text: &str, buffer: &[u8]) -> (Text, Vec<u8>) {
    let mut after = buffer.to_vec();
    after[..text.len()].copy_from_slice(text.as_bytes());
    (Text { number: 0, bytes: text.len() }, after)
}

/// A refused card is no refusal of the call: the number is 0 and the text says X.
pub fn batch_text(bytes: &[u8], text: &[u8]) -> (Text, Vec<u8>) {
    if text.len() < BATCH_TEXT_BYTES {
        return (Text { number: 20, bytes: 0 }, text.to_vec());
    }
    let lines = batch_lines(bytes).unwrap_or_else(|number| format!("X {number}\n"));
    put(&lines, text)
}

/// The answer, the table and the text.
pub fn verdict_text(bytes: &[u8], table: &[u32], text: &[u8]) -> (Text, Vec<u32>, Vec<u8>) {
    let ready = || -> Checked<()> {
        refuse(20, text.len() < VERDICT_TEXT_BYTES)?;
        refuse(15, table.len() < BUDGET * ROW_WORDS)
    };
    if let Err(number) = ready() {
        return (Text { number, bytes: 0 }, table.to_vec(), text.to_vec());
    }
    let (lines, after) = verdict_lines(bytes, table)
        .unwrap_or_else(|number| (format!("X {number}\n"), table.to_vec()));
    let (answer, written) = put(&lines, text);
    (answer, after, written)
}

/// The bytes that the first card of a stream still lacks: up to the end of its
/// header, then up to its own end. None once it is whole, and none once its version
/// or its length refuses it, whatever follows.
fn lacking(bytes: &[u8]) -> usize {
    match bytes {
        [version, ..] if *version != 1 => 0,
        [_, high, low, ..] => match 3 + *high as usize * 256 + *low as usize {
            said if said > 65_536 => 0,
            said => said.saturating_sub(bytes.len()),
        },
        _ => 3 - bytes.len(),
    }
}

/// Scheme, roster and batch, each only once the one before it is whole and accepted.
pub fn batch_wanted(bytes: &[u8]) -> usize {
    let further = || -> Checked<usize> {
        if lacking(bytes) > 0 {
            return Ok(lacking(bytes));
        }
        let (card, rest) = next_card(bytes);
        let written = cards::scheme(card)?;
        check_scheme(&written.scheme())?;
        if lacking(rest) > 0 {
            return Ok(lacking(rest));
        }
        let (card, rest) = next_card(rest);
        lent::check_roster(&written.scheme(), &cards::roster(card)?)?;
        Ok(lacking(rest))
    };
    further().unwrap_or(0)
}

/// The scheme.
pub fn verdict_wanted(bytes: &[u8]) -> usize {
    lacking(bytes)
}
