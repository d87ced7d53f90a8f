//! Rosters and stores: what the lent words mean, and the words written back.

use super::codes::{packed, spelled, unpacked};
use super::{refuse, rights_mask, Checked, DESIGNS, DESIGN_WORDS, PEOPLE};
use crate::answers::Scheme;
use std::collections::HashSet;

#[derive(Clone, Debug, PartialEq, Eq)]
pub struct Person {
    pub of_type: usize,
    pub code: Vec<u8>,
}

#[derive(Clone, Debug, PartialEq, Eq, Hash)]
pub struct Design {
    pub kind: usize,
    pub code: Vec<u8>,
    pub cells: [u32; PEOPLE],
}

impl Design {
    /// The people with a cell that isn't empty, in roster order.
    pub fn access_list(&self) -> Vec<(usize, u32)> {
        let cells = self.cells.iter().copied().enumerate();
        cells.filter(|(_, rights)| *rights != 0).collect()
    }
}

/// True if all items differ from each other.
fn all_different<'a>(codes: impl Iterator<Item = &'a Vec<u8>>) -> bool {
    let mut met = HashSet::new();
    for code in codes {
        if !met.insert(code) {
            return false;
        }
    }
    true
}

/// 3, 4 and 5 of a roster.
pub fn check_roster(s: &Scheme, people: &[Person]) -> Checked<()> {
    refuse(3, people.is_empty() || people.len() > PEOPLE)?;
    refuse(3, people.iter().any(|p| p.of_type >= s.types))?;
    refuse(4, people.iter().any(|p| !spelled(&p.code)))?;
    refuse(5, !all_different(people.iter().map(|p| &p.code)))
}

/// The roster in lent words, checked. The words have the room of 32 people.
pub fn roster_of(s: &Scheme, words: &[u32], people: usize) -> Checked<Vec<Person>> {
    refuse(3, people == 0 || people > PEOPLE)?;
    let persons: Vec<Person> = words
        .chunks_exact(4)
        .take(people)
        .map(|w| Person { of_type: w[0] as usize, code: unpacked(&w[1..4]) })
        .collect();
    check_roster(s, &persons)?;
    Ok(persons)
}

/// The words of a roster: four a person from the beginning, the rest as it was.
pub fn roster_words(people: &[Person], words: &[u32]) -> Vec<u32> {
    let mut after = words.to_vec();
    for (place, person) in after.chunks_exact_mut(4).zip(people) {
        place[0] = person.of_type as u32;
        place[1..4].copy_from_slice(&packed(&person.code));
    }
    after
}

/// The store in lent words, checked (21). The words have the room of 64 designs.
pub fn store_of(s: &Scheme, people: usize, words: &[u32]) -> Checked<Vec<Design>> {
    let count = words[0] as usize;
    refuse(21, count > DESIGNS)?;
    let designs: Vec<Design> = words[1..]
        .chunks_exact(DESIGN_WORDS)
        .take(count)
        .map(|w| Design {
            kind: w[0] as usize,
            code: unpacked(&w[1..4]),
            cells: w[4..].try_into().expect("32 cells"),
        })
        .collect();
    let known = rights_mask(s.rights);
    for d in &designs {
        refuse(21, d.kind >= s.kinds)?;
        refuse(21, !spelled(&d.code))?;
        refuse(21, d.cells.iter().any(|cell| cell & !known != 0))?;
        refuse(21, d.cells[people..].iter().any(|cell| *cell != 0))?;
    }
    refuse(21, !all_different(designs.iter().map(|d| &d.code)))?;
    Ok(designs)
}

/// The words of a store: the count and the designs from the beginning, the rest
/// as it was.
pub fn store_words(designs: &[Design], words: &[u32]) -> Vec<u32> {
    let mut after = words.to_vec();
    after[0] = designs.len() as u32;
    for (place, design) in after[1..].chunks_exact_mut(DESIGN_WORDS).zip(designs) {
        place[0] = design.kind as u32;
        place[1..4].copy_from_slice(&packed(&design.code));
        place[4..].copy_from_slice(&design.cells);
    }
    after
}
