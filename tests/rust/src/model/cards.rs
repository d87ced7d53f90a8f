//! Cards: version, length and filling. Ranges are checked by the caller.

use super::lent::Person;
use super::{refuse, Checked, CARD_BYTES, REQUESTS};
use crate::answers::{Command, Scheme};

/// What is left of a body, read from its front.
struct Rest<'a>(&'a [u8]);

impl<'a> Rest<'a> {
    fn bytes(&mut self, count: usize) -> Checked<&'a [u8]> {
        refuse(1, self.0.len() < count)?;
        let (taken, rest) = self.0.split_at(count);
        self.0 = rest;
        Ok(taken)
    }

    /// A big-endian number of this many bytes.
    fn number(&mut self, bytes: usize) -> Checked<u32> {
        Ok(self.bytes(bytes)?.iter().fold(0, |n, b| n << 8 | *b as u32))
    }

    fn byte(&mut self) -> Checked<u8> {
        Ok(self.number(1)? as u8)
    }

    /// A length byte and that many bytes.
    fn code(&mut self) -> Checked<Vec<u8>> {
        let length = self.byte()? as usize;
        Ok(self.bytes(length)?.to_vec())
    }

    fn ended(self) -> Checked<()> {
        refuse(1, !self.0.is_empty())
    }
}

/// The body of a card handed over.
fn body(card: &[u8]) -> Checked<Rest<'_>> {
    refuse(1, card.len() < 3 || card.len() > CARD_BYTES)?;
    refuse(1, card[0] != 1)?;
    let said = card[1] as usize * 256 + card[2] as usize;
    refuse(1, card.len() != 3 + said)?;
    Ok(Rest(&card[3..]))
}

#[derive(Clone, Debug, PartialEq, Eq)]
pub struct SchemeCard {
    pub types: usize,
    pub kinds: usize,
    pub rights: usize,
    pub commands: Vec<Command>,
}

impl SchemeCard {
    pub fn scheme(&self) -> Scheme<'_> {
        Scheme {
            commands: &self.commands,
            types: self.types,
            kinds: self.kinds,
            rights: self.rights,
        }
    }
}

pub fn scheme(card: &[u8]) -> Checked<SchemeCard> {
    let mut rest = body(card)?;
    let types = rest.byte()? as usize;
    let kinds = rest.byte()? as usize;
    let rights = rest.byte()? as usize;
    let count = rest.byte()?;
    let mut commands = Vec::new();
    for _ in 0..count {
        commands.push(Command {
            form: rest.byte()?,
            source: rest.byte()?,
            destination: rest.byte()?,
            kind: rest.byte()?,
            x: rest.number(4)?,
            y: rest.number(4)?,
            z: rest.number(4)?,
        });
    }
    rest.ended()?;
    Ok(SchemeCard { types, kinds, rights, commands })
}

pub fn roster(card: &[u8]) -> Checked<Vec<Person>> {
    let mut rest = body(card)?;
    let count = rest.byte()?;
    let mut people = Vec::new();
    for _ in 0..count {
        people.push(Person { of_type: rest.byte()? as usize, code: rest.code()? });
    }
    rest.ended()?;
    Ok(people)
}

#[derive(Clone, Debug, PartialEq, Eq)]
pub struct Request {
    pub command: usize,
    pub source: usize,
    pub destination: usize,
    pub code: Vec<u8>,
}

pub fn batch(card: &[u8]) -> Checked<Vec<Request>> {
    let mut rest = body(card)?;
    let count = rest.number(2)? as usize;
    refuse(1, count > REQUESTS)?;
    let mut requests = Vec::new();
    for _ in 0..count {
        requests.push(Request {
            command: rest.byte()? as usize,
            source: rest.byte()? as usize,
            destination: rest.byte()? as usize,
            code: rest.code()?,
        });
    }
    rest.ended()?;
    Ok(requests)
}
