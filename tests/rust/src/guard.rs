//! Lent buffers with guard zones before and behind, so that every byte around a
//! buffer is compared as well.

use crate::answers::Command;
use crate::random::Random;
use std::fmt::Debug;

/// Something to fill guard zones and free parts of buffers with.
pub trait Garbage: Copy + PartialEq + Debug {
    fn garbage(rng: &mut Random) -> Self;
}

impl Garbage for u8 {
    fn garbage(rng: &mut Random) -> u8 {
        rng.byte()
    }
}

impl Garbage for u32 {
    fn garbage(rng: &mut Random) -> u32 {
        // Small numbers too: they look like types, kinds and rights.
        let drawn = rng.draw();
        if drawn >> 63 == 0 {
            drawn as u32
        } else {
            drawn as u32 & 7
        }
    }
}

impl Garbage for Command {
    fn garbage(rng: &mut Random) -> Command {
        Command {
            form: rng.byte(),
            source: rng.byte(),
            destination: rng.byte(),
            kind: rng.byte(),
            x: rng.word(),
            y: rng.word(),
            z: rng.word(),
        }
    }
}

pub fn garbage<T: Garbage>(rng: &mut Random, count: usize) -> Vec<T> {
    (0..count).map(|_| T::garbage(rng)).collect()
}

pub struct Guarded<T> {
    name: &'static str,
    /// Guard, content, guard: as lent, and as it was before.
    now: Vec<T>,
    was: Vec<T>,
    from: usize,
    len: usize,
}

impl<T: Garbage> Guarded<T> {
    pub fn new(rng: &mut Random, name: &'static str, content: &[T]) -> Self {
        let from = rng.between(4, 19);
        let behind = rng.between(9, 24);
        let mut now = garbage(rng, from);
        now.extend_from_slice(content);
        now.extend(garbage::<T>(rng, behind));
        let was = now.clone();
        Guarded { name, now, was, from, len: content.len() }
    }

    pub fn lent(&self) -> &[T] {
        &self.now[self.from..self.from + self.len]
    }

    pub fn lent_mut(&mut self) -> &mut [T] {
        &mut self.now[self.from..self.from + self.len]
    }

    /// All as it was.
    pub fn untouched(&mut self) -> Result<(), String> {
        self.compare()
    }

    /// The content as expected, the guards as they were.
    pub fn holds(&mut self, expected: &[T]) -> Result<(), String> {
        self.was[self.from..self.from + self.len].copy_from_slice(expected);
        self.compare()
    }

    fn compare(&mut self) -> Result<(), String> {
        // The memory was lent to foreign code: look at it afresh.
        let now: &Vec<T> = std::hint::black_box(&self.now);
        if *now == self.was {
            return Ok(());
        }
        let places: Vec<usize> = (0..now.len()).filter(|at| now[*at] != self.was[*at]).collect();
        let at = places[0];
        let where_ = if at < self.from {
            format!("{} before the buffer", self.from - at)
        } else if at >= self.from + self.len {
            format!("{} behind the buffer", at - self.from - self.len)
        } else {
            format!("at {}", at - self.from)
        };
        Err(format!(
            "{} ({} elements): {} differ, the first {}: expected {:X?}, found {:X?}",
            self.name,
            self.len,
            places.len(),
            where_,
            self.was[at],
            now[at]
        ))
    }
}
