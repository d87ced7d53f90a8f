//! The records that go in and come out of the calls, laid out as C lays them out.
//! The model, the plain version and the linked library share these and nothing else.

#[repr(C)]
#[derive(Clone, Copy, Debug, Default, PartialEq, Eq, Hash)]
pub struct Command {
    pub form: u8,
    pub source: u8,
    pub destination: u8,
    pub kind: u8,
    pub x: u32,
    pub y: u32,
    pub z: u32,
}

#[repr(C)]
#[derive(Clone, Copy, Debug, Default, PartialEq, Eq)]
pub struct SchemeRead {
    pub number: u8,
    pub types: usize,
    pub kinds: usize,
    pub rights: usize,
    pub commands: usize,
}

#[repr(C)]
#[derive(Clone, Copy, Debug, Default, PartialEq, Eq)]
pub struct RosterRead {
    pub number: u8,
    pub people: usize,
}

#[repr(C)]
#[derive(Clone, Copy, Debug, Default, PartialEq, Eq)]
pub struct BatchRun {
    pub number: u8,
    pub requests: usize,
    pub done: usize,
}

#[repr(C)]
#[derive(Clone, Copy, Debug, Default, PartialEq, Eq)]
pub struct MayUse {
    pub number: u8,
    pub may: u8,
}

#[repr(C)]
#[derive(Clone, Copy, Debug, Default, PartialEq, Eq)]
pub struct AccessList {
    pub number: u8,
    pub people: usize,
}

#[repr(C)]
#[derive(Clone, Copy, Debug, Default, PartialEq, Eq)]
pub struct Verdict {
    pub number: u8,
    pub states: usize,
    pub held: u8,
    pub state: usize,
    pub command: usize,
}

#[repr(C)]
#[derive(Clone, Copy, Debug, Default, PartialEq, Eq)]
pub struct Text {
    pub number: u8,
    pub bytes: usize,
}

/// The lent list of command records with its three counts.
#[derive(Clone, Copy, Debug)]
pub struct Scheme<'a> {
    pub commands: &'a [Command],
    pub types: usize,
    pub kinds: usize,
    pub rights: usize,
}
