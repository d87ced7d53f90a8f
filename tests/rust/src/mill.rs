//! The mill's schemes, the worked batch, and a writer of cards.

use crate::answers::{Command, Scheme};

const fn command(form: u8, source: u8, destination: u8, x: u32, y: u32, z: u32) -> Command {
    Command { form, source, destination, kind: 0, x, y, z }
}

pub const A: [Command; 7] = [
    command(1, 0, 0, 0, 0, 0x03),
    command(3, 0, 0, 0x03, 0x02, 0x0C),
    command(2, 0, 1, 0x04, 0x04, 0x10),
    command(2, 0, 2, 0x08, 0x08, 0x10),
    command(2, 1, 0, 0x10, 0x10, 0x20),
    command(2, 2, 0, 0x10, 0x10, 0x40),
    command(3, 0, 0, 0x60, 0, 0x80),
];

/// A with Z of command 1 = 04, and X = 04, Y = 0 in commands 2 and 3.
pub const B: [Command; 7] = {
    let mut b = A;
    b[1].z = 0x04;
    b[2].x = 0x04;
    b[2].y = 0;
    b[3].x = 0x04;
    b[3].y = 0;
    b
};

/// A with Y = 06 in command 2.
pub const C: [Command; 7] = {
    let mut c = A;
    c[2].y = 0x06;
    c
};

pub const DESIGNER: usize = 0;
pub const LAB: usize = 1;
pub const RELEASE: usize = 7;

pub fn scheme(commands: &[Command]) -> Scheme<'_> {
    Scheme { commands, types: 3, kinds: 1, rights: 8 }
}

/// Version, length and body. A body over 65,535 bytes has no card; its length is
/// cut to two bytes.
pub fn card(body: &[u8]) -> Vec<u8> {
    let mut bytes = vec![1];
    bytes.extend_from_slice(&(body.len() as u16).to_be_bytes());
    bytes.extend_from_slice(body);
    bytes
}

pub fn scheme_body(types: u8, kinds: u8, rights: u8, commands: &[Command]) -> Vec<u8> {
    let mut body = vec![types, kinds, rights, commands.len() as u8];
    for c in commands {
        body.extend_from_slice(&[c.form, c.source, c.destination, c.kind]);
        for set in [c.x, c.y, c.z] {
            body.extend_from_slice(&set.to_be_bytes());
        }
    }
    body
}

pub fn scheme_card(s: &Scheme) -> Vec<u8> {
    card(&scheme_body(s.types as u8, s.kinds as u8, s.rights as u8, s.commands))
}

/// Each person a type and a code of at most 255 bytes.
pub fn roster_body(people: &[(u8, Vec<u8>)]) -> Vec<u8> {
    let mut body = vec![people.len() as u8];
    for (of_type, code) in people {
        body.extend_from_slice(&[*of_type, code.len() as u8]);
        body.extend_from_slice(code);
    }
    body
}

/// Each request a command, a source, a destination and a code of at most 255 bytes.
pub type Asked = (u8, u8, u8, Vec<u8>);

pub fn batch_body(requests: &[Asked]) -> Vec<u8> {
    let mut body = (requests.len() as u16).to_be_bytes().to_vec();
    for (command, source, destination, code) in requests {
        body.extend_from_slice(&[*command, *source, *destination, code.len() as u8]);
        body.extend_from_slice(code);
    }
    body
}

pub fn worked_roster() -> Vec<(u8, Vec<u8>)> {
    let people: [(u8, &str); 4] = [(0, "ANN"), (1, "LAB-1"), (1, "LAB-2"), (2, "LIC")];
    people.iter().map(|(t, code)| (*t, code.as_bytes().to_vec())).collect()
}

pub fn worked_requests() -> Vec<Asked> {
    let requests: [(u8, u8, u8, &str); 8] = [
        (0, 0, 0, "W-104"),
        (0, 0, 0, "w-104"),
        (0, 0, 0, "W-104"),
        (2, 0, 1, "W-104"),
        (1, 0, 0, "W-104"),
        (2, 0, 1, "W-104"),
        (2, 0, 2, "W-104"),
        (4, 1, 0, "W-104"),
    ];
    requests.iter().map(|(c, s, d, code)| (*c, *s, *d, code.as_bytes().to_vec())).collect()
}

/// The three cards of the worked batch, one after the other.
pub fn worked_batch() -> Vec<u8> {
    let mut bytes = scheme_card(&scheme(&A));
    bytes.extend(card(&roster_body(&worked_roster())));
    bytes.extend(card(&batch_body(&worked_requests())));
    bytes
}

pub const WORKED_LINES: &str = "\
R 0 0
R 1 4
R 2 10
R 3 14
R 4 0
R 5 0
R 6 14
R 7 0
D W-104 0
P ANN 00000029
E 8 4
";

pub const VERDICT_LINES_OF_A: &str = "\
C 0 0 11
T 0 000000EF
T 1 00000010
T 2 00000010
";
