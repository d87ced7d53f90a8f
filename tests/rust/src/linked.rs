//! Safe wrappers over the exported functions of the library. A slice goes over as
//! its pointer, then its length in elements.

use crate::answers::*;

mod c {
    use crate::answers::*;

    extern "C" {
        pub fn read_scheme(
            card: *const u8,
            card_len: usize,
            commands: *mut Command,
            commands_len: usize,
        ) -> SchemeRead;
        pub fn read_roster(
            commands: *const Command,
            commands_len: usize,
            types: usize,
            kinds: usize,
            rights: usize,
            card: *const u8,
            card_len: usize,
            roster: *mut u32,
            roster_len: usize,
        ) -> RosterRead;
        pub fn request(
            commands: *const Command,
            commands_len: usize,
            types: usize,
            kinds: usize,
            rights: usize,
            roster: *const u32,
            roster_len: usize,
            people: usize,
            store: *mut u32,
            store_len: usize,
            command: usize,
            source: usize,
            destination: usize,
            code: *const u8,
            code_len: usize,
        ) -> u8;
        pub fn run_batch(
            commands: *const Command,
            commands_len: usize,
            types: usize,
            kinds: usize,
            rights: usize,
            roster: *const u32,
            roster_len: usize,
            people: usize,
            store: *mut u32,
            store_len: usize,
            card: *const u8,
            card_len: usize,
            answers: *mut u8,
            answers_len: usize,
        ) -> BatchRun;
        pub fn may_use(
            commands: *const Command,
            commands_len: usize,
            types: usize,
            kinds: usize,
            rights: usize,
            roster: *const u32,
            roster_len: usize,
            people: usize,
            store: *const u32,
            store_len: usize,
            person: usize,
            right: usize,
            code: *const u8,
            code_len: usize,
        ) -> MayUse;
        pub fn access_list(
            commands: *const Command,
            commands_len: usize,
            types: usize,
            kinds: usize,
            rights: usize,
            roster: *const u32,
            roster_len: usize,
            people: usize,
            store: *const u32,
            store_len: usize,
            code: *const u8,
            code_len: usize,
            list: *mut u32,
            list_len: usize,
        ) -> AccessList;
        pub fn verdict_of_create(
            commands: *const Command,
            commands_len: usize,
            types: usize,
            kinds: usize,
            rights: usize,
            command: usize,
            person_type: usize,
            right: usize,
            budget: usize,
            table: *mut u32,
            table_len: usize,
        ) -> Verdict;
        pub fn verdict_of_design(
            commands: *const Command,
            commands_len: usize,
            types: usize,
            kinds: usize,
            rights: usize,
            roster: *const u32,
            roster_len: usize,
            people: usize,
            store: *const u32,
            store_len: usize,
            code: *const u8,
            code_len: usize,
            person_type: usize,
            right: usize,
            budget: usize,
            table: *mut u32,
            table_len: usize,
        ) -> Verdict;
        pub fn batch_text(
            bytes: *const u8,
            bytes_len: usize,
            text: *mut u8,
            text_len: usize,
        ) -> Text;
        pub fn verdict_text(
            bytes: *const u8,
            bytes_len: usize,
            table: *mut u32,
            table_len: usize,
            text: *mut u8,
            text_len: usize,
        ) -> Text;
        pub fn batch_wanted(bytes: *const u8, bytes_len: usize) -> usize;
        pub fn verdict_wanted(bytes: *const u8, bytes_len: usize) -> usize;
    }
}

// What makes each call below sound: the pointers and lengths come from slices that
// live through the call, mutable ones are lent alone, and every function takes
// every input.

pub fn read_scheme(card: &[u8], commands: &mut [Command]) -> SchemeRead {
    unsafe { c::read_scheme(card.as_ptr(), card.len(), commands.as_mut_ptr(), commands.len()) }
}

pub fn read_roster(
    commands: &[Command],
    types: usize,
    kinds: usize,
    rights: usize,
    card: &[u8],
    roster: &mut [u32],
) -> RosterRead {
    unsafe {
        c::read_roster(
            commands.as_ptr(),
            commands.len(),
            types,
            kinds,
            rights,
            card.as_ptr(),
            card.len(),
            roster.as_mut_ptr(),
            roster.len(),
        )
    }
}

pub fn request(
    commands: &[Command],
    types: usize,
    kinds: usize,
    rights: usize,
    roster: &[u32],
    people: usize,
    store: &mut [u32],
    command: usize,
    source: usize,
    destination: usize,
    code: &[u8],
) -> u8 {
    unsafe {
        c::request(
            commands.as_ptr(),
            commands.len(),
            types,
            kinds,
            rights,
            roster.as_ptr(),
            roster.len(),
            people,
            store.as_mut_ptr(),
            store.len(),
            command,
            source,
            destination,
            code.as_ptr(),
            code.len(),
        )
    }
}

pub fn run_batch(
    commands: &[Command],
    types: usize,
    kinds: usize,
    rights: usize,
    roster: &[u32],
    people: usize,
    store: &mut [u32],
    card: &[u8],
    answers: &mut [u8],
) -> BatchRun {
    unsafe {
        c::run_batch(
            commands.as_ptr(),
            commands.len(),
            types,
            kinds,
            rights,
            roster.as_ptr(),
            roster.len(),
            people,
            store.as_mut_ptr(),
            store.len(),
            card.as_ptr(),
            card.len(),
            answers.as_mut_ptr(),
            answers.len(),
        )
    }
}

pub fn may_use(
    commands: &[Command],
    types: usize,
    kinds: usize,
    rights: usize,
    roster: &[u32],
    people: usize,
    store: &[u32],
    person: usize,
    right: usize,
    code: &[u8],
) -> MayUse {
    unsafe {
        c::may_use(
            commands.as_ptr(),
            commands.len(),
            types,
            kinds,
            rights,
            roster.as_ptr(),
            roster.len(),
            people,
            store.as_ptr(),
            store.len(),
            person,
            right,
            code.as_ptr(),
            code.len(),
        )
    }
}

pub fn access_list(
    commands: &[Command],
    types: usize,
    kinds: usize,
    rights: usize,
    roster: &[u32],
    people: usize,
    store: &[u32],
    code: &[u8],
    list: &mut [u32],
) -> AccessList {
    unsafe {
        c::access_list(
            commands.as_ptr(),
            commands.len(),
            types,
            kinds,
            rights,
            roster.as_ptr(),
            roster.len(),
            people,
            store.as_ptr(),
            store.len(),
            code.as_ptr(),
            code.len(),
            list.as_mut_ptr(),
            list.len(),
        )
    }
}

pub fn verdict_of_create(
    commands: &[Command],
    types: usize,
    kinds: usize,
    rights: usize,
    command: usize,
    person_type: usize,
    right: usize,
    budget: usize,
    table: &mut [u32],
) -> Verdict {
    unsafe {
        c::verdict_of_create(
            commands.as_ptr(),
            commands.len(),
            types,
            kinds,
            rights,
            command,
            person_type,
            right,
            budget,
            table.as_mut_ptr(),
            table.len(),
        )
    }
}

pub fn verdict_of_design(
    commands: &[Command],
    types: usize,
    kinds: usize,
    rights: usize,
    roster: &[u32],
    people: usize,
    store: &[u32],
    code: &[u8],
    person_type: usize,
    right: usize,
    budget: usize,
    table: &mut [u32],
) -> Verdict {
    unsafe {
        c::verdict_of_design(
            commands.as_ptr(),
            commands.len(),
            types,
            kinds,
            rights,
            roster.as_ptr(),
            roster.len(),
            people,
            store.as_ptr(),
            store.len(),
            code.as_ptr(),
            code.len(),
            person_type,
            right,
            budget,
            table.as_mut_ptr(),
            table.len(),
        )
    }
}

pub fn batch_text(bytes: &[u8], text: &mut [u8]) -> Text {
    unsafe { c::batch_text(bytes.as_ptr(), bytes.len(), text.as_mut_ptr(), text.len()) }
}

pub fn verdict_text(bytes: &[u8], table: &mut [u32], text: &mut [u8]) -> Text {
    unsafe {
        c::verdict_text(
            bytes.as_ptr(),
            bytes.len(),
            table.as_mut_ptr(),
            table.len(),
            text.as_mut_ptr(),
            text.len(),
        )
    }
}

pub fn batch_wanted(bytes: &[u8]) -> usize {
    unsafe { c::batch_wanted(bytes.as_ptr(), bytes.len()) }
}

pub fn verdict_wanted(bytes: &[u8]) -> usize {
    unsafe { c::verdict_wanted(bytes.as_ptr(), bytes.len()) }
}
