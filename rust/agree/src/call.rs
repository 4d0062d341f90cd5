//! The calls, and what each takes and gives.

#[derive(Clone, Copy, Debug, PartialEq, Eq)]
pub enum Call {
    Number,
    Place,
    Step,
    Marks,
    Components,
    Verdict,
    Route,
    Reached,
    Fresh,
    Sound,
    Outstanding,
    Hear,
    ReadMap,
    WriteMap,
}

/// A call's name, how many numbers it takes, how many fields its answer has, and its buffers in order: read, or lent to be written.
pub struct Form {
    pub name: &'static str,
    pub numbers: usize,
    pub fields: usize,
    pub buffers: &'static [Use],
}

#[derive(Clone, Copy, PartialEq, Eq)]
pub enum Use {
    Read,
    Lent,
}

impl Call {
    pub const ALL: [Call; 14] = [
        Call::Number,
        Call::Place,
        Call::Step,
        Call::Marks,
        Call::Components,
        Call::Verdict,
        Call::Route,
        Call::Reached,
        Call::Fresh,
        Call::Sound,
        Call::Outstanding,
        Call::Hear,
        Call::ReadMap,
        Call::WriteMap,
    ];

    pub fn form(self) -> Form {
        use Use::{Lent, Read};
        let form = |name, numbers, fields, buffers| Form { name, numbers, fields, buffers };
        match self {
            Call::Number => form("dk_number", 6, 2, &[]),
            Call::Place => form("dk_place", 4, 4, &[]),
            Call::Step => form("dk_step", 7, 5, &[]),
            Call::Marks => form("dk_marks", 4, 2, &[Read, Lent]),
            Call::Components => form("dk_components", 4, 3, &[Read, Lent, Lent]),
            Call::Verdict => form("dk_verdict", 5, 4, &[Read]),
            Call::Route => form("dk_route", 5, 3, &[Read, Lent]),
            Call::Reached => form("dk_reached", 5, 3, &[Read, Lent]),
            Call::Fresh => form("dk_fresh", 4, 2, &[Read, Lent]),
            Call::Sound => form("dk_sound", 4, 2, &[Read]),
            Call::Outstanding => form("dk_outstanding", 4, 3, &[Read]),
            Call::Hear => form("dk_hear", 7, 2, &[Lent]),
            Call::ReadMap => form("dk_read_map", 0, 5, &[Read, Lent]),
            Call::WriteMap => form("dk_write_map", 3, 3, &[Read, Lent]),
        }
    }

    pub fn name(self) -> &'static str {
        self.form().name
    }
}
