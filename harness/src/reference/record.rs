//! A unit's record, the dispatcher and the answers of the calls, laid out as C lays them out.

use super::messages::Value;

#[derive(Clone, Copy, Debug, Default, PartialEq, Eq)]
#[repr(C)]
pub struct Record {
    pub n: u32,
    pub seat: u32,
    pub round: u32,
    pub own: Own,
    pub confirmed: bool,
    pub notices: Notices,
    pub first: First,
    /// Whether FULL was sent.
    pub sent: bool,
    pub guilty: u32,
    /// Seats whose SUBMIT was heard before the own submit.
    pub kept: u32,
}

#[derive(Clone, Copy, Debug, Default, PartialEq, Eq)]
#[repr(C)]
pub struct Own {
    pub submitted: bool,
    pub value: Value,
    pub collected: u32,
}

/// `heard` is 0 for none, 1 for one value, 2 for two different ones, the first kept.
#[derive(Clone, Copy, Debug, Default, PartialEq, Eq)]
#[repr(C)]
pub struct Notices {
    pub heard: u32,
    pub value: Value,
}

/// The first certificate held: none where it has no seats.
#[derive(Clone, Copy, Debug, Default, PartialEq, Eq)]
#[repr(C)]
pub struct First {
    pub value: Value,
    pub seats: u32,
}

#[derive(Clone, Copy, Debug, PartialEq, Eq)]
#[repr(C)]
pub struct Opened {
    pub number: u32,
    pub record: Record,
}

#[derive(Clone, Copy, Debug, PartialEq, Eq)]
#[repr(C)]
pub struct Stepped {
    pub number: u32,
    pub written: u32,
    pub record: Record,
}

/// Answer of a call that writes: 0 or the refusal's number, and the bytes written.
#[derive(Clone, Copy, Debug, PartialEq, Eq)]
#[repr(C)]
pub struct Written {
    pub number: u32,
    pub written: u32,
}

/// The evidence check's answer: the mask of the seats named, 0 with a refusal.
#[derive(Clone, Copy, Debug, PartialEq, Eq)]
#[repr(C)]
pub struct Verdict {
    pub number: u32,
    pub mask: u32,
}

/// The lanes of a dispatcher, and the places of each.
pub const LANES: usize = 8;
pub const PLACES: usize = 16;

#[derive(Clone, Copy, Debug, PartialEq, Eq)]
#[repr(C)]
pub struct Eight {
    pub round: [u32; LANES],
}

/// Lane l's tickets stand in its places from `heads[l]` modulo 16 on, round and round, oldest first. The first `served` entries of
/// `order` are the lanes that were served, longest ago first.
#[derive(Clone, Copy, Debug, Default, PartialEq, Eq)]
#[repr(C)]
pub struct Dispatcher {
    pub rounds: [u32; LANES],
    pub counts: [u32; LANES],
    pub heads: [u32; LANES],
    pub served: u32,
    pub order: [u32; LANES],
    pub tickets: [[u16; PLACES]; LANES],
}

#[derive(Clone, Copy, Debug, PartialEq, Eq)]
#[repr(C)]
pub struct Dispatched {
    pub number: u32,
    pub dispatcher: Dispatcher,
}

/// Round and ticket are 0 where none is given.
#[derive(Clone, Copy, Debug, PartialEq, Eq)]
#[repr(C)]
pub struct Turn {
    pub number: u32,
    pub given: bool,
    pub round: u32,
    pub ticket: u32,
    pub dispatcher: Dispatcher,
}

#[cfg(test)]
mod tests {
    use super::*;
    use std::mem::{offset_of, size_of};

    /// Offsets by C's rules: a flag takes one byte, a number starts at a multiple of four.
    #[test]
    fn the_layout_is_that_of_c() {
        assert_eq!(size_of::<Record>(), 140);
        assert_eq!((offset_of!(Record, own), offset_of!(Own, value), offset_of!(Own, collected)), (12, 1, 36));
        assert_eq!((offset_of!(Record, confirmed), offset_of!(Record, notices)), (52, 56));
        assert_eq!((offset_of!(Record, first), offset_of!(First, seats)), (92, 32));
        assert_eq!((offset_of!(Record, sent), offset_of!(Record, guilty), offset_of!(Record, kept)), (128, 132, 136));
        assert_eq!((size_of::<Opened>(), size_of::<Stepped>()), (144, 148));
        assert_eq!((size_of::<Written>(), size_of::<Verdict>()), (8, 8));
        assert_eq!((size_of::<Eight>(), size_of::<Dispatcher>()), (32, 388));
        assert_eq!((offset_of!(Dispatcher, counts), offset_of!(Dispatcher, heads)), (32, 64));
        assert_eq!((offset_of!(Dispatcher, served), offset_of!(Dispatcher, order)), (96, 100));
        assert_eq!((offset_of!(Dispatcher, tickets), size_of::<Dispatched>()), (132, 392));
        assert_eq!((offset_of!(Turn, round), offset_of!(Turn, dispatcher), size_of::<Turn>()), (8, 16, 404));
    }
}
