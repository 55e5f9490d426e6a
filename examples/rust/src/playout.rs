//! The library `playout` in Rust: the structs and functions of crates/playout/playout.h, which says
//! what each of them does. Those that work on one server, on lines and on a sheet; a table and a
//! channel are taken over in the same way.

use std::mem::size_of;

/// What this file is written for; `rules` and `version` say what is linked.
pub const RULES: u32 = 2;
pub const VERSION: u32 = 2000;
/// A version is this many times the major, and the minor.
pub const MAJOR: u32 = 1000;

/// Numbers of the header: refusals, roles, verbs, limits.
pub const ACCEPTED: u32 = 0;
/// The first of those from the state, which have a line of the sheet.
pub const TIME_PAST: u32 = 11;
/// The role of the server that is on air.
pub const ROLE_PRIMARY: u8 = 5;
pub const VERB_START: u32 = 0;
pub const VERB_READY: u32 = 1;
pub const VERB_UNREADY: u32 = 2;
pub const VERB_PASS: u32 = 3;
pub const VERB_CRASH: u32 = 4;
pub const VERB_RESTART: u32 = 5;
pub const LINE_BYTES: usize = 64;
/// Heartbeats that one server hears in a frame, at most.
pub const HEARD: usize = 255;

#[repr(C)]
#[derive(Clone, Copy, Debug, PartialEq, Eq)]
pub struct Server {
    pub identity: u16,
    pub priority: u8,
    pub role: u8,
    pub silence: u32,
    pub beat: u32,
    pub prospect: u32,
    pub pass: u16,
    pub beats: u8,
    pub reveal: u8,
}

#[repr(C)]
#[derive(Clone, Copy, Debug, PartialEq, Eq)]
pub struct Front {
    pub server: Server,
    pub frame: u32,
    pub period: u32,
}

#[repr(C)]
#[derive(Clone, Copy, Debug, PartialEq, Eq)]
pub struct Heartbeat {
    pub bs: u16,
    pub tiebreaker: u16,
    pub priority: u8,
    pub reveal: u8,
}

#[repr(C)]
#[derive(Clone, Copy, Debug)]
pub struct FrontMade {
    pub number: u32,
    pub front: Front,
}

#[repr(C)]
#[derive(Clone, Copy, Debug)]
pub struct Heard {
    pub number: u32,
    pub event: u32,
    pub role: u32,
}

#[repr(C)]
#[derive(Clone, Copy, Debug)]
pub struct Timed {
    pub number: u32,
    pub silent: u32,
    pub beating: u32,
    pub rising: u32,
    pub role: u32,
}

#[repr(C)]
#[derive(Clone, Copy, Debug)]
pub struct Acted {
    pub number: u32,
    pub event: u32,
    pub role: u32,
}

#[repr(C)]
#[derive(Clone, Copy, Debug)]
pub struct Sending {
    pub number: u32,
    pub count: u32,
    pub heartbeat: Heartbeat,
}

#[repr(C)]
#[derive(Clone, Copy, Debug)]
pub struct Written {
    pub number: u32,
    pub written: usize,
}

#[repr(C)]
#[derive(Clone, Copy, Debug)]
pub struct HeartbeatAnswer {
    pub number: u32,
    pub heartbeat: Heartbeat,
}

#[repr(C)]
#[derive(Clone, Copy, Debug)]
pub struct TimecodeAnswer {
    pub number: u32,
    pub frame: u32,
}

// the sizes that the header has
const _: () = assert!(size_of::<Server>() == 20);
const _: () = assert!(size_of::<Front>() == 28);
const _: () = assert!(size_of::<Heartbeat>() == 6);
const _: () = assert!(size_of::<FrontMade>() == 32);
const _: () = assert!(size_of::<Heard>() == 12);
const _: () = assert!(size_of::<Timed>() == 20);
const _: () = assert!(size_of::<Acted>() == 12);
const _: () = assert!(size_of::<Sending>() == 16);
const _: () = assert!(size_of::<Written>() == 16);
const _: () = assert!(size_of::<HeartbeatAnswer>() == 12);
const _: () = assert!(size_of::<TimecodeAnswer>() == 8);

mod c {
    use super::*;

    // a slice is a pointer and a length
    extern "C" {
        pub fn playout_rules() -> u32;
        pub fn playout_version() -> u32;
        pub fn playout_front_new(identity: u16, priority: u8, period: u32) -> FrontMade;
        pub fn playout_front_begin(front: *mut Front) -> u32;
        pub fn playout_front_hear(front: *mut Front, heartbeat: Heartbeat) -> Heard;
        pub fn playout_front_tick(front: *mut Front) -> Timed;
        pub fn playout_front_act(front: *mut Front, verb: u32, to: u16) -> Acted;
        pub fn playout_front_sends(front: Front, event: u32, to: u16) -> Sending;
        pub fn playout_front_lines(
            front: Front,
            event: u32,
            out: *mut u8,
            out_len: usize,
        ) -> Written;
        pub fn playout_front_refused(
            front: Front,
            number: u32,
            out: *mut u8,
            out_len: usize,
        ) -> Written;
        pub fn playout_higher(a: Heartbeat, b: Heartbeat) -> u32;
        pub fn playout_heartbeat_read(line: *const u8, line_len: usize) -> HeartbeatAnswer;
        pub fn playout_heartbeat_write(
            heartbeat: Heartbeat,
            out: *mut u8,
            out_len: usize,
        ) -> Written;
        pub fn playout_timecode_read(label: *const u8, label_len: usize) -> TimecodeAnswer;
        pub fn playout_timecode_write(frame: u32, out: *mut u8, out_len: usize) -> Written;
        pub fn playout_departure(
            day: *const u8,
            day_len: usize,
            sheet: *const u8,
            sheet_len: usize,
        ) -> u64;
    }
}

// SAFETY, of every call below: a reference is a valid pointer and a slice a valid pointer and
// length, none overlaps another, and the library asks for no more.

/// The number of the rules that the library plays by: servers of a group must have the same.
pub fn rules() -> u32 {
    unsafe { c::playout_rules() }
}

/// The version of the library's code, major × 1000 + minor.
pub fn version() -> u32 {
    unsafe { c::playout_version() }
}

/// Whether the library that is linked is one that this file is written for: the same rules and the
/// same major version, and no lower minor.
pub fn is_linked_well() -> bool {
    rules() == RULES && version() / MAJOR == VERSION / MAJOR && version() >= VERSION
}

impl Front {
    pub fn make(identity: u16, priority: u8, period: u32) -> FrontMade {
        unsafe { c::playout_front_new(identity, priority, period) }
    }

    pub fn begin(&mut self) -> u32 {
        unsafe { c::playout_front_begin(self) }
    }

    pub fn hear(&mut self, heartbeat: Heartbeat) -> Heard {
        unsafe { c::playout_front_hear(self, heartbeat) }
    }

    pub fn tick(&mut self) -> Timed {
        unsafe { c::playout_front_tick(self) }
    }

    pub fn act(&mut self, verb: u32, to: u16) -> Acted {
        unsafe { c::playout_front_act(self, verb, to) }
    }

    pub fn sends(&self, event: u32, to: u16) -> Sending {
        unsafe { c::playout_front_sends(*self, event, to) }
    }

    pub fn lines(&self, event: u32, out: &mut [u8]) -> Written {
        unsafe { c::playout_front_lines(*self, event, out.as_mut_ptr(), out.len()) }
    }

    pub fn refused(&self, number: u32, out: &mut [u8]) -> Written {
        unsafe { c::playout_front_refused(*self, number, out.as_mut_ptr(), out.len()) }
    }
}

impl Heartbeat {
    /// Whether its sender is higher than that of the other.
    pub fn higher(self, other: Heartbeat) -> bool {
        unsafe { c::playout_higher(self, other) == 1 }
    }

    pub fn read(line: &[u8]) -> HeartbeatAnswer {
        unsafe { c::playout_heartbeat_read(line.as_ptr(), line.len()) }
    }

    pub fn write(self, out: &mut [u8]) -> Written {
        unsafe { c::playout_heartbeat_write(self, out.as_mut_ptr(), out.len()) }
    }
}

pub fn timecode_read(label: &[u8]) -> TimecodeAnswer {
    unsafe { c::playout_timecode_read(label.as_ptr(), label.len()) }
}

pub fn timecode_write(frame: u32, out: &mut [u8]) -> Written {
    unsafe { c::playout_timecode_write(frame, out.as_mut_ptr(), out.len()) }
}

/// The number of the first line of a sheet that is not as the day has it; 0 if it is the day's sheet.
pub fn departure(day: &[u8], sheet: &[u8]) -> u64 {
    unsafe { c::playout_departure(day.as_ptr(), day.len(), sheet.as_ptr(), sheet.len()) }
}
