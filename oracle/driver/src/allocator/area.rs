//! Boots and their areas, and how an area is written.

use std::fmt;

/// What the two numbers of an area are: its first and last frame, or its address and its bytes.
#[derive(Clone, Copy, PartialEq, Eq, Hash)]
pub enum Unit {
    Frames,
    Bytes,
}

#[derive(Clone, Copy, PartialEq, Eq, Hash)]
pub struct Area {
    pub first: u64,
    pub second: u64,
    pub reserved: bool,
}

pub const fn general(first: u64, second: u64) -> Area {
    Area { first, second, reserved: false }
}

pub const fn reserved(first: u64, second: u64) -> Area {
    Area { first, second, reserved: true }
}

#[derive(Clone, PartialEq, Eq, Hash)]
pub struct Boot {
    pub unit: Unit,
    pub areas: Vec<Area>,
}

impl Boot {
    pub fn of_frames(areas: &[Area]) -> Boot {
        Boot { unit: Unit::Frames, areas: areas.to_vec() }
    }

    pub fn of_bytes(areas: &[Area]) -> Boot {
        Boot { unit: Unit::Bytes, areas: areas.to_vec() }
    }

    pub fn general(&self) -> impl Iterator<Item = &Area> {
        self.areas.iter().filter(|area| !area.reserved)
    }

    pub fn reserved(&self) -> impl Iterator<Item = &Area> {
        self.areas.iter().filter(|area| area.reserved)
    }
}

/// Two numbers in decimal and the kind.
impl fmt::Display for Area {
    fn fmt(&self, f: &mut fmt::Formatter) -> fmt::Result {
        let kind = if self.reserved { "reserved" } else { "general" };
        write!(f, "{} {} {kind}", self.first, self.second)
    }
}
