//! The calls of the allocator, and how each is written.

use super::area::{Boot, Unit};
use crate::frames::{Range, FRAME_SIZE};
use std::fmt;

#[derive(Clone, PartialEq, Eq, Hash)]
pub enum Call {
    Boot(Boot),
    Sort,
    /// So many frames, wherever they are.
    Count(u64),
    CountBytes(u64),
    /// So many frames from this one on.
    At(u64, u64),
    /// So many bytes from this address on.
    AtBytes(u64, u64),
    /// So many general frames from this one on.
    GeneralAt(u64, u64),
    Return(Range),
    /// The kind of a range. This and the next two are questions, which change nothing.
    Kind(Range),
    /// The free total of the general or of the reserved list.
    Total(bool),
    /// The held list, in a buffer of so many words.
    Held(usize),
}

/// Which call it is, without operands.
#[derive(Clone, Copy, PartialEq, Eq)]
pub enum Kind {
    Boot,
    BootBytes,
    Sort,
    Count,
    CountBytes,
    At,
    AtBytes,
    GeneralAt,
    Return,
    KindOfRange,
    FreeTotal,
    HeldList,
}

/// A held list's buffer has so many words at least.
pub const BUFFER: usize = 2048;

impl Kind {
    pub const ALL: [Kind; 12] = [
        Kind::Boot,
        Kind::BootBytes,
        Kind::Sort,
        Kind::Count,
        Kind::CountBytes,
        Kind::At,
        Kind::AtBytes,
        Kind::GeneralAt,
        Kind::Return,
        Kind::KindOfRange,
        Kind::FreeTotal,
        Kind::HeldList,
    ];

    fn of(unit: Unit) -> Kind {
        match unit {
            Unit::Frames => Kind::Boot,
            Unit::Bytes => Kind::BootBytes,
        }
    }

    pub fn name(self) -> &'static str {
        match self {
            Kind::Boot => "boot",
            Kind::BootBytes => "boot_bytes",
            Kind::Sort => "sort",
            Kind::Count => "count",
            Kind::CountBytes => "count_bytes",
            Kind::At => "at",
            Kind::AtBytes => "at_bytes",
            Kind::GeneralAt => "general_at",
            Kind::Return => "return",
            Kind::KindOfRange => "kind",
            Kind::FreeTotal => "total",
            Kind::HeldList => "held",
        }
    }
}

/// The name, then the areas or numbers in decimal, parted by one space.
impl fmt::Display for Call {
    fn fmt(&self, f: &mut fmt::Formatter) -> fmt::Result {
        let name = self.kind().name();
        match self {
            Call::Boot(boot) => write!(f, "{boot}"),
            Call::Sort => write!(f, "{name}"),
            Call::Count(count) | Call::CountBytes(count) => write!(f, "{name} {count}"),
            Call::At(start, count)
            | Call::AtBytes(start, count)
            | Call::GeneralAt(start, count) => write!(f, "{name} {start} {count}"),
            Call::Return(range) | Call::Kind(range) => {
                write!(f, "{name} {} {}", range.start, range.end)
            }
            Call::Total(reserved) => {
                write!(f, "{name} {}", if *reserved { "reserved" } else { "general" })
            }
            Call::Held(words) => f.write_str(if *words < BUFFER { "held_short" } else { name }),
        }
    }
}

impl fmt::Display for Boot {
    fn fmt(&self, f: &mut fmt::Formatter) -> fmt::Result {
        f.write_str(Kind::of(self.unit).name())?;
        self.areas.iter().try_for_each(|area| write!(f, " {area}"))
    }
}

impl Call {
    pub fn kind(&self) -> Kind {
        match self {
            Call::Boot(boot) => Kind::of(boot.unit),
            Call::Sort => Kind::Sort,
            Call::Count(_) => Kind::Count,
            Call::CountBytes(_) => Kind::CountBytes,
            Call::At(..) => Kind::At,
            Call::AtBytes(..) => Kind::AtBytes,
            Call::GeneralAt(..) => Kind::GeneralAt,
            Call::Return(_) => Kind::Return,
            Call::Kind(_) => Kind::KindOfRange,
            Call::Total(_) => Kind::FreeTotal,
            Call::Held(_) => Kind::HeldList,
        }
    }

    pub fn is_question(&self) -> bool {
        matches!(self, Call::Kind(_) | Call::Total(_) | Call::Held(_))
    }

    /// The frames that a request names, if it names an address and asks for a frame, and if they end
    /// inside 64 bits.
    pub fn frames(&self) -> Option<Range> {
        let (start, count) = match *self {
            Call::At(frame, count) | Call::GeneralAt(frame, count) => (frame, count),
            Call::AtBytes(address, bytes) => (address / FRAME_SIZE, frames_from(address, bytes)?),
            _ => return None,
        };
        let end = start.checked_add(count.checked_sub(1)?)?;
        Some(Range { start, end })
    }
}

/// "add to the bytes the remainder of the address by 4096, divide by 4096, round up"
fn frames_from(address: u64, bytes: u64) -> Option<u64> {
    Some(bytes.checked_add(address % FRAME_SIZE)?.div_ceil(FRAME_SIZE))
}
