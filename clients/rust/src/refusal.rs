//! The numbers that a call may refuse by, each with its name and its sentence.
use std::error::Error;
use std::fmt;

use crate::fault::Fault;

macro_rules! refusals {
    ($($number:literal $name:ident $sentence:literal)*) => {
        /// Why a call refused. The names are those of `clients/c/lundaspro.h`.
        #[derive(Clone, Copy, Debug, PartialEq, Eq, PartialOrd, Ord, Hash)]
        #[non_exhaustive]
        pub enum Refusal {
            $(#[doc = $sentence] $name,)*
            /// What is wrong with an image, and where.
            Fault(Fault),
            /// A number that this crate has no name for: the archive is of another state.
            Unnamed(u8),
        }

        impl Refusal {
            /// All that have a name, by their numbers.
            pub const ALL: &'static [Refusal] = &[$(Refusal::$name),*];

            /// The refusal of a number, a fault's at word 0; `None` for 0.
            pub fn from_number(number: u8) -> Option<Refusal> {
                match number {
                    0 => None,
                    $($number => Some(Refusal::$name),)*
                    other => Some(Fault::new(other, 0).map_or(Refusal::Unnamed(other), Refusal::Fault)),
                }
            }

            /// Its number in documents 01 and 02.
            pub fn number(self) -> u8 {
                match self {
                    $(Refusal::$name => $number,)*
                    Refusal::Fault(fault) => fault.kind.number(),
                    Refusal::Unnamed(number) => number,
                }
            }

            /// When it is given.
            pub fn sentence(self) -> &'static str {
                match self {
                    $(Refusal::$name => $sentence,)*
                    Refusal::Fault(fault) => fault.kind.sentence(),
                    Refusal::Unnamed(_) => "no number that a call gives",
                }
            }
        }
    };
}

// tests/sentences holds these to the header's
refusals! {
    1 Snakes "snakes not 2..8"
    2 LengthZero "initial length 0"
    3 LeadZero "food lead 0"
    4 LeadNotTwo "food lead set, snakes not 2"
    5 Grid "grid above 32 (space query: or below 1)"
    6 FoodArea "food above g*g (0 when g < 0)"
    8 Product "g*g(g*g-1).. of min(snakes, food) factors above 2^53"
    9 Untraceable "some body cannot be traced to its length"
    10 CellOutside "first bad cell: outside"
    11 CellTaken "first bad cell: already taken"
    12 FoodFree "food above the free cells"
    21 OtherSetting "snakes or grid differ from the setting"
    22 FoodDue "food is due at a step"
    23 NoneDue "none is due at a draw"
    24 ActionCount "action count is not the number of snakes"
    25 Action "a living snake's action above 2"
    26 Agent "agent not below the number of snakes"
    27 Outcome "outcome not below the count"
    28 Count "count above 2^64 - 1"
    29 Buffer "an output buffer shorter than its answer"
    30 List "list to rank: wrong length, a cell not free, or repeated"
    31 Weight "a reward weight not finite"
    33 Over "match over"
    40 Contents "a book's contents: cut short, off their layout, a refused setting, starts out of line, words left in a book of no pages"
    41 Page "no such page"
    42 Pages "above 65,535 pages"
    80 UnitCount "unit number: count not 1 to 2^53"
    81 UnitNumber "unit number: not at least 0 and below 1"
}

impl Refusal {
    /// The word of an image, counted from its start, that shows a fault; `None` for every other refusal.
    pub fn word(self) -> Option<u16> {
        match self {
            Refusal::Fault(fault) => Some(fault.word),
            _ => None,
        }
    }

    /// `Ok` where a call returned 0; the table's number is what is below 256, a fault's word what is above.
    pub(crate) fn check(returned: u64) -> Result<(), Refusal> {
        if returned == 0 {
            return Ok(());
        }
        let number = (returned % 256) as u8;
        Err(match Fault::new(number, (returned / 256) as u16) {
            Some(fault) => Refusal::Fault(fault),
            None => Refusal::from_number(number).unwrap_or(Refusal::Unnamed(0)),
        })
    }

    /// The same of a call on these words, so that a fault tells what stands there.
    pub(crate) fn check_in(returned: u64, image: &[u16]) -> Result<(), Refusal> {
        Refusal::check(returned).map_err(|refusal| match refusal {
            Refusal::Fault(fault) => Refusal::Fault(fault.found_in(image)),
            other => other,
        })
    }
}

impl fmt::Display for Refusal {
    fn fmt(&self, f: &mut fmt::Formatter<'_>) -> fmt::Result {
        match self {
            Refusal::Fault(fault) => write!(f, "refusal {}: {fault}", self.number()),
            _ => write!(f, "refusal {}: {}", self.number(), self.sentence()),
        }
    }
}

impl Error for Refusal {}
