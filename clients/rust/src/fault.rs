//! What is wrong with an image: the fault, the first word that shows it, and what was expected there.
use std::fmt;

macro_rules! faults {
    ($($number:literal $name:ident $sentence:literal)*) => {
        /// The seven faults of an image, in the order in which they are tested.
        #[derive(Clone, Copy, Debug, PartialEq, Eq, PartialOrd, Ord, Hash)]
        pub enum FaultKind {
            $(#[doc = $sentence] $name,)*
        }

        impl FaultKind {
            /// All seven, by their numbers.
            pub const ALL: &'static [FaultKind] = &[$(FaultKind::$name),*];

            fn from_number(number: u8) -> Option<FaultKind> {
                match number {
                    $($number => Some(FaultKind::$name),)*
                    _ => None,
                }
            }

            /// Its number in document 02.
            pub fn number(self) -> u8 {
                match self {
                    $(FaultKind::$name => $number,)*
                }
            }

            /// When it is given.
            pub fn sentence(self) -> &'static str {
                match self {
                    $(FaultKind::$name => $sentence,)*
                }
            }
        }
    };
}

// tests/sentences holds these to the header's
faults! {
    50 CutShort "fewer words than the contents need"
    51 OutOfRange "a content word out of range, or a living snake's length 0"
    52 Start "a start out of line"
    53 Total "total length wrong"
    54 CellBeyond "a cell beyond the grid"
    55 CellTwice "a cell twice in a body"
    56 FoodOrder "food not ascending"
}

/// What the image has and what it should have; nothing is known of words that were not at hand.
#[derive(Clone, Copy, Debug, PartialEq, Eq, PartialOrd, Ord, Hash)]
enum Seen {
    Nothing,
    /// The word is missing; so many are needed.
    Missing {
        needed: usize,
    },
    /// The word is left over; the image ends before it.
    LeftOver {
        needed: usize,
    },
    /// A content word and its range; of which snake, where it is of one.
    Range {
        what: &'static str,
        snake: Option<usize>,
        found: u16,
        least: u16,
        most: u16,
    },
    Start {
        snake: usize,
        found: u16,
        due: usize,
    },
    Beyond {
        found: u16,
        cells: usize,
    },
    Twice {
        snake: usize,
        found: u16,
        first: usize,
    },
    Order {
        found: u16,
        before: u16,
    },
}

/// What is wrong with an image, and the first word that shows it, counted from the image's own start.
#[derive(Clone, Copy, Debug, PartialEq, Eq, PartialOrd, Ord, Hash)]
pub struct Fault {
    pub kind: FaultKind,
    pub word: u16,
    seen: Seen,
}

/// The words of an image that is not well-formed, as far as a fault is explained by them.
struct Words<'a>(&'a [u16]);

impl Words<'_> {
    fn at(&self, k: usize) -> u16 {
        self.0.get(k).copied().unwrap_or(0)
    }

    fn snakes(&self) -> usize {
        usize::from(self.at(0))
    }

    fn cells(&self) -> usize {
        usize::from(self.at(1)) * usize::from(self.at(1))
    }

    /// Where snake `i`'s body is due; where the food is, past the last snake.
    fn due(&self, i: usize) -> usize {
        5 + 4 * self.snakes()
            + (0..i)
                .map(|j| usize::from(self.at(6 + 4 * j)))
                .sum::<usize>()
    }

    fn range(&self, k: usize) -> Seen {
        let cells = self.cells().min(65_535) as u16;
        let (snake, part) = (k.wrapping_sub(5) / 4, k.wrapping_sub(5) % 4);
        let living = k > 4 && self.at(8 + 4 * snake) == 1;
        let (what, least, most) = match (k, part) {
            (0, _) => ("the number of snakes", 2, 8),
            (1, _) => ("the side", 1, 32),
            (2, _) => ("the food due", 0, 1024),
            (3, _) => ("birth", 0, 1),
            (4, _) => ("the food count", 0, cells),
            (_, 1) if living => ("length, while it lives,", 1, cells),
            (_, 1) => ("length", 0, cells),
            (_, 2) => ("heading", 0, 3),
            _ => ("alive flag", 0, 1),
        };
        Seen::Range {
            what,
            snake: (k > 4).then_some(snake),
            found: self.at(k),
            least,
            most,
        }
    }

    fn twice(&self, k: usize) -> Seen {
        let snake = (0..self.snakes())
            .find(|&i| k < self.due(i + 1))
            .unwrap_or(0);
        let first = (self.due(snake)..k)
            .find(|&j| self.at(j) == self.at(k))
            .unwrap_or(k);
        Seen::Twice {
            snake,
            found: self.at(k),
            first,
        }
    }

    fn seen(&self, kind: FaultKind, k: usize) -> Seen {
        let total = self.due(self.snakes()) + usize::from(self.at(4));
        match kind {
            FaultKind::CutShort if self.0.len() < 5 => Seen::Missing { needed: 5 },
            FaultKind::CutShort => Seen::Missing {
                needed: 5 + 4 * self.snakes(),
            },
            FaultKind::OutOfRange => self.range(k),
            FaultKind::Start => {
                let snake = k.saturating_sub(5) / 4;
                Seen::Start {
                    snake,
                    found: self.at(k),
                    due: self.due(snake),
                }
            }
            FaultKind::Total if k < self.0.len() => Seen::LeftOver { needed: total },
            FaultKind::Total => Seen::Missing { needed: total },
            FaultKind::CellBeyond => Seen::Beyond {
                found: self.at(k),
                cells: self.cells(),
            },
            FaultKind::CellTwice => self.twice(k),
            FaultKind::FoodOrder => Seen::Order {
                found: self.at(k),
                before: self.at(k.saturating_sub(1)),
            },
        }
    }
}

impl Fault {
    pub(crate) fn new(number: u8, word: u16) -> Option<Fault> {
        let kind = FaultKind::from_number(number)?;
        Some(Fault {
            kind,
            word,
            seen: Seen::Nothing,
        })
    }

    /// With what these words have there.
    pub(crate) fn found_in(self, image: &[u16]) -> Fault {
        Fault {
            seen: Words(image).seen(self.kind, usize::from(self.word)),
            ..self
        }
    }
}

impl fmt::Display for Fault {
    fn fmt(&self, f: &mut fmt::Formatter<'_>) -> fmt::Result {
        write!(f, "word {}: ", self.word)?;
        match self.seen {
            Seen::Nothing => write!(f, "{}", self.kind.sentence()),
            Seen::Missing { needed } => write!(f, "it is missing, {needed} words are due"),
            Seen::LeftOver { needed } => write!(f, "it is left over, {needed} words are due"),
            Seen::Range {
                what,
                snake: None,
                found,
                least,
                most,
            } => write!(f, "{what} is {found}, {least} to {most} is due"),
            Seen::Range {
                what,
                snake: Some(i),
                found,
                least,
                most,
            } => {
                write!(f, "snake {i}'s {what} is {found}, {least} to {most} is due")
            }
            Seen::Start { snake, found, due } => write!(
                f,
                "snake {snake}'s start is {found}, its body is due at {due}"
            ),
            Seen::Beyond { found, cells } => {
                write!(f, "the cell is {found}, a cell below {cells} is due")
            }
            Seen::Twice {
                snake,
                found,
                first,
            } => {
                write!(f, "snake {snake}'s cell is {found}, which stands in its body at word {first} already")
            }
            Seen::Order { found, before } => {
                write!(f, "the food is {found}, food above {before} is due")
            }
        }
    }
}
