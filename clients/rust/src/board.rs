//! What an image shows: its sizes, its snakes and its food, and the board as text.
use crate::Image;
use std::fmt;

/// Of a malformed image all of these show nothing: 0, no cell, nobody alive.
impl Image {
    /// The words, where they are an image.
    fn sound(&self) -> Option<&[u16]> {
        self.is_well_formed().then_some(self.words())
    }

    /// The side g of the grid; a cell is row * g + column.
    pub fn grid(&self) -> u16 {
        self.sound().map_or(0, |words| words[1])
    }

    /// How many snakes play, dead ones included.
    pub fn snakes(&self) -> u16 {
        self.sound().map_or(0, |words| words[0])
    }

    /// How many apples are to be drawn before the next step.
    pub fn due(&self) -> u16 {
        self.sound().map_or(0, |words| words[2])
    }

    /// The cells with food, in ascending order.
    pub fn food(&self) -> &[u16] {
        self.sound()
            .map_or(&[], |words| &words[words.len() - usize::from(words[4])..])
    }

    /// Whether there is such a snake and it lives.
    pub fn alive(&self, snake: u64) -> bool {
        self.sound()
            .is_some_and(|words| snake < words[0].into() && words[8 + 4 * snake as usize] == 1)
    }

    /// A snake's first cell; a dead one may have none.
    pub fn head(&self, snake: u64) -> Option<u16> {
        self.body(snake).first().copied()
    }
}

/// The board, a line a row and a character a cell: `A` to `H` the heads of the living snakes 0 to 7, `a` to `h` the rest of their bodies, `0` to
/// `7` a corpse, `*` food, `.` a free cell. Where a cell holds several, a head stands over bodies, these over corpses, these over food, and a
/// lower snake over a higher one.
impl fmt::Display for Image {
    fn fmt(&self, f: &mut fmt::Formatter<'_>) -> fmt::Result {
        let side = usize::from(self.grid());
        if side == 0 {
            return f.write_str("no board: image not well-formed");
        }
        let mut board = vec![b'.'; side * side];
        // what stands over the rest is put last
        let (living, dead): (Vec<u64>, Vec<u64>) = (0..u64::from(self.snakes()))
            .rev()
            .partition(|&snake| self.alive(snake));
        let mut put = |cells: &[u16], letter: u8| {
            for &cell in cells {
                board[usize::from(cell)] = letter;
            }
        };
        put(self.food(), b'*');
        for snake in dead {
            put(self.body(snake), b'0' + snake as u8);
        }
        for &snake in &living {
            put(self.body(snake), b'a' + snake as u8);
        }
        for snake in living {
            put(self.head(snake).as_slice(), b'A' + snake as u8);
        }
        let rows: Vec<String> = board
            .chunks(side)
            .map(|row| row.iter().map(|&letter| char::from(letter)).collect())
            .collect();
        f.write_str(&rows.join("\n"))
    }
}
