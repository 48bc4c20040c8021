//! Safe Rust functions over the library `xnc`.
//!
//! Each function lends slices to the library and hands back an [`Answer`]:
//! number 0 with a count on success, else the refusal's number, line and column,
//! with everything lent left as it was. A table has [`ROW_WIDTH`] numbers for each
//! line.
//!
//! Beside a table stand its counts, how many hits and how many routs each tool
//! makes: [`COUNTS_WIDTH`] numbers, for which [`Counts`] has room. Counts belong to
//! their table. [`read`] hands them out, and each [`edit`] of that table takes them
//! in and brings them up to date. After a refused call they are as they were.
//!
//! A column says which byte of the line is refused. It counts from 1; 0 means
//! none. Refusals 4 and 7 of [`read`] and [`edit`] have one, from 1 to 256: for 4
//! the first forbidden byte, for 7 the first byte of the leftmost number that is
//! out of range or has over six decimals, its sign included. All other answers
//! have none.
//!
//! ```no_run
//! let file = b"M48\nMETRIC\nT01C0.5\n%\nG05\nT1\nX2Y-3.5\nM30\n";
//! let mut table = [0; xnc::ROW_WIDTH * 8];
//! let mut counts = xnc::Counts::new();
//! let revision = xnc::Revision::Rev2021;
//! let rows = xnc::read(file, revision, &mut table, &mut counts).result()? as usize;
//! let mut hole = [0; 7];
//! if xnc::hole(&table, rows, 7, &mut hole).result()? == 1 {
//!     println!("tool {} at {}, {}", hole[1], hole[2], hole[3]);
//! }
//! println!("tool 1 makes {} hits", xnc::hits(&counts, 1).result()?);
//! # Ok::<(), xnc::Refusal>(())
//! ```

use std::fmt;
use std::ops::{Deref, DerefMut};

mod raw {
    extern "C" {
        pub fn xnc_read(
            file: *const u8,
            file_len: usize,
            revision: u32,
            table: *mut i32,
            table_len: usize,
            counts: *mut u32,
            counts_len: usize,
        ) -> u64;
        pub fn xnc_edit(
            table: *mut i32,
            table_len: usize,
            n: usize,
            line: usize,
            text: *const u8,
            text_len: usize,
            revision: u32,
            counts: *mut u32,
            counts_len: usize,
        ) -> u64;
        pub fn xnc_hole(
            table: *const i32,
            table_len: usize,
            n: usize,
            line: usize,
            hole: *mut i32,
            hole_len: usize,
        ) -> u64;
        pub fn xnc_write(
            table: *const i32,
            table_len: usize,
            n: usize,
            text: *mut u8,
            text_len: usize,
        ) -> u64;
        pub fn xnc_hits(counts: *const u32, counts_len: usize, tool: u32) -> u64;
        pub fn xnc_routs(counts: *const u32, counts_len: usize, tool: u32) -> u64;
    }
}

/// Numbers in a table's row, one row a line: kind, tool, x, y, diameter or radius;
/// the state after the line (phase, unit, motion, selected tool, point x, point y,
/// four words of the declared tools); and the decimals written in the radius.
///
/// Kind, tool, x, y, size and decimals are the command's own numbers, each 0 where
/// its kind has none. Only an arc has decimals, 0 to 6: they say how far its radius
/// reaches, and the writer gives it just as many.
pub const ROW_WIDTH: usize = 16;

/// Numbers in a table's counts: the hits of tools 1 to 99, then the routs of tools
/// 1 to 99. A rout is a line or an arc, the hole of a G01, G02 or G03.
pub const COUNTS_WIDTH: usize = 198;

/// A table's counts, to be lent to the functions as they are: `&counts` and
/// `&mut counts` stand for slices. A longer slice can be lent just as well; what is
/// beyond its first [`COUNTS_WIDTH`] numbers is never changed.
#[derive(Clone, Debug, PartialEq, Eq)]
pub struct Counts([u32; COUNTS_WIDTH]);

impl Counts {
    /// Counts that are all zero, for [`read`] to put a table's own into.
    pub const fn new() -> Counts {
        Counts([0; COUNTS_WIDTH])
    }
}

impl Default for Counts {
    fn default() -> Counts {
        Counts::new()
    }
}

impl From<[u32; COUNTS_WIDTH]> for Counts {
    fn from(numbers: [u32; COUNTS_WIDTH]) -> Counts {
        Counts(numbers)
    }
}

impl Deref for Counts {
    type Target = [u32];

    fn deref(&self) -> &[u32] {
        &self.0
    }
}

impl DerefMut for Counts {
    fn deref_mut(&mut self) -> &mut [u32] {
        &mut self.0
    }
}

/// The revision of XNC by whose rule lines are read: 2019 also takes a
/// declaration with one digit, as `T1C0.6`. All else is the same by both.
#[derive(Clone, Copy, Debug, Default, PartialEq, Eq)]
pub enum Revision {
    Rev2019 = 2019,
    #[default]
    Rev2021 = 2021,
}

/// What a function answers: number 0 and a count, or a refusal's number, line
/// and column.
#[derive(Clone, Copy, Debug, PartialEq, Eq)]
pub struct Answer {
    pub number: u32,
    /// The count, or the refusal's line.
    pub value: u32,
    /// The refusal's column, counted from 1; 0 means none.
    pub column: u32,
}

/// A refusal's number, line and column.
#[derive(Clone, Copy, Debug, PartialEq, Eq)]
pub struct Refusal {
    pub number: u32,
    pub line: u32,
    /// Counted from 1; 0 means none.
    pub column: u32,
}

impl Answer {
    /// Number and column have 16 bits each, above the 32 of the value.
    fn unpack(answer: u64) -> Answer {
        Answer {
            number: (answer >> 48) as u32,
            value: answer as u32,
            column: (answer >> 32) as u32 & 0xFFFF,
        }
    }

    /// The count, or the refusal.
    pub fn result(self) -> Result<u32, Refusal> {
        match self.number {
            0 => Ok(self.value),
            number => Err(Refusal { number, line: self.value, column: self.column }),
        }
    }
}

impl fmt::Display for Refusal {
    fn fmt(&self, f: &mut fmt::Formatter<'_>) -> fmt::Result {
        write!(f, "refused {} at {}", self.number, self.line)?;
        match self.column {
            0 => Ok(()),
            column => write!(f, ", column {column}"),
        }
    }
}

impl std::error::Error for Refusal {}

// In each function below the pointers and lengths are those of live slices;
// the ones lent for writing are borrowed mutably, so no two of them overlap.
// The library keeps no pointer.

/// Reads `file` into `table`, [`ROW_WIDTH`] numbers a line, and the table's counts
/// into `counts`; what stood there before doesn't matter. Counts the lines.
///
/// A block of counts under [`COUNTS_WIDTH`] numbers is refused 15 at line 0, after
/// all other refusals. After a refusal the table and the counts are as they were.
pub fn read(file: &[u8], revision: Revision, table: &mut [i32], counts: &mut [u32]) -> Answer {
    Answer::unpack(unsafe {
        raw::xnc_read(
            file.as_ptr(),
            file.len(),
            revision as u32,
            table.as_mut_ptr(),
            table.len(),
            counts.as_mut_ptr(),
            counts.len(),
        )
    })
}

/// Puts `text` in the place of line `line` (from 1) of the table's `n` rows.
/// Counts the meeting line: the rows from `line` to it may have changed.
///
/// `counts` are the table's own, as [`read`] or the edit before left them. The old
/// holes of those rows are taken away from them and the new ones added, so that
/// they are the edited table's own. After all other refusals, a block of counts
/// under [`COUNTS_WIDTH`] numbers is refused 15 at line 0, and then 18 at line 0 a
/// count over 1,000 or under what is taken away from it. After a refusal the table
/// and the counts are as they were.
pub fn edit(
    table: &mut [i32],
    n: usize,
    line: usize,
    text: &[u8],
    revision: Revision,
    counts: &mut [u32],
) -> Answer {
    Answer::unpack(unsafe {
        raw::xnc_edit(
            table.as_mut_ptr(),
            table.len(),
            n,
            line,
            text.as_ptr(),
            text.len(),
            revision as u32,
            counts.as_mut_ptr(),
            counts.len(),
        )
    })
}

/// Asks for the hole that line `line` makes. Counts 1 with kind, tool, start
/// x, start y, end x, end y and radius put into `hole`, or 0 for none.
pub fn hole(table: &[i32], n: usize, line: usize, hole: &mut [i32]) -> Answer {
    Answer::unpack(unsafe {
        raw::xnc_hole(table.as_ptr(), table.len(), n, line, hole.as_mut_ptr(), hole.len())
    })
}

/// Writes the table's `n` rows as text, comments left out. Counts the bytes.
pub fn write(table: &[i32], n: usize, text: &mut [u8]) -> Answer {
    Answer::unpack(unsafe {
        raw::xnc_write(table.as_ptr(), table.len(), n, text.as_mut_ptr(), text.len())
    })
}

/// Asks how many hits `tool` makes in the table whose counts these are. Counts
/// them.
///
/// A tool that isn't 1 to 99 is refused 7 at line 0, without a column; then a block
/// of counts under [`COUNTS_WIDTH`] numbers is refused 15 at line 0.
pub fn hits(counts: &[u32], tool: u32) -> Answer {
    Answer::unpack(unsafe { raw::xnc_hits(counts.as_ptr(), counts.len(), tool) })
}

/// Asks how many routs `tool` makes, lines and arcs. Else as [`hits`].
pub fn routs(counts: &[u32], tool: u32) -> Answer {
    Answer::unpack(unsafe { raw::xnc_routs(counts.as_ptr(), counts.len(), tool) })
}
