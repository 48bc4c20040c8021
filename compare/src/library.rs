//! The two implementations behind one face: plain Rust, and the one under
//! test. Built with `--cfg selftest` the one under test is a second copy of
//! plain Rust (crate `subject`), so that the comparison itself can be tried.

/// `(0, count, 0)` on success, `(number, line, column)` on refusal.
pub type Answer = (u32, u32, u32);

pub use plain::Revision;

/// Numbers in a row.
pub const ROW: usize = 16;

/// Numbers in a block of counts: the hits of tools 1 to 99, then their routs.
pub const COUNTS: usize = 198;

#[cfg(not(selftest))]
const _: () = assert!(xnc::ROW_WIDTH == ROW && xnc::COUNTS_WIDTH == COUNTS);

pub trait Library {
    const NAME: &'static str;
    fn read(file: &[u8], revision: Revision, table: &mut [i32], counts: &mut [u32]) -> Answer;
    fn edit(
        table: &mut [i32],
        n: usize,
        line: usize,
        text: &[u8],
        revision: Revision,
        counts: &mut [u32],
    ) -> Answer;
    fn hole(table: &[i32], n: usize, line: usize, hole: &mut [i32]) -> Answer;
    fn write(table: &[i32], n: usize, text: &mut [u8]) -> Answer;
    fn hits(counts: &[u32], tool: u32) -> Answer;
    fn routs(counts: &[u32], tool: u32) -> Answer;
}

pub struct Plain;

impl Library for Plain {
    const NAME: &'static str = "plain";
    fn read(file: &[u8], revision: Revision, table: &mut [i32], counts: &mut [u32]) -> Answer {
        plain::read(file, revision, table, counts)
    }
    fn edit(
        table: &mut [i32],
        n: usize,
        line: usize,
        text: &[u8],
        revision: Revision,
        counts: &mut [u32],
    ) -> Answer {
        plain::edit(table, n, line, text, revision, counts)
    }
    fn hole(table: &[i32], n: usize, line: usize, hole: &mut [i32]) -> Answer {
        plain::hole(table, n, line, hole)
    }
    fn write(table: &[i32], n: usize, text: &mut [u8]) -> Answer {
        plain::write(table, n, text)
    }
    fn hits(counts: &[u32], tool: u32) -> Answer {
        plain::hits(counts, tool)
    }
    fn routs(counts: &[u32], tool: u32) -> Answer {
        plain::routs(counts, tool)
    }
}

/// The implementation under test.
pub struct Xnc;

#[cfg(not(selftest))]
impl Library for Xnc {
    const NAME: &'static str = "xnc";
    fn read(file: &[u8], revision: Revision, table: &mut [i32], counts: &mut [u32]) -> Answer {
        triple(xnc::read(file, named(revision), table, counts))
    }
    fn edit(
        table: &mut [i32],
        n: usize,
        line: usize,
        text: &[u8],
        revision: Revision,
        counts: &mut [u32],
    ) -> Answer {
        triple(xnc::edit(table, n, line, text, named(revision), counts))
    }
    fn hole(table: &[i32], n: usize, line: usize, hole: &mut [i32]) -> Answer {
        triple(xnc::hole(table, n, line, hole))
    }
    fn write(table: &[i32], n: usize, text: &mut [u8]) -> Answer {
        triple(xnc::write(table, n, text))
    }
    fn hits(counts: &[u32], tool: u32) -> Answer {
        triple(xnc::hits(counts, tool))
    }
    fn routs(counts: &[u32], tool: u32) -> Answer {
        triple(xnc::routs(counts, tool))
    }
}

#[cfg(not(selftest))]
fn triple(answer: xnc::Answer) -> Answer {
    (answer.number, answer.value, answer.column)
}

/// A revision as the implementation under test names it.
#[cfg(not(selftest))]
fn named(revision: Revision) -> xnc::Revision {
    match revision {
        Revision::Rev2019 => xnc::Revision::Rev2019,
        Revision::Rev2021 => xnc::Revision::Rev2021,
    }
}

#[cfg(selftest)]
fn named(revision: Revision) -> subject::Revision {
    match revision {
        Revision::Rev2019 => subject::Revision::Rev2019,
        Revision::Rev2021 => subject::Revision::Rev2021,
    }
}

#[cfg(selftest)]
impl Library for Xnc {
    const NAME: &'static str = "subject";
    fn read(file: &[u8], revision: Revision, table: &mut [i32], counts: &mut [u32]) -> Answer {
        subject::read(file, named(revision), table, counts)
    }
    fn edit(
        table: &mut [i32],
        n: usize,
        line: usize,
        text: &[u8],
        revision: Revision,
        counts: &mut [u32],
    ) -> Answer {
        subject::edit(table, n, line, text, named(revision), counts)
    }
    fn hole(table: &[i32], n: usize, line: usize, hole: &mut [i32]) -> Answer {
        subject::hole(table, n, line, hole)
    }
    fn write(table: &[i32], n: usize, text: &mut [u8]) -> Answer {
        subject::write(table, n, text)
    }
    fn hits(counts: &[u32], tool: u32) -> Answer {
        subject::hits(counts, tool)
    }
    fn routs(counts: &[u32], tool: u32) -> Answer {
        subject::routs(counts, tool)
    }
}
