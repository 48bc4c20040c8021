//! Compares two implementations of the XNC line table on many inputs.
//!
//! ```text
//! compare [COUNT [SEED]]
//! compare print COUNT SEED PROGRAM [ARGUMENT ...]
//! compare moves COUNT SEED PROGRAM [ARGUMENT ...]
//! compare counts COUNT SEED PROGRAM [ARGUMENT ...]
//! ```
//!
//! The first form makes at least COUNT comparisons of single calls, from a
//! fixed seed unless one is given. Each compares the answer, its column too, and
//! everything lent, with numbers or bytes before and behind it. In both
//! implementations, an answer must have a column just where it may, and what an
//! edit and a writing promise is held against fresh readings. Each accepted edit of
//! a good table is undone, and pairs of edits are made in both orders. The other three
//! forms compare what a program prints for COUNT files, or edits. Each file and
//! each edit is by one of the two revisions.
//!
//! It fails when a pair differs, when a promise is broken, when a refusal that a
//! function can give never came up, when 4 or 7 came up at too few columns, when
//! half circles with some number of decimals were accepted or refused too seldom,
//! when too few edits were refused for a count too large, or for one too small, when
//! too few were undone, or when pairs of edits came out in one way too seldom.

mod inputs;
mod library;
mod random;
mod undo;

use inputs::{model_before, Arc, File, MAX, MAX_FILE, MAX_LINES};
use library::{Answer, Library, Plain, Revision, Revision::*, Xnc, COUNTS, ROW};
use random::Random;
use std::collections::BTreeSet;
use std::fmt::Write as _;
use std::io::Write as _;
use std::ops::Range;
use std::process::{Command, ExitCode, Stdio};

const COUNT: u64 = 400_000;
const SEED: u64 = 20_211_101;
const SHOWN: u64 = 5;

const BOTH: [Revision; 2] = [Rev2019, Rev2021];

const FUNCTIONS: usize = 8;
const NAMES: [&str; FUNCTIONS] =
    ["read 2019", "read 2021", "edit 2019", "edit 2021", "hole", "write", "hits", "routs"];
const READ: [usize; 2] = [0, 1];
const EDIT: [usize; 2] = [2, 3];
const HOLE: usize = 4;
const WRITE: usize = 5;
const HITS: usize = 6;
const ROUTS: usize = 7;

/// The numbers that each function can give, 0 for success.
const READ_GIVES: &[usize] = &[0, 1, 2, 3, 4, 5, 6, 7, 8, 9, 10, 11, 12, 13, 14, 15];
const EDIT_GIVES: &[usize] = &[0, 4, 5, 6, 7, 8, 9, 10, 11, 12, 13, 14, 15, 16, 17, 18];
const QUESTION_GIVES: &[usize] = &[0, 7, 15];
const CAN_GIVE: [&[usize]; FUNCTIONS] = [
    READ_GIVES,
    READ_GIVES,
    EDIT_GIVES,
    EDIT_GIVES,
    &[0, 15, 16, 18],
    &[0, 15, 18],
    QUESTION_GIVES,
    QUESTION_GIVES,
];

/// The refusals that name a column, in the functions before `HOLE`, and the last
/// column that a line has.
const NAME_COLUMN: [u32; 2] = [4, 7];
const MAX_COLUMN: u32 = 256;

/// How many different columns must come up with each of them, in each function. A
/// 4 can come at all 256; a 7 at all but 1 and 3, where no number begins.
const LEAST_COLUMNS: usize = 250;

/// How many half circles must be accepted, and how many refused, for each number
/// of decimals in the radius.
const LEAST_HALF_CIRCLES: u64 = 50;

/// The largest count that an edit takes, and how many edits must be refused for a
/// count over it, and how many for one under what the span takes.
const MAX_COUNT: u32 = 1_000;
const LEAST_BAD_COUNTS: u64 = 200;

/// How many edits whose span is one row must be undone, and how many with a longer one.
const LEAST_UNDONE: u64 = 1_000;

/// How many pairs of edits of random files must be accepted in both orders with spans
/// apart, how many with the earlier span reaching the later line, and how many in one
/// order alone.
const LEAST_SWAPPED: [u64; 3] = [500, 500, 200];

/// What stands before and behind a block of numbers, and of counts.
const EDGE_NUMBER: i32 = -7;
const EDGE_COUNT: u32 = 70_707;

/// One of the two, as the revision has it.
fn by<T>(revision: Revision, [old, new]: [T; 2]) -> T {
    match revision {
        Rev2019 => old,
        Rev2021 => new,
    }
}

/// A copy of what is lent, with the same filling before and behind it.
#[derive(Clone, PartialEq)]
struct Lent<T> {
    all: Vec<T>,
    length: usize,
}

impl<T: Copy + PartialEq> Lent<T> {
    const EDGE: usize = 16;

    fn new(content: &[T], filling: T) -> Lent<T> {
        let mut all = vec![filling; content.len() + 2 * Self::EDGE];
        all[Self::EDGE..Self::EDGE + content.len()].copy_from_slice(content);
        Lent { all, length: content.len() }
    }

    fn slice(&mut self) -> &mut [T] {
        &mut self.all[Self::EDGE..Self::EDGE + self.length]
    }

    fn content(&self) -> &[T] {
        &self.all[Self::EDGE..Self::EDGE + self.length]
    }
}

/// All that is lent to a call for writing.
trait Blocks: Clone + PartialEq {
    /// What of it may change; nothing, unless said.
    type Span: Default;

    /// Whether all outside `span` is as in `before`.
    fn same_outside(&self, before: &Self, span: &Self::Span) -> bool;

    /// Where it begins to differ from another.
    fn difference(&self, other: &Self) -> String;
}

impl<T: Copy + PartialEq> Blocks for Lent<T> {
    type Span = Range<usize>;

    fn same_outside(&self, before: &Lent<T>, span: &Range<usize>) -> bool {
        let start = Self::EDGE + span.start;
        let end = Self::EDGE + span.end;
        end <= self.all.len()
            && self.all[..start] == before.all[..start]
            && self.all[end..] == before.all[end..]
    }

    fn difference(&self, other: &Lent<T>) -> String {
        let at = (0..self.all.len()).find(|&at| self.all[at] != other.all[at]);
        format!("{}", at.unwrap_or(0) as i64 - Self::EDGE as i64)
    }
}

/// A table and the counts beside it.
#[derive(Clone, PartialEq)]
struct Counted {
    table: Lent<i32>,
    counts: Lent<u32>,
}

impl Counted {
    fn new(table: &[i32], counts: &[u32]) -> Counted {
        Counted { table: Lent::new(table, EDGE_NUMBER), counts: Lent::new(counts, EDGE_COUNT) }
    }
}

impl Blocks for Counted {
    type Span = (Range<usize>, Range<usize>);

    fn same_outside(&self, before: &Counted, (rows, counts): &Self::Span) -> bool {
        self.table.same_outside(&before.table, rows)
            && self.counts.same_outside(&before.counts, counts)
    }

    fn difference(&self, other: &Counted) -> String {
        if self.table != other.table {
            format!("number {}", self.table.difference(&other.table))
        } else {
            format!("count {}", self.counts.difference(&other.counts))
        }
    }
}

struct Comparison {
    random: Random,
    /// A stream by itself for undoing edits and swapping them, so that no other input
    /// depends on how often that is done.
    aside: Random,
    came_up: [[u64; 19]; FUNCTIONS],
    /// The columns that came up in each function with each of `NAME_COLUMN`.
    columns: [[BTreeSet<u32>; 2]; HOLE],
    /// How many half circles were accepted and refused, by their radius's decimals.
    accepted: [u64; 7],
    refused: [u64; 7],
    /// How many edits were refused for a count over 1,000, and how many for none
    /// such but one under what the span takes.
    over: u64,
    under: u64,
    /// How many were undone, and how many pairs were made in both orders, as
    /// `LEAST_UNDONE` and `LEAST_SWAPPED` have them.
    undone: [u64; 2],
    swapped: [u64; 3],
    holes: u64,
    compared: u64,
    promises: u64,
    different: u64,
}

impl Comparison {
    fn new(seed: u64) -> Comparison {
        Comparison {
            random: Random::new(seed),
            aside: Random::new(!seed),
            came_up: [[0; 19]; FUNCTIONS],
            columns: Default::default(),
            accepted: [0; 7],
            refused: [0; 7],
            over: 0,
            under: 0,
            undone: [0; 2],
            swapped: [0; 3],
            holes: 0,
            compared: 0,
            promises: 0,
            different: 0,
        }
    }

    // -------------------------------------------------------- single calls

    /// Reads with room for the counts, and now and then also without.
    fn read(&mut self, file: &[u8], revision: Revision, table: &[i32]) -> (Answer, Vec<i32>) {
        let spare = *self.random.pick(&[0, 0, 1, 20]);
        let block = self.any_counts(COUNTS + spare);
        let pair = self.read_with(file, revision, table, &block);
        for (side, answer, lent) in pair.sides() {
            if answer.0 == 0 {
                self.promise(side, counts_are_those_of_the_holes(answer, lent));
            }
        }
        let answer = pair.expected;
        if self.random.one_in(6) {
            let length = *self.random.pick(&[0, 1, COUNTS / 2, COUNTS - 1]);
            let short = self.read_with(file, revision, table, &block[..length]).expected;
            let expected = if answer.0 == 0 { (15, 0, 0) } else { answer };
            if short != expected {
                self.differs(&format!("read with {length} counts lent answers {short:?}"));
            }
        }
        (answer, pair.ours.table.content().to_vec())
    }

    fn read_with(
        &mut self,
        file: &[u8],
        revision: Revision,
        table: &[i32],
        counts: &[u32],
    ) -> Pair<Counted> {
        let before = Counted::new(table, counts);
        let pair = call(
            &before,
            |lent| Plain::read(file, revision, lent.table.slice(), lent.counts.slice()),
            |lent| Xnc::read(file, revision, lent.table.slice(), lent.counts.slice()),
        );
        let span = |(_, count, _): Answer| (0..count as usize * ROW, 0..COUNTS);
        self.judge(by(revision, READ), &before, &pair, span, || {
            format!(
                "file \"{}\"\n{} numbers and {} counts lent",
                file.escape_ascii(),
                table.len(),
                counts.len()
            )
        });
        pair
    }

    /// Edits a table whose lines aren't at hand.
    fn edit(
        &mut self,
        table: &[i32],
        n: usize,
        line: usize,
        text: &[u8],
        revision: Revision,
    ) -> (Answer, Vec<i32>) {
        self.edit_line(&Edit { table, n, line, text, revision }, None)
    }

    /// Edits the table of a file.
    fn edit_file(
        &mut self,
        file: &File,
        table: &[i32],
        line: usize,
        text: &[u8],
        revision: Revision,
    ) -> (Answer, Vec<i32>) {
        let edit = Edit { table, n: file.lines.len(), line, text, revision };
        self.edit_line(&edit, Some(&file.lines[line - 1]))
    }

    /// Edits with the table's own counts, which must be its own again afterwards;
    /// now and then also with others. Then it is undone, also by the old line, if any.
    fn edit_line(&mut self, edit: &Edit, old: Option<&[u8]>) -> (Answer, Vec<i32>) {
        let &Edit { table, n, .. } = edit;
        let moved = Moved::by(edit);
        let mut own = own_counts(table, n);
        if self.random.one_in(3) {
            let spare = 1 + self.random.below(20);
            own.extend(self.any_counts(spare));
        }
        let pair = self.edit_with(edit, &moved, &own);
        for (side, answer, lent) in pair.sides() {
            if answer.0 == 0 {
                self.promise(side, counts_are_own(edit, lent));
            }
        }
        self.undo(edit, &own, old, &pair);
        if self.random.one_in(3) {
            let counts = self.other_counts(&own[..COUNTS], &moved.gone);
            self.edit_with(edit, &moved, &counts);
        }
        (pair.expected, pair.ours.table.content().to_vec())
    }

    /// Edits with any counts. What becomes of them is worked out here once more.
    fn edit_with(&mut self, edit: &Edit, moved: &Moved, counts: &[u32]) -> Pair<Counted> {
        let &Edit { table, line, revision, .. } = edit;
        let before = Counted::new(table, counts);
        let pair = call(&before, |lent| edit.make::<Plain>(lent), |lent| edit.make::<Xnc>(lent));
        let span = |(_, meeting, _): Answer| ((line - 1) * ROW..meeting as usize * ROW, 0..COUNTS);
        let input = || format!("{}\n{}{}", edit.shown(), counts_shown(counts), rows(table));
        self.judge(by(revision, EDIT), &before, &pair, span, input);
        let expected = moved.from(counts);
        if (pair.expected, pair.ours.counts.content()) != (expected.0, &expected.1[..]) {
            self.differs(&format!(
                "edit: plain answers {:?} for {:?}\n{}",
                pair.expected,
                expected.0,
                input()
            ));
        }
        if moved.answer.0 == 0 && pair.expected == (18, 0, 0) {
            if counts.iter().take(COUNTS).any(|&count| count > MAX_COUNT) {
                self.over += 1;
            } else {
                self.under += 1;
            }
        }
        pair
    }

    fn hole(&mut self, table: &[i32], n: usize, line: usize, length: usize) -> Answer {
        let block: Vec<i32> = (0..length).map(|_| self.random.next() as i32).collect();
        let before = Lent::new(&block, EDGE_NUMBER);
        let pair = call(
            &before,
            |lent| Plain::hole(table, n, line, lent.slice()),
            |lent| Xnc::hole(table, n, line, lent.slice()),
        );
        let span = |(_, count, _): Answer| 0..count as usize * 7;
        self.judge(HOLE, &before, &pair, span, || {
            format!("n {n}, line {line}, {length} numbers lent\n{}", rows(table))
        });
        if pair.expected == (0, 1, 0) {
            self.holes += 1;
        }
        pair.expected
    }

    fn write(&mut self, table: &[i32], n: usize, length: usize) -> (Answer, Vec<u8>) {
        let before = Lent::new(&vec![b'~'; length], b'#');
        let pair = call(
            &before,
            |lent| Plain::write(table, n, lent.slice()),
            |lent| Xnc::write(table, n, lent.slice()),
        );
        let span = |(_, count, _): Answer| 0..count as usize;
        self.judge(WRITE, &before, &pair, span, || {
            format!("n {n}, {length} bytes lent\n{}", rows(table))
        });
        (pair.expected, pair.ours.content().to_vec())
    }

    /// Asks how many hits, or routs, a tool makes.
    fn question(&mut self, function: usize, counts: &[u32], tool: u32) {
        let before = Lent::new(counts, EDGE_COUNT);
        let pair = match function {
            HITS => call(
                &before,
                |lent| Plain::hits(lent.content(), tool),
                |lent| Xnc::hits(lent.content(), tool),
            ),
            _ => call(
                &before,
                |lent| Plain::routs(lent.content(), tool),
                |lent| Xnc::routs(lent.content(), tool),
            ),
        };
        let input = || format!("tool {tool}\n{}", counts_shown(counts));
        self.judge(function, &before, &pair, |_| 0..0, input);
        let first = if function == HITS { 0 } else { COUNTS / 2 };
        let expected = match (tool, counts.len()) {
            (1..=99, COUNTS..) => (0, counts[first + tool as usize - 1], 0),
            (1..=99, _) => (15, 0, 0),
            _ => (7, 0, 0),
        };
        if pair.expected != expected {
            self.differs(&format!("{} answers {:?}: {}", NAMES[function], pair.expected, input()));
        }
    }

    /// Holds the pair's two sides against each other, and each against the
    /// promises that it has a column just where it may, and that a refusal changes
    /// nothing and success only its span.
    fn judge<B: Blocks>(
        &mut self,
        function: usize,
        before: &B,
        pair: &Pair<B>,
        span: impl Fn(Answer) -> B::Span,
        input: impl Fn() -> String,
    ) {
        let name = NAMES[function];
        self.compared += 1;
        self.came_up[function][pair.expected.0 as usize] += 1;
        if let Some(named) = column_named(function, pair.expected) {
            self.columns[function][named].insert(pair.expected.2);
        }
        if pair.expected != pair.found {
            self.differs(&format!(
                "{name}: {} answers {:?}, {} {:?}\n{}",
                Plain::NAME,
                pair.expected,
                Xnc::NAME,
                pair.found,
                input()
            ));
        } else if pair.ours != pair.theirs {
            self.differs(&format!(
                "{name}: both answer {:?}, what was lent differs from {} on\n{}",
                pair.expected,
                pair.ours.difference(&pair.theirs),
                input()
            ));
        }
        for (side, answer, lent) in pair.sides() {
            if !column_fits(function, answer) {
                self.differs(&format!(
                    "{name}: {side} answers {answer:?}, with a column it can't have\n{}",
                    input()
                ));
            }
            let span = if answer.0 == 0 { span(answer) } else { B::Span::default() };
            if !lent.same_outside(before, &span) {
                self.differs(&format!("{name}: {side} changes more than it may\n{}", input()));
            }
        }
    }

    fn differs(&mut self, what: &str) {
        self.different += 1;
        if self.different <= SHOWN {
            println!("DIFFERENT {what}\n");
        }
    }

    fn promise(&mut self, side: &str, held: Result<(), String>) {
        self.promises += 1;
        if let Err(what) = held {
            self.differs(&format!("promise broken by {side}: {what}"));
        }
    }

    fn demand_3(&mut self, file: &File, line: usize, text: &[u8]) {
        self.promise(Plain::NAME, edit_is_reading::<Plain>(file, line, text));
        self.promise(Xnc::NAME, edit_is_reading::<Xnc>(file, line, text));
    }

    /// What 2021 accepts, 2019 accepts as the same table.
    fn older(&mut self, file: &[u8]) {
        self.promise(Plain::NAME, older_accepts::<Plain>(file));
        self.promise(Xnc::NAME, older_accepts::<Xnc>(file));
    }

    // ------------------------------------------------------- whole batches

    fn revision(&mut self) -> Revision {
        inputs::revision(&mut self.random)
    }

    /// Numbers to lend: noise, so that nothing is right by chance.
    fn noise(&mut self, length: usize) -> Vec<i32> {
        (0..length).map(|_| self.random.next() as i32).collect()
    }

    /// The same for counts.
    fn any_counts(&mut self, length: usize) -> Vec<u32> {
        (0..length).map(|_| self.random.next() as u32).collect()
    }

    /// Counts that mostly aren't the table's own, for an edit that takes `gone` from
    /// them.
    fn other_counts(&mut self, own: &[u32], gone: &[u32]) -> Vec<u32> {
        let taken: Vec<usize> = (0..COUNTS).filter(|&at| gone[at] > 0).collect();
        let random = &mut self.random;
        // One that the span takes from, if it does, or any; often one at an end.
        let any = match random.below(3) {
            0 => *random.pick(&[0, COUNTS / 2 - 1, COUNTS / 2, COUNTS - 1]),
            _ => random.below(COUNTS),
        };
        let at = if taken.is_empty() { any } else { *random.pick(&taken) };
        let mut counts = own.to_vec();
        match random.below(18) {
            0 => counts = gone.to_vec(),
            1 | 2 => {
                counts = gone.to_vec();
                counts[at] = counts[at].saturating_sub(1);
            }
            3 | 4 => counts[at] = gone[at].saturating_sub(1),
            5 => counts[at] = gone[at],
            6 => counts[at] = *random.pick(&[MAX_COUNT - 1, MAX_COUNT]),
            7 => counts[any] = *random.pick(&[MAX_COUNT - 1, MAX_COUNT]),
            8 => counts[at] = *random.pick(&[MAX_COUNT + 1, u32::MAX]),
            9 => counts[any] = *random.pick(&[MAX_COUNT + 1, u32::MAX]),
            10 => counts[any] = *random.pick(&[1 << 16, 1 << 31, u32::MAX - 1]),
            11 => {
                counts[any] = *random.pick(&[0, 1, MAX_COUNT + 1]);
                counts.truncate(*random.pick(&[0, 1, COUNTS / 2, COUNTS - 1]));
            }
            12 => counts.fill_with(|| random.below(MAX_COUNT as usize + 1) as u32),
            13 => counts.fill_with(|| random.below(4) as u32),
            14 => counts[any] = counts[any].wrapping_add(1),
            15 => counts[any] = counts[any].wrapping_sub(1),
            16 => counts.fill(*random.pick(&[0, MAX_COUNT, MAX_COUNT + 1])),
            _ => counts.fill_with(|| random.next() as u32),
        }
        if counts.len() == COUNTS && random.one_in(3) {
            let spare = 1 + self.random.below(20);
            counts.extend(self.any_counts(spare));
        }
        counts
    }

    /// Asks counts for tools that there are and for such that there aren't, also
    /// where the block is short.
    fn questions(&mut self, counts: &[u32]) {
        let tools = [0, 1, 99, 100, u32::MAX, self.random.next() as u32];
        let tool = 1 + self.random.below(99) as u32;
        let mut block = counts.to_vec();
        block.extend(self.any_counts(1));
        for tool in tools.into_iter().chain([tool; 3]) {
            let length = *self.random.pick(&[0, COUNTS - 1, COUNTS, COUNTS, COUNTS + 1]);
            for function in [HITS, ROUTS] {
                self.question(function, &block[..length], tool);
            }
        }
    }

    /// Reads a file that must be accepted by its revision, and by the other one
    /// too; its table without what is beyond.
    fn read_valid(&mut self, file: &File) -> Vec<i32> {
        let n = file.lines.len();
        let bytes = file.bytes();
        let spare = self.random.below(20);
        let lent = self.noise(n * ROW + spare);
        self.read(&bytes, by(file.revision, [Rev2021, Rev2019]), &lent);
        self.older(&bytes);
        let (answer, mut table) = self.read(&bytes, file.revision, &lent);
        if answer != (0, n as u32, 0) {
            self.differs(&format!("valid file answered {answer:?}: \"{}\"", bytes.escape_ascii()));
        }
        table.truncate(n * ROW);
        table
    }

    fn read_damaged(&mut self, file: &File, times: usize) {
        let n = file.lines.len();
        for _ in 0..times {
            let bytes = inputs::damaged(file, &mut self.random);
            let length = match self.random.below(12) {
                0 => self.random.below(n * ROW + 1),
                1 => n * ROW - 1,
                _ => (n + 4) * ROW,
            };
            let lent = self.noise(length);
            let revision = self.revision();
            self.read(&bytes, revision, &lent);
            if self.random.one_in(8) {
                self.older(&bytes);
            }
        }
    }

    fn read_into_short_tables(&mut self, file: &File) {
        let n = file.lines.len();
        let bytes = file.bytes();
        let full = n * ROW;
        for length in [full - 1, full, full - n, full - ROW, self.random.below(full), 0] {
            let lent = self.noise(length);
            self.read(&bytes, file.revision, &lent);
        }
    }

    fn writes(&mut self, table: &[i32], n: usize) {
        let room = n.min(MAX_LINES) * 39;
        let ((number, count, _), text) = self.write(table, n, room);
        if number != 0 {
            self.write(table, n, 0);
            return;
        }
        let exact = count as usize;
        for length in [0, exact.saturating_sub(1), exact, exact + 1, self.random.below(exact + 1)] {
            self.write(table, n, length);
        }
        self.promise(Plain::NAME, written_reads_back::<Plain>(table, n));
        self.promise(Xnc::NAME, written_reads_back::<Xnc>(table, n));
        // What is written reads alike in both, by each revision.
        let lent = self.noise(n * ROW);
        for revision in BOTH {
            self.read(&text[..exact], revision, &lent);
        }
    }

    fn holes(&mut self, table: &[i32], n: usize, lines: Range<usize>) {
        for line in lines {
            let length = *self.random.pick(&[0, 6, 7, 7, 7, 7, 8, 15]);
            self.hole(table, n, line, length);
        }
    }

    /// Edits of a table that was read, by its file's revision or the other, with
    /// what demand 3 asks of them for the file's own.
    fn edits(&mut self, file: &File, table: &[i32], line: usize, times: usize) {
        for _ in 0..times {
            let revision = self.revision();
            let before = model_before(table, line, revision);
            let text = match self.random.below(6) {
                0 => self.random.pick(&file.lines).clone(),
                1 => {
                    let mut text = file.lines[line - 1].clone();
                    inputs::change_bytes(&mut text, &mut self.random);
                    text
                }
                _ => inputs::text_for(&before, &mut self.random),
            };
            let spare = self.random.below(20);
            let mut lent = table.to_vec();
            lent.extend(self.noise(spare));
            self.edit_file(file, &lent, line, &text, revision);
            if self.random.one_in(2) {
                self.demand_3(file, line, &text);
            }
        }
    }

    /// Several edits, one on top of the other. The file's lines go along with them.
    fn chain_of_edits(&mut self, file: &File, table: &[i32], times: usize) {
        let (mut file, mut table) = (file.clone(), table.to_vec());
        let n = file.lines.len();
        for _ in 0..times {
            let line = 1 + self.random.below(n);
            let revision = self.revision();
            let before = model_before(&table, line, revision);
            let text = inputs::text_for(&before, &mut self.random);
            let (answer, edited) = self.edit_file(&file, &table, line, &text, revision);
            if answer.0 == 0 {
                file.lines[line - 1] = text;
            }
            table = edited;
        }
        self.writes(&table, n);
        self.holes(&table, n, 1..n + 1);
        self.questions(&own_counts(&table, n));
    }

    /// Counts of rows and line numbers that don't fit the table.
    fn odd_sizes(&mut self, table: &[i32], rows: usize) {
        let (counts, lines) = (odd_counts(rows), odd_lines(rows));
        let texts: [&[u8]; 8] = [b";", b"\n", b"\r", b"", b"T1\r\n", b"X1Y1\r", b"M30", b"\n\xff"];
        for _ in 0..8 {
            let n = *self.random.pick(&counts);
            let line = *self.random.pick(&lines);
            let text = *self.random.pick(&texts);
            // Lent as it is, cut, or with more rows than any table has.
            let length = match self.random.below(6) {
                0..=2 => table.len(),
                3 => table.len() - *self.random.pick(&[1, ROW - 1, ROW, table.len()]),
                _ => (MAX_LINES + 2) * ROW - self.random.below(32),
            };
            let mut lent = table.to_vec();
            lent.resize(length, 0);
            let lent = &lent;
            let revision = self.revision();
            self.edit(lent, n, line, text, revision);
            let length = *self.random.pick(&[0, 6, 7, 8]);
            self.hole(lent, n, line, length);
            let room = *self.random.pick(&[0, 10, rows * 39]);
            self.write(lent, n, room);
        }
    }

    /// Edits, queries and writings of a table with few numbers changed.
    fn spoilt(&mut self, good: &[i32], n: usize) {
        let mut table = good.to_vec();
        let row = self.random.below(n);
        for _ in 0..1 + self.random.below(2) {
            let row = (row + self.random.below(3)).min(n - 1);
            inputs::spoil_row(&mut table, row, &mut self.random);
        }
        self.edits_about(&table, n, row + 1);
        self.writes(&table, n);
    }

    /// A good table cut short, or with rows changed places.
    fn shifted(&mut self, good: &[i32], n: usize) {
        let mut table = good.to_vec();
        let (a, b) = (self.random.below(n), self.random.below(n));
        match self.random.below(3) {
            0 => {
                for number in 0..ROW {
                    table.swap(a * ROW + number, b * ROW + number);
                }
            }
            1 => table.copy_within(a * ROW..(a + 1) * ROW, b * ROW),
            _ => {}
        }
        let rows = match self.random.below(2) {
            0 => n,
            _ => 1 + self.random.below(n),
        };
        self.edits_about(&table, rows, b + 1);
        self.edits_about(&table, rows, rows);
        self.writes(&table, rows);
    }

    fn loose(&mut self) {
        let n = 1 + self.random.below(12);
        let table = inputs::loose_table(n, &mut self.random);
        for line in 1..=n {
            self.edits_about(&table, n, line);
        }
        self.writes(&table, n);
    }

    /// Edits and queries about one line of any table.
    fn edits_about(&mut self, table: &[i32], n: usize, line: usize) {
        let first = line.saturating_sub(2).max(1);
        let last = (line + 2).min(n);
        for at in first..=last {
            let revision = self.revision();
            let before = model_before(table, at, revision);
            let text = inputs::text_for(&before, &mut self.random);
            self.edit(table, n, at, &text, revision);
        }
        self.holes(table, n, first..last + 1);
    }

    /// One small file and all that is done with it.
    fn round(&mut self) {
        let lines = match self.random.below(40) {
            0 => 300 + self.random.below(600),
            1..=4 => 40 + self.random.below(100),
            _ => 4 + self.random.below(30),
        };
        let file = inputs::valid_file(lines, &mut self.random);
        if file.bytes().len() > MAX_FILE {
            return;
        }
        let n = file.lines.len();
        let table = self.read_valid(&file);
        self.questions(&own_counts(&table, n));
        self.read_into_short_tables(&file);
        self.read_damaged(&file, 100);
        self.writes(&table, n);
        if n <= 60 {
            self.holes(&table, n, 0..n + 2);
            for line in 1..=n {
                self.edits(&file, &table, line, 4);
            }
        } else {
            for _ in 0..20 {
                let line = 1 + self.random.below(n);
                self.edits(&file, &table, line, 1);
                self.holes(&table, n, line..line + 1);
            }
        }
        self.odd_sizes(&table, n);
        self.chain_of_edits(&file, &table, 12);
        self.swaps(&table, if n <= 60 { 100 } else { 20 });
        self.some_half_circles(2);
        for _ in 0..6 {
            self.spoilt(&table, n);
            self.shifted(&table, n);
            self.loose();
        }
        if self.random.one_in(20) {
            self.large();
        }
    }

    /// Files about the limits of lines and bytes.
    fn large(&mut self) {
        let count =
            *self.random.pick(&[MAX_LINES - 1, MAX_LINES, MAX_LINES, MAX_LINES + 1, MAX_LINES + 1]);
        let file = inputs::file_of_lines(count, &mut self.random);
        if count <= MAX_LINES && file.bytes().len() <= MAX_FILE {
            let table = self.read_valid(&file);
            self.writes(&table, count);
            for _ in 0..4 {
                let line = *self.random.pick(&[1, 2, 3, 5, 8, count / 2, count - 1, count]);
                self.edits(&file, &table, line, 1);
                self.holes(&table, count, line..line + 2);
            }
            self.odd_sizes(&table, count);
        }
        self.read_damaged(&file, 4);
        let lent = self.noise(MAX_LINES * ROW);
        self.read(&file.bytes(), file.revision, &lent);
        let mut bytes = inputs::file_of_bytes(MAX_FILE - self.random.below(3));
        inputs::change_bytes(&mut bytes, &mut self.random);
        let revision = self.revision();
        self.read(&bytes, revision, &lent);
    }

    /// The limits themselves, by a revision.
    fn limits(&mut self, revision: Revision) {
        let lent = self.noise((MAX_LINES + 1) * ROW);
        for bytes in [MAX_FILE - 1, MAX_FILE, MAX_FILE + 1, MAX_FILE + 1_000] {
            let file = inputs::file_of_bytes(bytes);
            assert_eq!(file.len(), bytes);
            let (answer, _) = self.read(&file, revision, &lent);
            assert_eq!(answer.0, u32::from(bytes > MAX_FILE));
            self.read(&file[..bytes - 1], revision, &lent);
        }
        self.read(&vec![b'\n'; MAX_FILE + 1], revision, &lent);
        self.read(&vec![b'x'; MAX_FILE], revision, &lent);
        for lines in [MAX_LINES - 1, MAX_LINES, MAX_LINES + 1, MAX_LINES + 2] {
            let mut file = inputs::file_of_lines(lines, &mut self.random);
            while file.bytes().len() > MAX_FILE || file.revision != revision {
                file = inputs::file_of_lines(lines, &mut self.random);
            }
            let mut bytes = file.bytes();
            let (answer, _) = self.read(&bytes, revision, &lent);
            assert_eq!(answer.0, if lines > MAX_LINES { 2 } else { 0 });
            for more in [&b"\n"[..], b";\n", b"M30\n", b"x", b"\0", b"\r"] {
                bytes.extend_from_slice(more);
                self.read(&bytes, revision, &lent);
                bytes.truncate(bytes.len() - more.len());
            }
            // The last line gone, or replaced by one that doesn't end the file.
            self.read(&bytes[..bytes.len() - 4], revision, &lent);
            let length = bytes.len() - 4;
            bytes.truncate(length);
            bytes.extend_from_slice(b";\n");
            self.read(&bytes, revision, &lent);
        }
        for file in
            [&b""[..], b"\n", b"\r", b"\r\n", b"M48", b"M48\n", b"M48\r", b"M48\r\r\n", b"\0", b";"]
        {
            self.read(file, revision, &lent);
            self.read(file, revision, &[]);
        }
    }

    /// The paper's own file: its edits a to l, then every text and every
    /// number that a small set gives, and lines for every column.
    fn bench_file(&mut self) {
        let file = file_of(
            "M48\nMETRIC\nT01C0.5\nT07C1.25\n%\nG05\nT1\nX2Y-3.5\nT07\nG00X0Y0\nM15\nG01X4Y0\n\
             G03X6Y2A2\nM16\nM30",
        );
        let table = self.read_valid(&file);
        for revision in BOTH {
            self.edits_a_to_l(&File { revision, ..file.clone() }, &table);
        }
        for line in 0..17 {
            for length in [0, 6, 7, 8] {
                self.hole(&table, 15, line, length);
            }
        }
        self.writes(&table, 15);
        for (line, text) in [(7, "T1\r"), (7, "T1\n"), (4, "T01C1"), (7, ";")] {
            self.edit_file(&file, &table, line, text.as_bytes(), Rev2021);
        }
        for revision in BOTH {
            let file = File { revision, ..file.clone() };
            self.all_small_texts(&file, &table);
            self.all_tools(revision);
            self.all_columns(&file, &table);
        }
        self.swaps_of_bench_file(&table);
        self.swaps_of_files(60);
        self.all_counts(&table);
        self.all_questions();
        self.all_edges(&table);
        self.all_decimals(&table);
        self.all_radii(&file, &table);
        self.all_half_circles();
    }

    /// The paper's edits of its file, the one of request #106 with its column, and
    /// what is said of them: the same by each revision.
    fn edits_a_to_l(&mut self, file: &File, table: &[i32]) {
        let cases: [(usize, &str, Answer); 13] = [
            (3, "T01C0.6", (0, 3, 0)),
            (3, "T02C0.5", (10, 7, 0)),
            (2, "INCH", (0, 15, 0)),
            (6, ";", (12, 8, 0)),
            (8, "X2Y3", (0, 8, 0)),
            (9, ";", (0, 15, 0)),
            (12, "G01X4Y1", (0, 13, 0)),
            (13, "G03X8Y0A2", (0, 15, 0)),
            (13, "G03X8Y0A1.9", (13, 13, 0)),
            (15, ";", (14, 16, 0)),
            (11, "M30", (8, 12, 0)),
            (12, "G01X4Y0", (0, 12, 0)),
            (13, "G03X6.0Y1600A1.0", (7, 13, 9)),
        ];
        for (line, text, expected) in cases {
            let (answer, _) = self.edit_file(file, table, line, text.as_bytes(), file.revision);
            if answer != expected {
                self.differs(&format!("edit {line} {text} of the bench file answered {answer:?}"));
            }
            self.demand_3(file, line, text.as_bytes());
        }
    }

    /// Every count at the edges, for edits that move no hole, that take one away, that
    /// move two from tool to tool, that bring back what they take, and that are
    /// refused. Then some of them with other tools in the place of 1 and 7, also none.
    fn all_counts(&mut self, table: &[i32]) {
        const EDITS: [(usize, &[u8]); 6] =
            [(3, b"T01C0.6"), (8, b";"), (9, b";"), (9, b"T1"), (12, b"G01X4Y1"), (15, b";")];
        for (a, b) in [(1, 7), (7, 1), (0, 7), (1, 0), (0, 0), (99, 98), (98, 99), (99, 99)] {
            let mut table = table.to_vec();
            for row in table.chunks_mut(ROW).filter(|row| row[8] != 0) {
                row[8] = if row[8] == 1 { a } else { b };
            }
            let own = own_counts(&table, 15);
            for (line, text) in EDITS {
                let edit = Edit { table: &table, n: 15, line, text, revision: self.revision() };
                let moved = Moved::by(&edit);
                for at in 0..COUNTS {
                    let gone = moved.gone[at];
                    if (a, b) != (1, 7) && own[at] == 0 && !self.random.one_in(10) {
                        continue;
                    }
                    for count in [gone, gone.wrapping_sub(1), MAX_COUNT, MAX_COUNT + 1] {
                        let mut counts = own.clone();
                        counts[at] = count;
                        self.edit_with(&edit, &moved, &counts);
                    }
                }
                for length in [0, 1, 99, 197, 198, 199, 300] {
                    for count in [0, MAX_COUNT, MAX_COUNT + 1] {
                        self.edit_with(&edit, &moved, &vec![count; length]);
                    }
                }
            }
        }
    }

    /// Every tool, and numbers that are none, asked of blocks of every kind.
    fn all_questions(&mut self) {
        let odd = [198, 199, 256, 257, 355, 65_536, 65_537, 1 << 31, (1 << 31) + 1, u32::MAX];
        for tool in (0..=101).chain(odd) {
            for length in [0, 1, 98, 99, 100, COUNTS - 1, COUNTS, COUNTS + 1, 300] {
                let counts = self.any_counts(length);
                for function in [HITS, ROUTS] {
                    self.question(function, &counts, tool);
                }
            }
        }
    }

    /// Every short text, and every short spelling of each number, as an edit.
    fn all_small_texts(&mut self, file: &File, table: &[i32]) {
        for text in inputs::all_texts("019.-+XYTCM%; \r", 3) {
            self.edit_file(file, table, 8, text.as_bytes(), file.revision);
        }
        for number in inputs::all_texts("019.-+", 4) {
            let texts = [
                (3, format!("T01C{number}")),
                (3, format!("T{number}C1")),
                (7, format!("T{number}")),
                (8, format!("X{number}Y1")),
                (8, format!("X1Y{number}")),
                (13, format!("G02X5Y0A{number}")),
            ];
            for (line, text) in texts {
                self.edit_file(file, table, line, text.as_bytes(), file.revision);
            }
        }
    }

    /// Lines that are refused at many columns, each as an edit and as a line of the
    /// file; of some also with another end, and with another such line.
    fn all_columns(&mut self, file: &File, table: &[i32]) {
        const ENDS: [&[u8]; 3] = [b"\n", b"\r\n", b"\r\r\n"];
        let texts = inputs::lines_for_columns();
        let lent = self.noise(15 * ROW);
        for text in &texts {
            let line = match self.random.below(8) {
                0 => 1 + self.random.below(15),
                _ => line_for(text),
            };
            self.edit_file(file, table, line, text, file.revision);
            self.demand_3(file, line, text);
            let mut changed = file.clone();
            changed.lines[line - 1] = text.clone();
            self.read(&changed.bytes(), file.revision, &lent);
            if self.random.one_in(3) {
                changed.ends[line - 1] = *self.random.pick(&ENDS);
                let other = self.random.below(15);
                changed.lines[other] = self.random.pick(&texts).clone();
                self.read(&changed.bytes(), file.revision, &lent);
            }
        }
    }

    /// Every number of every row at the edges of every field.
    fn all_edges(&mut self, table: &[i32]) {
        let mut table = table.to_vec();
        for at in 0..table.len() {
            let (line, number) = (at / ROW + 1, table[at]);
            for edge in inputs::TABLE_EDGES {
                table[at] = edge;
                self.hole(&table, 15, line, 7);
                let revision = self.revision();
                self.edit(&table, 15, line, b";", revision);
                if !(5..15).contains(&(at % ROW)) {
                    self.write(&table, 15, 0);
                }
            }
            table[at] = number;
        }
    }

    /// Every kind of row with every number of decimals, and some that are none, in
    /// the place of the file's arc; of arcs with radii that have so many and with
    /// such that have more.
    fn all_decimals(&mut self, table: &[i32]) {
        let row = 12 * ROW;
        for command in inputs::legal_commands() {
            for decimals in inputs::TABLE_EDGES {
                let mut table = table.to_vec();
                table[row..row + 5].copy_from_slice(&command);
                table[row + 15] = decimals;
                for line in 12..15 {
                    self.hole(&table, 15, line, 7);
                    let revision = self.revision();
                    self.edit(&table, 15, line, b"G01X4Y1", revision);
                }
                self.write(&table, 15, 15 * 39);
            }
        }
    }

    /// Radii in many spellings, read, edited in, written back and read again.
    fn all_radii(&mut self, file: &File, table: &[i32]) {
        for radius in inputs::radii() {
            // A millionth away, which every radius reaches.
            let arc = format!("G03X4.000001Y0A{}", radius.text).into_bytes();
            self.edit_file(file, table, 13, &arc, file.revision);
            self.demand_3(file, 13, &arc);
            let mut changed = file.clone();
            changed.lines[12] = arc;
            let table = self.read_valid(&changed);
            let (size, decimals) = (table[12 * ROW + 4], table[12 * ROW + 15]);
            if (size, decimals) != (radius.radius, radius.decimals as i32) {
                self.differs(&format!("A{} is read as {size}, {decimals}", radius.text));
            }
            self.writes(&table, 15);
            let ((_, count, _), text) = self.write(&table, 15, 15 * 39);
            let expected = format!("\nG03X4.000001Y0A{}\nM16\nM30\n", radius.written);
            if !text[..count as usize].ends_with(expected.as_bytes()) {
                self.differs(&format!("A{} isn't written as A{}", radius.text, radius.written));
            }
        }
    }

    /// Half circles with every number of decimals.
    fn all_half_circles(&mut self) {
        for decimals in 0..7 {
            let place = inputs::place(decimals);
            for units in [1, 2, 10, 123, MAX / place] {
                self.limit_of_an_arc(units * place, decimals);
            }
            for _ in 0..200 {
                self.any_half_circle(decimals);
            }
        }
    }

    /// Ends as far apart as a radius allows, and a millionth less and more; also a
    /// millionth aside.
    fn limit_of_an_arc(&mut self, radius: i32, decimals: usize) {
        for more in -1..=1 {
            // The largest reaches further than any ends are apart along an axis.
            let apart = (inputs::reach(radius, decimals) + more).min(2 * i64::from(MAX));
            let (a, b) = (-(apart / 2) as i32, (apart - apart / 2) as i32);
            for (from, to) in [((a, 9), (b, 9)), ((-9, b), (-9, a)), ((a, 0), (b, -1))] {
                self.half_circle(&Arc { from, to, radius, decimals });
            }
        }
    }

    fn some_half_circles(&mut self, times: usize) {
        for _ in 0..times {
            self.file_of_half_circles();
            let decimals = self.random.below(7);
            self.any_half_circle(decimals);
        }
    }

    fn any_half_circle(&mut self, decimals: usize) {
        let random = &mut self.random;
        let from = (inputs::coordinate(random), inputs::coordinate(random));
        let arc = inputs::half_circle(from, decimals, random);
        self.half_circle(&arc);
    }

    /// A half circle that is read, that is put in by an edit, and whose start is
    /// moved by an edit of the line before it.
    fn half_circle(&mut self, arc: &Arc) {
        let random = &mut self.random;
        let [start, end] = [arc.from, arc.to].map(|to| inputs::line_to(to, random));
        // So near the end that the arc is possible.
        let nearby = (arc.to.0 - if arc.to.0 > 0 { 1 } else { -1 }, arc.to.1);
        let nearby = inputs::line_to(nearby, random);
        let text = arc.text(random);
        let revision = self.revision();
        let file = |from: &str, to: &str| File {
            revision,
            ..file_of(&format!("M48\nINCH\nT01C1\n%\nT1\nG00X0Y0\nM15\n{from}\n{to}\nM16\nM30"))
        };
        let lent = self.noise(11 * ROW);
        let (answer, _) = self.read(&file(&start, &text).bytes(), revision, &lent);
        self.half_circle_answered(arc, 9, answer);
        for (file, line, text) in
            [(file(&start, &end), 9, &text), (file(&nearby, &text), 8, &start)]
        {
            let table = self.read_valid(&file);
            let (answer, _) = self.edit_file(&file, &table, line, text.as_bytes(), revision);
            self.half_circle_answered(arc, 9, answer);
            self.demand_3(&file, line, text.as_bytes());
        }
    }

    /// Counts a half circle of a line, and holds its answer against the rule.
    fn half_circle_answered(&mut self, arc: &Arc, line: u32, answer: Answer) {
        let taken = answer.0 == 0;
        let counted = if taken { &mut self.accepted } else { &mut self.refused };
        counted[arc.decimals] += 1;
        if taken != arc.is_possible() || !(taken || answer == (13, line, 0)) {
            self.differs(&format!("{arc:?} is answered {answer:?}"));
        }
    }

    /// A file of half circles, with which all is done if it is accepted.
    fn file_of_half_circles(&mut self) {
        let made = inputs::half_circles(&mut self.random);
        let (file, n) = (&made.file, made.file.lines.len());
        let lent = self.noise(n * ROW);
        let (answer, table) = self.read(&file.bytes(), file.revision, &lent);
        let verdict = match made.refused {
            Some(line) => (13, line as u32, 0),
            None => (0, n as u32, 0),
        };
        for (line, arc) in &made.arcs {
            let taken = made.refused != Some(*line) && answer == verdict;
            let answer = if taken { (0, n as u32, 0) } else { answer };
            self.half_circle_answered(arc, *line as u32, answer);
        }
        if answer.0 == 0 {
            self.writes(&table, n);
            self.holes(&table, n, 8..n);
            for (line, _) in &made.arcs {
                self.edits(file, &table, *line, 2);
            }
        }
    }

    /// Every tool, declared with one digit or two and selected beside every other
    /// of a few.
    fn all_tools(&mut self, revision: Revision) {
        for tool in 1..=99 {
            for other in [1, 24, 25, 49, 50, 75, 99] {
                for declared in [format!("{tool:02}"), tool.to_string()] {
                    let file = format!(
                        "M48\nINCH\nT{declared}C1\nT{other:02}C2\n%\nT{other}\nG05\nX0Y0\nM30\n"
                    );
                    let lent = self.noise(9 * ROW);
                    self.read(file.as_bytes(), revision, &lent);
                }
            }
        }
    }

    // -------------------------------------------------------------- report

    /// Prints how often each number came up, at how many columns, how many half circles
    /// were accepted and refused, and how many edits were refused for their counts, undone
    /// and swapped; whether each one did, and enough of them.
    fn report(&self) -> bool {
        let mut complete = true;
        for (function, numbers) in CAN_GIVE.iter().enumerate() {
            let mut line = format!("{:9}", NAMES[function]);
            for &number in *numbers {
                let times = self.came_up[function][number];
                let _ = write!(line, "  {number}: {times}");
                if times == 0 {
                    complete = false;
                    line.push_str(" (never)");
                }
            }
            println!("{line}");
        }
        for (function, sets) in self.columns.iter().enumerate() {
            let mut line = format!("{:9}  columns", NAMES[function]);
            for (number, set) in NAME_COLUMN.iter().zip(sets) {
                let _ = write!(line, "  of {number}: {}", set.len());
                if set.len() < LEAST_COLUMNS {
                    complete = false;
                    line.push_str(" (too few)");
                }
            }
            println!("{line}");
        }
        complete &= self.report_half_circles();
        let bad_counts = [("over 1,000", self.over), ("under what is taken", self.under)];
        complete &= enough("edits refused for a count", bad_counts, [LEAST_BAD_COUNTS; 2]);
        let [short, long] = self.undone;
        let undone = [("span of one row", short), ("longer span", long)];
        complete &= enough("edits undone", undone, [LEAST_UNDONE; 2]);
        let [apart, reaching, one] = self.swapped;
        let swapped =
            [("apart", apart), ("reaching the later line", reaching), ("in one order alone", one)];
        complete &= enough("edits swapped", swapped, LEAST_SWAPPED);
        println!("holes found {}, promises checked {}", self.holes, self.promises);
        complete
    }

    fn report_half_circles(&self) -> bool {
        let mut complete = true;
        for (name, times) in [("accepted", self.accepted), ("refused", self.refused)] {
            let mut line = format!("half circles {name:8}  decimals");
            for (decimals, times) in times.iter().enumerate() {
                let _ = write!(line, "  {decimals}: {times}");
                if *times < LEAST_HALF_CIRCLES {
                    complete = false;
                    line.push_str(" (too few)");
                }
            }
            println!("{line}");
        }
        complete
    }
}

/// Prints how often each of these came up; whether each did often enough.
fn enough<const N: usize>(title: &str, times: [(&str, u64); N], least: [u64; N]) -> bool {
    let mut complete = true;
    let mut line = String::from(title);
    for ((name, times), least) in times.into_iter().zip(least) {
        let _ = write!(line, "  {name}: {times}");
        if times < least {
            complete = false;
            line.push_str(" (too few)");
        }
    }
    println!("{line}");
    complete
}

// ----------------------------------------------------------------- columns

/// Which of `NAME_COLUMN` a function's answer is, if it is one.
fn column_named(function: usize, (number, _, _): Answer) -> Option<usize> {
    let named = NAME_COLUMN.iter().position(|&name| name == number);
    named.filter(|_| function < HOLE)
}

/// Whether a function's answer has a column from 1 on where it names one, and 0
/// where it doesn't.
fn column_fits(function: usize, answer: Answer) -> bool {
    match column_named(function, answer) {
        Some(_) => (1..=MAX_COLUMN).contains(&answer.2),
        None => answer.2 == 0,
    }
}

// ------------------------------------------------------------------- pairs

/// Both answers to one call, and what was lent afterwards.
struct Pair<B> {
    expected: Answer,
    found: Answer,
    ours: B,
    theirs: B,
}

impl<B> Pair<B> {
    /// Each side's name, answer and what it left.
    fn sides(&self) -> [(&'static str, Answer, &B); 2] {
        [(Plain::NAME, self.expected, &self.ours), (Xnc::NAME, self.found, &self.theirs)]
    }
}

fn call<B: Blocks>(
    before: &B,
    plain: impl Fn(&mut B) -> Answer,
    xnc: impl Fn(&mut B) -> Answer,
) -> Pair<B> {
    let mut ours = before.clone();
    let expected = plain(&mut ours);
    let mut theirs = before.clone();
    let found = xnc(&mut theirs);
    Pair { expected, found, ours, theirs }
}

/// A file of these lines, each ended by LF, by the 2021 revision.
fn file_of(text: &str) -> File {
    let lines: Vec<Vec<u8>> = text.split('\n').map(|line| line.as_bytes().to_vec()).collect();
    let ends = vec![&b"\n"[..]; lines.len()];
    File { lines, ends, revision: Rev2021 }
}

/// A line of the paper's file where a command that begins as `text` may come.
fn line_for(text: &[u8]) -> usize {
    match text {
        [b'T', ..] if text.contains(&b'C') => 3,
        [b'T', ..] => 7,
        [b'X', ..] => 8,
        [b'G', b'0', b'0', ..] => 10,
        [b'G', b'0', b'1', ..] => 12,
        [b'G', b'0', b'2' | b'3', ..] => 13,
        _ => 6,
    }
}

fn rows(table: &[i32]) -> String {
    let mut text = String::new();
    for (row, line) in table.chunks(ROW).zip(1..) {
        let _ = writeln!(text, "row {line}: {row:?}");
    }
    text
}

// ------------------------------------------------------------------ counts

/// The hole of a row by itself: whether it is a hit, and its tool. None where the
/// row makes none, or fails its test.
fn hole_of(row: &[i32]) -> Option<(bool, usize)> {
    let mut hole = [0; 7];
    let made = plain::hole(row, 1, 1, &mut hole) == (0, 1, 0);
    made.then_some((hole[0] == 9, hole[1] as usize))
}

/// How many holes of each tool these rows make. Those of tool 0 aren't counted.
fn count_holes(rows: &[i32]) -> Vec<u32> {
    let mut counts = vec![0; COUNTS];
    for (is_hit, tool) in rows.chunks_exact(ROW).filter_map(hole_of) {
        if tool != 0 {
            counts[tool - 1 + if is_hit { 0 } else { COUNTS / 2 }] += 1;
        }
    }
    counts
}

/// A table's own counts: those of its first `n` rows, as far as they are there and
/// pass their test.
fn own_counts(table: &[i32], n: usize) -> Vec<u32> {
    let n = n.min(MAX_LINES).min(table.len() / ROW);
    count_holes(&table[..n * ROW])
}

/// An edit but for its counts.
#[derive(Clone, Copy)]
struct Edit<'a> {
    table: &'a [i32],
    n: usize,
    line: usize,
    text: &'a [u8],
    revision: Revision,
}

impl Edit<'_> {
    /// Makes it, by one side, of what is lent.
    fn make<L: Library>(&self, lent: &mut Counted) -> Answer {
        let (table, counts) = (lent.table.slice(), lent.counts.slice());
        L::edit(table, self.n, self.line, self.text, self.revision, counts)
    }

    fn shown(&self) -> String {
        format!("n {}, line {}, text \"{}\"", self.n, self.line, self.text.escape_ascii())
    }
}

/// What an edit does to counts: its answer where they refuse nothing, what goes
/// from them, and what comes.
struct Moved {
    answer: Answer,
    gone: Vec<u32>,
    made: Vec<u32>,
}

impl Moved {
    /// By the span's rows before and after. Counts of 1,000 each are neither over that
    /// nor under what any span takes.
    fn by(edit: &Edit) -> Moved {
        let &Edit { table, n, line, text, revision } = edit;
        let mut edited = table.to_vec();
        let full = &mut [MAX_COUNT; COUNTS];
        let answer = Plain::edit(&mut edited, n, line, text, revision, full);
        let span = match answer {
            (0, meeting, _) => (line - 1) * ROW..meeting as usize * ROW,
            _ => 0..0,
        };
        let (gone, made) = (count_holes(&table[span.clone()]), count_holes(&edited[span]));
        Moved { answer, gone, made }
    }

    /// What the edit must answer from these counts, and what they must be afterwards.
    fn from(&self, counts: &[u32]) -> (Answer, Vec<u32>) {
        let mut after = counts.to_vec();
        if self.answer.0 != 0 {
            return (self.answer, after);
        }
        if counts.len() < COUNTS {
            return ((15, 0, 0), after);
        }
        if (0..COUNTS).any(|at| counts[at] > MAX_COUNT || counts[at] < self.gone[at]) {
            return ((18, 0, 0), after);
        }
        for (at, count) in after[..COUNTS].iter_mut().enumerate() {
            *count = *count - self.gone[at] + self.made[at];
        }
        (self.answer, after)
    }
}

/// All counts but those that are 0.
fn counts_shown(counts: &[u32]) -> String {
    let mut text = format!("{} counts lent:", counts.len());
    for (at, count) in counts.iter().enumerate().filter(|(_, &count)| count != 0) {
        let _ = match at {
            0..=98 => write!(text, " {count} hits of {},", at + 1),
            99..=197 => write!(text, " {count} routs of {},", at - 98),
            _ => write!(text, " {count} behind,"),
        };
    }
    text.push_str(" else 0\n");
    text
}

/// After an accepted reading the counts are those of the table's holes, and sum to
/// how many there are.
fn counts_are_those_of_the_holes((_, n, _): Answer, lent: &Counted) -> Result<(), String> {
    let (table, n) = (lent.table.content(), n as usize);
    if table.len() < n * ROW || lent.counts.length < COUNTS {
        return Err(String::from("a reading is accepted without room for it"));
    }
    let counts = &lent.counts.content()[..COUNTS];
    let holes = (1..=n).filter(|&line| plain::hole(table, n, line, &mut [0; 7]) == (0, 1, 0));
    let holes = holes.count() as u64;
    let sum: u64 = counts.iter().map(|&count| u64::from(count)).sum();
    if counts == own_counts(table, n) && sum == holes {
        return Ok(());
    }
    Err(format!("{holes} holes are counted as {}{}", counts_shown(counts), rows(table)))
}

/// After an accepted edit from a table's own counts they are its own again.
fn counts_are_own(edit: &Edit, lent: &Counted) -> Result<(), String> {
    let counts = &lent.counts.content()[..COUNTS];
    if counts == own_counts(lent.table.content(), edit.n) {
        return Ok(());
    }
    Err(format!("own counts become {}{}\n{}", counts_shown(counts), edit.shown(), rows(edit.table)))
}

// ---------------------------------------------------------------- promises

/// Counts of rows about a table's own, about the limit, and beyond what all its numbers can be.
fn odd_counts(rows: usize) -> Vec<usize> {
    let near = [0, 1, rows - 1, rows, rows, rows, rows + 1];
    let far = [
        MAX_LINES,
        MAX_LINES + 1,
        1 << 32,
        (1 << 32) + rows,
        usize::MAX / ROW,
        usize::MAX / ROW + 1,
        usize::MAX / ROW + 1 + rows,
        usize::MAX,
    ];
    [&near[..], &far].concat()
}

/// Line numbers about a table's own, about the limit, and beyond what fits in 32 bits.
fn odd_lines(rows: usize) -> Vec<usize> {
    let near = [0, 1, rows, rows + 1, rows + 2, MAX_LINES, MAX_LINES + 1];
    let far = [1 << 32, (1 << 32) + 1, 1 << 63, usize::MAX / ROW + 1, usize::MAX - 1, usize::MAX];
    [&near[..], &far].concat()
}

/// The state after a line: ten numbers, with one of the command's behind them.
fn state(table: &[i32], line: usize) -> &[i32] {
    &table[line * ROW - 11..line * ROW - 1]
}

/// What 2021 accepts, 2019 accepts as the same table, of one side.
fn older_accepts<L: Library>(file: &[u8]) -> Result<(), String> {
    let lent = vec![-5; MAX_LINES * ROW];
    let (mut new, mut old) = (lent.clone(), lent);
    let (mut new_counts, mut old_counts) = ([5; COUNTS], [6; COUNTS]);
    let by_new = L::read(file, Rev2021, &mut new, &mut new_counts);
    let by_old = L::read(file, Rev2019, &mut old, &mut old_counts);
    if by_new.0 != 0 || (by_old == by_new && old == new && old_counts == new_counts) {
        return Ok(());
    }
    Err(format!("2021 answers {by_new:?}, 2019 {by_old:?}, file \"{}\"", file.escape_ascii()))
}

/// Demand 3, of one side and by the file's revision: an edit answers and leaves what reading the
/// edited file afresh would, in the table and in its own counts.
fn edit_is_reading<L: Library>(file: &File, line: usize, text: &[u8]) -> Result<(), String> {
    let mut changed = file.clone();
    changed.lines[line - 1] = text.to_vec();
    let changed = changed.bytes();
    if changed.len() > MAX_FILE {
        return Ok(());
    }
    let n = file.lines.len();
    let mut old = vec![-5; n * ROW + 3];
    let mut counts = vec![5; COUNTS + 3];
    let first = L::read(&file.bytes(), file.revision, &mut old, &mut counts);
    let mut own = own_counts(&old, n);
    own.extend([5; 3]);
    let (mut edited, mut counts_edited) = (old.clone(), own.clone());
    let answer = L::edit(&mut edited, n, line, text, file.revision, &mut counts_edited);
    let (mut fresh, mut counts_fresh) = (old.clone(), own.clone());
    let reading = L::read(&changed, file.revision, &mut fresh, &mut counts_fresh);

    let fault = if first != (0, n as u32, 0) {
        Some("the file isn't read")
    } else if counts != own {
        Some("the file's counts aren't those of its holes")
    } else if answer.0 != 0 && counts_edited != own {
        Some("a refusal changes the counts")
    } else if text.contains(&b'\n') || text.contains(&b'\r') {
        (answer != (17, 0, 0) || edited != old).then_some("a line's end in the text")
    } else if edited != fresh {
        Some("the tables differ")
    } else if counts_edited != counts_fresh {
        Some("the counts differ")
    } else if answer.0 != 0 {
        (answer != reading || edited != old).then_some("the refusals differ")
    } else if reading != (0, n as u32, 0) {
        Some("the verdicts differ")
    } else {
        span_fault(&old, &edited, n, line, answer.1 as usize)
    };
    fault.map_or(Ok(()), |what| {
        let (text, file) = (text.escape_ascii(), file.bytes());
        let file = file.escape_ascii();
        Err(format!(
            "{what}: edit answers {answer:?}, reading {reading:?}, line {line}, text \"{text}\", file \"{file}\""
        ))
    })
}

/// What is wrong with an accepted edit's span: its meeting line is the first where the states agree,
/// or the last, and no row outside it changes.
fn span_fault(
    old: &[i32],
    edited: &[i32],
    n: usize,
    line: usize,
    answered: usize,
) -> Option<&'static str> {
    let agree = |at: &usize| state(old, *at) == state(edited, *at);
    let meeting = (line..=n).find(agree).unwrap_or(n);
    if answered != meeting {
        return Some("the meeting line is another");
    }
    let same = |rows: Range<usize>| old[rows.clone()] == edited[rows];
    let outside = same(0..(line - 1) * ROW) && same(meeting * ROW..old.len());
    (!outside).then_some("rows outside the span changed")
}

/// Writing, then reading by either revision, gives the table without its comment rows.
fn written_reads_back<L: Library>(table: &[i32], n: usize) -> Result<(), String> {
    let mut text = vec![b'~'; n * 39];
    let written = L::write(table, n, &mut text);
    let length = written.1 as usize;
    let say =
        |what: &str| Err(format!("{what}: write answers {written:?}\n{}", rows(&table[..n * ROW])));
    if written.0 != 0 || length > text.len() {
        return say("a good table isn't written");
    }
    let kept: Vec<i32> =
        table[..n * ROW].chunks(ROW).filter(|row| row[0] != 0).flatten().copied().collect();
    for revision in BOTH {
        let mut again = vec![-5; kept.len()];
        let read = L::read(&text[..length], revision, &mut again, &mut [0; COUNTS]);
        if read != (0, (kept.len() / ROW) as u32, 0) || again != kept {
            return say("the text reads otherwise");
        }
    }
    let mut second = vec![b'~'; length];
    let written_again = L::write(&kept, kept.len() / ROW, &mut second);
    if written_again != written || second != text[..length] {
        return say("the text is written otherwise the second time");
    }
    Ok(())
}

// ---------------------------------------------------------------- programs

fn compare(count: u64, seed: u64) -> ExitCode {
    let mut comparison = Comparison::new(seed);
    for revision in BOTH {
        comparison.limits(revision);
    }
    comparison.bench_file();
    while comparison.compared < count {
        comparison.round();
    }
    println!("{} against {}, seed {seed}", Xnc::NAME, Plain::NAME);
    let complete = comparison.report();
    println!("{} compared, {} different", comparison.compared, comparison.different);
    if complete && comparison.different == 0 {
        ExitCode::SUCCESS
    } else {
        ExitCode::FAILURE
    }
}

/// What `program` prints when it is given `file` and the word of a revision.
fn printed(program: &[String], word: Option<&str>, file: &[u8]) -> std::io::Result<Vec<u8>> {
    let mut child = Command::new(&program[0])
        .args(&program[1..])
        .args(word)
        .stdin(Stdio::piped())
        .stdout(Stdio::piped())
        .spawn()?;
    if let Some(mut input) = child.stdin.take() {
        // A program may refuse a file that is too long before its end.
        let _ = input.write_all(file);
    }
    Ok(child.wait_with_output()?.stdout)
}

/// A file for the programs `holes` and `counts`, and its revision.
fn holes_input(case: u64, random: &mut Random) -> (Vec<u8>, Revision) {
    let mut revision = inputs::revision(random);
    let file = match case {
        0 => Vec::new(),
        1..=3 => inputs::file_of_bytes(MAX_FILE + case as usize - 2),
        4..=6 => inputs::file_of_lines(MAX_LINES + case as usize - 5, random).bytes(),
        7 => vec![b'\n'; 2 * MAX_FILE],
        _ => {
            let lines = 4 + random.below(60);
            let file = inputs::valid_file(lines, random);
            revision = file.revision;
            match random.below(3) {
                0 => inputs::damaged(&file, random),
                _ => file.bytes(),
            }
        }
    };
    (file, revision)
}

/// A line's number, a tab, a new text and a file, for the program `moves`, and
/// the revision. Most edits are of a valid file and are accepted.
fn moves_input(case: u64, random: &mut Random) -> (Vec<u8>, Revision) {
    let lines = 4 + random.below(40);
    let file = inputs::valid_file(lines, random);
    let bytes = if random.below(10) == 0 { inputs::damaged(&file, random) } else { file.bytes() };
    let mut table = vec![0; ROW * MAX_LINES];
    let (number, n, _) = plain::read(&bytes, file.revision, &mut table, &mut [0; COUNTS]);
    let n = if number == 0 { n as usize } else { lines };
    let line = match random.below(20) {
        0 => [0, n + 1, 9999, 10000][random.below(4)],
        _ => 1 + random.below(n),
    };
    let text = if number == 0 && (1..=n).contains(&line) && random.below(4) != 0 {
        model_before(&table, line, file.revision).allowed(random).into_bytes()
    } else {
        inputs::any_command(random).into_bytes()
    };
    let mut input = match case {
        0 => Vec::new(),
        1 => b"12".to_vec(),
        2 => b"\t;".to_vec(),
        3 => format!("0{line}\t").into_bytes(),
        _ => format!("{line}\t").into_bytes(),
    };
    input.extend_from_slice(&text);
    if random.below(20) == 0 {
        input.push(b'\r');
    }
    if case != 1 {
        input.push(b'\n');
        input.extend_from_slice(&bytes);
    }
    (input, file.revision)
}

/// The word for a revision: 2021 needs none. Now and then it is the other
/// revision's.
fn word_for(revision: Revision, random: &mut Random) -> (Option<&'static str>, Revision) {
    let revision = match random.below(8) {
        0 => by(revision, [Rev2021, Rev2019]),
        _ => revision,
    };
    let word = match revision {
        Rev2019 => Some("2019"),
        Rev2021 => *random.pick(&[None, Some("2021")]),
    };
    (word, revision)
}

fn compare_print(
    count: u64,
    seed: u64,
    program: &[String],
    input: fn(u64, &mut Random) -> (Vec<u8>, Revision),
    plain_print: fn(&[u8], Revision) -> Vec<u8>,
) -> std::io::Result<ExitCode> {
    let mut random = Random::new(seed);
    let mut different = 0;
    let mut accepted = 0;
    for case in 0..count {
        let (input, revision) = input(case, &mut random);
        let (word, revision) = word_for(revision, &mut random);
        let (expected, found) = (plain_print(&input, revision), printed(program, word, &input)?);
        accepted += u64::from(!expected.starts_with(b"refused"));
        if expected != found {
            different += 1;
            if different <= SHOWN {
                println!(
                    "DIFFERENT print: plain \"{}\", program \"{}\"\nword {word:?}, input \"{}\"\n",
                    expected.escape_ascii(),
                    found.escape_ascii(),
                    input.escape_ascii()
                );
            }
        }
    }
    println!("{count} print-outs compared ({accepted} of accepted input), {different} different");
    let telling = accepted > 0 && accepted < count;
    Ok(if different == 0 && telling { ExitCode::SUCCESS } else { ExitCode::FAILURE })
}

fn main() -> ExitCode {
    let arguments: Vec<String> = std::env::args().skip(1).collect();
    let number = |at: usize, otherwise: u64| match arguments.get(at) {
        Some(text) => text.parse().ok(),
        None => Some(otherwise),
    };
    type Printing = (fn(u64, &mut Random) -> (Vec<u8>, Revision), fn(&[u8], Revision) -> Vec<u8>);
    let printing: Option<Printing> = match arguments.first().map(String::as_str) {
        Some("print") => Some((holes_input, plain::print)),
        Some("moves") => Some((moves_input, plain::print_moves)),
        Some("counts") => Some((holes_input, plain::print_counts)),
        _ => None,
    };
    if let Some((input, plain_print)) = printing {
        if let (Some(count), Some(seed), true) = (number(1, 0), number(2, 0), arguments.len() > 3) {
            return match compare_print(count, seed, &arguments[3..], input, plain_print) {
                Ok(code) => code,
                Err(error) => {
                    eprintln!("{}: {error}", arguments[3]);
                    ExitCode::FAILURE
                }
            };
        }
    } else if let (Some(count), Some(seed), true) =
        (number(0, COUNT), number(1, SEED), arguments.len() < 3)
    {
        return compare(count, seed);
    }
    eprintln!(
        "usage: compare [COUNT [SEED]]\n       \
         compare print|moves|counts COUNT SEED PROGRAM [ARGUMENT ...]"
    );
    ExitCode::FAILURE
}
