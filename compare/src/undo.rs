//! Undo, and two edits in both orders, in each implementation by itself (request #107).
//!
//! Both are promised for a good table and its own counts. All that is lent is looked at,
//! also what stands behind the rows and behind the counts.

use crate::inputs::{self, Change};
use crate::library::{Answer, Library, Plain, Revision, Xnc, COUNTS, ROW};
use crate::{own_counts, rows, Blocks, Comparison, Counted, Edit, Pair, BOTH};

/// The bytes of the longest written line, its LF included.
const LONGEST_WRITTEN: usize = 39;

/// New texts for each line of the paper's file: some change nothing, some only their
/// row, some all rows behind, some are refused alone, or always.
const BENCH_TEXTS: [&[&str]; 15] = [
    &["M48", ";"],
    &["INCH", "METRIC", ";"],
    &["T01C0.6", "T02C0.5", ";"],
    &["T07C1.250", "T02C1", "T01C1", ";"],
    &["%", ";"],
    &["G05", "G00X1Y1", ";"],
    &["T01", "T07", "T2", ";"],
    &["X2Y3", "T07", "G05", "G00X0Y0", ";"],
    &["T1", "T2", "X0Y0", "G05", ";"],
    &["G00X0Y1", "G00X9Y9", "G05", ";"],
    &["M15", "M30", ";"],
    &["G01X4Y1", "G01X6Y2", "G02X4Y0A2", "M16", ";"],
    &["G03X8Y0A2", "G01X6Y2", "G03X6Y2A2.00", "G02X6Y0A9", ";"],
    &["M16", "G01X6Y2", "M30", ";"],
    &["M30", "M16", ";"],
];

/// A step of a run by hand: a line, its new text, and the answer.
type Step = (usize, &'static str, Answer);

/// Edits of the paper's file one on top of the other, worked out by hand. Line 9 selects
/// tool 7, which line 4 declares. Once that is gone the declaration can go; it makes all
/// states from line 4 on others, so the span ends with the file. While it is there, line 9
/// refuses the declaration's change: 10, tool not declared.
const RUNS: [&[Step]; 6] = [
    &[(9, ";", (0, 15, 0)), (4, ";", (0, 15, 0))],
    &[(4, ";", (10, 9, 0)), (9, ";", (0, 15, 0)), (4, ";", (0, 15, 0))],
    // A hit leaves the point, so its span is its row; a line's end moves the arc's start.
    &[(8, "X2Y3", (0, 8, 0)), (12, "G01X4Y1", (0, 13, 0))],
    &[(12, "G01X4Y1", (0, 13, 0)), (8, "X2Y3", (0, 8, 0))],
    // From 4, 1 as from 4, 0 the arc to 6, 0 is possible; nothing comes back to 6, 2.
    &[(12, "G01X4Y1", (0, 13, 0)), (13, "G03X6Y0A2", (0, 15, 0))],
    &[(13, "G03X6Y0A2", (0, 15, 0)), (12, "G01X4Y1", (0, 13, 0))],
];

/// What comes of the two orders of two edits. All but the last are counted, in this order.
#[derive(Clone, Copy)]
enum Outcome {
    /// Both are accepted; the earlier line's span ends before the later line.
    Apart,
    /// Both are accepted; that span reaches the later line.
    Reaching,
    /// One is accepted, the other refused at its first step.
    OneOrder,
    /// Neither is accepted.
    Neither,
}

impl Comparison {
    // ---------------------------------------------------------------- undo

    /// Undoes an edit that was made from the table's own counts, if the table is good.
    /// `old` is the old line, where it is at hand.
    pub fn undo(&mut self, edit: &Edit, own: &[u32], old: Option<&[u8]>, made: &Pair<Counted>) {
        if made.expected.0 != 0 || !is_good(edit.table, edit.n) {
            return;
        }
        let row = inputs::row_of(edit.table, edit.line);
        let long = inputs::long_spelling(row, edit.revision, &mut self.aside);
        let old = old.filter(|line| inputs::is_read_by(edit.revision, line));
        let texts: Vec<&[u8]> = old.into_iter().chain([&long[..]]).collect();
        let before = Counted::new(edit.table, own);
        let (ours, theirs) = ((made.expected, &made.ours), (made.found, &made.theirs));
        self.promise(Plain::NAME, undone::<Plain>(edit, &before, ours, &texts));
        self.promise(Xnc::NAME, undone::<Xnc>(edit, &before, theirs, &texts));
        let is_longer = made.expected.1 as usize > edit.line;
        self.undone[usize::from(is_longer)] += 1;
    }

    // -------------------------------------------------------- both orders

    /// Pairs of edits of a good table, by either revision, in both orders.
    pub fn swaps(&mut self, table: &[i32], times: usize) {
        for _ in 0..times {
            let revision = inputs::revision(&mut self.aside);
            let changes = inputs::two_changes(table, revision, &mut self.aside);
            let outcome = self.swap(table, &changes, revision);
            if let Some(times) = self.swapped.get_mut(outcome as usize) {
                *times += 1;
            }
        }
    }

    /// Pairs of edits of small random files, which come up in every run.
    pub fn swaps_of_files(&mut self, files: usize) {
        for _ in 0..files {
            let lines = 8 + self.aside.below(30);
            let file = inputs::valid_file(lines, &mut self.aside);
            let n = file.lines.len();
            let mut table = vec![0; n * ROW];
            let bytes = file.bytes();
            let answer = Plain::read(&bytes, file.revision, &mut table, &mut [0; COUNTS]);
            if answer == (0, n as u32, 0) {
                self.swaps(&table, 100);
            } else {
                let bytes = bytes.escape_ascii();
                self.differs(&format!("valid file answered {answer:?}: \"{bytes}\""));
            }
        }
    }

    /// Every two lines of the paper's file, with each of their texts, and the runs by hand.
    pub fn swaps_of_bench_file(&mut self, table: &[i32]) {
        for revision in BOTH {
            for changes in bench_changes() {
                self.swap(table, &changes, revision);
            }
            for run in RUNS {
                self.promise(Plain::NAME, answers_as_written::<Plain>(table, run, revision));
                self.promise(Xnc::NAME, answers_as_written::<Xnc>(table, run, revision));
            }
            self.promise(Plain::NAME, leaves_tool_1_alone::<Plain>(table, revision));
            self.promise(Xnc::NAME, leaves_tool_1_alone::<Xnc>(table, revision));
        }
    }

    /// Makes two edits in both orders, from a table's own counts.
    fn swap(&mut self, table: &[i32], changes: &[Change; 2], revision: Revision) -> Outcome {
        let n = table.len() / ROW;
        let mut own = own_counts(table, n);
        let mut table = table.to_vec();
        for _ in 0..self.aside.below(4) {
            table.push(self.aside.next() as i32);
            own.push(self.aside.next() as u32);
        }
        let before = Counted::new(&table, &own);
        let [earlier, later] = changes;
        let edits = [
            Edit { table: &table, n, line: earlier.line, text: &earlier.text, revision },
            Edit { table: &table, n, line: later.line, text: &later.text, revision },
        ];
        let ours = Orders::of::<Plain>(&edits, &before);
        let theirs = Orders::of::<Xnc>(&edits, &before);
        let input = || format!("{}\n{}\n{}", edits[0].shown(), edits[1].shown(), rows(&table));
        for (side, orders) in [(Plain::NAME, &ours), (Xnc::NAME, &theirs)] {
            let outcome = orders.outcome(later.line as u32);
            let say = |what| format!("swapped edits: {what}\n{}\n{}", orders.shown(), input());
            self.promise(side, outcome.map(|_| ()).map_err(say));
        }
        if ours != theirs {
            let shown = [ours.shown(), theirs.shown()].join("\n");
            self.differs(&format!("swapped edits, plain and the other:\n{shown}\n{}", input()));
        }
        ours.outcome(later.line as u32).unwrap_or(Outcome::Neither)
    }
}

// -------------------------------------------------------------------- undo

/// A table is good when it can be written.
fn is_good(table: &[i32], n: usize) -> bool {
    Plain::write(table, n, &mut vec![0; n * LONGEST_WRITTEN]).0 == 0
}

/// What the writer makes of one row: its line, or `;` for a comment, which isn't written.
fn written_line<L: Library>(table: &[i32], n: usize, line: usize) -> Option<Vec<u8>> {
    let mut text = vec![b'~'; n * LONGEST_WRITTEN];
    let (number, length, _) = L::write(table, n, &mut text);
    let is_written = |line: usize| inputs::row_of(table, line)[0] != 0;
    let lines_before = (1..line).filter(|&line| is_written(line)).count();
    let mut lines = text.get(..length as usize)?.split(|&byte| byte == b'\n');
    let written = if is_written(line) { lines.nth(lines_before)? } else { b";" };
    (number == 0).then(|| written.to_vec())
}

/// Undo, of one side: after an accepted edit, one of the same line with any text that reads
/// as the old row's command answers the same and leaves all that was lent as it was before.
fn undone<L: Library>(
    edit: &Edit,
    before: &Counted,
    (answer, after): (Answer, &Counted),
    texts: &[&[u8]],
) -> Result<(), String> {
    if answer.0 != 0 {
        return Ok(());
    }
    let written = written_line::<L>(edit.table, edit.n, edit.line);
    let written =
        written.ok_or_else(|| format!("a good table isn't written\n{}", rows(edit.table)))?;
    for text in texts.iter().copied().chain([&written[..]]) {
        let mut lent = after.clone();
        let undo = Edit { text, ..*edit };
        let answered = undo.make::<L>(&mut lent);
        let fault = if answered != answer {
            format!("undo answers {answered:?} after {answer:?}")
        } else if lent != *before {
            format!("undo leaves another table or counts from {} on", lent.difference(before))
        } else {
            continue;
        };
        let shown = [edit.shown(), undo.shown(), rows(edit.table)].join("\n");
        return Err(format!("{fault}\n{shown}"));
    }
    Ok(())
}

// ------------------------------------------------------------- both orders

/// Two edits one after the other, of one side, the counts handed on: the answers, the
/// second only where the first is accepted, and what is left.
#[derive(PartialEq)]
struct Order {
    first: Answer,
    second: Option<Answer>,
    left: Counted,
}

impl Order {
    fn of<L: Library>(first: &Edit, second: &Edit, before: &Counted) -> Order {
        let mut left = before.clone();
        let answer = first.make::<L>(&mut left);
        let second = (answer.0 == 0).then(|| second.make::<L>(&mut left));
        Order { first: answer, second, left }
    }

    /// The meeting lines of the edits that are accepted.
    fn meetings(&self) -> [Option<u32>; 2] {
        [Some(self.first), self.second]
            .map(|answer| answer.filter(|answer| answer.0 == 0).map(|answer| answer.1))
    }
}

/// Both orders of two edits, of one side.
#[derive(PartialEq)]
struct Orders {
    earlier_first: Order,
    later_first: Order,
}

impl Orders {
    fn of<L: Library>([earlier, later]: &[Edit; 2], before: &Counted) -> Orders {
        Orders {
            earlier_first: Order::of::<L>(earlier, later, before),
            later_first: Order::of::<L>(later, earlier, before),
        }
    }

    /// What comes of them, or which promise they break. `line` is the later line.
    fn outcome(&self, line: u32) -> Result<Outcome, &'static str> {
        match (self.earlier_first.meetings(), self.later_first.meetings()) {
            ([Some(earlier), Some(later)], [Some(later_alone), Some(earlier_after)]) => {
                if self.earlier_first.left != self.later_first.left {
                    Err("what is left differs")
                } else if (earlier < line) != (earlier_after < line) {
                    Err("the earlier span reaches the later line in one order alone")
                } else if earlier >= line {
                    Ok(Outcome::Reaching)
                } else if (earlier, later) != (earlier_after, later_alone) {
                    Err("spans apart end elsewhere in the other order")
                } else {
                    Ok(Outcome::Apart)
                }
            }
            ([Some(_), Some(_)], [Some(_), None]) | ([Some(_), None], [Some(_), Some(_)]) => {
                Err("only the fourth edit is refused")
            }
            ([Some(_), Some(_)], _) | (_, [Some(_), Some(_)]) => Ok(Outcome::OneOrder),
            _ => Ok(Outcome::Neither),
        }
    }

    fn shown(&self) -> String {
        let answers = |order: &Order| format!("{:?}, then {:?}", order.first, order.second);
        format!(
            "earlier line first: {}; later line first: {}",
            answers(&self.earlier_first),
            answers(&self.later_first)
        )
    }
}

// ------------------------------------------------------- the paper's file

/// Every two lines of it, with each of their texts.
fn bench_changes() -> Vec<[Change; 2]> {
    let change = |line: usize, text: &str| Change { line, text: text.as_bytes().to_vec() };
    let mut changes = Vec::new();
    for (later, later_texts) in (1..).zip(BENCH_TEXTS) {
        for (earlier, earlier_texts) in (1..later).zip(BENCH_TEXTS) {
            for text in earlier_texts {
                let with = |other: &&str| [change(earlier, text), change(later, other)];
                changes.extend(later_texts.iter().map(with));
            }
        }
    }
    changes
}

/// Its counts: line 8 is a hit of tool 1, lines 12 and 13 are routs of tool 7.
fn bench_counts() -> [u32; COUNTS] {
    let mut counts = [0; COUNTS];
    counts[0] = 1;
    counts[99 + 6] = 2;
    counts
}

/// A run by hand, of one side: each answer, and that a refusal changes nothing.
fn answers_as_written<L: Library>(
    table: &[i32],
    run: &[Step],
    revision: Revision,
) -> Result<(), String> {
    let mut lent = Counted::new(table, &bench_counts());
    for &(line, text, expected) in run {
        let before = lent.clone();
        let edit = Edit { table, n: 15, line, text: text.as_bytes(), revision };
        let answer = edit.make::<L>(&mut lent);
        if answer != expected || (answer.0 != 0 && lent != before) {
            return Err(format!("{line} {text} answers {answer:?} in the run {run:?}"));
        }
    }
    Ok(())
}

/// The first run once more, of one side: what it leaves. Lines 4 and 9 are comments, only
/// tool 1 is declared, from line 3 on, and it is selected from line 7 on and makes all holes.
fn leaves_tool_1_alone<L: Library>(table: &[i32], revision: Revision) -> Result<(), String> {
    let (mut table, mut counts) = (table.to_vec(), bench_counts());
    for (line, text, _) in RUNS[0] {
        L::edit(&mut table, 15, *line, text.as_bytes(), revision, &mut counts);
    }
    let mut expected = [0; COUNTS];
    expected[0] = 1;
    expected[99] = 2;
    let kinds: Vec<i32> = table.chunks(ROW).map(|row| row[0]).collect();
    let is_right = |(row, line): (&[i32], usize)| {
        let declared = if line < 3 { 0 } else { 1 << 1 };
        let selected = if line < 7 { 0 } else { 1 };
        row[8] == selected && row[11..15] == [declared, 0, 0, 0]
    };
    if kinds == [1, 2, 4, 0, 5, 6, 8, 9, 0, 7, 10, 12, 14, 11, 15]
        && table.chunks(ROW).zip(1..).all(is_right)
        && counts == expected
    {
        return Ok(());
    }
    Err(format!("tool 7 isn't gone\n{}", rows(&table)))
}
