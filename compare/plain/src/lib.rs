//! The XNC line table in plain Rust: a reader, an editor, a hole query, counts
//! of each tool's holes, a writer and print-outs, written from the format's
//! papers alone.
//!
//! It shares no code, table or generated data with the library it is compared
//! with. Every function answers a triple: on success `(0, count, 0)`, on refusal
//! `(number, line, column)` with everything lent left as it was. No input panics.
//!
//! Refusals 4 and 7 of a line name a column, counted in bytes from 1: for 4 the
//! first forbidden byte, for 7 the first byte of the leftmost number that 7
//! refuses, its sign included. All others name column 0.

#[cfg(test)]
mod tests;

use std::io::Write as _;
use std::ops::Range;

const MAX_FILE: usize = 65_536;
const MAX_LINES: usize = 1_000;
const MAX_LINE: usize = 256;
const LONGEST_WRITTEN: usize = 39;

/// Millionths in one whole unit.
const UNIT: u32 = 1_000_000;
/// Millionths in one unit of the last place, by how many decimals are written.
const PLACES: [u32; 7] = [UNIT, 100_000, 10_000, 1_000, 100, 10, 1];
const MAX: i32 = 999_999_999;
const MIN: i32 = -MAX;

const MAX_TOOL: i32 = 99;
const WORD_BITS: i32 = 25;
const MAX_WORD: i32 = (1 << WORD_BITS) - 1;

/// Numbers in a row, and in a hole.
const ROW: usize = 16;
const HOLE: usize = 7;

/// Numbers in a block of counts: the hits of tools 1 to 99, then their routs.
const COUNTS: usize = ROUTS + MAX_TOOL as usize;
const HITS: usize = 0;
const ROUTS: usize = MAX_TOOL as usize;

/// The largest count that an edit takes.
const MAX_COUNT: u32 = MAX_LINES as u32;

/// Where a row has its state. All before it is the command's, and so is the one
/// number behind it, the decimals of an arc's radius.
const STATE: Range<usize> = 5..15;

/// The numbers of the refusals.
mod refuse {
    pub const FILE_SIZE: u32 = 1;
    pub const LINE_COUNT: u32 = 2;
    pub const NOT_ENDED: u32 = 3;
    pub const BYTE: u32 = 4;
    pub const FORM: u32 = 5;
    pub const LINE_SIZE: u32 = 6;
    pub const RANGE: u32 = 7;
    pub const PHASE: u32 = 8;
    pub const DECLARED: u32 = 9;
    pub const NOT_DECLARED: u32 = 10;
    pub const NO_TOOL: u32 = 11;
    pub const MOTION: u32 = 12;
    pub const ARC: u32 = 13;
    pub const UNFINISHED: u32 = 14;
    pub const TOO_SHORT: u32 = 15;
    pub const LINE_NUMBER: u32 = 16;
    pub const LINE_END: u32 = 17;
    pub const TABLE: u32 = 18;
}

mod phase {
    pub const BEFORE: i32 = 0;
    pub const NO_UNIT: i32 = 1;
    pub const HEADER: i32 = 2;
    pub const BODY: i32 = 3;
    pub const ENDED: i32 = 4;
}

mod motion {
    pub const NONE: i32 = 0;
    pub const DRILL: i32 = 1;
    pub const UP: i32 = 2;
    pub const DOWN: i32 = 3;
}

mod unit {
    pub const NONE: i32 = 0;
    pub const METRIC: i32 = 1;
    pub const INCH: i32 = 2;
}

/// On success 0, a count and 0; on refusal its number, its line and its column.
pub type Answer = (u32, u32, u32);

/// A refusal: its number, its line and its column.
type Refusal = (u32, u32, u32);

fn answer(result: Result<u32, Refusal>) -> Answer {
    match result {
        Ok(count) => (0, count, 0),
        Err(refusal) => refusal,
    }
}

/// A refusal that names no column.
fn refused(number: u32, line: u32) -> Refusal {
    (number, line, 0)
}

fn need<E>(holds: bool, otherwise: E) -> Result<(), E> {
    if holds {
        Ok(())
    } else {
        Err(otherwise)
    }
}

// ---------------------------------------------------------------- numbers

/// A number without its sign, and how many decimals it was written with.
#[derive(Clone, Copy, Debug, PartialEq, Eq)]
struct Magnitude {
    millionths: i32,
    decimals: i32,
}

/// Reads digits with at most one point from the front of `text`. `None` if
/// there is no digit; else the number, itself `None` if over the largest or
/// with over six decimals, and the text that follows.
fn magnitude(text: &[u8]) -> Option<(Option<Magnitude>, &[u8])> {
    let mut value: u32 = 0;
    let mut rest = text;
    while let [digit @ b'0'..=b'9', after @ ..] = rest {
        // Any whole part from 1,000 on is out of range, however long it runs.
        value = (value * 10 + u32::from(digit - b'0')).min(1_000);
        rest = after;
    }
    let mut digits = text.len() - rest.len();
    let mut decimals = 0;
    if let [b'.', after @ ..] = rest {
        rest = after;
        while let [digit @ b'0'..=b'9', after @ ..] = rest {
            if decimals < 6 {
                value = value * 10 + u32::from(digit - b'0');
            }
            decimals += 1;
            rest = after;
        }
        digits += decimals;
    }
    if digits == 0 {
        return None;
    }
    let number = match PLACES.get(decimals) {
        Some(place) if value * place <= MAX as u32 => {
            Some(Magnitude { millionths: (value * place) as i32, decimals: decimals as i32 })
        }
        _ => None,
    };
    Some((number, rest))
}

/// As `magnitude`, after an optional sign, and in millionths alone.
fn coordinate(text: &[u8]) -> Option<(Option<i32>, &[u8])> {
    let (negative, digits) = match text {
        [b'-', rest @ ..] => (true, rest),
        [b'+', rest @ ..] => (false, rest),
        _ => (false, text),
    };
    let (size, rest) = magnitude(digits)?;
    let signed = |size: Magnitude| if negative { -size.millionths } else { size.millionths };
    Some((size.map(signed), rest))
}

// --------------------------------------------------------------- commands

/// The revision by which text is read. The two differ in one form: 2019 also
/// takes a declaration whose tool has one digit, as in `T1C0.6`. A row doesn't
/// say which it was read by. The writer always writes 2021, which both read.
#[derive(Clone, Copy, Debug, PartialEq, Eq)]
pub enum Revision {
    Rev2019,
    Rev2021,
}

#[derive(Clone, Copy, Debug, PartialEq, Eq)]
enum Command {
    Comment,
    Start,
    Metric,
    Inch,
    Declare { tool: i32, diameter: i32 },
    EndHeader,
    Drill,
    Move { x: i32, y: i32 },
    Select { tool: i32 },
    Hit { x: i32, y: i32 },
    Down,
    Up,
    Line { x: i32, y: i32 },
    Clockwise { x: i32, y: i32, radius: i32, decimals: i32 },
    Counter { x: i32, y: i32, radius: i32, decimals: i32 },
    End,
}

impl Command {
    /// The command of one line without its end, or the refusal's number.
    fn of_line(line: &[u8], revision: Revision) -> Result<Command, u32> {
        need(line.len() <= MAX_LINE, refuse::LINE_SIZE)?;
        need(line.iter().all(is_allowed), refuse::BYTE)?;
        match line {
            [b'X', ..] => {
                let (x, y) = point(line)?;
                Ok(Command::Hit { x, y })
            }
            [b'G', b'0', b'0', rest @ ..] => {
                let (x, y) = point(rest)?;
                Ok(Command::Move { x, y })
            }
            [b'G', b'0', b'1', rest @ ..] => {
                let (x, y) = point(rest)?;
                Ok(Command::Line { x, y })
            }
            [b'G', b'0', b'2', rest @ ..] => {
                let (x, y, radius, decimals) = arc(rest)?;
                Ok(Command::Clockwise { x, y, radius, decimals })
            }
            [b'G', b'0', b'3', rest @ ..] => {
                let (x, y, radius, decimals) = arc(rest)?;
                Ok(Command::Counter { x, y, radius, decimals })
            }
            [b'T', rest @ ..] => tool(rest, revision),
            [b';', rest @ ..] if !rest.contains(&b';') => Ok(Command::Comment),
            b"M48" => Ok(Command::Start),
            b"METRIC" => Ok(Command::Metric),
            b"INCH" => Ok(Command::Inch),
            b"%" => Ok(Command::EndHeader),
            b"G05" => Ok(Command::Drill),
            b"M15" => Ok(Command::Down),
            b"M16" => Ok(Command::Up),
            b"M30" => Ok(Command::End),
            _ => Err(refuse::FORM),
        }
    }

    /// The command of a row's numbers for it, if it is legal.
    fn of_numbers(numbers: [i32; 6]) -> Option<Command> {
        Some(match numbers {
            [0, 0, 0, 0, 0, 0] => Command::Comment,
            [1, 0, 0, 0, 0, 0] => Command::Start,
            [2, 0, 0, 0, 0, 0] => Command::Metric,
            [3, 0, 0, 0, 0, 0] => Command::Inch,
            [4, tool @ 1..=MAX_TOOL, 0, 0, diameter @ 1..=MAX, 0] => {
                Command::Declare { tool, diameter }
            }
            [5, 0, 0, 0, 0, 0] => Command::EndHeader,
            [6, 0, 0, 0, 0, 0] => Command::Drill,
            [7, 0, x @ MIN..=MAX, y @ MIN..=MAX, 0, 0] => Command::Move { x, y },
            [8, tool @ 1..=MAX_TOOL, 0, 0, 0, 0] => Command::Select { tool },
            [9, 0, x @ MIN..=MAX, y @ MIN..=MAX, 0, 0] => Command::Hit { x, y },
            [10, 0, 0, 0, 0, 0] => Command::Down,
            [11, 0, 0, 0, 0, 0] => Command::Up,
            [12, 0, x @ MIN..=MAX, y @ MIN..=MAX, 0, 0] => Command::Line { x, y },
            [13, 0, x @ MIN..=MAX, y @ MIN..=MAX, radius @ 1..=MAX, decimals]
                if is_written_with(decimals, radius) =>
            {
                Command::Clockwise { x, y, radius, decimals }
            }
            [14, 0, x @ MIN..=MAX, y @ MIN..=MAX, radius @ 1..=MAX, decimals]
                if is_written_with(decimals, radius) =>
            {
                Command::Counter { x, y, radius, decimals }
            }
            [15, 0, 0, 0, 0, 0] => Command::End,
            _ => return None,
        })
    }

    /// Kind, tool, x, y, size, decimals.
    fn numbers(self) -> [i32; 6] {
        match self {
            Command::Comment => [0, 0, 0, 0, 0, 0],
            Command::Start => [1, 0, 0, 0, 0, 0],
            Command::Metric => [2, 0, 0, 0, 0, 0],
            Command::Inch => [3, 0, 0, 0, 0, 0],
            Command::Declare { tool, diameter } => [4, tool, 0, 0, diameter, 0],
            Command::EndHeader => [5, 0, 0, 0, 0, 0],
            Command::Drill => [6, 0, 0, 0, 0, 0],
            Command::Move { x, y } => [7, 0, x, y, 0, 0],
            Command::Select { tool } => [8, tool, 0, 0, 0, 0],
            Command::Hit { x, y } => [9, 0, x, y, 0, 0],
            Command::Down => [10, 0, 0, 0, 0, 0],
            Command::Up => [11, 0, 0, 0, 0, 0],
            Command::Line { x, y } => [12, 0, x, y, 0, 0],
            Command::Clockwise { x, y, radius, decimals } => [13, 0, x, y, radius, decimals],
            Command::Counter { x, y, radius, decimals } => [14, 0, x, y, radius, decimals],
            Command::End => [15, 0, 0, 0, 0, 0],
        }
    }
}

/// Whether a radius can be written with so many decimals: 0 to 6, and it is a
/// multiple of the last place.
fn is_written_with(decimals: i32, radius: i32) -> bool {
    match PLACES.get(decimals as usize) {
        Some(place) => radius as u32 % place == 0,
        None => false,
    }
}

fn is_allowed(byte: &u8) -> bool {
    (32..=126).contains(byte)
}

/// `X#Y#` at the front of `text`, its numbers' ranges not yet looked at.
type LoosePoint<'a> = (Option<i32>, Option<i32>, &'a [u8]);

fn loose_point(text: &[u8]) -> Option<LoosePoint<'_>> {
    let (x, rest) = coordinate(text.strip_prefix(b"X")?)?;
    let (y, rest) = coordinate(rest.strip_prefix(b"Y")?)?;
    Some((x, y, rest))
}

/// `X#Y#` and no more. The form of the whole comes before any range.
fn point(text: &[u8]) -> Result<(i32, i32), u32> {
    match loose_point(text) {
        Some((x, y, [])) => x.zip(y).ok_or(refuse::RANGE),
        _ => Err(refuse::FORM),
    }
}

/// `X#Y#A#` and no more: the point, the radius and its decimals.
fn arc(text: &[u8]) -> Result<(i32, i32, i32, i32), u32> {
    let (x, y, rest) = loose_point(text).ok_or(refuse::FORM)?;
    let radius = size(rest.strip_prefix(b"A").ok_or(refuse::FORM)?)?;
    let (x, y) = x.zip(y).ok_or(refuse::RANGE)?;
    let Magnitude { millionths, decimals } = radius.ok_or(refuse::RANGE)?;
    Ok((x, y, millionths, decimals))
}

/// A diameter or radius and no more: `Err` for its form, `None` for its range.
fn size(text: &[u8]) -> Result<Option<Magnitude>, u32> {
    match magnitude(text) {
        Some((size, [])) => Ok(size.filter(|size| size.millionths >= 1)),
        _ => Err(refuse::FORM),
    }
}

/// What follows a `T`: a selection, or a declaration with its diameter.
fn tool(text: &[u8], revision: Revision) -> Result<Command, u32> {
    let value = |byte: u8| i32::from(byte - b'0');
    match *text {
        [ones @ b'0'..=b'9'] => {
            let tool = value(ones);
            need(tool >= 1, refuse::RANGE)?;
            Ok(Command::Select { tool })
        }
        [tens @ b'0'..=b'9', ones @ b'0'..=b'9'] => {
            let tool = value(tens) * 10 + value(ones);
            need(tool >= 1, refuse::RANGE)?;
            Ok(Command::Select { tool })
        }
        [tens @ b'0'..=b'9', ones @ b'0'..=b'9', b'C', ref rest @ ..] => {
            let tool = value(tens) * 10 + value(ones);
            declaration(tool, rest)
        }
        [ones @ b'0'..=b'9', b'C', ref rest @ ..] if revision == Revision::Rev2019 => {
            declaration(value(ones), rest)
        }
        _ => Err(refuse::FORM),
    }
}

/// A declaration's tail, what follows its `C`. Its form comes before any range,
/// the tool's too.
fn declaration(tool: i32, rest: &[u8]) -> Result<Command, u32> {
    let diameter = size(rest)?;
    need(tool >= 1, refuse::RANGE)?;
    let diameter = diameter.ok_or(refuse::RANGE)?.millionths;
    Ok(Command::Declare { tool, diameter })
}

// ---------------------------------------------------------------- columns

/// The refusal of a line for its text. Its column is sought only here, by
/// looking at the text again, so that a line that is read pays nothing for it.
#[cold]
fn refused_text(number: u32, line: u32, text: &[u8]) -> Refusal {
    let index = match number {
        refuse::BYTE => text.iter().position(|byte| !is_allowed(byte)),
        refuse::RANGE => out_of_range(text),
        _ => None,
    };
    (number, line, index.map_or(0, |index| index as u32 + 1))
}

/// Where the leftmost number that is refused for its range begins, in a text
/// that was. Its form is good: behind each of these letters is its number.
fn out_of_range(text: &[u8]) -> Option<usize> {
    (1..text.len()).find(|&start| {
        let number = &text[start..];
        match text[start - 1] {
            b'T' => matches!(number, [b'0'] | [b'0', b'0' | b'C', ..]),
            b'X' | b'Y' => !matches!(coordinate(number), Some((Some(_), _))),
            b'C' | b'A' => {
                !matches!(magnitude(number), Some((Some(Magnitude { millionths: 1.., .. }), _)))
            }
            _ => false,
        }
    })
}

// ------------------------------------------------------------------ state

/// The state after a line; before the first all zero.
#[derive(Clone, Copy, Debug, Default, PartialEq, Eq)]
struct State {
    phase: i32,
    unit: i32,
    motion: i32,
    tool: i32,
    x: i32,
    y: i32,
    declared: [i32; 4],
}

impl State {
    fn has(&self, tool: i32) -> bool {
        self.declared[(tool / WORD_BITS) as usize] >> (tool % WORD_BITS) & 1 == 1
    }

    /// The state after `command`, or the number of its refusal.
    fn after(&self, command: Command) -> Result<State, u32> {
        let mut next = *self;
        match command {
            Command::Comment => need(self.phase != phase::ENDED, refuse::PHASE)?,
            Command::Start => next.go_on(phase::BEFORE, phase::NO_UNIT)?,
            Command::Metric => next.set_unit(unit::METRIC)?,
            Command::Inch => next.set_unit(unit::INCH)?,
            Command::Declare { tool, .. } => next.declare(tool)?,
            Command::EndHeader => next.go_on(phase::HEADER, phase::BODY)?,
            Command::Drill => next.enter(motion::DRILL, 0, 0)?,
            Command::Move { x, y } => next.enter(motion::UP, x, y)?,
            Command::Select { tool } => next.select(tool)?,
            Command::Hit { .. } => next.need_tool(motion::DRILL)?,
            Command::Down => next.put_down()?,
            Command::Up => next.lift()?,
            Command::Line { x, y } => next.line_to(x, y)?,
            Command::Clockwise { x, y, radius, decimals }
            | Command::Counter { x, y, radius, decimals } => next.arc_to(x, y, radius, decimals)?,
            Command::End => next.end()?,
        }
        Ok(next)
    }

    fn go_on(&mut self, from: i32, to: i32) -> Result<(), u32> {
        need(self.phase == from, refuse::PHASE)?;
        self.phase = to;
        Ok(())
    }

    fn set_unit(&mut self, unit: i32) -> Result<(), u32> {
        self.go_on(phase::NO_UNIT, phase::HEADER)?;
        self.unit = unit;
        Ok(())
    }

    fn declare(&mut self, tool: i32) -> Result<(), u32> {
        need(self.phase == phase::HEADER, refuse::PHASE)?;
        need(!self.has(tool), refuse::DECLARED)?;
        self.declared[(tool / WORD_BITS) as usize] |= 1 << (tool % WORD_BITS);
        Ok(())
    }

    /// Drill mode, or rout mode with the tool up.
    fn enter(&mut self, motion: i32, x: i32, y: i32) -> Result<(), u32> {
        self.need_body(self.motion != motion::DOWN)?;
        self.motion = motion;
        (self.x, self.y) = (x, y);
        Ok(())
    }

    fn select(&mut self, tool: i32) -> Result<(), u32> {
        self.need_body(self.motion != motion::DOWN)?;
        need(self.has(tool), refuse::NOT_DECLARED)?;
        self.tool = tool;
        Ok(())
    }

    fn put_down(&mut self) -> Result<(), u32> {
        self.need_tool(motion::UP)?;
        self.motion = motion::DOWN;
        Ok(())
    }

    fn lift(&mut self) -> Result<(), u32> {
        self.need_body(self.motion == motion::DOWN)?;
        self.motion = motion::UP;
        Ok(())
    }

    fn line_to(&mut self, x: i32, y: i32) -> Result<(), u32> {
        self.need_body(self.motion == motion::DOWN)?;
        (self.x, self.y) = (x, y);
        Ok(())
    }

    fn arc_to(&mut self, x: i32, y: i32, radius: i32, decimals: i32) -> Result<(), u32> {
        self.need_body(self.motion == motion::DOWN)?;
        need(self.can_arc(x, y, radius, decimals), refuse::ARC)?;
        (self.x, self.y) = (x, y);
        Ok(())
    }

    fn end(&mut self) -> Result<(), u32> {
        self.need_body(self.motion != motion::DOWN)?;
        self.phase = phase::ENDED;
        Ok(())
    }

    /// In a motion, with a tool selected.
    fn need_tool(&self, motion: i32) -> Result<(), u32> {
        self.need_body(self.motion == motion)?;
        need(self.tool != 0, refuse::NO_TOOL)
    }

    fn need_body(&self, motion_fits: bool) -> Result<(), u32> {
        need(self.phase == phase::BODY, refuse::PHASE)?;
        need(motion_fits, refuse::MOTION)
    }

    /// Start and end differ and lie at most a diameter apart, and one unit of the
    /// radius's last place, since a layout program rounds there. Fewer than three
    /// decimals count as three. Nothing here reaches 2 to the 63.
    fn can_arc(&self, x: i32, y: i32, radius: i32, decimals: i32) -> bool {
        let dx = i64::from(x) - i64::from(self.x);
        let dy = i64::from(y) - i64::from(self.y);
        let apart = dx * dx + dy * dy;
        let reach = 2 * i64::from(radius) + i64::from(PLACES[decimals.max(3) as usize]);
        apart != 0 && apart <= reach * reach
    }

    fn numbers(&self) -> [i32; STATE.end - STATE.start] {
        let [a, b, c, d] = self.declared;
        [self.phase, self.unit, self.motion, self.tool, self.x, self.y, a, b, c, d]
    }
}

// ------------------------------------------------------------------- rows

/// A row's command and state, if every number lies in its field's range and
/// the command is legal.
fn decode(row: &[i32]) -> Option<(Command, State)> {
    let &[kind, command_tool, command_x, command_y, size, ref state @ .., decimals] = row else {
        return None;
    };
    let &[phase, unit, motion, tool, x, y, a, b, c, d] = state else {
        return None;
    };
    let in_range = (phase::BEFORE..=phase::ENDED).contains(&phase)
        && (unit::NONE..=unit::INCH).contains(&unit)
        && (motion::NONE..=motion::DOWN).contains(&motion)
        && (0..=MAX_TOOL).contains(&tool)
        && (MIN..=MAX).contains(&x)
        && (MIN..=MAX).contains(&y)
        && [a, b, c, d].iter().all(|word| (0..=MAX_WORD).contains(word))
        && a & 1 == 0;
    if !in_range {
        return None;
    }
    let command = Command::of_numbers([kind, command_tool, command_x, command_y, size, decimals])?;
    let declared = [a, b, c, d];
    Some((command, State { phase, unit, motion, tool, x, y, declared }))
}

/// The row of a command and the state after it.
fn encode(command: Command, state: &State) -> [i32; ROW] {
    let [kind, tool, x, y, size, decimals] = command.numbers();
    let [phase, unit, motion, selected, point_x, point_y, a, b, c, d] = state.numbers();
    [kind, tool, x, y, size, phase, unit, motion, selected, point_x, point_y, a, b, c, d, decimals]
}

/// The numbers of the first `n` rows, if `n` is 1 to 1,000 and they are there.
fn numbers_of(table: &[i32], n: usize) -> Result<usize, Refusal> {
    let numbers = n.min(MAX_LINES) * ROW;
    need((1..=MAX_LINES).contains(&n) && numbers <= table.len(), refused(refuse::TABLE, 0))?;
    Ok(numbers)
}

/// Row `line`, counted from 1, or the refusal of a row that fails its test.
fn row_at(rows: &[i32], line: usize) -> Result<(Command, State), Refusal> {
    decode(&rows[(line - 1) * ROW..line * ROW]).ok_or(refused(refuse::TABLE, line as u32))
}

/// The state before `line`: that of the row before, which must pass its test.
fn state_before(rows: &[i32], line: usize) -> Result<State, Refusal> {
    match line {
        1 => Ok(State::default()),
        _ => Ok(row_at(rows, line - 1)?.1),
    }
}

// ---------------------------------------------------------------- reading

/// Reads `file` into `table`, and how many holes each tool makes into `counts`.
/// Success counts the lines.
///
/// A block of counts under 198 numbers is refused 15 at line 0, after all other
/// refusals. What stood in it before doesn't matter.
pub fn read(file: &[u8], revision: Revision, table: &mut [i32], counts: &mut [u32]) -> Answer {
    answer(try_read(file, revision, table, counts))
}

fn try_read(
    file: &[u8],
    revision: Revision,
    table: &mut [i32],
    counts: &mut [u32],
) -> Result<u32, Refusal> {
    let mut made = Counts::default();
    let rows = rows_of(file, revision, &mut made)?;
    let lent = table.get_mut(..rows.len()).ok_or(refused(refuse::TOO_SHORT, 0))?;
    let lent_counts = counts.get_mut(..COUNTS).ok_or(refused(refuse::TOO_SHORT, 0))?;
    lent.copy_from_slice(&rows);
    lent_counts.copy_from_slice(&made.numbers);
    Ok((rows.len() / ROW) as u32)
}

/// All rows of `file`, one after the other; their holes are added to `made`.
fn rows_of(file: &[u8], revision: Revision, made: &mut Counts) -> Result<Vec<i32>, Refusal> {
    need(file.len() <= MAX_FILE, refused(refuse::FILE_SIZE, 0))?;
    // No line that is read takes fewer than two bytes.
    let mut rows = Vec::with_capacity((file.len() / 2).min(MAX_LINES) * ROW);
    let mut state = State::default();
    let mut line: u32 = 0;
    let mut rest = file;
    while !rest.is_empty() {
        line += 1;
        need(line as usize <= MAX_LINES, refused(refuse::LINE_COUNT, line))?;
        let end =
            rest.iter().position(|&byte| byte == b'\n').ok_or(refused(refuse::NOT_ENDED, line))?;
        let text = &rest[..end];
        let text = text.strip_suffix(b"\r").unwrap_or(text);
        let command =
            Command::of_line(text, revision).map_err(|number| refused_text(number, line, text))?;
        let before = state;
        state = before.after(command).map_err(|number| refused(number, line))?;
        made.add(hole_of(command, &before, &state));
        rows.extend_from_slice(&encode(command, &state));
        rest = &rest[end + 1..];
    }
    need(state.phase == phase::ENDED, refused(refuse::UNFINISHED, line + 1))?;
    Ok(rows)
}

// ---------------------------------------------------------------- editing

/// Puts `text` in the place of one line. Success counts the meeting line.
///
/// Only `text` is read by `revision`; the table may stem from the other.
///
/// Of `counts` the span's old holes are taken away, then its new ones are added.
/// They are refused after all else: 15 at line 0 for a block under 198 numbers,
/// then 18 at line 0 for a count over 1,000 or under what is taken from it.
pub fn edit(
    table: &mut [i32],
    n: usize,
    line: usize,
    text: &[u8],
    revision: Revision,
    counts: &mut [u32],
) -> Answer {
    answer(try_edit(table, n, line, text, revision, counts))
}

fn try_edit(
    table: &mut [i32],
    n: usize,
    line: usize,
    text: &[u8],
    revision: Revision,
    counts: &mut [u32],
) -> Result<u32, Refusal> {
    let numbers = numbers_of(table, n)?;
    let rows = &mut table[..numbers];
    need((1..=n).contains(&line), refused(refuse::LINE_NUMBER, 0))?;
    let ends_line = |byte: &u8| matches!(byte, b'\n' | b'\r');
    need(!text.iter().any(ends_line), refused(refuse::LINE_END, 0))?;
    edit_rows(rows, line, text, revision, counts)
}

/// As `edit`, of a line that is there and a text that holds no line's end.
fn edit_rows(
    rows: &mut [i32],
    line: usize,
    text: &[u8],
    revision: Revision,
    counts: &mut [u32],
) -> Result<u32, Refusal> {
    let n = rows.len() / ROW;
    let before = state_before(rows, line)?;
    let (old_command, mut old) = row_at(rows, line)?;
    let at = line as u32;
    let command =
        Command::of_line(text, revision).map_err(|number| refused_text(number, at, text))?;
    let mut state = before.after(command).map_err(|number| refused(number, at))?;

    // The span's new states, its old holes and its new ones, kept apart until
    // nothing can refuse.
    let mut span = vec![state];
    let (mut gone, mut made) = (Counts::default(), Counts::default());
    gone.add(hole_of(old_command, &before, &old));
    made.add(hole_of(command, &before, &state));
    let mut meeting = line;
    while state != old && meeting < n {
        meeting += 1;
        let (command, old_here) = row_at(rows, meeting)?;
        let next = state.after(command).map_err(|number| refused(number, meeting as u32))?;
        gone.add(hole_of(command, &old, &old_here));
        made.add(hole_of(command, &state, &next));
        (old, state) = (old_here, next);
        span.push(state);
    }
    let agreed = state == old;
    need(agreed || state.phase == phase::ENDED, refused(refuse::UNFINISHED, n as u32 + 1))?;
    let counts = counts.get_mut(..COUNTS).ok_or(refused(refuse::TOO_SHORT, 0))?;
    need(gone.can_leave(counts), refused(refuse::TABLE, 0))?;

    for ((count, gone), made) in counts.iter_mut().zip(&gone.numbers).zip(&made.numbers) {
        *count = *count - gone + made;
    }

    // Only the edited row gets a new command.
    let changed = &mut rows[(line - 1) * ROW..];
    changed[..ROW].copy_from_slice(&encode(command, &span[0]));
    for (row, state) in changed.chunks_exact_mut(ROW).zip(&span) {
        row[STATE].copy_from_slice(&state.numbers());
    }
    Ok(meeting as u32)
}

// ------------------------------------------------------------------ holes

/// The kind of a hit.
const HIT: i32 = 9;

/// The hole that a row makes: kind, tool, start, end, radius.
fn hole_of(command: Command, before: &State, after: &State) -> Option<[i32; HOLE]> {
    let [kind, _, x, y, radius, _] = command.numbers();
    let (start_x, start_y) = match command {
        Command::Hit { .. } => (x, y),
        Command::Line { .. } | Command::Clockwise { .. } | Command::Counter { .. } => {
            (before.x, before.y)
        }
        _ => return None,
    };
    Some([kind, after.tool, start_x, start_y, x, y, radius])
}

/// Asks for the hole that a line makes. Success counts 1 with the hole's
/// seven numbers put into `hole`, or 0 with `hole` unchanged.
///
/// A block under seven numbers is refused 15 at line 0, after all other
/// refusals, whether or not the line makes a hole.
pub fn hole(table: &[i32], n: usize, line: usize, hole: &mut [i32]) -> Answer {
    answer(try_hole(table, n, line, hole))
}

fn try_hole(table: &[i32], n: usize, line: usize, hole: &mut [i32]) -> Result<u32, Refusal> {
    let rows = &table[..numbers_of(table, n)?];
    need((1..=n).contains(&line), refused(refuse::LINE_NUMBER, 0))?;
    let before = state_before(rows, line)?;
    let (command, after) = row_at(rows, line)?;
    let lent = hole.get_mut(..HOLE).ok_or(refused(refuse::TOO_SHORT, 0))?;
    match hole_of(command, &before, &after) {
        Some(numbers) => {
            lent.copy_from_slice(&numbers);
            Ok(1)
        }
        None => Ok(0),
    }
}

// ----------------------------------------------------------------- counts

/// How many holes each tool makes: a hit is one of its hits, any other hole one
/// of its routs.
struct Counts {
    numbers: [u32; COUNTS],
}

impl Default for Counts {
    fn default() -> Counts {
        Counts { numbers: [0; COUNTS] }
    }
}

impl Counts {
    /// Counts the hole that a row makes, if it makes one. A hole of tool 0, which
    /// a bad table can have, isn't counted.
    fn add(&mut self, hole: Option<[i32; HOLE]>) {
        let (kind, tool) = match hole {
            Some([kind, tool @ 1..=MAX_TOOL, ..]) => (kind, tool),
            _ => return,
        };
        let first = if kind == HIT { HITS } else { ROUTS };
        self.numbers[first + tool as usize - 1] += 1;
    }

    /// Whether these can be taken away from `counts`, which are all in range. All
    /// are looked at, whatever the first ones say: that is faster.
    fn can_leave(&self, counts: &[u32]) -> bool {
        let fits = |(&count, &gone): (&u32, &u32)| (count <= MAX_COUNT) & (count >= gone);
        counts.iter().zip(&self.numbers).map(fits).fold(true, |all, one| all & one)
    }
}

/// Asks how many hits `tool` makes. Success counts them.
///
/// Refused 7 at line 0 for a tool not 1 to 99, then 15 at line 0 for a block of
/// counts under 198 numbers. The counts themselves aren't tested.
pub fn hits(counts: &[u32], tool: u32) -> Answer {
    answer(try_count(counts, HITS, tool))
}

/// As `hits`, of the tool's routs.
pub fn routs(counts: &[u32], tool: u32) -> Answer {
    answer(try_count(counts, ROUTS, tool))
}

fn try_count(counts: &[u32], first: usize, tool: u32) -> Result<u32, Refusal> {
    need((1..=MAX_TOOL as u32).contains(&tool), refused(refuse::RANGE, 0))?;
    let lent = counts.get(..COUNTS).ok_or(refused(refuse::TOO_SHORT, 0))?;
    Ok(lent[first + tool as usize - 1])
}

// -------------------------------------------------------------- diameters

/// The diameter of `tool`, from its first declaration.
///
/// Refused 18 at line 0 for the sizes, 7 at line 0 for a tool not 1 to 99,
/// then 18 at the first row that fails its test before the declaration is
/// met, 10 at line 0 if no row declares the tool.
pub fn diameter(table: &[i32], n: usize, tool: u32) -> Answer {
    answer(try_diameter(table, n, tool))
}

fn try_diameter(table: &[i32], n: usize, wanted: u32) -> Result<u32, Refusal> {
    let rows = &table[..numbers_of(table, n)?];
    need((1..=MAX_TOOL as u32).contains(&wanted), refused(refuse::RANGE, 0))?;
    for line in 1..=n {
        match row_at(rows, line)? {
            (Command::Declare { tool, diameter }, _) if tool as u32 == wanted => {
                return Ok(diameter as u32);
            }
            _ => {}
        }
    }
    Err(refused(refuse::NOT_DECLARED, 0))
}

// ---------------------------------------------------------------- writing

/// Writes a good table as text. Success counts the bytes.
pub fn write(table: &[i32], n: usize, text: &mut [u8]) -> Answer {
    answer(try_write(table, n, text))
}

fn try_write(table: &[i32], n: usize, text: &mut [u8]) -> Result<u32, Refusal> {
    let rows = &table[..numbers_of(table, n)?];
    let mut out = Vec::with_capacity(text.len().min(n * LONGEST_WRITTEN));
    let mut state = State::default();
    for line in 1..=n {
        let (command, after) = row_at(rows, line)?;
        need(state.after(command) == Ok(after), refused(refuse::TABLE, line as u32))?;
        put_command(&mut out, command);
        state = after;
    }
    need(state.phase == phase::ENDED, refused(refuse::TABLE, n as u32))?;
    let lent = text.get_mut(..out.len()).ok_or(refused(refuse::TOO_SHORT, 0))?;
    lent.copy_from_slice(&out);
    Ok(out.len() as u32)
}

/// The command's line with its LF; nothing for a comment.
fn put_command(out: &mut Vec<u8>, command: Command) {
    match command {
        Command::Comment => return,
        Command::Start => out.extend_from_slice(b"M48"),
        Command::Metric => out.extend_from_slice(b"METRIC"),
        Command::Inch => out.extend_from_slice(b"INCH"),
        Command::Declare { tool, diameter } => {
            put_tool(out, tool);
            put_number(out, b'C', diameter);
        }
        Command::EndHeader => out.push(b'%'),
        Command::Drill => out.extend_from_slice(b"G05"),
        Command::Move { x, y } => {
            out.extend_from_slice(b"G00");
            put_point(out, x, y);
        }
        Command::Select { tool } => put_tool(out, tool),
        Command::Hit { x, y } => put_point(out, x, y),
        Command::Down => out.extend_from_slice(b"M15"),
        Command::Up => out.extend_from_slice(b"M16"),
        Command::Line { x, y } => {
            out.extend_from_slice(b"G01");
            put_point(out, x, y);
        }
        Command::Clockwise { x, y, radius, decimals } => {
            out.extend_from_slice(b"G02");
            put_point(out, x, y);
            put_radius(out, radius, decimals);
        }
        Command::Counter { x, y, radius, decimals } => {
            out.extend_from_slice(b"G03");
            put_point(out, x, y);
            put_radius(out, radius, decimals);
        }
        Command::End => out.extend_from_slice(b"M30"),
    }
    out.push(b'\n');
}

fn put_tool(out: &mut Vec<u8>, tool: i32) {
    let tool = tool as u8;
    out.extend_from_slice(&[b'T', b'0' + tool / 10, b'0' + tool % 10]);
}

fn put_point(out: &mut Vec<u8>, x: i32, y: i32) {
    put_number(out, b'X', x);
    put_number(out, b'Y', y);
}

/// A coordinate or a diameter, with no decimals to spare.
fn put_number(out: &mut Vec<u8>, letter: u8, value: i32) {
    out.push(letter);
    if value < 0 {
        out.push(b'-');
    }
    let size = value.unsigned_abs();
    put_whole(out, size / UNIT);
    let mut fraction = size % UNIT;
    if fraction > 0 {
        out.push(b'.');
    }
    let mut place = UNIT / 10;
    while fraction > 0 {
        out.push(b'0' + (fraction / place) as u8);
        fraction %= place;
        place /= 10;
    }
}

/// A radius, with just the decimals it was read with: they say how far it
/// reaches.
fn put_radius(out: &mut Vec<u8>, radius: i32, decimals: i32) {
    out.push(b'A');
    let radius = radius.unsigned_abs();
    put_whole(out, radius / UNIT);
    if decimals > 0 {
        out.push(b'.');
    }
    let mut fraction = radius % UNIT;
    for place in &PLACES[1..=decimals as usize] {
        out.push(b'0' + (fraction / place) as u8);
        fraction %= place;
    }
}

/// A whole part, under 1,000.
fn put_whole(out: &mut Vec<u8>, whole: u32) {
    if whole >= 100 {
        out.push(b'0' + (whole / 100) as u8);
    }
    if whole >= 10 {
        out.push(b'0' + (whole / 10 % 10) as u8);
    }
    out.push(b'0' + (whole % 10) as u8);
}

// --------------------------------------------------------------- printing

/// What the program prints for `file`: unit, tools, holes and their count, or
/// the one line of a refusal.
pub fn print(file: &[u8], revision: Revision) -> Vec<u8> {
    match Board::read(file, revision) {
        Ok(board) => holes_printed(&board),
        Err(refusal) => refusal_printed(refusal),
    }
}

fn refusal_printed((number, line, column): Refusal) -> Vec<u8> {
    format!("refused\t{number}\t{line}\t{column}\n").into_bytes()
}

/// What rows say of a board: each line's state and hole, and each tool's
/// diameter.
struct Board {
    states: Vec<State>,
    holes: Vec<Option<[i32; HOLE]>>,
    diameters: [Option<i32>; MAX_TOOL as usize + 1],
}

impl Board {
    /// The board of a file. What its reading counts isn't used: print-outs count
    /// the holes.
    fn read(file: &[u8], revision: Revision) -> Result<Board, Refusal> {
        let rows = rows_of(file, revision, &mut Counts::default())?;
        Ok(Board::of(&rows))
    }

    fn of(rows: &[i32]) -> Board {
        let mut board = Board {
            states: Vec::new(),
            holes: Vec::new(),
            diameters: [None; MAX_TOOL as usize + 1],
        };
        let mut before = State::default();
        for (command, after) in rows.chunks_exact(ROW).filter_map(decode) {
            if let Command::Declare { tool, diameter } = command {
                board.diameters[tool as usize] = Some(diameter);
            }
            board.holes.push(hole_of(command, &before, &after));
            board.states.push(after);
            before = after;
        }
        board
    }
}

// Below, writing to a vector doesn't fail.

fn put_hole(out: &mut Vec<u8>, line: usize, hole: [i32; HOLE]) {
    let [kind, tool, start_x, start_y, x, y, radius] = hole;
    let letter = match kind {
        HIT => 'H',
        12 => 'L',
        13 => 'C',
        _ => 'A',
    };
    let _ = writeln!(out, "{line}\t{letter}\t{tool}\t{start_x}\t{start_y}\t{x}\t{y}\t{radius}");
}

fn holes_printed(board: &Board) -> Vec<u8> {
    let mut out = Vec::new();
    let unit = match board.states.last() {
        Some(state) if state.unit == unit::INCH => "INCH",
        _ => "METRIC",
    };
    let _ = writeln!(out, "unit\t{unit}");
    for (tool, diameter) in board.diameters.iter().enumerate() {
        if let Some(diameter) = diameter {
            let _ = writeln!(out, "tool\t{tool}\t{diameter}");
        }
    }
    let mut count = 0;
    for (&hole, line) in board.holes.iter().zip(1..) {
        if let Some(hole) = hole {
            put_hole(&mut out, line, hole);
            count += 1;
        }
    }
    let _ = writeln!(out, "holes\t{count}");
    out
}

/// What the program `counts` prints: for each declared tool, by number, its
/// diameter, its hits and its routs; or the one line of a refusal.
pub fn print_counts(file: &[u8], revision: Revision) -> Vec<u8> {
    match Board::read(file, revision) {
        Ok(board) => counts_printed(&board),
        Err(refusal) => refusal_printed(refusal),
    }
}

fn counts_printed(board: &Board) -> Vec<u8> {
    let mut out = Vec::new();
    for (tool, diameter) in board.diameters.iter().enumerate() {
        if let Some(diameter) = diameter {
            let of_tool = || board.holes.iter().flatten().filter(|hole| hole[1] as usize == tool);
            let hits = of_tool().filter(|hole| hole[0] == HIT).count();
            let routs = of_tool().count() - hits;
            let _ = writeln!(out, "{tool}\t{diameter}\t{hits}\t{routs}");
        }
    }
    out
}

/// What the program `moves` prints: its input's first line has a line's number,
/// a tab and the new text, and the file follows. No edit is used: the file and
/// the edited file are both read, by one revision.
pub fn print_moves(input: &[u8], revision: Revision) -> Vec<u8> {
    let (first, file) = match input.iter().position(|&byte| byte == b'\n') {
        Some(end) => (&input[..end], &input[end + 1..]),
        None => (input, &input[input.len()..]),
    };
    match moves_printed(first.strip_suffix(b"\r").unwrap_or(first), file, revision) {
        Ok(out) => out,
        Err(refusal) => refusal_printed(refusal),
    }
}

fn moves_printed(first: &[u8], file: &[u8], revision: Revision) -> Result<Vec<u8>, Refusal> {
    let old = Board::read(file, revision)?;
    let lines = old.states.len();
    let (line, text) = asked(first)
        .filter(|(line, _)| (1..=lines).contains(line))
        .ok_or(refused(refuse::LINE_NUMBER, 0))?;
    need(!text.contains(&b'\r'), refused(refuse::LINE_END, 0))?;
    let new = Board::read(&with_line(file, line, text), revision)?;

    let agree = |line: usize| old.states[line - 1] == new.states[line - 1];
    let meeting = (line..=lines).find(|&line| agree(line)).unwrap_or(lines);
    let mut out = Vec::new();
    let _ = writeln!(out, "span\t{line}\t{meeting}");
    let mut moved = 0;
    for line in line..=meeting {
        let (before, after) = (old.holes[line - 1], new.holes[line - 1]);
        if before != after {
            moved += 1;
            for (sign, hole) in [("-\t", before), ("+\t", after)] {
                if let Some(hole) = hole {
                    out.extend_from_slice(sign.as_bytes());
                    put_hole(&mut out, line, hole);
                }
            }
        }
    }
    for (tool, (before, after)) in old.diameters.iter().zip(&new.diameters).enumerate() {
        if before != after {
            let (before, after) = (before.unwrap_or(0), after.unwrap_or(0));
            let _ = writeln!(out, "tool\t{tool}\t{before}\t{after}");
        }
    }
    let _ = writeln!(out, "moved\t{moved}");
    Ok(out)
}

/// One to four digits and a tab, and the text behind them.
fn asked(first: &[u8]) -> Option<(usize, &[u8])> {
    let tab = first.iter().position(|&byte| byte == b'\t')?;
    let digits = std::str::from_utf8(&first[..tab]).ok()?;
    let written =
        (1..=4).contains(&digits.len()) && digits.bytes().all(|byte| byte.is_ascii_digit());
    written.then(|| digits.parse().ok()).flatten().map(|line| (line, &first[tab + 1..]))
}

/// `file` with `text` in the place of line `line`, whose end is kept.
fn with_line(file: &[u8], line: usize, text: &[u8]) -> Vec<u8> {
    let mut out = Vec::with_capacity(file.len() + text.len());
    for (old, number) in file.split_inclusive(|&byte| byte == b'\n').zip(1..) {
        if number == line {
            out.extend_from_slice(text);
            out.extend_from_slice(if old.ends_with(b"\r\n") { b"\r\n" } else { b"\n" });
        } else {
            out.extend_from_slice(old);
        }
    }
    out
}
