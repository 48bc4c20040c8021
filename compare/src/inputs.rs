//! Inputs for the comparison: valid files, commands for a given state, texts
//! and tables damaged in every way that the paper names.
//!
//! What is legal where is worked out here a third time, in the loosest way
//! that serves (`Model`), so that a generated file must be accepted by both.

use crate::library::{Revision, ROW};
use crate::random::Random;

pub const MAX: i32 = 999_999_999;
pub const MAX_LINES: usize = 1_000;
pub const MAX_FILE: usize = 65_536;
const MAX_LINE: usize = 256;
const MAX_WORD: i32 = 33_554_431;

// ---------------------------------------------------------------- spelling

/// A coordinate in millionths: extremes, round ones, any.
pub fn coordinate(random: &mut Random) -> i32 {
    const EDGES: [i32; 16] = [
        0,
        1,
        -1,
        10,
        999_999,
        -999_999,
        1_000_000,
        -1_000_000,
        1_000_001,
        500_000,
        -500_000,
        -50_000,
        100_000_000,
        999_000_000,
        MAX,
        -MAX,
    ];
    match random.below(8) {
        0 => *random.pick(&EDGES),
        1..=3 => random.from(-5, 5) * 1_000_000,
        4 => random.from(-999_999, 999_999) * 1_000,
        5 => random.from(-9, 9) * 100_000,
        6 => random.from(-MAX, MAX),
        _ => random.from(-9, 9),
    }
}

/// A diameter or radius in millionths.
pub fn size(random: &mut Random) -> i32 {
    match random.below(4) {
        0 => *random.pick(&[1, 2, 10, 100_000, 999_999, 1_000_000, MAX - 1, MAX]),
        1 => random.from(1, 20) * 100_000,
        2 => random.from(1, MAX),
        _ => random.from(1, 50) * 1_000_000,
    }
}

/// How many decimals a number needs.
pub fn needed(value: i32) -> usize {
    format!("{:06}", value.unsigned_abs() % 1_000_000).trim_end_matches('0').len()
}

/// One of the spellings of a number: signs, leading zeros, points, decimals.
pub fn spell(value: i32, signed: bool, random: &mut Random) -> String {
    let needed = needed(value);
    let decimals = if random.one_in(4) { needed + random.below(7 - needed) } else { needed };
    spell_with(value, decimals, signed, random)
}

/// One of its spellings with so many decimals.
fn spell_with(value: i32, decimals: usize, signed: bool, random: &mut Random) -> String {
    let digits = value.unsigned_abs();
    let fraction = format!("{:06}", digits % 1_000_000);
    let mut text = String::new();
    if value < 0 || (signed && value == 0 && random.one_in(6)) {
        text.push('-');
    } else if signed && random.one_in(8) {
        text.push('+');
    }
    let zeros = match random.below(40) {
        0..=2 => 1 + random.below(4),
        3 => random.below(40),
        4 if random.one_in(4) => random.below(200),
        _ => 0,
    };
    text.push_str(&"0".repeat(zeros));
    let whole = digits / 1_000_000;
    if whole != 0 || decimals == 0 || !random.one_in(3) {
        text.push_str(&whole.to_string());
    }
    if decimals > 0 || random.one_in(10) {
        text.push('.');
        text.push_str(&fraction[..decimals]);
    }
    text
}

fn point(x: i32, y: i32, random: &mut Random) -> String {
    format!("X{}Y{}", spell(x, true, random), spell(y, true, random))
}

/// What is made, once it is no longer than a line.
fn fitting(mut make: impl FnMut() -> String) -> String {
    loop {
        let text = make();
        if text.len() <= MAX_LINE {
            return text;
        }
    }
}

pub fn line_to((x, y): (i32, i32), random: &mut Random) -> String {
    fitting(|| format!("G01{}", point(x, y, random)))
}

fn select(tool: i32, random: &mut Random) -> String {
    if tool < 10 && random.one_in(2) {
        format!("T{tool}")
    } else {
        format!("T{tool:02}")
    }
}

/// A declaration by a revision: 2019 also has one digit for a tool under ten.
fn declare(tool: i32, diameter: i32, revision: Revision, random: &mut Random) -> String {
    let diameter = spell(diameter, false, random);
    declaration(tool, &diameter, revision, random)
}

fn declaration(tool: i32, diameter: &str, revision: Revision, random: &mut Random) -> String {
    if revision == Revision::Rev2019 && tool < 10 && random.one_in(2) {
        format!("T{tool}C{diameter}")
    } else {
        format!("T{tool:02}C{diameter}")
    }
}

/// One revision or the other.
pub fn revision(random: &mut Random) -> Revision {
    *random.pick(&[Revision::Rev2019, Revision::Rev2021])
}

/// A number with zeros before it, with a sign if it may have one, and with so many
/// decimals.
fn spell_long(value: i32, decimals: usize, signed: bool, random: &mut Random) -> String {
    let sign = match value {
        _ if !signed => "",
        ..=-1 => "-",
        _ => "+",
    };
    let zeros = match random.below(8) {
        0 => random.below(72),
        _ => 1 + random.below(4),
    };
    let (whole, fraction) = (value.unsigned_abs() / 1_000_000, value.unsigned_abs() % 1_000_000);
    let point = if decimals > 0 || random.one_in(2) { "." } else { "" };
    let fraction = &format!("{fraction:06}")[..decimals];
    format!("{sign}{}{whole}{point}{fraction}", "0".repeat(zeros))
}

/// The same with decimals to spare, which is another spelling of any number but a radius.
fn spell_longer(value: i32, signed: bool, random: &mut Random) -> String {
    let decimals = needed(value) + random.below(7 - needed(value));
    spell_long(value, decimals, signed, random)
}

fn long_point(x: i32, y: i32, random: &mut Random) -> String {
    format!("X{}Y{}", spell_longer(x, true, random), spell_longer(y, true, random))
}

/// A text that reads as the command of a row, with zeros to spare and a plus wherever
/// one may stand. A radius gets no more decimals: they are the command's. A comment may
/// become any other.
pub fn long_spelling(row: &[i32], revision: Revision, random: &mut Random) -> Vec<u8> {
    let (tool, x, y, size, decimals) = (row[1], row[2], row[3], row[4], row[15] as usize);
    let make = || match row[0] {
        0 => comment(random),
        1 => "M48".into(),
        2 => "METRIC".into(),
        3 => "INCH".into(),
        4 => {
            let diameter = spell_longer(size, false, random);
            declaration(tool, &diameter, revision, random)
        }
        5 => "%".into(),
        6 => "G05".into(),
        7 => format!("G00{}", long_point(x, y, random)),
        8 => select(tool, random),
        9 => long_point(x, y, random),
        10 => "M15".into(),
        11 => "M16".into(),
        12 => format!("G01{}", long_point(x, y, random)),
        13 | 14 => {
            let (code, point) = (["G02", "G03"][row[0] as usize - 13], long_point(x, y, random));
            format!("{code}{point}A{}", spell_long(size, decimals, false, random))
        }
        _ => "M30".into(),
    };
    fitting(make).into_bytes()
}

/// Whether a line that one revision reads is read by another: 2021 has no declaration
/// with one digit.
pub fn is_read_by(revision: Revision, line: &[u8]) -> bool {
    revision == Revision::Rev2019 || !matches!(line, [b'T', _, b'C', ..])
}

fn tool(random: &mut Random) -> i32 {
    match random.below(3) {
        0 => *random.pick(&[1, 9, 10, 24, 25, 26, 49, 50, 51, 74, 75, 76, 98, 99]),
        1 => random.from(1, 5),
        _ => random.from(1, 99),
    }
}

pub fn comment(random: &mut Random) -> String {
    let length = match random.below(30) {
        0 => 255,
        1 => random.below(256),
        2..=9 => 0,
        _ => random.below(16),
    };
    let mut text = String::from(";");
    while text.len() <= length {
        let byte = random.from(32, 126) as u8;
        if byte != b';' {
            text.push(char::from(byte));
        }
    }
    text
}

/// A well-formed command, whether or not it is allowed anywhere.
pub fn any_command(random: &mut Random) -> String {
    let (x, y, radius) = (coordinate(random), coordinate(random), size(random));
    let point = point(x, y, random);
    match random.below(20) {
        0 => comment(random),
        1 => "M48".into(),
        2 => "METRIC".into(),
        3 => "INCH".into(),
        4 => {
            let tool = tool(random);
            let revision = revision(random);
            declare(tool, radius, revision, random)
        }
        5 => "%".into(),
        6 | 7 => "G05".into(),
        8 => format!("G00{point}"),
        9 | 10 => {
            let tool = tool(random);
            select(tool, random)
        }
        11 | 12 => point,
        13 => "M15".into(),
        14 => "M16".into(),
        15 | 16 => format!("G01{point}"),
        17 => format!("G02{point}A{}", spell(radius, false, random)),
        18 => format!("G03{point}A{}", spell(radius, false, random)),
        _ => "M30".into(),
    }
}

/// Lines that are wrong, or right only just, parted by `|`.
const ODD_LINES: [&str; 10] = [
    "| |M|M4|M47|M480|m48|M48 | M48|METRI|METRIC,LZ|metric|INC|INCHES|%%|% |G|G0|G5|G05 ",
    "G05X1Y1|G06|G00|G00X|G00X1|G00X1Y|G00Y1X1|G00X1Y1A1|G0X1Y1|G04X1Y1|G01|G01X1Y1A1",
    "G02X1Y1|G02X1Y1A|G02X1Y1A0|G02X1Y1A-1|G02X1Y1A+1|G02X1Y1A1000|G02X1Y1A.0000001",
    "G02X1Y1A1.|G03X1Y1A1X1|G03X1Y1A1 |G03X1Y1A0.0|G03X1000Y1A|G03X1Y1Aq|T|TX|T0|T00",
    "T000|T1 |T001|T100|T1C0.6|T0C1|T00C1|T00C|T00C0|T01C|T01C0|T01C.|T01C.0|T01C-1",
    "T0C|T0C0|T0C1000|T0Cq|T001C1|T000C1|T9C1000|T9C0.600|T9C.|T9C|T9C-1|T9C+1|T9C1C1|T9C1 ",
    "T01C+1|T01C1000|T01C999.999999|T01C0.0000001|T01C0.000001|T01C1C1|T100C1|T99C1|t1",
    "T1;|TC1|T-1|X|Y|XY|X1|X1Y|XY1|X.Y.|X1Y.|X+Y-|X--1Y1|X+-1Y1|X1..Y1|X1.2.3Y1|X1000Y0",
    "X0Y-1000|X1000Yq|X999.9999990Y0|X1.0000000Y1|X-0Y+0|X5.Y.5|X1Y1X1Y1|X 1Y1|X1,Y1",
    "M15M16|M3|M30;|M300|;;|; x ; y",
];

pub fn odd_line(random: &mut Random) -> Vec<u8> {
    match random.below(9) {
        0 => format!("X{}Y0", "9".repeat(1 + random.below(254))).into_bytes(),
        1 => format!("X{}1.5Y0", "0".repeat(random.below(252))).into_bytes(),
        2 => {
            // The two lengths about the limit, and others.
            let length = *random.pick(&[255, 256, 257, 258, 300, 1_000]);
            let filler = *random.pick(&[b'x', b' ', b';', 0, 200]);
            let mut text = vec![filler; length];
            text[0] = *random.pick(b";;;X%");
            text
        }
        3 => line_of_numbers(random),
        _ => {
            let lines: Vec<&str> = random.pick(&ODD_LINES).split('|').collect();
            random.pick(&lines).as_bytes().to_vec()
        }
    }
}

/// A radius and its decimals, one of their spellings, and how the writer has them.
pub struct Radius {
    pub radius: i32,
    pub decimals: usize,
    pub text: String,
    pub written: String,
}

/// Radii with every number of decimals that they can have: with leading zeros, with
/// none before the point, with a point and nothing behind it.
pub fn radii() -> Vec<Radius> {
    const VALUES: [i32; 13] = [
        1,
        10,
        1_000,
        50_000,
        500_000,
        1_000_000,
        1_250_000,
        2_000_000,
        10_000_000,
        100_000_000,
        123_456_700,
        999_000_000,
        MAX,
    ];
    let mut radii = Vec::new();
    for radius in VALUES {
        let (whole, fraction) = (radius / 1_000_000, format!("{:06}", radius % 1_000_000));
        for decimals in needed(radius)..=6 {
            let fraction = &fraction[..decimals];
            let points: &[&str] = if decimals == 0 { &["", "."] } else { &["."] };
            let written = format!("{whole}{}{fraction}", points[0]);
            let digits = if whole == 0 { String::new() } else { whole.to_string() };
            for zeros in [0, 1, 3, 200] {
                for point in points {
                    let text = format!("{}{digits}{point}{fraction}", "0".repeat(zeros));
                    radii.push(Radius { radius, decimals, text, written: written.clone() });
                }
            }
        }
    }
    radii
}

/// All texts of up to `length` bytes of an alphabet.
pub fn all_texts(alphabet: &str, length: usize) -> Vec<String> {
    let mut texts = vec![String::new()];
    let mut start = 0;
    for _ in 0..length {
        let end = texts.len();
        for at in start..end {
            for letter in alphabet.chars() {
                texts.push(format!("{}{letter}", texts[at]));
            }
        }
        start = end;
    }
    texts
}

// ----------------------------------------------------------------- columns

/// Bytes that no line may hold. A CR may stand at a line's end alone.
const FORBIDDEN: [u8; 7] = [0, 9, 13, 31, 127, 128, 255];

/// Numbers that are out of range or have over six decimals; the last two are so
/// only as sizes.
const OUT_OF_RANGE: [&str; 10] = [
    "1000",
    "1000.",
    "1000.000000",
    "987654321",
    "1.0000000",
    "0.0000000",
    ".5000000",
    "999.9999990",
    "0",
    ".0",
];

/// A coordinate or a size, good or out of range, often behind many zeros.
fn good_or_bad(signed: bool, random: &mut Random) -> String {
    let good = if signed { coordinate(random) } else { size(random) };
    if random.one_in(2) {
        return spell(good, signed, random);
    }
    let sign = if signed { *random.pick(&["", "", "-", "+"]) } else { "" };
    let zeros = match random.below(4) {
        0 => random.below(MAX_LINE - 10),
        1 => random.below(4),
        _ => 0,
    };
    let bad = if signed { &OUT_OF_RANGE[..8] } else { &OUT_OF_RANGE };
    format!("{sign}{}{}", "0".repeat(zeros), random.pick(bad))
}

/// A line of a kind that has numbers, each of them good or bad, now and then with
/// forbidden bytes.
fn line_of_numbers(random: &mut Random) -> Vec<u8> {
    let tool = match random.below(3) {
        0 => random.pick(&["0", "00"]).to_string(),
        1 => tool(random).to_string(),
        _ => format!("{:02}", tool(random)),
    };
    let point = format!("X{}Y{}", good_or_bad(true, random), good_or_bad(true, random));
    let size = good_or_bad(false, random);
    let mut line = match random.below(8) {
        0 => format!("T{tool}"),
        1 => format!("T{tool}C{size}"),
        2 => point,
        3 => format!("G00{point}"),
        4 => format!("G01{point}"),
        5 | 6 => format!("G02{point}A{size}"),
        _ => format!("G03{point}A{size}"),
    }
    .into_bytes();
    if random.one_in(4) {
        for _ in 0..1 + random.below(2) {
            let at = random.below(line.len() + 1);
            line.insert(at, *random.pick(&FORBIDDEN));
        }
    }
    line
}

/// Lines that are refused at many columns, and such that only just are not.
pub fn lines_for_columns() -> Vec<Vec<u8>> {
    let mut lines = Vec::new();
    each_choice_of_numbers(&mut lines);
    forbidden_in_short_lines(&mut lines);
    forbidden_in_long_lines(&mut lines);
    every_column(&mut lines);
    lines
}

/// Every kind of line that has numbers, with each choice of good and bad ones,
/// and some whose form is bad behind them.
fn each_choice_of_numbers(lines: &mut Vec<Vec<u8>>) {
    // In each list the good ones come first.
    const COORDINATES: [&str; 9] =
        ["6.0", "-2", "+008.150", "1600", "-1000", "+1000.", "0001000", "1.0000000", "-.0000000"];
    const SIZES: [&str; 6] = ["1.0", "00.5", "0", "00.0", "1000", "0.5000000"];
    const TOOLS: [&str; 5] = ["1", "07", "99", "0", "00"];

    let mut put = |line: String| lines.push(line.into_bytes());
    for x in COORDINATES {
        for y in COORDINATES {
            for command in ["", "G00", "G01"] {
                put(format!("{command}X{x}Y{y}"));
            }
            put(format!("X{x}Y{y}q"));
            put(format!("G02X{x}Y{y}A"));
            for radius in SIZES {
                put(format!("G02X{x}Y{y}A{radius}"));
                put(format!("G03X{x}Y{y}A{radius}"));
            }
        }
    }
    for tool in TOOLS {
        put(format!("T{tool}"));
        put(format!("T{tool}C"));
        for diameter in SIZES {
            put(format!("T{tool}C{diameter}"));
        }
    }
}

/// A forbidden byte at every column of short lines, put in or in another's
/// place, by itself and with a second one behind it.
fn forbidden_in_short_lines(lines: &mut Vec<Vec<u8>>) {
    const SHORT: [&str; 12] = [
        "",
        "; c",
        "METRIC",
        "%",
        "G90",
        "T0",
        "T00C0",
        "T1C1000",
        "X1000Y-1000",
        "X1000Yq",
        "G00X1Y1.0000000",
        "G03X6.0Y1600A1.0",
    ];
    for (line, turn) in SHORT.iter().zip(0..) {
        for at in 0..=line.len() {
            let byte = FORBIDDEN[(turn + at) % FORBIDDEN.len()];
            let mut with = line.as_bytes().to_vec();
            with.insert(at, byte);
            for (second, other) in [(at + 1, 127), (with.len(), 0), (with.len(), b'\r')] {
                let mut two = with.clone();
                two.insert(second, other);
                lines.push(two);
            }
            lines.push(with.clone());
            with[at] = b'\r';
            lines.push(with.clone());
            if at < line.len() {
                with.remove(at);
                with[at] = byte;
                lines.push(with);
            }
        }
    }
}

/// Forbidden bytes at telling columns of long lines, none of them, one or two.
fn forbidden_in_long_lines(lines: &mut Vec<Vec<u8>>) {
    const COLUMNS: [usize; 5] = [1, 2, 128, 255, 256];
    // A comment, good numbers, a bad one at the start, behind, at the end; no command.
    const FRAMES: [(&str, &str, &str); 6] = [
        (";", "c", ""),
        ("X", "0", "1Y1"),
        ("X1000Y", "0", "1"),
        ("X", "0", "Y-1000"),
        ("G02X1Y", "0", "A0"),
        ("x", "x", ""),
    ];
    for length in [MAX_LINE - 1, MAX_LINE, MAX_LINE + 1] {
        let columns: Vec<usize> = COLUMNS.into_iter().filter(|&column| column <= length).collect();
        for (start, filler, end) in FRAMES {
            let filling = filler.repeat(length - start.len() - end.len());
            let line = format!("{start}{filling}{end}").into_bytes();
            for (&first, behind) in columns.iter().zip(0..) {
                for &second in &columns[behind..] {
                    let mut with = line.clone();
                    with[second - 1] = 255;
                    with[first - 1] = 9;
                    lines.push(with);
                }
            }
            lines.push(line);
        }
    }
}

/// For every column a line that is refused there: for a byte, for the second
/// number of a hit, for the radius of an arc.
fn every_column(lines: &mut Vec<Vec<u8>>) {
    for column in 1..=MAX_LINE {
        let mut comment = vec![b'c'; MAX_LINE];
        comment[0] = b';';
        comment[column - 1] = 128;
        lines.push(comment);
        if (4..=MAX_LINE - 3).contains(&column) {
            lines.push(format!("X{}Y1000", "0".repeat(column - 3)).into_bytes());
        }
        if column >= 9 {
            lines.push(format!("G03X1Y{}A0", "0".repeat(column - 8)).into_bytes());
        }
    }
}

// ------------------------------------------------------------ half circles

/// An arc from a known point, its radius written with so many decimals.
#[derive(Clone, Copy, Debug)]
pub struct Arc {
    pub from: (i32, i32),
    pub to: (i32, i32),
    pub radius: i32,
    pub decimals: usize,
}

/// One unit of the last of so many decimals, in millionths.
pub fn place(decimals: usize) -> i32 {
    10_i32.pow(6 - decimals as u32)
}

/// How far apart the ends of an arc may be.
pub fn reach(radius: i32, decimals: usize) -> i64 {
    2 * i64::from(radius) + i64::from(place(decimals.max(3)))
}

/// The square of the distance.
fn apart(from: (i32, i32), to: (i32, i32)) -> i128 {
    let dx = i128::from(to.0) - i128::from(from.0);
    let dy = i128::from(to.1) - i128::from(from.1);
    dx * dx + dy * dy
}

/// The largest whole number whose square is at most `square`.
fn root(square: i128) -> i64 {
    let mut root = (square as f64).sqrt() as i128;
    while root * root > square {
        root -= 1;
    }
    while (root + 1) * (root + 1) <= square {
        root += 1;
    }
    root as i64
}

/// The least radius of so many decimals that reaches. It may be out of range.
fn least_radius(from: (i32, i32), to: (i32, i32), decimals: usize) -> i32 {
    let (apart, place) = (apart(from, to), place(decimals));
    // One unit more than half the distance is enough; mostly one or two less are.
    let mut units = root(apart) / 2 / i64::from(place) + 1;
    while units > 1 && i128::from(reach(units as i32 * place - place, decimals)).pow(2) >= apart {
        units -= 1;
    }
    units as i32 * place
}

impl Arc {
    /// The rule, worked out here a third time.
    pub fn is_possible(&self) -> bool {
        let apart = apart(self.from, self.to);
        apart > 0 && apart <= i128::from(reach(self.radius, self.decimals)).pow(2)
    }

    fn is_in_range(&self) -> bool {
        let (x, y) = self.to;
        [x, y].iter().all(|number| (-MAX..=MAX).contains(number))
            && (1..=MAX).contains(&self.radius)
    }

    pub fn text(&self, random: &mut Random) -> String {
        let code = random.pick(&["G02", "G03"]);
        fitting(|| {
            let radius = spell_with(self.radius, self.decimals, false, random);
            format!("{code}{}A{radius}", point(self.to.0, self.to.1, random))
        })
    }

    /// The arc's numbers in a row of its kind.
    pub fn put_into(&self, row: &mut [i32]) {
        (row[2], row[3]) = self.to;
        row[4] = self.radius;
        row[15] = self.decimals as i32;
    }
}

/// An arc about the limit, possible or only just not.
pub fn half_circle(from: (i32, i32), decimals: usize, random: &mut Random) -> Arc {
    loop {
        let arc = match random.below(2) {
            0 => rounded_half_circle(from, decimals, random),
            _ => arc_at_the_limit(from, decimals, random),
        };
        if arc.is_in_range() {
            return arc;
        }
    }
}

/// A half circle as a layout program writes it: half the distance of its ends,
/// which may be rounded themselves, rounded down, to the nearest or up; or some
/// units off.
fn rounded_half_circle(from: (i32, i32), decimals: usize, random: &mut Random) -> Arc {
    let place = place(decimals);
    let span = match random.below(4) {
        0 => place.saturating_mul(2),
        1 => place.saturating_mul(10),
        2 => place.saturating_mul(1_000),
        _ => MAX,
    }
    .min(MAX);
    let (x, y) = (near(from.0, span, random), near(from.1, span, random));
    let to = match random.below(4) {
        0 => (x, from.1),
        1 => (from.0, y),
        _ => (x, y),
    };
    let apart = apart(from, to);
    let unit = i64::from(place);
    let down = root(apart) / 2 / unit * unit;
    let is_nearer_up = i128::from(2 * down + unit).pow(2) <= apart;
    let radius = match random.below(6) {
        0 | 1 => down,
        2 => down + unit,
        3 | 4 => down + if is_nearer_up { unit } else { 0 },
        _ => down + i64::from(random.from(-2, 2)) * unit,
    };
    Arc { from, to, radius: radius.clamp(0, 1 << 30) as i32, decimals }
}

/// A coordinate at most `span` away from another, or it rounded to some place.
fn near(from: i32, span: i32, random: &mut Random) -> i32 {
    let to = from.saturating_add(random.from(-span, span));
    let place = place(random.below(7));
    match random.below(2) {
        0 => to,
        _ => to / place * place,
    }
}

/// An arc whose ends are as far apart as its radius allows, or a few millionths
/// less or more: along an axis, as in a triangle of 3, 4, 5, or anywhere between.
fn arc_at_the_limit(from: (i32, i32), decimals: usize, random: &mut Random) -> Arc {
    let place = place(decimals);
    let most = MAX / place;
    let units = match random.below(3) {
        0 => random.from(1, most.min(9)),
        1 => random.from(1, most.min(1_000)),
        _ => random.from(1, most),
    };
    let radius = units * place;
    let reach = reach(radius, decimals);
    let more = match random.below(3) {
        0 => 0,
        1 => 1,
        _ => i64::from(random.from(-3, 3)),
    };
    let (dx, dy) = match random.below(6) {
        0 => (reach + more, 0),
        1 => (0, reach + more),
        // The square is over by a few, which a double doesn't tell for large ones.
        2 => (reach, more),
        3 => (more, reach),
        4 => (reach / 5 * 3 + more, reach / 5 * 4),
        _ => {
            let dx = random.below(reach as usize + 1) as i64;
            let square = i128::from(reach).pow(2) - i128::from(dx).pow(2);
            (dx, root(square) + more)
        }
    };
    let mut end = |from: i32, more: i64| {
        let to = i64::from(from) + if random.one_in(2) { more } else { -more };
        to.clamp(i64::from(i32::MIN), i64::from(i32::MAX)) as i32
    };
    Arc { from, to: (end(from.0, dx), end(from.1, dy)), radius, decimals }
}

// ------------------------------------------------------------------- model

/// As much of the state as is needed to choose a command that is allowed, and
/// the revision that allows it.
#[derive(Clone, Debug)]
pub struct Model {
    phase: i32,
    motion: i32,
    tool: i32,
    x: i32,
    y: i32,
    declared: Vec<i32>,
    revision: Revision,
}

impl Model {
    pub fn start(revision: Revision) -> Model {
        Model { phase: 0, motion: 0, tool: 0, x: 0, y: 0, declared: Vec::new(), revision }
    }

    /// What a row says of the state after it.
    pub fn after_row(row: &[i32], revision: Revision) -> Model {
        let has = |tool: &i32| row[11 + *tool as usize / 25] >> (tool % 25) & 1 == 1;
        Model {
            phase: row[5],
            motion: row[7],
            tool: row[8],
            x: row[9],
            y: row[10],
            declared: (1..=99).filter(has).collect(),
            revision,
        }
    }

    fn point(&self) -> (i32, i32) {
        (self.x.clamp(-MAX, MAX), self.y.clamp(-MAX, MAX))
    }

    /// A place where an arc may end.
    fn end(&self, random: &mut Random) -> (i32, i32) {
        let k = random.from(1, 500_000);
        let (from_x, from_y) = self.point();
        let (x, y) = match random.below(6) {
            0 => (coordinate(random), coordinate(random)),
            1 => (-from_x, from_y),
            2 => (from_x, -from_y),
            3 => (from_x + random.from(-9, 9), from_y + random.from(-9, 9)),
            4 => (from_x + 6 * k, from_y - 8 * k),
            _ => (from_x - 2 * k, from_y),
        };
        (x.clamp(-MAX, MAX), y.clamp(-MAX, MAX))
    }

    /// An arc that this state allows, often only just.
    fn arc(&self, random: &mut Random) -> Option<Arc> {
        let decimals = random.below(7);
        let half = half_circle(self.point(), decimals, random);
        if random.one_in(2) {
            return half.is_possible().then_some(half);
        }
        let (from, to) = (self.point(), self.end(random));
        let place = place(decimals);
        let least = least_radius(from, to, decimals);
        let most = MAX / place * place;
        if from == to || least > most {
            return None;
        }
        let radius = match random.below(3) {
            0 => least,
            1 => least + random.from(0, ((most - least) / place).min(9)) * place,
            _ => least + random.from(0, (most - least) / place) * place,
        };
        Some(Arc { from, to, radius, decimals })
    }

    /// A command that this state allows; the state after it.
    pub fn allowed(&mut self, random: &mut Random) -> String {
        loop {
            let mut next = self.clone();
            let text = next.try_allowed(random);
            if text.len() <= 256 {
                *self = next;
                return text;
            }
        }
    }

    fn try_allowed(&mut self, random: &mut Random) -> String {
        if random.one_in(10) {
            return comment(random);
        }
        match self.phase {
            0 => {
                self.phase = 1;
                "M48".into()
            }
            1 => {
                self.phase = 2;
                random.pick(&["METRIC", "INCH"]).to_string()
            }
            2 => {
                let tool = tool(random);
                if self.declared.contains(&tool) {
                    return comment(random);
                }
                self.declared.push(tool);
                let diameter = size(random);
                declare(tool, diameter, self.revision, random)
            }
            3 if self.motion == 3 => self.rout(random),
            3 => self.move_or_hit(random),
            _ => any_command(random),
        }
    }

    fn rout(&mut self, random: &mut Random) -> String {
        match (random.below(5), self.arc(random)) {
            (0, _) => {
                self.motion = 2;
                "M16".into()
            }
            (1..=3, Some(arc)) => {
                (self.x, self.y) = arc.to;
                arc.text(random)
            }
            _ => {
                (self.x, self.y) = (coordinate(random), coordinate(random));
                line_to((self.x, self.y), random)
            }
        }
    }

    fn move_or_hit(&mut self, random: &mut Random) -> String {
        let (x, y) = (coordinate(random), coordinate(random));
        match random.below(8) {
            0 => {
                self.motion = 1;
                (self.x, self.y) = (0, 0);
                "G05".into()
            }
            1 => {
                self.motion = 2;
                (self.x, self.y) = (x, y);
                format!("G00{}", point(x, y, random))
            }
            2 | 3 if !self.declared.is_empty() => {
                self.tool = *random.pick(&self.declared);
                select(self.tool, random)
            }
            _ if self.tool != 0 && self.motion == 1 => point(x, y, random),
            _ if self.tool != 0 && self.motion == 2 => {
                self.motion = 3;
                "M15".into()
            }
            _ => comment(random),
        }
    }

    /// A command of a row's kind with other numbers, the other unit, or a line in the
    /// place of an arc, which reaches from anywhere; a comment where there is no other.
    fn same_kind(&self, row: &[i32], random: &mut Random) -> String {
        let (x, y) = (coordinate(random), coordinate(random));
        match row[0] {
            2 => "INCH".into(),
            3 => "METRIC".into(),
            4 => {
                let diameter = size(random);
                fitting(|| declare(row[1], diameter, self.revision, random))
            }
            7 => fitting(|| format!("G00{}", point(x, y, random))),
            8 => select(*random.pick(&self.declared), random),
            9 => fitting(|| point(x, y, random)),
            12 => line_to((x, y), random),
            13 | 14 => match self.arc(random) {
                Some(arc) if random.one_in(2) => arc.text(random),
                _ => line_to((row[2], row[3]), random),
            },
            _ => comment(random),
        }
    }

    /// An arc that this state refuses, mostly only just.
    pub fn refused_arc(&self, random: &mut Random) -> String {
        let from = self.point();
        if random.one_in(4) {
            let (radius, decimals) = (random.from(1, 999) * 1_000_000, random.below(7));
            return Arc { from, to: from, radius, decimals }.text(random);
        }
        loop {
            let decimals = random.below(7);
            let half = half_circle(from, decimals, random);
            if !half.is_possible() {
                return half.text(random);
            }
        }
    }
}

/// What a table says of the state before a line.
pub fn model_before(table: &[i32], line: usize, revision: Revision) -> Model {
    match line {
        0 | 1 => Model::start(revision),
        _ => Model::after_row(row_of(table, line - 1), revision),
    }
}

/// The row of a line, which counts from 1.
pub fn row_of(table: &[i32], line: usize) -> &[i32] {
    &table[(line - 1) * ROW..line * ROW]
}

/// A text for one line, the state before it known: mostly allowed there,
/// else refused there, odd, damaged, or holding bytes that no line may.
pub fn text_for(before: &Model, random: &mut Random) -> Vec<u8> {
    let mut text = match random.below(10) {
        0..=3 => before.clone().allowed(random).into_bytes(),
        4..=5 => any_command(random).into_bytes(),
        6 => before.refused_arc(random).into_bytes(),
        7 => odd_line(random),
        8 => comment(random).into_bytes(),
        _ if before.declared.is_empty() => b"T01".to_vec(),
        _ => {
            let tool = *random.pick(&before.declared);
            select(tool, random).into_bytes()
        }
    };
    if random.one_in(12) {
        worsen_number(&mut text, random);
    }
    if random.one_in(8) {
        change_bytes(&mut text, random);
    }
    text
}

// ------------------------------------------------------------ pairs of edits

/// A line of a table and a new text for it.
pub struct Change {
    pub line: usize,
    pub text: Vec<u8>,
}

/// Changes of two different lines of a good table, the earlier line first: of any two,
/// of the unit's and any other, of a line and one that leans on it; or a tool that the
/// table doesn't have, declared by the one and selected by the other.
pub fn two_changes(table: &[i32], revision: Revision, random: &mut Random) -> [Change; 2] {
    let changes = match random.below(6) {
        0 => new_tool(table, revision, random),
        1 | 2 => leaning_changes(table, revision, random),
        3 => unit_and_any(table, revision, random),
        _ => None,
    };
    changes.unwrap_or_else(|| {
        let later = 2 + random.below(table.len() / ROW - 1);
        let earlier = 1 + random.below(later - 1);
        [earlier, later].map(|line| any_change(table, line, revision, random))
    })
}

/// A change of a line of a good table: its kind with other numbers, a comment, or any.
fn any_change(table: &[i32], line: usize, revision: Revision, random: &mut Random) -> Change {
    let before = model_before(table, line, revision);
    let text = match random.below(4) {
        0 | 1 => before.same_kind(row_of(table, line), random).into_bytes(),
        2 => comment(random).into_bytes(),
        _ => text_for(&before, random),
    };
    Change { line, text }
}

/// A line whose row is as asked for.
fn any_line(
    table: &[i32],
    is_asked: impl Fn(&[i32]) -> bool,
    random: &mut Random,
) -> Option<usize> {
    let asked = |line: &usize| is_asked(row_of(table, *line));
    let lines: Vec<usize> = (1..=table.len() / ROW).filter(asked).collect();
    (!lines.is_empty()).then(|| *random.pick(&lines))
}

/// The other unit, which reaches to the last line, and a change of any line behind it.
fn unit_and_any(table: &[i32], revision: Revision, random: &mut Random) -> Option<[Change; 2]> {
    let line = any_line(table, |row| matches!(row[0], 2 | 3), random)?;
    let other: &[u8] = if row_of(table, line)[0] == 2 { b"INCH" } else { b"METRIC" };
    let later = line + 1 + random.below(table.len() / ROW - line);
    let change = any_change(table, later, revision, random);
    Some([Change { line, text: other.to_vec() }, change])
}

/// A change of a line and of one that leans on it, often to a text that doesn't, so that
/// the earlier can only go after the later.
fn leaning_changes(table: &[i32], revision: Revision, random: &mut Random) -> Option<[Change; 2]> {
    let (earlier, line) = leaning_lines(table, random)?;
    let earlier = any_change(table, earlier, revision, random);
    let later = match row_of(table, line) {
        _ if random.one_in(3) => any_change(table, line, revision, random),
        &[13 | 14, _, x, y, ..] => Change { line, text: line_to((x, y), random).into_bytes() },
        _ => Change { line, text: comment(random).into_bytes() },
    };
    Some([earlier, later])
}

/// A line and one that leans on it: a selection on its declaration; a hit, an `M15` or
/// a rout on the line that selected its tool or set its motion; a rout on the one that
/// gave its start.
fn leaning_lines(table: &[i32], random: &mut Random) -> Option<(usize, usize)> {
    let later = any_line(table, |row| matches!(row[0], 8..=10 | 12..=14), random)?;
    let row = row_of(table, later);
    let giving: &[i32] = match row[0] {
        8 => &[4],
        9 => *random.pick(&[&[6][..], &[8]]),
        10 => *random.pick(&[&[7][..], &[8]]),
        _ => *random.pick(&[&[8][..], &[10], &[7, 12, 13, 14], &[7, 12, 13, 14]]),
    };
    let gives = |other: &[i32]| giving.contains(&other[0]) && (row[0] != 8 || other[1] == row[1]);
    let earlier = (1..later).rev().find(|&line| gives(row_of(table, line)))?;
    Some((earlier, later))
}

/// A tool that no line declares: its declaration and its selection, each in the place
/// of another or of a comment.
fn new_tool(table: &[i32], revision: Revision, random: &mut Random) -> Option<[Change; 2]> {
    let tool = tool(random);
    if model_before(table, table.len() / ROW + 1, revision).declared.contains(&tool) {
        return None;
    }
    let earlier = any_line(table, |row| row[5] == 2 && matches!(row[0], 0 | 4), random)?;
    let is_free = |row: &[i32]| row[5] == 3 && row[7] != 3 && matches!(row[0], 0 | 8);
    let later = any_line(table, is_free, random)?;
    let diameter = size(random);
    let declared = fitting(|| declare(tool, diameter, revision, random)).into_bytes();
    let selected = select(tool, random).into_bytes();
    Some([Change { line: earlier, text: declared }, Change { line: later, text: selected }])
}

// ------------------------------------------------------------------- files

/// A file's lines and their ends, and the revision it is made for.
#[derive(Clone)]
pub struct File {
    pub lines: Vec<Vec<u8>>,
    pub ends: Vec<&'static [u8]>,
    pub revision: Revision,
}

impl File {
    pub fn bytes(&self) -> Vec<u8> {
        let mut bytes = Vec::new();
        for (line, end) in self.lines.iter().zip(&self.ends) {
            bytes.extend_from_slice(line);
            bytes.extend_from_slice(end);
        }
        bytes
    }

    fn insert(&mut self, at: usize, text: Vec<u8>) {
        self.lines.insert(at, text);
        self.ends.insert(at, b"\n");
    }
}

/// A file that must be accepted by its revision, of some `lines` lines.
pub fn valid_file(lines: usize, random: &mut Random) -> File {
    let mut texts: Vec<String> = Vec::new();
    let revision = revision(random);
    let mut model = Model::start(revision);
    let header = match random.below(20) {
        0 => 0,
        1 => 120,
        _ => random.below(8),
    };
    while model.phase < 2 {
        texts.push(model.allowed(random));
    }
    for _ in 0..header {
        texts.push(model.allowed(random));
    }
    if header == 120 {
        // Every tool there is.
        for tool in 1..=99 {
            if !model.declared.contains(&tool) {
                model.declared.push(tool);
                texts.push(declare(tool, tool * 10_001, revision, random));
            }
        }
    }
    texts.push("%".into());
    model.phase = 3;
    while texts.len() + 2 < lines {
        texts.push(model.allowed(random));
    }
    if model.motion == 3 {
        texts.push("M16".into());
    }
    texts.push("M30".into());

    let ends = line_ends(texts.len(), random);
    File { lines: texts.into_iter().map(String::into_bytes).collect(), ends, revision }
}

/// A file of half circles, each from the end of the one before; the lines of those
/// that are looked at; and the line of the first that is impossible.
pub struct HalfCircles {
    pub file: File,
    pub arcs: Vec<(usize, Arc)>,
    pub refused: Option<usize>,
}

pub fn half_circles(random: &mut Random) -> HalfCircles {
    let revision = revision(random);
    let mut model = Model::start(revision);
    (model.x, model.y) = (coordinate(random), coordinate(random));
    let start = fitting(|| format!("G00{}", point(model.x, model.y, random)));
    let mut texts: Vec<String> =
        ["M48", "INCH", "T01C1", "%", "T1", &start, "M15"].map(String::from).into();
    let mut arcs = Vec::new();
    let mut refused = None;
    for _ in 0..1 + random.below(12) {
        let decimals = random.below(7);
        let arc = half_circle(model.point(), decimals, random);
        // Most that are impossible are left out, or hardly a file would be accepted.
        if !arc.is_possible() && !random.one_in(6) {
            continue;
        }
        (model.x, model.y) = arc.to;
        texts.push(arc.text(random));
        if refused.is_none() {
            arcs.push((texts.len(), arc));
            refused = (!arc.is_possible()).then_some(texts.len());
        }
        if random.one_in(4) {
            texts.push(comment(random));
        }
    }
    texts.extend(["M16".into(), "M30".into()]);
    let ends = line_ends(texts.len(), random);
    let lines = texts.into_iter().map(String::into_bytes).collect();
    HalfCircles { file: File { lines, ends, revision }, arcs, refused }
}

/// Ends for so many lines: all with a CR, some, or none.
fn line_ends(lines: usize, random: &mut Random) -> Vec<&'static [u8]> {
    let style = random.below(4);
    let end = |_| match style {
        0 => &b"\r\n"[..],
        1 if random.one_in(2) => b"\r\n",
        _ => b"\n",
    };
    (0..lines).map(end).collect()
}

// ------------------------------------------------------------------ damage

/// One to three single bytes changed, put in or taken out.
pub fn change_bytes(text: &mut Vec<u8>, random: &mut Random) {
    const TELLING: &[u8] = b"0123456789+-.;XYATCGM% \r\n\t\0\x1f\x7f\x80\xff~x";
    for _ in 0..1 + random.below(3) {
        let at = random.below(text.len() + 1);
        let byte = match random.below(3) {
            0 => random.next() as u8,
            _ => *random.pick(TELLING),
        };
        match random.below(3) {
            0 => text.insert(at, byte),
            1 if at < text.len() => text[at] = byte,
            _ if at < text.len() => {
                text.remove(at);
            }
            _ => {}
        }
    }
}

/// The file with its lines shifted, or with one of them damaged.
fn change_lines(file: &mut File, random: &mut Random) {
    let count = file.lines.len();
    if count == 0 {
        return;
    }
    let at = random.below(count);
    let other = random.below(count);
    match random.below(14) {
        0 => file.lines.swap(at, other),
        1 => {
            file.lines.remove(at);
            file.ends.remove(at);
        }
        2 => file.insert(at, file.lines[at].clone()),
        3 => file.insert(at, file.lines[other].clone()),
        4 => file.insert(at, any_command(random).into_bytes()),
        5 => file.insert(at, odd_line(random)),
        6 => {
            file.ends[at] =
                *random.pick(&[&b""[..], b"\r", b"\r\r\n", b"\n\r", b"\n\n", b"\r\n\r\n"])
        }
        7 => {
            // Something after the end.
            let text = match random.below(3) {
                0 => Vec::new(),
                1 => comment(random).into_bytes(),
                _ => any_command(random).into_bytes(),
            };
            file.insert(count, text);
        }
        _ => damage_line(&mut file.lines[at], random),
    }
}

/// The line replaced, or some of it made bad.
fn damage_line(line: &mut Vec<u8>, random: &mut Random) {
    match random.below(6) {
        0 => *line = any_command(random).into_bytes(),
        1 => *line = odd_line(random),
        2 => change_bytes(line, random),
        3 => {
            // A forbidden byte in the line.
            let byte = *random.pick(&FORBIDDEN);
            line.insert(random.below(line.len() + 1), byte);
        }
        4 => lengthen(line, random),
        _ => {
            worsen_number(line, random);
            if random.one_in(4) {
                change_bytes(line, random);
            }
        }
    }
}

/// The line made long, at its first digit or at its end: 256 bytes, 257, or more.
fn lengthen(line: &mut Vec<u8>, random: &mut Random) {
    let length = *random.pick(&[255, 256, 256, 257, 257, 258, 400]);
    let byte = *random.pick(b"00 x\0");
    let place = match line.iter().position(|byte| byte.is_ascii_digit()) {
        Some(place) if random.one_in(2) => place,
        _ => line.len(),
    };
    while line.len() < length {
        line.insert(place, byte);
    }
}

/// Numbers that are bad, and some that just pass.
const BAD: [&str; 28] = [
    "1000",
    "-1000",
    "999.9999999",
    "1.0000000",
    "0.0000000",
    "0",
    "-0",
    "+1",
    "-1",
    ".",
    "",
    "-",
    "+",
    "1.2.3",
    "1e3",
    "1000000000",
    "4294967296",
    "4294967297",
    "18446744073709551617",
    "999.999999",
    "-999.999999",
    "00000000000000000001",
    "0.0000001",
    "1,5",
    "2.",
    "2.500",
    ".0000010",
    ".000001",
];

/// One number of the line replaced by a bad one, or by one that just passes.
fn worsen_number(line: &mut Vec<u8>, random: &mut Random) {
    let letters: Vec<usize> = (0..line.len()).filter(|&at| b"XYACT".contains(&line[at])).collect();
    if letters.is_empty() {
        return;
    }
    let start = *random.pick(&letters) + 1;
    let is_number = |byte: &&u8| b"0123456789+-.".contains(byte);
    let end = start + line[start..].iter().take_while(is_number).count();
    line.splice(start..end, random.pick(&BAD).bytes());
}

/// The bytes of a damaged copy of `file`.
pub fn damaged(file: &File, random: &mut Random) -> Vec<u8> {
    let mut file = file.clone();
    if random.one_in(3) {
        let mut bytes = file.bytes();
        change_bytes(&mut bytes, random);
        return bytes;
    }
    if random.one_in(10) {
        // Cut short anywhere, or only the last LF missing.
        let mut bytes = file.bytes();
        let length = match random.below(3) {
            0 => bytes.len().saturating_sub(1),
            1 => bytes.len().saturating_sub(2),
            _ => random.below(bytes.len() + 1),
        };
        bytes.truncate(length);
        return bytes;
    }
    if random.one_in(8) {
        refuse_an_arc(&mut file, random);
    }
    for _ in 0..1 + random.below(3) {
        change_lines(&mut file, random);
    }
    file.bytes()
}

/// An impossible arc put in front of an `M16`.
fn refuse_an_arc(file: &mut File, random: &mut Random) {
    if let Some(at) = file.lines.iter().position(|line| line == b"M16") {
        let mut model = Model::start(file.revision);
        (model.x, model.y) = (coordinate(random), coordinate(random));
        let from = line_to(model.point(), random);
        file.insert(at, model.refused_arc(random).into_bytes());
        file.insert(at, from.into_bytes());
    }
}

/// A file of exactly `bytes` bytes, accepted but for its size.
pub fn file_of_bytes(bytes: usize) -> Vec<u8> {
    let (head, tail) = (b"M48\nINCH\n%\n", b"M30\n");
    let mut file = head.to_vec();
    let mut left = bytes - head.len() - tail.len();
    while left > 0 {
        // 257 at a time, and never a single byte left over.
        let length = if left == 258 { 256 } else { left.min(257) };
        file.push(b';');
        file.resize(file.len() + length - 2, b'c');
        file.push(b'\n');
        left -= length;
    }
    file.extend_from_slice(tail);
    file
}

/// A file of exactly `lines` lines, accepted but for their count.
pub fn file_of_lines(lines: usize, random: &mut Random) -> File {
    let mut file = valid_file(lines.saturating_sub(130), random);
    // Comments in front of the last line.
    while file.lines.len() < lines {
        file.insert(file.lines.len() - 1, b";".to_vec());
    }
    file
}

// ------------------------------------------------------------------ tables

/// Numbers about the edges of all fields of a row.
pub const TABLE_EDGES: [i32; 34] = [
    -1,
    0,
    1,
    2,
    3,
    4,
    5,
    6,
    7,
    8,
    9,
    10,
    11,
    12,
    13,
    14,
    15,
    16,
    24,
    25,
    99,
    100,
    101,
    MAX_WORD - 1,
    MAX_WORD,
    MAX_WORD + 1,
    MAX,
    MAX + 1,
    -MAX,
    -MAX - 1,
    1_000_000,
    i32::MIN,
    i32::MAX,
    256,
];

/// The numbers of a legal command of each kind; of an arc with each of several radii.
pub fn legal_commands() -> Vec<[i32; 5]> {
    const RADII: [i32; 10] = [
        1,
        2_000_000,
        2_100_000,
        2_010_000,
        2_001_000,
        2_000_100,
        2_000_010,
        2_000_001,
        999_000_000,
        MAX,
    ];
    let (x, y) = (6_000_000, 2_000_000);
    let mut commands: Vec<[i32; 5]> =
        [0, 1, 2, 3, 5, 6, 10, 11, 15].map(|kind| [kind, 0, 0, 0, 0]).into();
    commands.extend([[4, 1, 0, 0, 500_000], [8, 1, 0, 0, 0]]);
    commands.extend([7, 9, 12].map(|kind| [kind, 0, x, y, 0]));
    for radius in RADII {
        commands.extend([13, 14].map(|kind| [kind, 0, x, y, radius]));
    }
    commands
}

fn table_number(now: i32, random: &mut Random) -> i32 {
    match random.below(6) {
        0..=2 => *random.pick(&TABLE_EDGES),
        3 => now.wrapping_add(*random.pick(&[1, -1, 2, 1_000_000])),
        4 => now ^ (1 << random.below(32)),
        _ => random.next() as i32,
    }
}

/// One number of row `row` (from 0) changed, often one of its state.
pub fn spoil_row(table: &mut [i32], row: usize, random: &mut Random) {
    let field = random.below(ROW);
    let number = &mut table[row * ROW + field];
    *number = table_number(*number, random);
}

/// Decimals for a radius: mostly as many as it needs, or more.
fn loose_decimals(radius: i32, random: &mut Random) -> i32 {
    match random.below(12) {
        0 => random.from(-1, 7),
        _ => random.from(needed(radius) as i32, 6),
    }
}

/// A row within all ranges, its state not following from anything, but from
/// few enough values that states often agree.
pub fn loose_row(random: &mut Random) -> [i32; ROW] {
    let mut row = [0; ROW];
    row[0] = match random.below(4) {
        0 => random.from(0, 15),
        1 => *random.pick(&[0, 6, 8, 9]),
        _ => *random.pick(&[7, 9, 10, 11, 12, 12, 13, 14, 15]),
    };
    let place = |random: &mut Random| match random.below(8) {
        0 => coordinate(random),
        _ => random.from(-1, 1) * 1_000_000,
    };
    match row[0] {
        4 | 8 => row[1] = if random.one_in(3) { tool(random) } else { random.from(1, 2) },
        7 | 9 | 12..=14 => {
            row[2] = place(random);
            row[3] = place(random);
        }
        _ => {}
    }
    if matches!(row[0], 4 | 13 | 14) {
        row[4] = size(random);
    }
    if matches!(row[0], 13 | 14) {
        row[15] = loose_decimals(row[4], random);
    }
    row[5] = if random.one_in(6) { random.from(0, 4) } else { 3 };
    row[6] = if random.one_in(6) { random.from(0, 2) } else { 1 };
    row[7] = if random.one_in(3) { random.from(0, 3) } else { 3 };
    row[8] = if random.one_in(6) { random.from(0, 99) } else { random.from(0, 1) };
    row[9] = place(random);
    row[10] = place(random);
    row[11] = if random.one_in(6) { random.from(0, MAX_WORD) & !1 } else { 6 };
    for word in &mut row[12..15] {
        *word = if random.one_in(12) { random.from(0, MAX_WORD) } else { 0 };
    }
    row
}

/// `rows` rows within their ranges, otherwise loose, or plain noise.
pub fn loose_table(rows: usize, random: &mut Random) -> Vec<i32> {
    let mut table = Vec::with_capacity(rows * ROW);
    if random.one_in(10) {
        table.extend((0..rows * ROW).map(|_| random.next() as i32));
        return table;
    }
    for row in 0..rows {
        let mut numbers = loose_row(random);
        // Often the point of the row before, and the state of this one by rule.
        if row > 0 && random.one_in(2) {
            let before = &table[(row - 1) * ROW + 5..row * ROW - 1];
            numbers[5..15].copy_from_slice(before);
            if matches!(numbers[0], 13 | 14) && random.one_in(2) {
                let (from, decimals) = ((numbers[9], numbers[10]), random.below(7));
                half_circle(from, decimals, random).put_into(&mut numbers);
            }
            if matches!(numbers[0], 7 | 12 | 13 | 14) {
                (numbers[9], numbers[10]) = (numbers[2], numbers[3]);
            }
        }
        table.extend_from_slice(&numbers);
    }
    table
}
