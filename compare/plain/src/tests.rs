use super::Revision::{Rev2019, Rev2021};
use super::*;

const BENCH: &str = "M48\nMETRIC\nT01C0.5\nT07C1.25\n%\nG05\nT1\nX2Y-3.5\nT07\nG00X0Y0\nM15\n\
                     G01X4Y0\nG03X6Y2A2\nM16\nM30\n";
const BENCH_LINES: usize = 15;

const PATTERN: i32 = -77;

const BOTH: [Revision; 2] = [Rev2019, Rev2021];

/// What stands in a block of counts before a reading.
const UNUSED: u32 = 123_456_789;

/// The counts of a table's rows, each asked for its hole by itself.
fn counted(table: &[i32], n: usize) -> Vec<u32> {
    let mut counts = vec![0; COUNTS];
    for row in table.chunks_exact(ROW).take(n) {
        let mut found = [0; HOLE];
        if hole(row, 1, 1, &mut found) == (0, 1, 0) && found[1] != 0 {
            let first = if found[0] == 9 { 0 } else { 99 };
            counts[first + found[1] as usize - 1] += 1;
        }
    }
    counts
}

/// Reads, with counts that must be the table's own where the file is accepted.
fn read(file: &[u8], revision: Revision, table: &mut [i32]) -> Answer {
    let mut counts = vec![UNUSED; COUNTS + 2];
    let answer = super::read(file, revision, table, &mut counts);
    let mut expected = match answer {
        (0, n, _) => counted(table, n as usize),
        _ => vec![UNUSED; COUNTS],
    };
    expected.extend([UNUSED; 2]);
    assert_eq!(counts, expected);
    answer
}

/// Edits with the table's own counts, which must be so again afterwards.
fn edit(table: &mut [i32], n: usize, line: usize, text: &[u8], revision: Revision) -> Answer {
    let mut counts = counted(table, n);
    counts.extend([UNUSED; 2]);
    let answer = super::edit(table, n, line, text, revision, &mut counts);
    let mut expected = counted(table, n);
    expected.extend([UNUSED; 2]);
    assert_eq!(counts, expected);
    answer
}

fn verdict(file: &[u8]) -> Answer {
    verdict_by(Rev2021, file)
}

fn verdict_by(revision: Revision, file: &[u8]) -> Answer {
    let mut table = vec![PATTERN; ROW * (MAX_LINES + 1)];
    let answer = read(file, revision, &mut table);
    let untouched = if answer.0 == 0 { answer.1 as usize * ROW } else { 0 };
    assert!(table[untouched..].iter().all(|&number| number == PATTERN));
    answer
}

/// The verdict on one body line, at line 7 of a file that is ended by M30.
fn body(line: &str) -> Answer {
    body_by(Rev2021, line)
}

fn body_by(revision: Revision, line: &str) -> Answer {
    let file = format!("M48\nMETRIC\nT01C1\n%\nT01\nG05\n{line}\nM30\n");
    verdict_by(revision, file.as_bytes())
}

/// The verdict on one routing line, at line 8, with the tool down at 0, 0: the same by both
/// revisions.
fn rout(line: &str) -> Answer {
    let file = format!("M48\nMETRIC\nT01C1\n%\nT01\nG00X0Y0\nM15\n{line}\nM16\nM30\n");
    let [by_2019, by_2021] = BOTH.map(|revision| verdict_by(revision, file.as_bytes()));
    assert_eq!(by_2019, by_2021, "{line}");
    by_2021
}

/// The verdict on one header line, at line 3.
fn header(line: &str) -> Answer {
    header_by(Rev2021, line)
}

fn header_by(revision: Revision, line: &str) -> Answer {
    verdict_by(revision, format!("M48\nINCH\n{line}\n%\nM30\n").as_bytes())
}

fn table_of(file: &str) -> Vec<i32> {
    table_by(Rev2021, file)
}

fn table_by(revision: Revision, file: &str) -> Vec<i32> {
    let mut table = vec![0; ROW * file.lines().count()];
    assert_eq!(read(file.as_bytes(), revision, &mut table), (0, file.lines().count() as u32, 0));
    table
}

fn bench() -> Vec<i32> {
    table_of(BENCH)
}

/// The row of a line.
fn row(table: &[i32], line: usize) -> &[i32] {
    &table[(line - 1) * ROW..line * ROW]
}

fn replaced(line: usize, text: &str) -> String {
    let mut lines: Vec<&str> = BENCH.lines().collect();
    lines[line - 1] = text;
    lines.join("\n") + "\n"
}

/// Edits the bench file's table and holds the result against a fresh reading
/// of the edited file, with numbers beyond the table lent as well.
fn edited(line: usize, text: &str) -> Answer {
    edited_by(Rev2021, line, text)
}

fn edited_by(revision: Revision, line: usize, text: &str) -> Answer {
    let mut table = bench();
    table.extend([PATTERN; 20]);
    let mut fresh = table.clone();
    let before = table.clone();
    let answer = edit(&mut table, BENCH_LINES, line, text.as_bytes(), revision);
    let read_answer = read(replaced(line, text).as_bytes(), revision, &mut fresh);
    assert_eq!(table, fresh);
    if answer.0 != 0 {
        assert_eq!(answer, read_answer);
        assert_eq!(table, before);
        return answer;
    }
    assert_eq!(read_answer, (0, BENCH_LINES as u32, 0));
    let meeting = (line..=BENCH_LINES)
        .find(|&at| row(&table, at)[STATE] == row(&before, at)[STATE])
        .unwrap_or(BENCH_LINES);
    assert_eq!(answer.1 as usize, meeting);
    assert_eq!(table[..(line - 1) * ROW], before[..(line - 1) * ROW]);
    assert_eq!(table[meeting * ROW..], before[meeting * ROW..]);
    answer
}

// ------------------------------------------------------------- bench file

#[test]
fn bench_file_prints_as_the_paper_shows() {
    let expected = "unit\tMETRIC\n\
                    tool\t1\t500000\n\
                    tool\t7\t1250000\n\
                    8\tH\t1\t2000000\t-3500000\t2000000\t-3500000\t0\n\
                    12\tL\t7\t0\t0\t4000000\t0\t0\n\
                    13\tA\t7\t4000000\t0\t6000000\t2000000\t2000000\n\
                    holes\t3\n";
    assert_eq!(String::from_utf8(print(BENCH.as_bytes(), Rev2021)).unwrap(), expected);
}

#[test]
fn bench_file_reads_to_its_rows() {
    let table = bench();
    let word = (1 << 1) | (1 << 7);
    assert_eq!(row(&table, 1), [1, 0, 0, 0, 0, 1, 0, 0, 0, 0, 0, 0, 0, 0, 0, 0]);
    assert_eq!(row(&table, 3), [4, 1, 0, 0, 500_000, 2, 1, 0, 0, 0, 0, 2, 0, 0, 0, 0]);
    assert_eq!(
        row(&table, 8),
        [9, 0, 2_000_000, -3_500_000, 0, 3, 1, 1, 1, 0, 0, word, 0, 0, 0, 0]
    );
    assert_eq!(
        row(&table, 13),
        [
            14, 0, 6_000_000, 2_000_000, 2_000_000, 3, 1, 3, 7, 6_000_000, 2_000_000, word, 0, 0,
            0, 0
        ]
    );
    assert_eq!(
        row(&table, 15),
        [15, 0, 0, 0, 0, 4, 1, 2, 7, 6_000_000, 2_000_000, word, 0, 0, 0, 0]
    );
}

#[test]
fn bench_file_is_written_with_two_digit_tools() {
    let expected = BENCH.replace("\nT1\n", "\nT01\n");
    let mut text = vec![b'~'; expected.len() + 3];
    assert_eq!(write(&bench(), BENCH_LINES, &mut text), (0, expected.len() as u32, 0));
    assert_eq!(text, (expected + "~~~").into_bytes());
}

#[test]
fn edits_a_to_l() {
    let cases: [(char, usize, &str, Answer); 12] = [
        ('a', 3, "T01C0.6", (0, 3, 0)),
        ('b', 3, "T02C0.5", (10, 7, 0)),
        ('c', 2, "INCH", (0, 15, 0)),
        ('d', 6, ";", (12, 8, 0)),
        ('e', 8, "X2Y3", (0, 8, 0)),
        ('f', 9, ";", (0, 15, 0)),
        ('g', 12, "G01X4Y1", (0, 13, 0)),
        ('h', 13, "G03X8Y0A2", (0, 15, 0)),
        ('i', 13, "G03X8Y0A1.9", (13, 13, 0)),
        ('j', 15, ";", (14, 16, 0)),
        ('k', 11, "M30", (8, 12, 0)),
        ('l', 12, "G01X4Y0", (0, 12, 0)),
    ];
    for (case, line, text, expected) in cases {
        for revision in BOTH {
            assert_eq!(edited_by(revision, line, text), expected, "case {case}, {revision:?}");
        }
    }
}

#[test]
fn case_f_routs_with_tool_1() {
    let mut table = bench();
    assert_eq!(edit(&mut table, BENCH_LINES, 9, b";", Rev2021), (0, 15, 0));
    let mut found = [0; 7];
    assert_eq!(hole(&table, BENCH_LINES, 12, &mut found), (0, 1, 0));
    assert_eq!(found, [12, 1, 0, 0, 4_000_000, 0, 0]);
    assert_eq!(hole(&table, BENCH_LINES, 13, &mut found), (0, 1, 0));
    assert_eq!(found, [14, 1, 4_000_000, 0, 6_000_000, 2_000_000, 2_000_000]);
}

// ---------------------------------------------------------- run-only cases

#[test]
fn empty_file_ends_before_line_1() {
    assert_eq!(verdict(b""), (14, 1, 0));
}

#[test]
fn largest_number_is_read_and_the_next_refused() {
    assert_eq!(body("X999.999999Y-999.999999").0, 0);
    assert_eq!(body("X1000Y0"), (7, 7, 2));
    assert_eq!(body("X0Y-1000"), (7, 7, 4));
    assert_eq!(body("X1.0000000Y0"), (7, 7, 2));
}

#[test]
fn tool_numbers() {
    assert_eq!(header("T1C0.6"), (5, 3, 0));
    assert_eq!(body("T00"), (7, 7, 2));
    assert_eq!(body("T0"), (7, 7, 2));
    assert_eq!(header("T00C1"), (7, 3, 2));
    assert_eq!(header("T0C1"), (5, 3, 0));
    assert_eq!(body("T100"), (5, 7, 0));
    assert_eq!(body("T001"), (5, 7, 0));
    assert_eq!(header("T100C1"), (5, 3, 0));
    assert_eq!(header("T00C"), (5, 3, 0));
}

#[test]
fn comment_of_255_is_read_and_of_256_refused() {
    let comment = |length| format!(";{}", "c".repeat(length));
    assert_eq!(body(&comment(255)).0, 0);
    assert_eq!(body(&comment(256)), (6, 7, 0));
    assert_eq!(body(&(comment(255) + "\r")).0, 0);
    assert_eq!(body(&(comment(255) + "\r\r")), (6, 7, 0));
}

/// Section 2.8's example.
const EXAMPLE: &str =
    "M48\nMETRIC\nT01C0.6\nT02C0.7\nT03C0.8\nT04C1.0\n%\nG05\nT01\nX9.01Y3.3375\n\
    X9.01Y4.3125\nT02\nX8.01Y4.8\nX8.01Y2.85\nX6.54Y2.85\nX6.45Y4.8\nT03\nG00X8.01Y3.825\nM15\n\
    G01X6.54Y3.825\nM16\nT04\nG00X5.0Y2.6\nM15\nG03X6.0Y1.6A1.0\nG01X11.0Y1.6\nG01X11.0Y5.0\n\
    G03X10.0Y6.0A1.0\nG01X5.0Y6.0\nG01X5.0Y2.6\nM16\nG05\nT03\nX8.0Y8.0\nM30\n";

/// Section 4.2's example, with the lines left out in it left out.
const ATTRIBUTES: &str = "M48\n; #@! TF.FileFunction,Plated,1,4,PTH\n\
    ; #@! TF.CreationDate,2018-11-23T15:59:51+01:00\n\
    ; #@! TF.GenerationSoftware,Ucamco,UcamX,2017.04\nMETRIC\n; #@! TA.AperFunction,ViaDrill\n\
    T01C0.300\n; #@! TA.AperFunction,ComponentDrill\nT02C0.900\nT03C1.000\n%\nG05\nT01\n\
    X008.150Y012.050\nX007.550Y013.100\nX103.950Y112.700\nT02\nX030.790Y078.415\n\
    X030.790Y080.955\nX046.030Y078.415\nT03\nX107.300Y043.490\nX107.300Y040.950\n\
    X109.840Y089.210\nM30\n";

#[test]
fn example_files_are_read() {
    let printed = String::from_utf8(print(EXAMPLE.as_bytes(), Rev2021)).unwrap();
    assert!(printed.starts_with("unit\tMETRIC\ntool\t1\t600000\ntool\t2\t700000\n"));
    assert!(printed.contains("\n20\tL\t3\t8010000\t3825000\t6540000\t3825000\t0\n"));
    assert!(printed.contains("\n25\tA\t4\t5000000\t2600000\t6000000\t1600000\t1000000\n"));
    assert!(printed.ends_with("\n34\tH\t3\t8000000\t8000000\t8000000\t8000000\t0\nholes\t14\n"));

    let printed = String::from_utf8(print(ATTRIBUTES.as_bytes(), Rev2021)).unwrap();
    assert!(printed.contains("\n14\tH\t1\t8150000\t12050000\t8150000\t12050000\t0\n"));
    assert!(printed.ends_with("holes\t9\n"));
}

// ---------------------------------------------------------------- refusals

#[test]
fn reading_refuses_by_file_and_line_sizes() {
    // 255 comments of 257 bytes with their LF, then one line up to the limit.
    let mut file = b"M48\nMETRIC\n%\nM30\n".to_vec();
    let body = 13;
    while file.len() < MAX_FILE {
        let length = (MAX_FILE - file.len() - 2).min(255);
        file.splice(body..body, format!(";{}\n", "x".repeat(length)).into_bytes());
    }
    assert_eq!(file.len(), MAX_FILE);
    assert_eq!(verdict(&file).0, 0);
    file.push(b'\n');
    assert_eq!(verdict(&file), (1, 0, 0));
    assert_eq!(print(&file, Rev2021), b"refused\t1\t0\t0\n");

    let lines = |comments: usize| format!("M48\nMETRIC\n%\n{}M30\n", ";\n".repeat(comments));
    assert_eq!(verdict(lines(996).as_bytes()), (0, 1_000, 0));
    assert_eq!(verdict(lines(997).as_bytes()), (2, 1_001, 0));
    assert_eq!(verdict((lines(996) + "?").as_bytes()), (2, 1_001, 0));
    assert_eq!(verdict(lines(997).replace("M30\n", "").as_bytes()), (14, 1_001, 0));
    assert_eq!(verdict((lines(998).replace('%', "%%")).as_bytes()), (5, 3, 0));
}

#[test]
fn reading_refuses_an_unended_line_whatever_it_holds() {
    assert_eq!(verdict(b"M48"), (3, 1, 0));
    assert_eq!(verdict(b"M48\r"), (3, 1, 0));
    assert_eq!(verdict(b"M48\n\0"), (3, 2, 0));
    assert_eq!(verdict("x".repeat(300).as_bytes()), (3, 1, 0));
    assert_eq!(verdict(BENCH.trim_end().as_bytes()), (3, 15, 0));
}

#[test]
fn reading_takes_one_cr_before_the_lf() {
    let file = BENCH.replace('\n', "\r\n");
    assert_eq!(verdict(file.as_bytes()), (0, 15, 0));
    assert_eq!(verdict(b"M48\r\r\n"), (4, 1, 4));
    assert_eq!(verdict(b"M4\r8\n"), (4, 1, 3));
    assert_eq!(verdict(b"\r\n"), (5, 1, 0));
}

#[test]
fn reading_refuses_bytes() {
    for byte in [0, 9, 31, 127, 128, 255] {
        assert_eq!(verdict(&[b';', byte, b'\n']), (4, 1, 2));
    }
    assert_eq!(verdict(b"; ~\n"), (14, 2, 0));
}

/// Texts that have no command's form.
const NO_FORM: [&str; 50] = [
    "",
    " ",
    "M4",
    "M480",
    "m48",
    "METRI",
    "METRIC ",
    "INCHES",
    "%%",
    "G5",
    "G05X1Y1",
    "T",
    "TX",
    "T1C",
    "T01C",
    "T01C-1",
    "T01C+1",
    "T01C.",
    "T01C1.1.1",
    "T01C1 ",
    "X",
    "X1",
    "XY",
    "X1Y",
    "XY1",
    "X.Y1",
    "X1Y.",
    "X--1Y1",
    "X+-1Y1",
    "X1Y1A1",
    "X1.2.3Y1",
    "X1Y1 ",
    " X1Y1",
    "Y1X1",
    "X1000Yq",
    "G00",
    "G00X1",
    "G04X1Y1",
    "G01X1Y1A1",
    "G02X1Y1",
    "G02X1Y1A",
    "G03X1Y1A-1",
    "G03X1Y1A+1",
    "G03X1Y1A1A1",
    "; ;",
    ";;",
    "M15;",
    "M",
    "G",
    "G0",
];

#[test]
fn reading_refuses_forms() {
    for line in NO_FORM {
        assert_eq!(body(line), (5, 7, 0), "{line}");
    }
}

#[test]
fn reading_refuses_ranges() {
    let long = "9".repeat(249);
    for (line, column) in [
        ("X1000Y1", 2),
        ("X1Y-1000.", 4),
        ("X1.1234567Y0", 2),
        (&format!("X{long}Y0"), 2),
        ("G00X999.9999991Y0", 5),
        ("G01X0Y1000000000000", 7),
        ("G02X0Y0A0", 9),
        ("G02X0Y0A.0", 9),
        ("G03X0Y0A1000", 9),
        ("G03X0Y0A0.0000001", 9),
        ("T01C0", 5),
        ("T01C1000", 5),
        ("T99C0.0000000", 5),
        ("T00C1", 2),
    ] {
        assert_eq!(body(line), (7, 7, column), "{line}");
    }
}

#[test]
fn reading_takes_odd_spellings() {
    let number = |text: &str| coordinate(text.as_bytes()).unwrap().0.unwrap();
    let spellings = [
        ("5.", 5_000_000),
        (".5", 500_000),
        ("008.150", 8_150_000),
        ("+1", 1_000_000),
        ("-0", 0),
        ("-0.5", -500_000),
        ("-.000001", -1),
        ("+999.999999", 999_999_999),
        ("-999.999999", -999_999_999),
        ("0.000000", 0),
    ];
    for (text, value) in spellings {
        assert_eq!(number(text), value, "{text}");
    }
    assert_eq!(number(&format!("-{}1.5", "0".repeat(240))), -1_500_000);
}

#[test]
fn reading_refuses_by_phase() {
    assert_eq!(verdict(b"METRIC\n"), (8, 1, 0));
    assert_eq!(verdict(b"M48\nM48\n"), (8, 2, 0));
    assert_eq!(verdict(b"M48\n%\n"), (8, 2, 0));
    assert_eq!(verdict(b"M48\nT01C1\n"), (8, 2, 0));
    assert_eq!(verdict(b"M48\nINCH\nMETRIC\n"), (8, 3, 0));
    assert_eq!(verdict(b"M48\nINCH\nG05\n"), (8, 3, 0));
    assert_eq!(body("T02C1"), (8, 7, 0));
    assert_eq!(body("%"), (8, 7, 0));
    assert_eq!(body("M30"), (8, 8, 0));
    assert_eq!(verdict((BENCH.to_owned() + ";\n").as_bytes()), (8, 16, 0));
}

#[test]
fn reading_refuses_by_motion() {
    assert_eq!(body("M15"), (12, 7, 0));
    assert_eq!(body("M16"), (12, 7, 0));
    assert_eq!(body("G01X1Y1"), (12, 7, 0));
    assert_eq!(body("G02X1Y1A9"), (12, 7, 0));
    assert_eq!(rout("M15"), (12, 8, 0));
    assert_eq!(rout("G05"), (12, 8, 0));
    assert_eq!(rout("G00X1Y1"), (12, 8, 0));
    assert_eq!(rout("X1Y1"), (12, 8, 0));
    assert_eq!(rout("T01"), (12, 8, 0));
    assert_eq!(rout("T02"), (12, 8, 0), "before 10");
    assert_eq!(rout("M30"), (12, 8, 0));
    assert_eq!(body("G00X1Y1\nG01X1Y2"), (12, 8, 0), "tool up");
}

#[test]
fn reading_refuses_tools() {
    assert_eq!(header("T01C1\nT01C2"), (9, 4, 0));
    assert_eq!(header("T25C1\nT50C1\nT75C1\nT99C1\nT24C1\nT99C1"), (9, 8, 0));
    assert_eq!(body("T2"), (10, 7, 0));
    assert_eq!(verdict(b"M48\nINCH\nT01C1\n%\nG05\nX0Y0\n"), (11, 6, 0));
    assert_eq!(verdict(b"M48\nINCH\nT01C1\n%\nG00X0Y0\nM15\n"), (11, 6, 0));
    assert_eq!(verdict(b"M48\nINCH\nT01C1\n%\nX0Y0\n"), (12, 5, 0), "12 before 11");
}

#[test]
fn reading_refuses_impossible_arcs() {
    assert_eq!(rout("G02X0Y0A1"), (13, 8, 0));
    assert_eq!(rout("G03X-0Y+0A1"), (13, 8, 0));
    assert_eq!(rout("G02X2Y0A1").0, 0);
    assert_eq!(rout("G02X2.001Y0A1").0, 0);
    assert_eq!(rout("G02X2.001001Y0A1"), (13, 8, 0));
    assert_eq!(rout("G02X3Y4A2.5").0, 0);
    assert_eq!(rout("G02X3Y4A2.499999"), (13, 8, 0));
    let far = "G01X-999.999999Y-999.999999\n";
    assert_eq!(rout(&format!("{far}G02X999.999999Y-999.999999A999.999999")).0, 0);
    assert_eq!(rout(&format!("{far}G02X999.999999Y-999.999999A999.999998")), (13, 9, 0));
    assert_eq!(rout(&format!("{far}G02X999.999999Y999.999999A999.999999")), (13, 9, 0));
}

#[test]
fn reading_refuses_a_short_table_last() {
    let mut table = vec![PATTERN; ROW * BENCH_LINES - 1];
    assert_eq!(read(BENCH.as_bytes(), Rev2021, &mut table), (15, 0, 0));
    assert!(table.iter().all(|&number| number == PATTERN));
    assert_eq!(read(BENCH.replace("M30\n", "").as_bytes(), Rev2021, &mut []), (14, 15, 0));
    assert_eq!(print(BENCH.replace("M30\n", "").as_bytes(), Rev2021), b"refused\t14\t15\t0\n");
}

#[test]
fn editing_refuses_sizes_lines_and_ends() {
    let good = bench();
    let mut table = good.clone();
    for n in [0, BENCH_LINES + 1, 1_000, 1_001, usize::MAX, usize::MAX / ROW + 1] {
        assert_eq!(edit(&mut table, n, 0, b"\n", Rev2021), (18, 0, 0));
    }
    for line in [0, 16, 1_000, usize::MAX, 1 << 32] {
        assert_eq!(edit(&mut table, BENCH_LINES, line, b"\n", Rev2021), (16, 0, 0));
    }
    table[0] = 99;
    for text in [&b"\n"[..], b"\r", b"X1Y1\r", b";\n;", &[b'\n'; 300]] {
        assert_eq!(edit(&mut table, BENCH_LINES, 1, text, Rev2021), (17, 0, 0));
    }
    table[0] = 1;
    assert_eq!(table, good);
}

#[test]
fn editing_refuses_as_reading_does() {
    assert_eq!(edited(8, &";".repeat(257)), (6, 8, 0));
    assert_eq!(edited(8, "X1\tY1"), (4, 8, 3));
    assert_eq!(edited(8, ""), (5, 8, 0));
    assert_eq!(edited(8, "X1000Y1"), (7, 8, 2));
    assert_eq!(edited(8, "METRIC"), (8, 8, 0));
    assert_eq!(edited(4, "T01C1"), (9, 4, 0));
    assert_eq!(edited(9, "T8"), (10, 9, 0));
    assert_eq!(edited(7, ";"), (11, 8, 0));
    assert_eq!(edited(8, "M15"), (12, 8, 0));
    assert_eq!(edited(13, "G03X4Y0A1"), (13, 13, 0));
    assert_eq!(edited(12, "G01X0Y9"), (13, 13, 0));
    assert_eq!(edited(15, "G05"), (14, 16, 0));
}

#[test]
fn editing_looks_at_the_rows_of_its_span_only() {
    let bad_at = |line: usize| {
        let mut table = bench();
        table[(line - 1) * ROW + STATE.start] = 5;
        table
    };
    // The row before, the edited row, and rows on the way.
    assert_eq!(edit(&mut bad_at(7), BENCH_LINES, 8, b"X2Y3", Rev2021), (18, 7, 0));
    assert_eq!(edit(&mut bad_at(8), BENCH_LINES, 8, b"", Rev2021), (18, 8, 0));
    assert_eq!(edit(&mut bad_at(6), BENCH_LINES, 8, b"X2Y3", Rev2021), (0, 8, 0));
    assert_eq!(edit(&mut bad_at(9), BENCH_LINES, 8, b"X2Y3", Rev2021), (0, 8, 0));
    assert_eq!(edit(&mut bad_at(13), BENCH_LINES, 12, b"G01X4Y1", Rev2021), (18, 13, 0));
    assert_eq!(edit(&mut bad_at(14), BENCH_LINES, 12, b"G01X4Y1", Rev2021), (0, 13, 0));
    assert_eq!(edit(&mut bad_at(15), BENCH_LINES, 2, b"INCH", Rev2021), (18, 15, 0));
    // The row's test comes before its own refusal.
    assert_eq!(edit(&mut bad_at(7), BENCH_LINES, 3, b"T02C0.5", Rev2021), (18, 7, 0));
    assert_eq!(edit(&mut bad_at(8), BENCH_LINES, 3, b"T02C0.5", Rev2021), (10, 7, 0));
}

#[test]
fn editing_a_bad_table_may_end_by_agreement() {
    // Cut before M30: the last row agrees, so 14 isn't tested.
    let mut table = bench();
    assert_eq!(edit(&mut table, 8, 8, b"X2Y3", Rev2021), (0, 8, 0));
    assert_eq!(edit(&mut table, 8, 8, b"T07", Rev2021), (14, 9, 0));
    // A selected tool outside the declared set is in range, and a hit asks no more.
    table[6 * ROW + 8] = 50;
    assert_eq!(edit(&mut table, 8, 8, b"X2Y4", Rev2021), (14, 9, 0));
}

/// Whether the arc's row, line 13 of the bench file, is one with this number in its place.
fn is_row_with(field: usize, value: i32) -> bool {
    let mut row = row(&bench(), 13).to_vec();
    row[field] = value;
    decode(&row).is_some()
}

#[test]
fn no_number_of_a_row_is_outside_its_range() {
    let outside: [(usize, &[i32]); ROW] = [
        (0, &[-1, 16, 0, 9]),
        (1, &[1, -1, 100]),
        (2, &[MAX + 1, MIN - 1, i32::MIN, i32::MAX]),
        (3, &[MAX + 1, MIN - 1]),
        (4, &[0, -1, MAX + 1, 1, 1_999_999, MAX]),
        (5, &[-1, 5]),
        (6, &[-1, 3]),
        (7, &[-1, 4]),
        (8, &[-1, 100]),
        (9, &[MAX + 1, MIN - 1]),
        (10, &[MAX + 1, MIN - 1]),
        (11, &[-1, 1, 3, MAX_WORD, MAX_WORD + 1]),
        (12, &[-1, MAX_WORD + 1]),
        (13, &[-1, MAX_WORD + 1]),
        (14, &[-1, MAX_WORD + 1]),
        (15, &[-1, 7, 8, 100, i32::MIN, i32::MAX]),
    ];
    for (field, values) in outside {
        for &value in values {
            assert!(!is_row_with(field, value), "{field} {value}");
        }
    }
}

#[test]
fn every_number_of_a_row_has_its_range() {
    let inside: [(usize, &[i32]); 11] = [
        (2, &[MAX, MIN]),
        (4, &[1_000_000, 999_000_000]),
        (5, &[0, 4]),
        (6, &[0, 2]),
        (7, &[0, 3]),
        (8, &[0, 99]),
        (9, &[MAX, MIN]),
        (11, &[0, MAX_WORD - 1]),
        (12, &[1, MAX_WORD]),
        (14, &[1, MAX_WORD]),
        (15, &[0, 1, 2, 3, 4, 5, 6]),
    ];
    for (field, values) in inside {
        for &value in values {
            assert!(is_row_with(field, value), "{field} {value}");
        }
    }
}

#[test]
fn holes_are_found_or_refused() {
    let table = bench();
    let ask = |table: &[i32], n, line, length| {
        let mut found = vec![PATTERN; length];
        (hole(table, n, line, &mut found), found)
    };
    let none = vec![PATTERN; 7];
    assert_eq!(
        ask(&table, BENCH_LINES, 8, 7),
        ((0, 1, 0), vec![9, 1, 2_000_000, -3_500_000, 2_000_000, -3_500_000, 0])
    );
    assert_eq!(
        ask(&table, BENCH_LINES, 12, 8),
        ((0, 1, 0), vec![12, 7, 0, 0, 4_000_000, 0, 0, PATTERN])
    );
    assert_eq!(ask(&table, BENCH_LINES, 1, 7), ((0, 0, 0), none.clone()));
    assert_eq!(ask(&table, BENCH_LINES, 11, 7), ((0, 0, 0), none));
    assert_eq!(ask(&table, BENCH_LINES, 8, 6), ((15, 0, 0), vec![PATTERN; 6]));
    assert_eq!(ask(&table, BENCH_LINES, 1, 0), ((15, 0, 0), vec![]));
    assert_eq!(ask(&table, BENCH_LINES, 0, 0), ((16, 0, 0), vec![]));
    assert_eq!(ask(&table, BENCH_LINES, 16, 0), ((16, 0, 0), vec![]));
    assert_eq!(ask(&table, 0, 0, 0), ((18, 0, 0), vec![]));
    assert_eq!(ask(&table, 16, 0, 0), ((18, 0, 0), vec![]));
    assert_eq!(ask(&table, usize::MAX, usize::MAX, 0), ((18, 0, 0), vec![]));
    let mut bad = table.clone();
    bad[11 * ROW - 1] = -1;
    assert_eq!(ask(&bad, BENCH_LINES, 12, 0), ((18, 11, 0), vec![]));
    assert_eq!(ask(&bad, BENCH_LINES, 11, 0), ((18, 11, 0), vec![]));
    assert_eq!(ask(&bad, BENCH_LINES, 13, 7).0, (0, 1, 0));
    assert_eq!(ask(&bad, BENCH_LINES, 10, 7).0, (0, 0, 0));
}

#[test]
fn writing_refuses_bad_tables_before_short_texts() {
    let good = bench();
    for n in [0, 16, 1_001, usize::MAX] {
        assert_eq!(write(&good, n, &mut []), (18, 0, 0));
    }
    assert_eq!(write(&good, 14, &mut []), (18, 14, 0));
    for (line, field, value) in [(1, 5, 2), (3, 1, 0), (7, 8, 7), (8, 9, 1), (13, 4, 1), (15, 5, 3)]
    {
        let mut table = good.clone();
        table[(line - 1) * ROW + field] = value;
        assert_eq!(write(&table, BENCH_LINES, &mut []), (18, line as u32, 0));
    }
    let length = BENCH.len() + 1;
    let mut text = vec![b'~'; length - 1];
    assert_eq!(write(&good, BENCH_LINES, &mut text), (15, 0, 0));
    assert!(text.iter().all(|&byte| byte == b'~'));
    assert_eq!(write(&good, BENCH_LINES, &mut vec![0; length]), (0, length as u32, 0));
}

#[test]
fn written_numbers_have_no_spare_digits() {
    let file = "M48\nINCH\nT09C000.100\n;x\n%\n;y\nT9\nG00X-000.5Y+5.\nM15\nG01X-0Y100.000001\n\
                G02X-999.999999Y-899.999999A999.999999\nM16\nG05\nX10.010Y-.000001\nM30\n";
    let expected = "M48\nINCH\nT09C0.1\n%\nT09\nG00X-0.5Y5\nM15\nG01X0Y100.000001\n\
                    G02X-999.999999Y-899.999999A999.999999\nM16\nG05\nX10.01Y-0.000001\nM30\n";
    let table = table_of(file);
    let mut text = vec![0; expected.len()];
    assert_eq!(write(&table, file.lines().count(), &mut text), (0, expected.len() as u32, 0));
    assert_eq!(String::from_utf8(text).unwrap(), expected);
    let kept: Vec<i32> = table.chunks(ROW).filter(|row| row[0] != 0).flatten().copied().collect();
    assert_eq!(table_of(expected), kept);
}

#[test]
fn diameters_are_found_or_refused() {
    let table = bench();
    assert_eq!(diameter(&table, BENCH_LINES, 1), (0, 500_000, 0));
    assert_eq!(diameter(&table, BENCH_LINES, 7), (0, 1_250_000, 0));
    assert_eq!(diameter(&table, BENCH_LINES, 2), (10, 0, 0));
    for tool in [0, 100, u32::MAX] {
        assert_eq!(diameter(&table, BENCH_LINES, tool), (7, 0, 0));
    }
    for n in [0, 16, 1_001, usize::MAX] {
        assert_eq!(diameter(&table, n, 0), (18, 0, 0));
    }
    let mut bad = table.clone();
    bad[4 * ROW - 1] = -1;
    assert_eq!(diameter(&bad, BENCH_LINES, 1), (0, 500_000, 0));
    assert_eq!(diameter(&bad, BENCH_LINES, 7), (18, 4, 0));
    assert_eq!(diameter(&bad, BENCH_LINES, 2), (18, 4, 0));
}

// ------------------------------------------------------- the 2019 revision

/// The bench file as an older team writes it.
fn bench_of_2019() -> String {
    BENCH.replace("\nT01C", "\nT1C").replace("\nT07C", "\nT7C")
}

#[test]
fn one_digit_declarations_are_read_by_2019_and_have_no_form_by_2021() {
    for tool in 1..=9 {
        let line = format!("T{tool}C0.6");
        assert_eq!(header_by(Rev2019, &line), (0, 5, 0), "{line}");
        assert_eq!(header_by(Rev2021, &line), (5, 3, 0), "{line}");
        let table = table_by(Rev2019, &format!("M48\nINCH\n{line}\n%\nM30\n"));
        let declared = 1 << tool;
        assert_eq!(
            row(&table, 3),
            [4, tool, 0, 0, 600_000, 2, 2, 0, 0, 0, 0, declared, 0, 0, 0, 0]
        );
    }
}

#[test]
fn tool_numbers_of_declarations_by_both() {
    let cases = [
        ("T0C1", (7, 3, 2), (5, 3, 0)),
        ("T00C1", (7, 3, 2), (7, 3, 2)),
        ("T000C1", (5, 3, 0), (5, 3, 0)),
        ("T001C1", (5, 3, 0), (5, 3, 0)),
        ("T100C1", (5, 3, 0), (5, 3, 0)),
        ("T01C1", (0, 5, 0), (0, 5, 0)),
        ("T10C1", (0, 5, 0), (0, 5, 0)),
        ("T99C1", (0, 5, 0), (0, 5, 0)),
        ("TC1", (5, 3, 0), (5, 3, 0)),
        ("T+1C1", (5, 3, 0), (5, 3, 0)),
        ("T1.C1", (5, 3, 0), (5, 3, 0)),
        ("T1 C1", (5, 3, 0), (5, 3, 0)),
        ("T1c1", (5, 3, 0), (5, 3, 0)),
        ("T1A1", (5, 3, 0), (5, 3, 0)),
    ];
    for (line, by_2019, by_2021) in cases {
        assert_eq!(header_by(Rev2019, line), by_2019, "{line}");
        assert_eq!(header_by(Rev2021, line), by_2021, "{line}");
    }
}

#[test]
fn diameters_behind_one_digit_have_their_form_and_range() {
    for tail in ["", "-1", "+1", ".", "1.1.1", "1 ", " 1", "1C1", "C1", "1000q"] {
        for line in [format!("T1C{tail}"), format!("T0C{tail}")] {
            assert_eq!(header_by(Rev2019, &line), (5, 3, 0), "{line}");
        }
    }
    for tail in ["0", ".0", "1000", "0.0000001", "1.0000000"] {
        for (line, column) in [(format!("T1C{tail}"), 4), (format!("T0C{tail}"), 2)] {
            assert_eq!(header_by(Rev2019, &line), (7, 3, column), "{line}");
            assert_eq!(header_by(Rev2021, &line), (5, 3, 0), "{line}");
        }
    }
    for tail in ["1", "5.", ".5", "008.150", "0.000001", "999.999999"] {
        assert_eq!(header_by(Rev2019, &format!("T1C{tail}")), (0, 5, 0), "{tail}");
    }
}

#[test]
fn lines_are_as_long_by_both() {
    let declaration = |zeros| format!("T1C{}1", "0".repeat(zeros));
    assert_eq!(header_by(Rev2019, &declaration(252)), (0, 5, 0));
    assert_eq!(header_by(Rev2021, &declaration(252)), (5, 3, 0));
    for revision in BOTH {
        assert_eq!(header_by(revision, &declaration(253)), (6, 3, 0));
        assert_eq!(header_by(revision, "T1C1\t"), (4, 3, 5));
    }
}

#[test]
fn texts_without_form_have_none_by_2019_either() {
    for line in NO_FORM {
        assert_eq!(body_by(Rev2019, line), (5, 7, 0), "{line}");
    }
}

#[test]
fn selections_are_the_same_by_both() {
    for revision in BOTH {
        for (line, expected) in [
            ("T1", (0, 8, 0)),
            ("T01", (0, 8, 0)),
            ("T2", (10, 7, 0)),
            ("T02", (10, 7, 0)),
            ("T0", (7, 7, 2)),
            ("T00", (7, 7, 2)),
            ("T001", (5, 7, 0)),
        ] {
            assert_eq!(body_by(revision, line), expected, "{line}, {revision:?}");
        }
    }
}

#[test]
fn one_digit_declarations_have_their_phase() {
    assert_eq!(body_by(Rev2019, "T2C1"), (8, 7, 0));
    assert_eq!(body_by(Rev2021, "T2C1"), (5, 7, 0));
    assert_eq!(verdict_by(Rev2019, b"M48\nT1C1\n"), (8, 2, 0));
    assert_eq!(verdict_by(Rev2019, b"T1C1\n"), (8, 1, 0));
}

#[test]
fn a_tool_is_declared_once_whatever_its_digits() {
    assert_eq!(header_by(Rev2019, "T1C0.5\nT01C0.5"), (9, 4, 0));
    assert_eq!(header_by(Rev2019, "T01C0.5\nT1C0.5"), (9, 4, 0));
    assert_eq!(header_by(Rev2019, "T1C0.5\nT2C1\nT1C0.6"), (9, 5, 0));
    assert_eq!(header_by(Rev2019, "T1C0.5\nT10C0.5\nT11C0.5"), (0, 7, 0));
    assert_eq!(header_by(Rev2021, "T1C0.5\nT01C0.5"), (5, 3, 0));
    assert_eq!(header_by(Rev2021, "T01C0.5\nT1C0.5"), (5, 4, 0));
}

/// One digit and two, in declarations and in selections.
const MIXED: &str = "M48\nINCH\nT9C.3\nT10C2\nT07C1.250\nT1C0.5\n%\nG05\nT01\nX1Y1\nT7\nX2Y2\n\
                     T10\nX3Y3\nT9\nX4Y4\nM30\n";

#[test]
fn one_and_two_digits_stand_in_one_file_by_2019() {
    let expected = "unit\tINCH\n\
                    tool\t1\t500000\n\
                    tool\t7\t1250000\n\
                    tool\t9\t300000\n\
                    tool\t10\t2000000\n\
                    10\tH\t1\t1000000\t1000000\t1000000\t1000000\t0\n\
                    12\tH\t7\t2000000\t2000000\t2000000\t2000000\t0\n\
                    14\tH\t10\t3000000\t3000000\t3000000\t3000000\t0\n\
                    16\tH\t9\t4000000\t4000000\t4000000\t4000000\t0\n\
                    holes\t4\n";
    assert_eq!(String::from_utf8(print(MIXED.as_bytes(), Rev2019)).unwrap(), expected);
    assert_eq!(print(MIXED.as_bytes(), Rev2021), b"refused\t5\t3\t0\n");
}

#[test]
fn what_2021_accepts_2019_accepts_as_the_same_table() {
    let ended_by_cr_lf = BENCH.replace('\n', "\r\n");
    for file in [BENCH, &ended_by_cr_lf, EXAMPLE, ATTRIBUTES, "M48\nINCH\n;\n%\nM30\n"] {
        assert_eq!(table_by(Rev2019, file), table_by(Rev2021, file));
        assert_eq!(print(file.as_bytes(), Rev2019), print(file.as_bytes(), Rev2021));
    }
    assert_eq!(table_by(Rev2019, &bench_of_2019()), bench());
}

#[test]
fn what_is_written_reads_back_to_the_same_table_by_both() {
    let written = "M48\nINCH\nT09C0.3\nT10C2\nT07C1.25\nT01C0.5\n%\nG05\nT01\nX1Y1\nT07\nX2Y2\n\
                   T10\nX3Y3\nT09\nX4Y4\nM30\n";
    let table = table_by(Rev2019, MIXED);
    let mut text = vec![b'~'; written.len() + 3];
    assert_eq!(write(&table, MIXED.lines().count(), &mut text), (0, written.len() as u32, 0));
    assert_eq!(String::from_utf8(text).unwrap(), written.to_owned() + "~~~");
    for revision in BOTH {
        assert_eq!(table_by(revision, written), table, "{revision:?}");
    }
}

#[test]
fn editing_by_2019_puts_in_a_one_digit_declaration() {
    let cases = [
        (3, "T1C0.6", (0, 3, 0), (5, 3, 0)),
        (4, "T7C2", (0, 4, 0), (5, 4, 0)),
        (3, "T2C0.5", (10, 7, 0), (5, 3, 0)),
        (4, "T1C1.25", (9, 4, 0), (5, 4, 0)),
        (3, "T0C1", (7, 3, 2), (5, 3, 0)),
        (3, "T1C0", (7, 3, 4), (5, 3, 0)),
        (8, "T1C1", (8, 8, 0), (5, 8, 0)),
        (3, "T1C", (5, 3, 0), (5, 3, 0)),
        (3, "T001C1", (5, 3, 0), (5, 3, 0)),
        (3, "T00C1", (7, 3, 2), (7, 3, 2)),
        (7, "T01", (0, 7, 0), (0, 7, 0)),
        (9, "T7", (0, 9, 0), (0, 9, 0)),
    ];
    for (line, text, by_2019, by_2021) in cases {
        assert_eq!(edited_by(Rev2019, line, text), by_2019, "{text}");
        assert_eq!(edited_by(Rev2021, line, text), by_2021, "{text}");
    }
    let mut table = bench();
    assert_eq!(edit(&mut table, BENCH_LINES, 3, b"T1C0.6", Rev2019), (0, 3, 0));
    assert_eq!(row(&table, 3), [4, 1, 0, 0, 600_000, 2, 1, 0, 0, 0, 0, 2, 0, 0, 0, 0]);
}

#[test]
fn a_table_read_by_one_revision_is_edited_by_the_other() {
    let mut table = table_by(Rev2019, &bench_of_2019());
    assert_eq!(edit(&mut table, BENCH_LINES, 3, b"T1C0.6", Rev2021), (5, 3, 0));
    assert_eq!(edit(&mut table, BENCH_LINES, 3, b"T01C0.6", Rev2021), (0, 3, 0));
    assert_eq!(table, table_of(&replaced(3, "T01C0.6")));
    assert_eq!(edit(&mut table, BENCH_LINES, 3, b"T01C0.5", Rev2021), (0, 3, 0));
    // The span passes the rows that one-digit declarations were read to.
    assert_eq!(edit(&mut table, BENCH_LINES, 2, b"INCH", Rev2021), (0, 15, 0));
    assert_eq!(table, table_of(&replaced(2, "INCH")));

    let mut table = bench();
    assert_eq!(edit(&mut table, BENCH_LINES, 4, b"T7C2", Rev2019), (0, 4, 0));
    assert_eq!(table, table_of(&replaced(4, "T07C2")));
    assert_eq!(edit(&mut table, BENCH_LINES, 2, b"INCH", Rev2019), (0, 15, 0));
}

#[test]
fn moves_are_printed_by_one_revision() {
    let expected = "span\t3\t3\ntool\t1\t500000\t600000\nmoved\t0\n";
    let moves = |line: &str, file: &str, revision| {
        String::from_utf8(print_moves(format!("{line}\n{file}").as_bytes(), revision)).unwrap()
    };
    for revision in BOTH {
        assert_eq!(moves("3\tT01C0.6", BENCH, revision), expected, "{revision:?}");
    }
    assert_eq!(moves("3\tT1C0.6", BENCH, Rev2019), expected);
    assert_eq!(moves("3\tT1C0.6", BENCH, Rev2021), "refused\t5\t3\t0\n");
    let older = replaced(3, "T1C0.5");
    assert_eq!(moves("3\tT01C0.6", &older, Rev2019), expected);
    assert_eq!(moves("3\tT01C0.6", &older, Rev2021), "refused\t5\t3\t0\n");
}

// ----------------------------------------- half circles that come out short

/// One unit of the last place, and `u`, in millionths, by the number of decimals.
const UNITS: [(i32, i32); 7] = [
    (1_000_000, 1_000),
    (100_000, 1_000),
    (10_000, 1_000),
    (1_000, 1_000),
    (100, 100),
    (10, 10),
    (1, 1),
];

const TAKEN: Answer = (0, 11, 0);
const IMPOSSIBLE: Answer = (13, 9, 0);

/// Millionths, written with so many decimals.
fn spelt(value: i32, decimals: usize) -> String {
    let digits = format!("{:07}", value.abs());
    let (whole, fraction) = digits.split_at(digits.len() - 6);
    assert!(fraction[decimals..].bytes().all(|digit| digit == b'0'), "{value} {decimals}");
    let sign = if value < 0 { "-" } else { "" };
    let point = if decimals > 0 { "." } else { "" };
    format!("{sign}{whole}{point}{}", &fraction[..decimals])
}

/// The verdict on an arc from one point to another, at line 9: the same either way round.
fn arc_between(from: (i32, i32), to: (i32, i32), radius: &str) -> Answer {
    let [from, to] = [from, to].map(|(x, y)| format!("X{}Y{}", spelt(x, 6), spelt(y, 6)));
    let arc = |code: &str, from, to| rout(&format!("G01{from}\n{code}{to}A{radius}"));
    let answer = arc("G02", &from, &to);
    assert_eq!(arc("G03", &from, &to), answer);
    assert_eq!(arc("G02", &to, &from), answer);
    answer
}

/// From 0, 0 to 1, 1: half the distance is 0.70710678...
#[test]
fn half_circles_are_taken_with_the_radius_rounded_and_refused_with_a_unit_less() {
    for (rounded, less) in [
        ("1", "0.7"),
        ("0.8", "0.7"),
        ("0.71", "0.70"),
        ("0.707", "0.706"),
        ("0.7071", "0.7070"),
        ("0.70711", "0.70710"),
        ("0.707107", "0.707106"),
    ] {
        let end = (1_000_000, 1_000_000);
        assert_eq!(arc_between((0, 0), end, rounded), TAKEN, "{rounded}");
        assert_eq!(arc_between((0, 0), end, less), IMPOSSIBLE, "{less}");
    }
}

#[test]
fn half_circles_of_three_places_that_came_out_short() {
    // Half the distances are 2.5005, 0.0015, 60.1040..., 1.4142... and 0.7071...
    for (x, y, short, shorter) in [
        (3_000_600, 4_000_800, "2.500", "2.499"),
        (3_000, 0, "0.001", "0.000999"),
        (85_000_000, -85_000_000, "60.104", "60.103"),
        (-2_000_000, 2_000_000, "1.414", "1.413"),
        (1_000_000, 1_000_000, ".707", ".706"),
    ] {
        assert_eq!(arc_between((0, 0), (x, y), short), TAKEN, "{short}");
        assert_eq!(arc_between((0, 0), (x, y), shorter), IMPOSSIBLE, "{shorter}");
    }
}

#[test]
fn an_arc_reaches_two_radii_and_a_unit_of_its_last_place() {
    for (decimals, (place, u)) in UNITS.into_iter().enumerate() {
        for radius in [1, 2, 3, 7, 250].map(|times| place * times) {
            let text = spelt(radius, decimals);
            let reach = 2 * radius + u;
            for start in [0, 1, 123_456] {
                let from = (start, -start);
                let arc = |x, y| arc_between(from, (start + x, y - start), &text);
                assert_eq!(arc(reach, 0), TAKEN, "{text}");
                assert_eq!(arc(0, -reach), TAKEN, "{text}");
                assert_eq!(arc(reach + 1, 0), IMPOSSIBLE, "{text}");
                assert_eq!(arc(0, -reach - 1), IMPOSSIBLE, "{text}");
                assert_eq!(arc(reach, 1), IMPOSSIBLE, "{text}");
                assert_eq!(arc(reach - 1, 0), TAKEN, "{text}");
                assert_eq!(arc(1, 0), TAKEN, "{text}");
            }
        }
    }
}

#[test]
fn an_arc_reaches_as_far_in_every_direction() {
    // Sides of 3 k and 4 k, five times k apart.
    for (decimals, (place, u)) in UNITS.into_iter().enumerate() {
        let radius = 2 * place;
        let text = spelt(radius, decimals);
        let k = (2 * radius + u) / 5;
        assert_eq!(5 * k, 2 * radius + u);
        assert_eq!(arc_between((0, 0), (3 * k, 4 * k), &text), TAKEN, "{text}");
        assert_eq!(arc_between((-4 * k, 3 * k), (0, 0), &text), TAKEN, "{text}");
        assert_eq!(arc_between((0, 0), (3 * k + 1, 4 * k), &text), IMPOSSIBLE, "{text}");
        assert_eq!(arc_between((-4 * k, 3 * k + 1), (0, 0), &text), IMPOSSIBLE, "{text}");
    }
}

#[test]
fn the_last_place_is_the_last_that_is_written() {
    for (radius, reach) in [
        ("2", 4_001_000),
        ("2.", 4_001_000),
        ("002", 4_001_000),
        ("2.0", 4_001_000),
        ("2.00", 4_001_000),
        ("2.000", 4_001_000),
        ("2.0000", 4_000_100),
        ("2.00000", 4_000_010),
        ("2.000000", 4_000_001),
        (".5", 1_001_000),
        (".5000", 1_000_100),
        ("0.12345", 246_910),
        ("1.9", 3_801_000),
    ] {
        assert_eq!(arc_between((0, 0), (reach, 0), radius), TAKEN, "{radius}");
        assert_eq!(arc_between((0, 0), (reach + 1, 0), radius), IMPOSSIBLE, "{radius}");
    }
}

#[test]
fn an_arc_never_ends_where_it_starts() {
    for radius in ["999", "1", "1.", ".1", ".01", ".001", ".0001", ".00001", ".000001"] {
        for at in [(0, 0), (1, -1), (MAX, MIN), (MIN, MIN)] {
            assert_eq!(arc_between(at, at, radius), IMPOSSIBLE, "{radius}");
        }
    }
}

#[test]
fn largest_radii_reach_no_further_than_they_say() {
    // Half the sides of 3, 4, 5 triangles.
    for (radius, x, y) in [("999", 599_400_300, 799_200_400), ("999.999", 599_999_700, 799_999_600)]
    {
        assert_eq!(arc_between((-x, -y), (x, y), radius), TAKEN, "{radius}");
        assert_eq!(arc_between((-x, -y), (x, y + 1), radius), IMPOSSIBLE, "{radius}");
        assert_eq!(arc_between((-x, y), (x + 1, -y), radius), IMPOSSIBLE, "{radius}");
    }
    // With six decimals a millionth more than the sides have, so that there is room aside.
    assert_eq!(arc_between((MIN, MIN), (MAX, MIN), "999.999999"), TAKEN);
    assert_eq!(arc_between((MIN, 0), (MAX, 63_245), "999.999999"), TAKEN);
    assert_eq!(arc_between((MIN, 0), (MAX, 63_246), "999.999999"), IMPOSSIBLE);
    for (decimals, radius) in
        [999_000_000, 999_900_000, 999_990_000, MAX - 999, MAX - 99, MAX - 9, MAX]
            .iter()
            .enumerate()
    {
        assert_eq!(arc_between((MIN, MIN), (MAX, MAX), &spelt(*radius, decimals)), IMPOSSIBLE);
    }
}

/// The row of an arc read with this radius, which is far enough for its ends.
fn arc_row(radius: &str) -> Vec<i32> {
    let table = table_of(&format!(
        "M48\nMETRIC\nT01C1\n%\nT01\nG00X0Y0\nM15\nG02X0.0005Y0A{radius}\nM16\nM30\n"
    ));
    row(&table, 8).to_vec()
}

/// How a radius may be written, its millionths, its decimals, and how it is written back.
const RADII: [(&str, i32, i32, &str); 21] = [
    ("2", 2_000_000, 0, "2"),
    ("2.", 2_000_000, 0, "2"),
    ("02.", 2_000_000, 0, "2"),
    ("2.0", 2_000_000, 1, "2.0"),
    ("2.5", 2_500_000, 1, "2.5"),
    ("2.50", 2_500_000, 2, "2.50"),
    ("002.500", 2_500_000, 3, "2.500"),
    ("2.500000", 2_500_000, 6, "2.500000"),
    (".5", 500_000, 1, "0.5"),
    ("0.5", 500_000, 1, "0.5"),
    ("000.50", 500_000, 2, "0.50"),
    (".05", 50_000, 2, "0.05"),
    (".0500", 50_000, 4, "0.0500"),
    ("10", 10_000_000, 0, "10"),
    ("100.", 100_000_000, 0, "100"),
    ("100.000000", 100_000_000, 6, "100.000000"),
    ("12.34567", 12_345_670, 5, "12.34567"),
    ("12.345670", 12_345_670, 6, "12.345670"),
    ("0.001000", 1_000, 6, "0.001000"),
    ("999", 999_000_000, 0, "999"),
    ("0999.999999", 999_999_999, 6, "999.999999"),
];

#[test]
fn decimals_of_a_radius_are_read_and_written_back() {
    for (text, radius, decimals, written) in RADII {
        let row = arc_row(text);
        assert_eq!(row[4], radius, "{text}");
        assert_eq!(row[15], decimals, "{text}");
        assert_eq!(row, arc_row(written), "{text}");

        let file = "M48\nMETRIC\nT01C1\n%\nT01\nG00X0Y0\nM15\nG03X0.0005Y0A#\nM16\nM30\n";
        let expected = file.replace('#', written);
        let mut out = vec![b'~'; expected.len()];
        let answer = write(&table_of(&file.replace('#', text)), 10, &mut out);
        assert_eq!(answer, (0, expected.len() as u32, 0), "{text}");
        assert_eq!(String::from_utf8(out).unwrap(), expected);
    }
}

#[test]
fn no_number_but_a_radius_has_decimals() {
    let file = "M48\nINCH\nT01C0.500\n;\n%\nT01\nG00X1.50Y.0\nM15\nG01X2.000Y1.\nG02X1.0Y0.0A4\n\
                M16\nG05\nX1.10Y2.200000\nM30\n";
    for row in table_of(file).chunks(ROW) {
        assert_eq!(row[15], 0, "{row:?}");
    }
    let mut text = vec![0; 200];
    let (number, count, _) = write(&table_of(file), 14, &mut text);
    let expected = "M48\nINCH\nT01C0.5\n%\nT01\nG00X1.5Y0\nM15\nG01X2Y1\nG02X1Y0A4\nM16\nG05\n\
                    X1.1Y2.2\nM30\n";
    assert_eq!(number, 0);
    assert_eq!(String::from_utf8_lossy(&text[..count as usize]), expected);
}

#[test]
fn the_longest_line_is_no_longer() {
    let line = "G02X-999.999999Y-999.999999A999.999999\n";
    assert_eq!(line.len(), LONGEST_WRITTEN);
    let file = format!("M48\nINCH\nT01C1\n%\nT01\nG00X-999.999999Y-999\nM15\n{line}M16\nM30\n");
    let mut text = vec![0; file.len()];
    assert_eq!(write(&table_of(&file), 10, &mut text), (0, file.len() as u32, 0));
    assert_eq!(text, file.into_bytes());
}

#[test]
fn decimals_of_a_row_are_0_to_6_for_arcs_and_0_for_others() {
    let commands: [[i32; 5]; 16] = [
        [0, 0, 0, 0, 0],
        [1, 0, 0, 0, 0],
        [2, 0, 0, 0, 0],
        [3, 0, 0, 0, 0],
        [4, 1, 0, 0, 500_000],
        [5, 0, 0, 0, 0],
        [6, 0, 0, 0, 0],
        [7, 0, 1, 2, 0],
        [8, 1, 0, 0, 0],
        [9, 0, 1, 2, 0],
        [10, 0, 0, 0, 0],
        [11, 0, 0, 0, 0],
        [12, 0, 1, 2, 0],
        [13, 0, 1, 2, 3_000_000],
        [14, 0, 1, 2, 3_000_000],
        [15, 0, 0, 0, 0],
    ];
    let telling = [i32::MIN, i32::MIN + 1, -256, -1, 256, 1 << 16, 1 << 30, i32::MAX];
    for command in commands {
        let is_arc = matches!(command[0], 13 | 14);
        for decimals in (0..=32).chain(telling) {
            let row = [&command[..], &[0; 10], &[decimals]].concat();
            let legal = if is_arc { (0..=6).contains(&decimals) } else { decimals == 0 };
            assert_eq!(decode(&row).is_some(), legal, "{row:?}");
        }
    }
}

#[test]
fn a_rows_radius_is_a_multiple_of_its_last_place() {
    for kind in [13, 14] {
        for (decimals, (place, _)) in (0..).zip(UNITS) {
            let is_row = |radius: i32| {
                decode(&[&[kind, 0, 1, 2, radius][..], &[0; 10], &[decimals]].concat()).is_some()
            };
            for times in [1, 2, 9, 10, 11, 125, 999] {
                assert!(is_row(place * times), "{decimals} {times}");
                if place > 1 {
                    assert!(!is_row(place * times - 1), "{decimals} {times}");
                    assert!(!is_row(place * times + 1), "{decimals} {times}");
                    assert!(!is_row(place * times - place / 10), "{decimals} {times}");
                    assert!(!is_row(place * times - place / 2), "{decimals} {times}");
                }
            }
            let largest = MAX / place * place;
            assert!(is_row(largest));
            assert_eq!(is_row(MAX), place == 1);
            assert!(![0, -place, largest + place, i32::MIN, i32::MAX].map(is_row).contains(&true));
        }
    }
}

/// The bench file's table, with another radius and decimals in the arc's row.
fn with_arc(radius: i32, decimals: i32) -> Vec<i32> {
    let mut table = bench();
    table[12 * ROW + 4] = radius;
    table[12 * ROW + 15] = decimals;
    table
}

#[test]
fn decimals_out_of_range_are_refused_18_wherever_a_row_is_tested() {
    let none = &mut [0; HOLE];
    for (radius, decimals) in [(2_000_000, -1), (2_000_000, 7), (2_500_000, 0), (1_999_999, 5)] {
        let bad = with_arc(radius, decimals);
        assert_eq!(hole(&bad, BENCH_LINES, 13, none), (18, 13, 0));
        assert_eq!(hole(&bad, BENCH_LINES, 14, none), (18, 13, 0));
        assert_eq!(write(&bad, BENCH_LINES, &mut []), (18, 13, 0));
        for (line, text) in [(12, "G01X4Y1"), (13, "M16"), (13, ""), (14, "M16"), (2, "INCH")] {
            let mut table = bad.clone();
            let answer = edit(&mut table, BENCH_LINES, line, text.as_bytes(), Rev2021);
            assert_eq!((answer, &table), ((18, 13, 0), &bad), "{text}");
        }
        // A row that isn't looked at isn't tested.
        assert_eq!(edit(&mut bad.clone(), BENCH_LINES, 8, b"X1Y1", Rev2021), (0, 8, 0));
        assert_eq!(hole(&bad, BENCH_LINES, 12, none), (0, 1, 0));
    }
    for line in (1..=BENCH_LINES).filter(|&line| line != 13) {
        let mut bad = bench();
        bad[line * ROW - 1] = 1;
        assert_eq!(hole(&bad, BENCH_LINES, line, none), (18, line as u32, 0));
        assert_eq!(write(&bad, BENCH_LINES, &mut []), (18, line as u32, 0));
        assert_eq!(edit(&mut bad, BENCH_LINES, line, b";", Rev2021), (18, line as u32, 0));
    }
}

#[test]
fn a_row_that_is_possible_by_its_decimals_alone_is_written() {
    // The arc's ends lie 2 root 2 apart, 2.82842...; 1.414 is enough with three decimals.
    let mut text = [0; 200];
    assert_eq!(write(&with_arc(1_414_000, 3), BENCH_LINES, &mut text).0, 0);
    for decimals in 4..=6 {
        let table = with_arc(1_414_000, decimals);
        assert_eq!(write(&table, BENCH_LINES, &mut text), (18, 13, 0));
        // The row passes its test all the same.
        assert_eq!(hole(&table, BENCH_LINES, 13, &mut [0; HOLE]), (0, 1, 0));
    }
}

#[test]
fn an_edit_of_decimals_alone_meets_at_once() {
    for (text, decimals) in [("A2", 0), ("A2.", 0), ("A2.0", 1), ("A2.000", 3), ("A02.000000", 6)] {
        let text = format!("G03X6Y2{text}");
        assert_eq!(edited(13, &text), (0, 13, 0), "{text}");
        let mut table = bench();
        assert_eq!(edit(&mut table, BENCH_LINES, 13, text.as_bytes(), Rev2021), (0, 13, 0));
        assert_eq!(table, with_arc(2_000_000, decimals));
    }
    // And away from an arc: no number of it is left.
    let mut table = with_arc(2_000_000, 4);
    assert_eq!(edit(&mut table, BENCH_LINES, 13, b"G01X6Y2", Rev2021), (0, 13, 0));
    assert_eq!(table, table_of(&replaced(13, "G01X6Y2")));
}

#[test]
fn an_edit_before_an_arc_keeps_its_decimals_and_goes_by_them() {
    for (decimals, (_, u)) in UNITS.into_iter().enumerate() {
        let arc = format!("G03X6Y2A{}", spelt(2_000_000, decimals));
        let old = table_of(&replaced(13, &arc));
        for (more, expected) in [(0, (0, 13, 0)), (1, (13, 13, 0))] {
            let start = format!("G01X{}Y2", spelt(2_000_000 - u - more, 6));
            let mut table = old.clone();
            assert_eq!(edit(&mut table, BENCH_LINES, 12, start.as_bytes(), Rev2021), expected);
            let mut fresh = old.clone();
            let file = replaced(13, &arc).replace("G01X4Y0", &start);
            read(file.as_bytes(), Rev2021, &mut fresh);
            assert_eq!(table, fresh, "{arc} {start}");
        }
    }
}

#[test]
fn editing_refuses_arcs_as_reading_does() {
    for (text, expected) in [
        ("G03X8Y0A1.9", (13, 13, 0)),
        ("G03X8Y0A1.999", (13, 13, 0)),
        ("G03X8Y0A1.9995", (13, 13, 0)),
        ("G03X7.999Y0A1.999", (0, 15, 0)),
        ("G03X7.999001Y0A1.999", (13, 13, 0)),
        ("G02X8.001Y0A2.", (0, 15, 0)),
        ("G02X8.001Y0A2.0000", (13, 13, 0)),
        ("G02X4Y0A2.000", (13, 13, 0)),
        ("G02X5Y1A.707", (0, 15, 0)),
        ("G02X5Y1A.706", (13, 13, 0)),
    ] {
        for revision in BOTH {
            assert_eq!(edited_by(revision, 13, text), expected, "{text}");
        }
    }
}

#[test]
fn holes_and_print_outs_show_no_decimals() {
    let plainly = print(BENCH.as_bytes(), Rev2021);
    for text in ["G03X6Y2A2.", "G03X6Y2A2.000", "G03X6Y2A2.000000"] {
        assert_eq!(print(replaced(13, text).as_bytes(), Rev2021), plainly);
        let mut found = [PATTERN; 8];
        assert_eq!(hole(&table_of(&replaced(13, text)), BENCH_LINES, 13, &mut found), (0, 1, 0));
        assert_eq!(found, [14, 7, 4_000_000, 0, 6_000_000, 2_000_000, 2_000_000, PATTERN]);
        let moves = format!("13\t{text}\n{BENCH}");
        assert_eq!(print_moves(moves.as_bytes(), Rev2021), b"span\t13\t13\nmoved\t0\n");
    }
}

// -------------------------------------------------------- which column

/// The bench file with bytes in the place of a line.
fn replaced_bytes(line: usize, text: &[u8]) -> Vec<u8> {
    let mut lines: Vec<&[u8]> = BENCH.lines().map(str::as_bytes).collect();
    lines[line - 1] = text;
    let mut file = lines.join(&b'\n');
    file.push(b'\n');
    file
}

fn printed_refusal((number, line, column): Answer) -> Vec<u8> {
    format!("refused\t{number}\t{line}\t{column}\n").into_bytes()
}

/// What a line of the bench file is refused with by reading it, ended by LF or by CR LF, by editing
/// and in the print-outs, which all agree. So do both revisions.
fn refusal(line: usize, text: &[u8]) -> Answer {
    let [by_2019, by_2021] = BOTH.map(|revision| refusal_by(revision, line, text));
    assert_eq!(by_2019, by_2021, "{}", text.escape_ascii());
    by_2021
}

fn refusal_by(revision: Revision, line: usize, text: &[u8]) -> Answer {
    let answer = verdict_by(revision, &replaced_bytes(line, text));
    assert_ne!(answer.0, 0, "{}", text.escape_ascii());
    assert_eq!(verdict_by(revision, &replaced_bytes(line, &[text, b"\r"].concat())), answer);
    assert_eq!(print(&replaced_bytes(line, text), revision), printed_refusal(answer));

    let good = bench();
    let mut table = good.clone();
    assert_eq!(edit(&mut table, BENCH_LINES, line, text, revision), answer);
    assert_eq!(table, good);
    for end in ["\n", "\r\n"] {
        let first = [format!("{line}\t").as_bytes(), text, end.as_bytes()].concat();
        let moves = [&first, BENCH.as_bytes()].concat();
        assert_eq!(print_moves(&moves, revision), printed_refusal(answer));
    }
    answer
}

/// Texts for lines of the bench file, and the columns at which they are refused 7.
fn refused_for_ranges(cases: &[(usize, &str, u32)]) {
    for &(line, text, column) in cases {
        assert_eq!(refusal(line, text.as_bytes()), (7, line as u32, column), "{text}");
    }
}

#[test]
fn column_of_the_students_line() {
    assert_eq!(refusal(13, b"G03X6.0Y1600A1.0"), (7, 13, 9));
}

#[test]
fn columns_in_declarations() {
    refused_for_ranges(&[
        (3, "T00C1", 2),
        (3, "T01C0", 5),
        (3, "T00C0", 2),
        (3, "T01C1000", 5),
        (3, "T00C1000", 2),
        (3, "T10C0", 5),
        (3, "T99C.0", 5),
        (3, "T99C0.", 5),
        (3, "T01C0000", 5),
        (3, "T01C0001000", 5),
        (3, "T01C0.0000005", 5),
        (3, "T01C1.0000000", 5),
        (3, "T00C1.0000000", 2),
    ]);
}

#[test]
fn columns_in_one_digit_declarations_by_2019() {
    for (text, column) in [
        ("T0C1", 2),
        ("T1C0", 4),
        ("T0C0", 2),
        ("T1C1000", 4),
        ("T0C1000", 2),
        ("T9C.0", 4),
        ("T9C1.0000000", 4),
        ("T0C1.0000000", 2),
    ] {
        assert_eq!(refusal_by(Rev2019, 3, text.as_bytes()), (7, 3, column), "{text}");
        assert_eq!(refusal_by(Rev2021, 3, text.as_bytes()), (5, 3, 0), "{text}");
    }
}

#[test]
fn columns_in_selections() {
    refused_for_ranges(&[(7, "T0", 2), (7, "T00", 2), (9, "T0", 2), (9, "T00", 2)]);
}

#[test]
fn columns_in_hits() {
    refused_for_ranges(&[
        (8, "X1000Y0", 2),
        (8, "X0Y1000", 4),
        (8, "X1000Y1000", 2),
        (8, "X12.5Y1000", 7),
        (8, "X999.999999Y1000", 13),
        (8, "X1000.Y0", 2),
        (8, "X0001000Y0", 2),
        (8, "X0Y0001000", 4),
    ]);
}

#[test]
fn columns_in_moves_and_lines() {
    for (line, code) in [(10, "G00"), (12, "G01")] {
        for (numbers, column) in [
            ("X1000Y0", 5),
            ("X0Y1000", 7),
            ("X1000Y1000", 5),
            ("X-1000Y0", 5),
            ("X0Y-1000", 7),
            ("X-5Y+1000", 8),
            ("X+1000Y-1000", 5),
            ("X1.5Y1.0000000", 9),
            ("X1.0000000Y1.0000000", 5),
        ] {
            refused_for_ranges(&[(line, &format!("{code}{numbers}"), column)]);
        }
    }
}

#[test]
fn columns_in_arcs() {
    for code in ["G02", "G03"] {
        for (numbers, column) in [
            ("X1600Y2A1", 5),
            ("X6.0Y1600A1", 9),
            ("X6.0Y2A1600", 11),
            ("X1600Y1600A1", 5),
            ("X1600Y2A1600", 5),
            ("X6.0Y1600A1600", 9),
            ("X1600Y1600A1600", 5),
            ("X6.0Y2A0", 11),
            ("X6.0Y2A.0", 11),
            ("X6.0Y1600A0", 9),
            ("X-6.0Y-2A0", 13),
            ("X-1600Y2A1", 5),
            ("X6Y+1600A1", 7),
            ("X6Y2A1.0000000", 9),
            ("X6Y2A0.0000001", 9),
            ("X6Y-2.0000000A0", 7),
        ] {
            refused_for_ranges(&[(13, &format!("{code}{numbers}"), column)]);
        }
    }
}

#[test]
fn columns_of_numbers_are_those_of_their_signs() {
    refused_for_ranges(&[
        (8, "X-1000Y0", 2),
        (8, "X+1000Y0", 2),
        (8, "X0Y-1000", 4),
        (8, "X0Y+1000", 4),
        (8, "X-1Y-1000", 5),
        (8, "X+1Y+1000", 5),
        (8, "X-1000Y-1000", 2),
        (8, "X-.0000001Y0", 2),
        (8, "X-0Y-0.0000000", 5),
    ]);
}

#[test]
fn columns_of_numbers_with_over_six_decimals() {
    refused_for_ranges(&[
        (8, "X1.0000000Y0", 2),
        (8, "X0Y1.0000000", 4),
        (8, "X.1234567Y1000", 2),
        (8, "X1000Y.1234567", 2),
        (8, "X.123456Y.1234567", 10),
        (8, "X999.999999Y999.9999990", 13),
        (8, "X0Y0.0000000", 4),
    ]);
}

/// Every choice of one way to write each number of a line, its column found while the line is put
/// together: the first number that is chosen out of range.
#[test]
fn columns_of_all_choices_of_numbers() {
    type Ways = &'static [(&'static str, bool)];
    const COORDINATE: Ways = &[
        ("1", true),
        ("-2.50", true),
        ("+.5", true),
        ("-00999.999999", true),
        ("1000", false),
        ("-1000.", false),
        ("+0.0000000", false),
        ("-.1234567", false),
    ];
    const SIZE: Ways =
        &[("1", true), ("00.000001", true), ("0", false), (".0", false), ("1000", false)];
    const TOOL: Ways = &[("01", true), ("99", true), ("00", false)];
    const SELECTED: Ways = &[("1", true), ("01", true), ("0", false), ("00", false)];
    let kinds: [(usize, &[(&str, Ways)]); 7] = [
        (3, &[("T", TOOL), ("C", SIZE)]),
        (7, &[("T", SELECTED)]),
        (8, &[("X", COORDINATE), ("Y", COORDINATE)]),
        (10, &[("G00X", COORDINATE), ("Y", COORDINATE)]),
        (12, &[("G01X", COORDINATE), ("Y", COORDINATE)]),
        (13, &[("G02X", COORDINATE), ("Y", COORDINATE), ("A", SIZE)]),
        (13, &[("G03X", COORDINATE), ("Y", COORDINATE), ("A", SIZE)]),
    ];
    let mut refused = 0;
    for (line, parts) in kinds {
        let choices: usize = parts.iter().map(|(_, ways)| ways.len()).product();
        for mut choice in 0..choices {
            let mut text = String::new();
            let mut column = None;
            for (letters, ways) in parts {
                text += letters;
                let (number, good) = ways[choice % ways.len()];
                choice /= ways.len();
                if !good {
                    column.get_or_insert(text.len() as u32 + 1);
                }
                text += number;
            }
            match column {
                Some(column) => {
                    refused_for_ranges(&[(line, &text, column)]);
                    refused += 1;
                }
                None => assert_ne!(edited(line, &text).0, 7, "{text}"),
            }
        }
    }
    // All choices but those whose numbers are all good.
    assert_eq!(refused, (15 - 4) + (4 - 2) + 3 * (64 - 16) + 2 * (320 - 32));
}

#[test]
fn ranges_have_their_column_whatever_the_phase() {
    refused_for_ranges(&[
        (1, "X0Y1000", 4),
        (2, "G03X0Y0A0", 9),
        (3, "G00X0Y-1000", 7),
        (8, "T01C0", 5),
        (12, "T00", 2),
        (15, "T99C1000", 5),
    ]);
    let late = BENCH.to_owned() + "X0Y1000\n";
    assert_eq!(verdict(late.as_bytes()), (7, 16, 4));
}

/// Bytes that are forbidden in a line and end none.
const FORBIDDEN: [u8; 9] = [0, 9, 11, 27, 31, 127, 128, 195, 255];

/// `text` with a byte put in before the given index.
fn with_byte(text: &str, index: usize, byte: u8) -> Vec<u8> {
    let (front, back) = text.as_bytes().split_at(index);
    [front, &[byte], back].concat()
}

#[test]
fn columns_of_forbidden_bytes() {
    for byte in FORBIDDEN {
        for (text, index, column) in [
            ("", 0, 1),
            ("X1Y1", 0, 1),
            ("X1Y1", 2, 3),
            ("X1Y1", 4, 5),
            (";comment", 1, 2),
            (";;", 2, 3),
            ("no command", 2, 3),
            ("M30", 3, 4),
        ] {
            assert_eq!(refusal(8, &with_byte(text, index, byte)), (4, 8, column), "{byte} {text}");
        }
    }
}

#[test]
fn every_byte_outside_32_to_126_has_its_column() {
    for byte in (0..=255).filter(|byte| !matches!(byte, 10 | 13)) {
        let text = [b';', b'a', byte, b'b'];
        match byte {
            b';' => assert_eq!(refusal(8, &text), (5, 8, 0)),
            32..=126 => assert_eq!(verdict(&replaced_bytes(8, &text)), (0, 15, 0)),
            _ => assert_eq!(refusal(8, &text), (4, 8, 3), "{byte}"),
        }
    }
}

#[test]
fn forbidden_bytes_come_before_ranges_on_either_side() {
    for byte in FORBIDDEN {
        for (text, index, column) in [
            ("X1000Y1", 0, 1),
            ("X1000Y1", 1, 2),
            ("X1000Y1", 3, 4),
            ("X1000Y1", 5, 6),
            ("X1000Y1", 7, 8),
            ("G03X6.0Y1600A1.0", 7, 8),
            ("G03X6.0Y1600A1.0", 8, 9),
            ("G03X6.0Y1600A1.0", 12, 13),
            ("G03X6.0Y1600A1.0", 16, 17),
            ("T00", 1, 2),
            ("T00", 3, 4),
            ("T00C0", 4, 5),
        ] {
            assert_eq!(refusal(8, &with_byte(text, index, byte)), (4, 8, column), "{byte} {text}");
        }
    }
}

#[test]
fn columns_of_several_forbidden_bytes() {
    assert_eq!(refusal(8, b"X\x7f1\x80Y\xff"), (4, 8, 2));
    assert_eq!(refusal(8, b"\0\0"), (4, 8, 1));
    assert_eq!(refusal(8, b"X1Y1\xff\x1f"), (4, 8, 5));
    assert_eq!(refusal(8, b"X1000\xff\tY1000\0"), (4, 8, 6));
    // Bytes are counted, not letters.
    assert_eq!(refusal(8, "; 2 \u{b5}m".as_bytes()), (4, 8, 5));
    assert_eq!(refusal(8, "\u{b5}".as_bytes()), (4, 8, 1));
    assert_eq!(refusal_by(Rev2019, 3, b"T1C\x7f"), (4, 3, 4));
    assert_eq!(refusal_by(Rev2019, 3, b"T0C0\t"), (4, 3, 5));
}

#[test]
fn columns_of_carriage_returns() {
    for (text, column) in [
        ("\rX1Y1", 1),
        ("X1\rY1", 3),
        ("X1Y\r1", 4),
        ("X1000\rY1", 6),
        ("X1Y1\r\r", 5),
        ("X1Y1\r\r\r", 5),
        ("\r\r", 1),
        ("\r \r", 1),
        ("X1\rY1\r", 3),
        ("X1\rY1\t", 3),
        ("X1\tY1\r\r", 3),
    ] {
        let file = replaced_bytes(8, text.as_bytes());
        for revision in BOTH {
            assert_eq!(verdict_by(revision, &file), (4, 8, column), "{text:?}");
            assert_eq!(print(&file, revision), printed_refusal((4, 8, column)));
            let mut table = bench();
            let answer = edit(&mut table, BENCH_LINES, 8, text.as_bytes(), revision);
            assert_eq!(answer, (17, 0, 0), "{text:?}");
        }
    }
    // The one right before the LF is no byte of the line.
    assert_eq!(verdict(&replaced_bytes(8, b"X1Y1\r")), (0, 15, 0));
    assert_eq!(verdict(&replaced_bytes(8, b"X0Y1000\r")), (7, 8, 4));
    assert_eq!(verdict(&replaced_bytes(8, b"\r")), (5, 8, 0));
}

#[test]
fn columns_up_to_256() {
    for byte in FORBIDDEN {
        for length in [2, 100, 255, 256] {
            let text = with_byte(&";".repeat(length - 1), length - 1, byte);
            assert_eq!(refusal(8, &text), (4, 8, length as u32));
        }
        assert_eq!(refusal(8, &with_byte(&";".repeat(256), 256, byte)), (6, 8, 0));
        assert_eq!(refusal(8, &with_byte(&";".repeat(256), 0, byte)), (6, 8, 0));
    }
    for index in 0..256 {
        let text = with_byte(&"c".repeat(255), index, 127);
        assert_eq!(refusal(8, &text), (4, 8, index as u32 + 1));
    }
    let comment = |length| format!(";{}\r\r", "c".repeat(length));
    assert_eq!(verdict(&replaced_bytes(8, comment(254).as_bytes())), (4, 8, 256));
    assert_eq!(verdict(&replaced_bytes(8, comment(255).as_bytes())), (6, 8, 0));

    // X, 250 digits, Y, and a number of four: 256 bytes. With 251 zeros before it one too many.
    let hit = |zeros| format!("X{}Y1000", "0".repeat(zeros));
    assert_eq!(refusal(8, hit(250).as_bytes()), (7, 8, 253));
    assert_eq!(refusal(8, hit(251).as_bytes()), (6, 8, 0));
    let arc = format!("G03X0Y0{}A0", "0".repeat(247));
    assert_eq!(refusal(13, arc.as_bytes()), (7, 13, 256));
}

#[test]
fn reading_names_no_column_for_others() {
    for revision in BOTH {
        let no_column = |file: &[u8], number, line| {
            assert_eq!(verdict_by(revision, file), (number, line, 0), "{}", file.escape_ascii());
            assert_eq!(print(file, revision), printed_refusal((number, line, 0)));
        };
        no_column(&[127; MAX_FILE + 1], 1, 0);
        let lines = |last: &str| format!("M48\nMETRIC\n%\n{}{last}", ";\n".repeat(997));
        no_column(lines("X1000Y1\n").as_bytes(), 2, 1_001);
        no_column(lines("\t").as_bytes(), 2, 1_001);
        no_column(b"M48\nX1000Y1", 3, 2);
        no_column(b"M48\n\t", 3, 2);
        no_column(b"M48\n\r", 3, 2);
        no_column(&replaced_bytes(8, b""), 5, 8);
        no_column(&replaced_bytes(8, b"X1000Yq"), 5, 8);
        no_column(&replaced_bytes(8, b"X1000Y1 "), 5, 8);
        no_column(&replaced_bytes(8, b"T00C"), 5, 8);
        no_column(&replaced_bytes(8, b"T000"), 5, 8);
        no_column(&replaced_bytes(8, b"G03X1000Y1A-1"), 5, 8);
        no_column(&replaced_bytes(8, &[b'\t'; 257]), 6, 8);
        no_column(&replaced_bytes(8, b"METRIC"), 8, 8);
        no_column(&replaced_bytes(4, b"T01C1"), 9, 4);
        no_column(&replaced_bytes(7, b"T2"), 10, 7);
        no_column(&replaced_bytes(7, b";"), 11, 8);
        no_column(&replaced_bytes(8, b"M16"), 12, 8);
        no_column(&replaced_bytes(13, b"G03X8Y0A1.9"), 13, 13);
        no_column(&replaced_bytes(15, b";"), 14, 16);
        no_column(b"", 14, 1);
        assert_eq!(read(BENCH.as_bytes(), revision, &mut []), (15, 0, 0));
    }
}

#[test]
fn the_lowest_faulty_line_has_its_own_column() {
    let file = |a: &str, b: &str| BENCH.replace("T1\n", a).replace("X2Y-3.5\n", b);
    assert_eq!(verdict(file("T0\n", "X2\tY3\n").as_bytes()), (7, 7, 2));
    assert_eq!(verdict(file("T1\t\n", "X2Y1000\n").as_bytes()), (4, 7, 3));
    assert_eq!(verdict(file("T2\n", "X2Y1000\n").as_bytes()), (10, 7, 0));
    assert_eq!(verdict(file("T1\n", "X2Y1000\n").as_bytes()), (7, 8, 4));
    // A line that is faulty in a table lent too short.
    assert_eq!(read(file("T0\n", "X2Y3\n").as_bytes(), Rev2021, &mut []), (7, 7, 2));
}

#[test]
fn editing_names_no_column_for_others() {
    for revision in BOTH {
        for (line, text, expected) in [
            (8, "", (5, 8, 0)),
            (8, "X1000Yq", (5, 8, 0)),
            (8, &"\t".repeat(257), (6, 8, 0)),
            (8, "METRIC", (8, 8, 0)),
            (4, "T01C1", (9, 4, 0)),
            (7, "T2", (10, 7, 0)),
            (7, ";", (11, 8, 0)),
            (6, ";", (12, 8, 0)),
            (12, "G01X0Y9", (13, 13, 0)),
            (15, ";", (14, 16, 0)),
        ] {
            assert_eq!(refusal_by(revision, line, text.as_bytes()), expected, "{text}");
        }
        // What comes before the text's own refusals.
        for text in [&b"X1000Y1"[..], b"X\t1Y1", b"T00"] {
            let mut table = bench();
            let ended = [text, b"\n"].concat();
            assert_eq!(edit(&mut table, 0, 8, text, revision), (18, 0, 0));
            assert_eq!(edit(&mut table, BENCH_LINES, 16, text, revision), (16, 0, 0));
            assert_eq!(edit(&mut table, BENCH_LINES, 8, &ended, revision), (17, 0, 0));
            table[7 * ROW] = 16;
            assert_eq!(edit(&mut table, BENCH_LINES, 8, text, revision), (18, 8, 0));
            assert_eq!(edit(&mut table, BENCH_LINES, 9, text, revision), (18, 8, 0));
        }
    }
}

#[test]
fn questions_and_writing_name_no_column() {
    let mut table = bench();
    assert_eq!(hole(&table, 0, 8, &mut [0; 7]), (18, 0, 0));
    assert_eq!(hole(&table, BENCH_LINES, 16, &mut [0; 7]), (16, 0, 0));
    assert_eq!(hole(&table, BENCH_LINES, 8, &mut []), (15, 0, 0));
    assert_eq!(write(&table, BENCH_LINES, &mut []), (15, 0, 0));
    // Of a tool that is asked for there is no text, so no column either.
    assert_eq!(diameter(&table, BENCH_LINES, 0), (7, 0, 0));
    assert_eq!(diameter(&table, BENCH_LINES, 100), (7, 0, 0));
    assert_eq!(diameter(&table, BENCH_LINES, 2), (10, 0, 0));
    // Nor has a number out of range in a table.
    table[7 * ROW + 2] = MAX + 1;
    assert_eq!(hole(&table, BENCH_LINES, 8, &mut [0; 7]), (18, 8, 0));
    assert_eq!(write(&table, BENCH_LINES, &mut []), (18, 8, 0));
}

#[test]
fn refused_lines_are_printed_with_their_columns() {
    for revision in BOTH {
        let print = |line, text| print(replaced(line, text).as_bytes(), revision);
        assert_eq!(print(13, "G03X6.0Y1600A1.0"), b"refused\t7\t13\t9\n");
        assert_eq!(print(3, "T00C1"), b"refused\t7\t3\t2\n");
        assert_eq!(print(8, "X1\tY1"), b"refused\t4\t8\t3\n");
        assert_eq!(print(8, "X1Y1\r\r"), b"refused\t4\t8\t5\n");
        assert_eq!(print(8, "X1Yq"), b"refused\t5\t8\t0\n");
        assert_eq!(print(15, ";"), b"refused\t14\t16\t0\n");
    }
    assert_eq!(print(replaced(3, "T0C1").as_bytes(), Rev2019), b"refused\t7\t3\t2\n");
    assert_eq!(print(replaced(3, "T0C1").as_bytes(), Rev2021), b"refused\t5\t3\t0\n");
}

#[test]
fn refused_moves_are_printed_with_their_columns() {
    let moves = |first: &str, file: &str, revision| {
        String::from_utf8(print_moves(format!("{first}\n{file}").as_bytes(), revision)).unwrap()
    };
    let bad = replaced(8, "X0Y1000");
    for revision in BOTH {
        // The column is the new text's, not that of the input's first line.
        assert_eq!(moves("13\tG03X6.0Y1600A1.0", BENCH, revision), "refused\t7\t13\t9\n");
        assert_eq!(moves("013\tG03X6.0Y1600A1.0", BENCH, revision), "refused\t7\t13\t9\n");
        assert_eq!(moves("8\tX1\tY1", BENCH, revision), "refused\t4\t8\t3\n");
        assert_eq!(moves("8\t\t", BENCH, revision), "refused\t4\t8\t1\n");
        assert_eq!(moves("8\tX1Y1\t\r", BENCH, revision), "refused\t4\t8\t5\n");
        assert_eq!(moves("8\tX1Y1\r\r", BENCH, revision), "refused\t17\t0\t0\n");
        assert_eq!(moves("16\tX1000Y1", BENCH, revision), "refused\t16\t0\t0\n");
        assert_eq!(moves("X1000Y1", BENCH, revision), "refused\t16\t0\t0\n");
        assert_eq!(moves("6\t;", BENCH, revision), "refused\t12\t8\t0\n");
        // The file is refused before what is asked of it.
        assert_eq!(moves("8\tX1\tY1", &bad, revision), "refused\t7\t8\t4\n");
        assert_eq!(moves("99\t", &bad, revision), "refused\t7\t8\t4\n");
    }
    assert_eq!(moves("3\tT1C0", BENCH, Rev2019), "refused\t7\t3\t4\n");
    assert_eq!(moves("3\tT1C0", BENCH, Rev2021), "refused\t5\t3\t0\n");
}

// ------------------------------------------------- how many of each drill

/// Counts with these hits and routs, each a tool and how many.
fn counts_of(hits: &[(usize, u32)], routs: &[(usize, u32)]) -> Vec<u32> {
    let mut counts = vec![0; 198];
    for &(tool, count) in hits {
        counts[tool - 1] = count;
    }
    for &(tool, count) in routs {
        counts[98 + tool] = count;
    }
    counts
}

/// Those of the bench file.
fn bench_counts() -> Vec<u32> {
    counts_of(&[(1, 1)], &[(7, 2)])
}

/// The counts that a file is read to.
fn counts_read(file: &str) -> Vec<u32> {
    let mut counts = vec![UNUSED; 198];
    let mut table = vec![0; ROW * MAX_LINES];
    let answer = super::read(file.as_bytes(), Rev2021, &mut table, &mut counts);
    assert_eq!(answer, (0, file.lines().count() as u32, 0));
    counts
}

/// An edit of the bench file from these counts: the answer and the counts
/// afterwards. A refusal leaves the table and the counts.
fn edited_from(counts: &[u32], line: usize, text: &str) -> (Answer, Vec<u32>) {
    let mut table = bench();
    let mut after = counts.to_vec();
    let text = text.as_bytes();
    let answer = super::edit(&mut table, BENCH_LINES, line, text, Rev2021, &mut after);
    if answer.0 != 0 {
        assert_eq!((table, &after[..]), (bench(), counts));
    }
    (answer, after)
}

const BAD_COUNTS: Answer = (18, 0, 0);

#[test]
fn bench_file_has_one_hit_and_two_routs() {
    for revision in BOTH {
        let mut table = vec![PATTERN; ROW * BENCH_LINES];
        let mut counts = vec![UNUSED; 198];
        let answer = super::read(BENCH.as_bytes(), revision, &mut table, &mut counts);
        assert_eq!((answer, counts), ((0, 15, 0), bench_counts()));
    }
    let counts = counts_read(BENCH);
    assert_eq!((hits(&counts, 1), routs(&counts, 1)), ((0, 1, 0), (0, 0, 0)));
    assert_eq!((hits(&counts, 7), routs(&counts, 7)), ((0, 0, 0), (0, 2, 0)));
    assert_eq!((hits(&counts, 99), routs(&counts, 99)), ((0, 0, 0), (0, 0, 0)));
}

#[test]
fn example_file_is_counted_by_hand() {
    let expected = counts_of(&[(1, 2), (2, 4), (3, 1)], &[(3, 1), (4, 6)]);
    assert_eq!(counts_read(EXAMPLE), expected);
    assert_eq!(counts_read(ATTRIBUTES), counts_of(&[(1, 3), (2, 3), (3, 3)], &[]));
}

#[test]
fn every_tool_has_its_own_two_counts() {
    for tool in 1..=99 {
        let file = format!(
            "M48\nINCH\nT{tool:02}C1\n%\nT{tool:02}\nG05\nX1Y1\nX2Y2\nX1Y1\nG00X0Y0\nM15\nG01X1Y0\n\
             G02X2Y0A9\nG03X3Y0A9\nG01X0Y0\nG01X0Y0\nM16\nM30\n"
        );
        let counts = counts_read(&file);
        assert_eq!(counts, counts_of(&[(tool, 3)], &[(tool, 5)]));
        for other in 1..=99 {
            let is_it = u32::from(other == tool);
            assert_eq!(hits(&counts, other as u32), (0, 3 * is_it, 0));
            assert_eq!(routs(&counts, other as u32), (0, 5 * is_it, 0));
        }
    }
}

#[test]
fn lines_without_a_hole_are_not_counted() {
    let file = "M48\nMETRIC\nT01C1\n;\n%\nT1\nG05\nG00X1Y1\nM15\nM16\nG05\n;X1Y1\nM30\n";
    assert_eq!(counts_read(file), counts_of(&[], &[]));
    assert_eq!(counts_read("M48\nMETRIC\n%\nM30\n"), counts_of(&[], &[]));
}

#[test]
fn as_many_hits_as_a_file_can_have() {
    let file =
        |hits: usize| format!("M48\nINCH\nT01C1\n%\nT1\nG05\n{}M30\n", "X0Y0\n".repeat(hits));
    assert_eq!(counts_read(&file(993)), counts_of(&[(1, 993)], &[]));
}

#[test]
fn questions_refuse_tools_then_short_blocks() {
    let counts: Vec<u32> = (0..200).map(|at| u32::MAX - at).collect();
    for ask in [hits, routs] {
        for tool in [0, 100, 101, 198, 257, 65_537, 1 << 31, u32::MAX] {
            for length in [0, 197, 198, 200] {
                assert_eq!(ask(&counts[..length], tool), (7, 0, 0), "{tool}");
            }
        }
        for tool in [1, 50, 99] {
            for length in [0, 1, 99, 197] {
                assert_eq!(ask(&counts[..length], tool), (15, 0, 0), "{tool}");
            }
        }
    }
    // Any count is told, however large.
    for length in [198, 199, 200] {
        let counts = &counts[..length];
        assert_eq!(hits(counts, 1), (0, u32::MAX, 0));
        assert_eq!(hits(counts, 99), (0, u32::MAX - 98, 0));
        assert_eq!(routs(counts, 1), (0, u32::MAX - 99, 0));
        assert_eq!(routs(counts, 99), (0, u32::MAX - 197, 0));
    }
}

#[test]
fn reading_refuses_a_short_block_of_counts_last() {
    for length in [0, 1, 99, 197] {
        let try_read = |file: &str, rows: usize| {
            let mut table = vec![PATTERN; ROW * rows];
            let mut counts = vec![UNUSED; length];
            let answer = super::read(file.as_bytes(), Rev2021, &mut table, &mut counts);
            assert!(table.iter().all(|&number| number == PATTERN));
            assert!(counts.iter().all(|&count| count == UNUSED));
            answer
        };
        assert_eq!(try_read(BENCH, 15), (15, 0, 0));
        assert_eq!(try_read(BENCH, 20), (15, 0, 0));
        assert_eq!(try_read(BENCH, 14), (15, 0, 0));
        assert_eq!(try_read(&replaced(8, "X2\tY3"), 15), (4, 8, 3));
        assert_eq!(try_read(&replaced(15, ";"), 15), (14, 16, 0));
        assert_eq!(try_read("", 15), (14, 1, 0));
        assert_eq!(try_read(&"x".repeat(MAX_FILE + 1), 0), (1, 0, 0));
    }
}

#[test]
fn a_refused_reading_leaves_the_counts() {
    let mut counts = bench_counts();
    for file in [&replaced(8, "X2Y1000"), &replaced(15, ";"), "", "M48"] {
        let mut table = vec![PATTERN; ROW * 20];
        assert_ne!(super::read(file.as_bytes(), Rev2021, &mut table, &mut counts).0, 0);
        assert_eq!(counts, bench_counts());
    }
    // Nor does a table that is too short let them change.
    let mut short = vec![PATTERN; ROW * BENCH_LINES - 1];
    let file = replaced(8, ";");
    assert_eq!(super::read(file.as_bytes(), Rev2021, &mut short, &mut counts), (15, 0, 0));
    assert_eq!(counts, bench_counts());
}

#[test]
fn reading_puts_counts_in_the_place_of_any_others() {
    for old in [0, 1, 1_001, u32::MAX] {
        let mut table = vec![0; ROW * BENCH_LINES];
        let mut counts = vec![old; 201];
        let answer = super::read(BENCH.as_bytes(), Rev2021, &mut table, &mut counts);
        assert_eq!(answer, (0, 15, 0));
        assert_eq!(counts, [bench_counts(), vec![old; 3]].concat());
    }
}

#[test]
fn counts_after_edits_a_to_l() {
    let same = bench_counts();
    let cases = [
        (3, "T01C0.6", (0, 3, 0), same.clone()),
        (3, "T02C0.5", (10, 7, 0), same.clone()),
        (2, "INCH", (0, 15, 0), same.clone()),
        (6, ";", (12, 8, 0), same.clone()),
        (8, "X2Y3", (0, 8, 0), same.clone()),
        (9, ";", (0, 15, 0), counts_of(&[(1, 1)], &[(1, 2)])),
        (12, "G01X4Y1", (0, 13, 0), same.clone()),
        (13, "G03X8Y0A2", (0, 15, 0), same.clone()),
        (13, "G03X8Y0A1.9", (13, 13, 0), same.clone()),
        (15, ";", (14, 16, 0), same.clone()),
        (11, "M30", (8, 12, 0), same.clone()),
        (12, "G01X4Y0", (0, 12, 0), same.clone()),
        // And some that take a hole away, or bring one in.
        (8, ";", (0, 8, 0), counts_of(&[], &[(7, 2)])),
        (7, "T7", (0, 9, 0), counts_of(&[(7, 1)], &[(7, 2)])),
        (9, "T1", (0, 15, 0), counts_of(&[(1, 1)], &[(1, 2)])),
        (13, ";", (0, 15, 0), counts_of(&[(1, 1)], &[(7, 1)])),
        (13, "G02X6Y2A2", (0, 13, 0), same.clone()),
        (1, "M48", (0, 1, 0), same.clone()),
    ];
    for (line, text, answer, counts) in cases {
        assert_eq!(edited_from(&same, line, text), (answer, counts), "{line} {text}");
    }
}

#[test]
fn a_hole_is_brought_in_and_taken_away_again() {
    let mut table = table_of(&replaced(8, ";"));
    let mut counts = counts_of(&[], &[(7, 2)]);
    let mut put = |text: &str| {
        let text = text.as_bytes();
        let answer = super::edit(&mut table, BENCH_LINES, 8, text, Rev2021, &mut counts);
        assert_eq!(answer, (0, 8, 0));
        counts.clone()
    };
    assert_eq!(put("X1Y1"), bench_counts());
    assert_eq!(put("X2Y2"), bench_counts());
    assert_eq!(put(";"), counts_of(&[], &[(7, 2)]));
    assert_eq!(put("X2Y-3.5"), bench_counts());
}

#[test]
fn counts_over_a_thousand_are_refused_wherever_they_stand() {
    for at in 0..198 {
        for (count, taken) in [(999, true), (1_000, true), (1_001, false), (u32::MAX, false)] {
            let mut counts = bench_counts();
            counts[at] = count;
            // No hole moves; one goes; two go and come.
            let refused = (BAD_COUNTS, counts.clone());
            for (line, text, answer) in [(3, "T01C1", (0, 3, 0)), (12, "G01X4Y1", (0, 13, 0))] {
                let expected = if taken { (answer, counts.clone()) } else { refused.clone() };
                assert_eq!(edited_from(&counts, line, text), expected, "{at} {count}");
            }
            let mut gone = counts.clone();
            gone[0] = gone[0].wrapping_sub(1);
            let expected = if taken { ((0, 8, 0), gone) } else { refused };
            assert_eq!(edited_from(&counts, 8, ";"), expected, "{at} {count}");
        }
    }
}

#[test]
fn counts_under_what_the_span_takes_are_refused() {
    // Edit f takes both routs of tool 7 and gives them to tool 1.
    let cases = [
        (counts_of(&[], &[(7, 2)]), Some(counts_of(&[], &[(1, 2)]))),
        (counts_of(&[], &[(7, 3)]), Some(counts_of(&[], &[(1, 2), (7, 1)]))),
        (counts_of(&[(1, 1)], &[(7, 1)]), None),
        (counts_of(&[(1, 1)], &[]), None),
        (counts_of(&[(7, 2)], &[(1, 2), (6, 2), (8, 2)]), None),
    ];
    for (counts, after) in cases {
        let expected = match after {
            Some(after) => ((0, 15, 0), after),
            None => (BAD_COUNTS, counts.clone()),
        };
        assert_eq!(edited_from(&counts, 9, ";"), expected);
    }
    // What comes doesn't make up for what goes: the hit is of tool 1 before and after.
    assert_eq!(edited_from(&counts_of(&[], &[(7, 2)]), 8, "X0Y0").0, BAD_COUNTS);
    assert_eq!(edited_from(&counts_of(&[], &[(7, 1)]), 12, "G01X4Y1").0, BAD_COUNTS);
    assert_eq!(edited_from(&counts_of(&[], &[(7, 2)]), 12, "G01X4Y1").0, (0, 13, 0));
    // Only the span's holes are asked for.
    assert_eq!(edited_from(&counts_of(&[], &[(7, 1)]), 12, "G01X4Y0").0, (0, 12, 0));
    assert_eq!(edited_from(&counts_of(&[], &[]), 3, "T01C1").0, (0, 3, 0));
}

#[test]
fn counts_of_another_table_may_pass_a_thousand() {
    let counts = counts_of(&[(1, 1_000)], &[(1, 999), (7, 1_000)]);
    let after = counts_of(&[(1, 1_000)], &[(1, 1_001), (7, 998)]);
    assert_eq!(edited_from(&counts, 9, ";"), ((0, 15, 0), after.clone()));
    // The next edit won't have them.
    assert_eq!(edited_from(&after, 3, "T01C1"), (BAD_COUNTS, after));
}

#[test]
fn counts_are_refused_after_all_else() {
    let bad = vec![1_001; 198];
    for counts in [&bad[..0], &bad[..1], &bad[..197], &bad] {
        for (line, text, answer) in [
            (0, "\n", (16, 0, 0)),
            (8, "\n", (17, 0, 0)),
            (8, "X2\tY1", (4, 8, 3)),
            (8, "", (5, 8, 0)),
            (6, ";", (12, 8, 0)),
            (13, "G03X8Y0A1.9", (13, 13, 0)),
            (15, ";", (14, 16, 0)),
        ] {
            assert_eq!(edited_from(counts, line, text).0, answer, "{text}");
        }
        let short = counts.len() < 198;
        let last = if short { (15, 0, 0) } else { BAD_COUNTS };
        for (line, text) in [(3, "T01C0.6"), (8, ";"), (9, ";"), (12, "G01X4Y0")] {
            assert_eq!(edited_from(counts, line, text).0, last, "{text}");
        }
        let mut table = bench();
        table[14 * ROW] = 16;
        let mut lent = counts.to_vec();
        let edit = |table: &mut [i32], n, lent: &mut [u32]| {
            super::edit(table, n, 2, b"INCH", Rev2021, lent)
        };
        assert_eq!(edit(&mut table, 0, &mut lent), (18, 0, 0));
        assert_eq!(edit(&mut table, BENCH_LINES, &mut lent), (18, 15, 0));
        assert_eq!(lent, counts);
    }
}

#[test]
fn numbers_behind_the_counts_are_neither_tested_nor_changed() {
    for behind in [0, 1_001, u32::MAX] {
        let counts = [bench_counts(), vec![behind; 3]].concat();
        let after = [counts_of(&[(1, 1)], &[(1, 2)]), vec![behind; 3]].concat();
        assert_eq!(edited_from(&counts, 9, ";"), ((0, 15, 0), after));
    }
}

#[test]
fn holes_of_tool_0_are_not_counted() {
    // A bad table: its hit, its routs and the lines between have no tool. Every row is in range.
    let mut table = bench();
    for row in table.chunks_mut(ROW) {
        row[8] = 0;
    }
    for (line, text, answer) in [
        (8, ";", (0, 8, 0)),
        (13, ";", (0, 15, 0)),
        (12, "G01X4Y1", (0, 13, 0)),
        (13, "G01X6Y2", (0, 13, 0)),
    ] {
        let mut counts = counts_of(&[], &[]);
        let text = text.as_bytes();
        let found = super::edit(&mut table.clone(), BENCH_LINES, line, text, Rev2021, &mut counts);
        assert_eq!((found, counts), (answer, counts_of(&[], &[])));
    }
    // A selection gives the routs behind it a tool, and takes none from tool 0.
    let mut counts = counts_of(&[(99, 7)], &[]);
    let answer = super::edit(&mut table, BENCH_LINES, 9, b"T7", Rev2021, &mut counts);
    assert_eq!((answer, counts), ((0, 15, 0), counts_of(&[(99, 7)], &[(7, 2)])));
}

#[test]
fn the_old_holes_are_those_of_the_old_rows() {
    // A bad table: the second rout has another tool than the first.
    let mut table = bench();
    table[12 * ROW + 8] = 99;
    let mut counts = counts_of(&[(99, 5)], &[(7, 1), (98, 1), (99, 1)]);
    let answer = super::edit(&mut table, BENCH_LINES, 12, b"G01X4Y1", Rev2021, &mut counts);
    // Row 13's old tool was 99, its new one is 7. Row 14 agrees.
    assert_eq!(answer, (0, 14, 0));
    assert_eq!(counts, counts_of(&[(99, 5)], &[(7, 2), (98, 1)]));
}

#[test]
fn counts_are_printed_for_each_declared_tool() {
    let print = |file: &str| String::from_utf8(print_counts(file.as_bytes(), Rev2021)).unwrap();
    assert_eq!(print(BENCH), "1\t500000\t1\t0\n7\t1250000\t0\t2\n");
    assert_eq!(print(&replaced(9, ";")), "1\t500000\t1\t2\n7\t1250000\t0\t0\n");
    assert_eq!(
        print(EXAMPLE),
        "1\t600000\t2\t0\n2\t700000\t4\t0\n3\t800000\t1\t1\n4\t1000000\t0\t6\n"
    );
    assert_eq!(
        print("M48\nINCH\nT99C999.999999\nT01C.000001\n%\nM30\n"),
        "1\t1\t0\t0\n99\t999999999\t0\t0\n"
    );
    assert_eq!(print("M48\nINCH\n%\nM30\n"), "");
    assert_eq!(print(""), "refused\t14\t1\t0\n");
    assert_eq!(print(&replaced(13, "G03X6.0Y1600A1.0")), "refused\t7\t13\t9\n");
    assert_eq!(print(&bench_of_2019()), "refused\t5\t3\t0\n");
    let by_2019 = print_counts(bench_of_2019().as_bytes(), Rev2019);
    assert_eq!(by_2019, print_counts(BENCH.as_bytes(), Rev2021));
}

/// All short texts over a few bytes: a column is named by 4 and 7 and by no other.
#[test]
fn columns_of_all_short_texts() {
    const BYTES: &[u8] = b"XYTC01.-;\x7f";
    let mut table = bench();
    for length in 0..=5 {
        for mut choice in 0..BYTES.len().pow(length) {
            let mut text = Vec::new();
            for _ in 0..length {
                text.push(BYTES[choice % BYTES.len()]);
                choice /= BYTES.len();
            }
            for revision in BOTH {
                let (number, line, column) = edit(&mut table, BENCH_LINES, 3, &text, revision);
                let before = &text[..(column as usize).saturating_sub(1)];
                match number {
                    4 => {
                        assert_eq!(text[column as usize - 1], 127);
                        assert!(!before.contains(&127));
                    }
                    // So short a number is out of range as a tool's or a diameter's only.
                    7 if before == b"T" => assert_eq!(text[1], b'0'),
                    7 => assert!(before.starts_with(b"T") && before.ends_with(b"C")),
                    _ => assert_eq!(column, 0),
                }
                assert!(!matches!(number, 4 | 7) || line == 3);
            }
        }
    }
}
