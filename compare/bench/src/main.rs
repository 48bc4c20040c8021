//! Runs one job of one implementation a given number of times, so that its
//! instructions can be counted from outside, or times all jobs of both.
//!
//! ```text
//! bench list
//! bench IMPLEMENTATION JOB TIMES
//! bench time
//! ```
//!
//! A job's name says what is done, with which file, of how many lines; for an
//! edit also where and how far it goes: `at-once` meets at the edited line,
//! `never` runs to the last. Each run of an edit changes its line: two texts
//! take turns. An edit takes in the table's own counts, the next one those that it
//! left. `hits` and `routs` ask once how many of them the first tool makes. Both
//! implementations get the same files and the same buffers, and read by the 2021
//! revision.

#[path = "../../src/library.rs"]
mod library;

use library::{Answer, Library, Plain, Revision::Rev2021, Xnc, COUNTS, ROW};
use std::hint::black_box;
use std::process::ExitCode;
use std::time::Instant;

/// The first line of every file's body: a selection.
const FIRST: usize = 6;

// ------------------------------------------------------------------- files

#[derive(Clone, Copy)]
enum Body {
    Hits,
    Routs,
    Comments,
}

impl Body {
    fn name(self) -> &'static str {
        match self {
            Body::Hits => "hits",
            Body::Routs => "routs",
            Body::Comments => "comments",
        }
    }

    /// Before the lines that repeat, and after them.
    fn frame(self) -> (&'static [&'static str], &'static [&'static str]) {
        match self {
            Body::Hits => (&["G05"], &["M30"]),
            Body::Routs => (&["G00X0Y0", "M15"], &["M16", "M30"]),
            Body::Comments => (&["G05"], &["M30"]),
        }
    }

    /// The `i`th of the lines that repeat.
    fn line(self, i: usize) -> String {
        match self {
            Body::Hits => {
                let (x, y) = (i * 7_919 % 200_000, i * 104_729 % 200_000);
                let sign = if i % 3 == 0 { "-" } else { "" };
                format!("X{}.{:03}Y{sign}{}.{:03}", x / 1_000, x % 1_000, y / 1_000, y % 1_000)
            }
            Body::Routs => {
                // A zigzag of lines and flat arcs.
                let x = i % 100;
                match i % 4 {
                    0 => format!("G01X{x}Y{}.125", i % 7),
                    1 => format!("G03X{x}.5Y{}A500.25", i % 9),
                    2 => format!("G01X{x}Y-{}.5", i % 5),
                    _ => format!("G02X{x}.75Y{}A612.000125", i % 3),
                }
            }
            Body::Comments => format!("; #@! TA.AperFunction,Plated,PTH,ViaDrill,{i}"),
        }
    }

    /// A file of `lines` lines with a comment in the middle.
    fn file(self, lines: usize) -> Vec<u8> {
        let mut text: Vec<String> = Vec::new();
        let (head, tail) = self.frame();
        text.extend(["M48", "METRIC", "T01C0.5", "T02C1.25", "%", "T01"].map(String::from));
        text.extend(head.iter().map(|line| line.to_string()));
        let middle = lines / 2;
        while text.len() + tail.len() < lines {
            let line = text.len() + 1;
            text.push(match self {
                _ if line == middle => ";".into(),
                Body::Routs if line + 1 == middle => "M16".into(),
                Body::Routs if line == middle + 1 => "M15".into(),
                _ => self.line(line),
            });
        }
        text.extend(tail.iter().map(|line| line.to_string()));
        let mut file = Vec::new();
        for line in &text {
            file.extend_from_slice(line.as_bytes());
            file.push(b'\n');
        }
        file
    }
}

// -------------------------------------------------------------------- jobs

#[derive(Clone, Copy)]
enum Work {
    Nothing,
    Read,
    Write,
    Holes,
    Hits,
    Routs,
    Edit { place: &'static str, never: bool },
}

struct Job {
    work: Work,
    body: Body,
    lines: usize,
}

impl Job {
    fn name(&self) -> String {
        let what = match self.work {
            Work::Nothing => return "nothing".into(),
            Work::Read => "read",
            Work::Write => "write",
            Work::Holes => "holes",
            Work::Hits => "hits",
            Work::Routs => "routs",
            Work::Edit { place, never } => {
                let until = if never { "never" } else { "at-once" };
                return format!("edit-{}-{}-{place}-{until}", self.body.name(), self.lines);
            }
        };
        format!("{what}-{}-{}", self.body.name(), self.lines)
    }

    /// The edited line, and the texts that take turns in it.
    fn texts(&self, place: &str, never: bool) -> (usize, [&'static [u8]; 2]) {
        let line = match place {
            "first" => FIRST,
            "middle" => self.lines / 2,
            _ => self.lines - 1,
        };
        let texts: [&[u8]; 2] = match (place, self.body, never) {
            ("end", Body::Hits, false) => [b"X1.5Y-2.25", b"X3.125Y4"],
            ("middle", _, false) => [b"; another comment", b";"],
            ("middle", _, true) => [b"T02", b";"],
            (_, _, false) => [b"T1", b"T01"],
            (_, _, true) => [b"T02", b"T01"],
        };
        (line, texts)
    }
}

fn jobs() -> Vec<Job> {
    let mut jobs = Vec::new();
    for body in [Body::Hits, Body::Routs, Body::Comments] {
        jobs.push(Job { work: Work::Read, body, lines: 1_000 });
        jobs.push(Job { work: Work::Write, body, lines: 1_000 });
    }
    jobs.push(Job { work: Work::Holes, body: Body::Hits, lines: 1_000 });
    jobs.push(Job { work: Work::Hits, body: Body::Hits, lines: 1_000 });
    jobs.push(Job { work: Work::Routs, body: Body::Routs, lines: 1_000 });
    for body in [Body::Hits, Body::Routs] {
        for place in ["first", "middle", "end"] {
            for never in [false, true] {
                // The end of the routs is a tool-up, which no text but itself replaces.
                if matches!(body, Body::Hits) || place != "end" {
                    jobs.push(Job { work: Work::Edit { place, never }, body, lines: 1_000 });
                }
            }
        }
    }
    // How the cost grows.
    let first_never = Work::Edit { place: "first", never: true };
    let first_at_once = Work::Edit { place: "first", never: false };
    for body in [Body::Hits, Body::Routs, Body::Comments] {
        for work in [Work::Read, Work::Write] {
            for lines in [10, 100] {
                jobs.push(Job { work, body, lines });
            }
        }
    }
    for work in [first_at_once, first_never] {
        for lines in [10, 100] {
            jobs.push(Job { work, body: Body::Hits, lines });
        }
    }
    jobs
}

// ----------------------------------------------------------------- running

/// A job's file and buffers; the table and its counts are read before the job
/// starts.
struct Bench {
    file: Vec<u8>,
    table: Vec<i32>,
    counts: [u32; COUNTS],
    text: Vec<u8>,
    hole: [i32; 7],
}

impl Bench {
    fn new(job: &Job) -> Bench {
        let file = job.body.file(job.lines);
        let mut table = vec![0; job.lines * ROW];
        let mut counts = [0; COUNTS];
        let answer = Plain::read(&file, Rev2021, &mut table, &mut counts);
        assert_eq!(answer, (0, job.lines as u32, 0), "{}", job.name());
        let text = vec![0; file.len() + job.lines];
        Bench { file, table, counts, text, hole: [0; 7] }
    }

    fn run<L: Library>(&mut self, job: &Job, times: u64) {
        let n = job.lines;
        match job.work {
            Work::Nothing => {}
            Work::Read => {
                for _ in 0..times {
                    done(L::read(
                        black_box(&self.file),
                        Rev2021,
                        black_box(&mut self.table),
                        black_box(&mut self.counts),
                    ));
                }
            }
            Work::Write => {
                for _ in 0..times {
                    done(L::write(black_box(&self.table), n, black_box(&mut self.text)));
                }
            }
            Work::Holes => {
                for _ in 0..times {
                    for line in 1..=n {
                        done(L::hole(black_box(&self.table), n, line, black_box(&mut self.hole)));
                    }
                }
            }
            Work::Hits => {
                for _ in 0..times {
                    done(L::hits(black_box(&self.counts), black_box(1)));
                }
            }
            Work::Routs => {
                for _ in 0..times {
                    done(L::routs(black_box(&self.counts), black_box(1)));
                }
            }
            Work::Edit { place, never } => {
                let (line, texts) = job.texts(place, never);
                let meeting = if never { n } else { line } as u32;
                for turn in 0..times {
                    let text = texts[(turn % 2) as usize];
                    let answer = L::edit(
                        black_box(&mut self.table),
                        n,
                        line,
                        black_box(text),
                        Rev2021,
                        black_box(&mut self.counts),
                    );
                    assert_eq!(answer, (0, meeting, 0), "{}", job.name());
                }
                // An even number of edits leaves the table and its counts as they were.
                if times % 2 == 1 {
                    let (table, counts) = (&mut self.table, &mut self.counts);
                    done(L::edit(table, n, line, texts[1], Rev2021, counts));
                }
            }
        }
    }

    /// How many runs make a batch of some milliseconds.
    fn batch<L: Library>(&mut self, job: &Job) -> u64 {
        let mut times = 2;
        while self.time::<L>(job, times) * (times as f64) < 5_000_000.0 {
            times *= 2;
        }
        times
    }

    /// Nanoseconds for one run of a batch.
    fn time<L: Library>(&mut self, job: &Job, times: u64) -> f64 {
        let start = Instant::now();
        self.run::<L>(job, times);
        start.elapsed().as_nanos() as f64 / times as f64
    }
}

fn done(answer: Answer) {
    assert_eq!(black_box(answer).0, 0);
}

fn time_all() {
    println!("{:32} {:>12} {:>12} {:>7}", "job, ns for one run", Plain::NAME, Xnc::NAME, "ratio");
    for job in jobs() {
        let mut bench = Bench::new(&job);
        let times = (bench.batch::<Plain>(&job), bench.batch::<Xnc>(&job));
        // The least of several batches that take turns, so that what else the
        // machine does falls on both.
        let (mut plain, mut xnc) = (f64::INFINITY, f64::INFINITY);
        for _ in 0..15 {
            plain = plain.min(bench.time::<Plain>(&job, times.0));
            xnc = xnc.min(bench.time::<Xnc>(&job, times.1));
        }
        println!("{:32} {plain:12.0} {xnc:12.0} {:7.2}", job.name(), xnc / plain);
    }
}

fn main() -> ExitCode {
    let arguments: Vec<String> = std::env::args().skip(1).collect();
    let words: Vec<&str> = arguments.iter().map(String::as_str).collect();
    match words[..] {
        ["list"] => {
            for job in jobs() {
                println!("{}", job.name());
            }
            return ExitCode::SUCCESS;
        }
        ["time"] => {
            time_all();
            return ExitCode::SUCCESS;
        }
        [implementation, name, times] => {
            let mut all = jobs();
            all.push(Job { work: Work::Nothing, body: Body::Hits, lines: 1_000 });
            let job = all.iter().find(|job| job.name() == name);
            if let (Some(job), Ok(times)) = (job, times.parse()) {
                let mut bench = Bench::new(job);
                if implementation == Plain::NAME {
                    bench.run::<Plain>(job, times);
                    return ExitCode::SUCCESS;
                }
                if implementation == Xnc::NAME {
                    bench.run::<Xnc>(job, times);
                    return ExitCode::SUCCESS;
                }
            }
        }
        _ => {}
    }
    eprintln!("usage: bench list\n       bench time");
    eprintln!("       bench {}|{} JOB TIMES", Plain::NAME, Xnc::NAME);
    ExitCode::FAILURE
}
