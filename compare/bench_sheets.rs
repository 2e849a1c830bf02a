// Times the check and the run of whole sheets, the library's through its C functions beside the Rust interpreter's, on the same sheets in one run.
//   bench_sheets             the tables
//   bench_sheets sorts       the names of the sorts of sheets, a line each, from sort 0 on
//   bench_sheets profile K   200 runs of the sheet of 96 lines of sort K, from 0, by the library alone, for a profiler
//   bench_sheets once check|run K LINES   one call of the library on a sheet of so many lines of sort K, for a counter of instructions
#[path = "../examples/rust/boresheet.rs"]
mod library;
#[allow(dead_code)]
mod sheet;
mod timing;

use std::hint::black_box;
use timing::best;

// Lines of each length that is timed, line 1 among them.
const LENGTHS: [usize; 4] = [12, 24, 48, 96];
// Rounds of so many calls; and so many passes over all sheets, since a machine that is shared may be slow for seconds.
const CALLS: usize = 20;
const ROUNDS: usize = 75;
const PASSES: usize = 8;

const HEAD: &str = "(ellipsoid wgs84)\n";

// Bore after bore of a site: collar, frame, tilt, tip, its level, and how it lies from the collar.
fn site(lines: usize) -> String {
    let mut text = HEAD.to_string();
    for i in 0..lines - 1 {
        let (bore, step) = (i / 8, i % 8);
        text += &match step {
            0 => format!("(let c{bore:02} (lla (deg 46.51{bore:02}45) (deg 8.12{bore:02}56) (m 812.{bore:02})))\n"),
            1 => format!("(let f{bore:02} (enu c{bore:02}))\n"),
            2 => format!("(let d{bore:02} (aenu (deg 132.{bore:02}) (deg -78.25) (m 42.{bore:02})))\n"),
            3 => format!("(let t{bore:02} (at f{bore:02} d{bore:02}))\n"),
            4 => format!("(let p{bore:02} (tolla t{bore:02}))\n"),
            5 => format!("(let b{bore:02} (bearing (to f00 t{bore:02})))\n"),
            6 => format!("(show b{bore:02})\n"),
            _ => format!("(show p{bore:02})\n"),
        };
    }
    text
}

// One bracket a line.
fn brackets(lines: usize) -> String {
    HEAD.to_string() + &(1..lines).map(|i| format!("(let w{i:02} (m {i:02}.25))\n")).collect::<String>()
}

// Shows of a reading.
fn shows(lines: usize) -> String {
    HEAD.to_string() + &(1..lines).map(|i| format!("(show r{})\n", i % 10)).collect::<String>()
}

// Shows of one frame, the longest text.
fn frames(lines: usize) -> String {
    HEAD.to_string() + "(let f (enu (geo (m 4300000) (m 600000) (m 4600000))))\n" + &"(show f)\n".repeat(lines - 2)
}

// Shows of one length, every fourth line a total.
fn totals(lines: usize) -> String {
    let line = |i: usize| if i % 4 == 0 { "(total)\n" } else { "(show casing)\n" };
    HEAD.to_string() + "(let casing (m 3.05))\n" + &(3..=lines).map(line).collect::<String>()
}

// Collars a kilometre from each other, each shown, and as many aparts behind them: 30 of 96 lines. What is left are shows of the first.
fn aparts(lines: usize) -> String {
    let names = lines * 30 / 96;
    let mut text = HEAD.to_string();
    for i in 0..lines - 1 {
        let name = i % names;
        text += &match i / names {
            0 => format!("(let c{name:02} (geo (m 43{name:02}010) (m 600000) (m 4600000)))\n"),
            1 => format!("(show c{name:02})\n"),
            2 => format!("(apart 5.{name:02})\n"),
            _ => "(show c00)\n".to_string(),
        };
    }
    text
}

// A bore a line, nearly the longest lines that 96 can be: 16,263 bytes of the 16,384 that a sheet may have.
fn bores(lines: usize) -> String {
    let line = |i: usize| {
        format!("(let tip{i:02} (tolla (at (enu (lla (deg 46.51{i:02}45) (deg 8.12{i:02}56) (m 812.{i:02}0000))) (add (aenu (deg 132.{i:02}00) (deg -78.250000) (m 42.{i:02}0000)) (venu (m 0) (m 0) (m -0.25))))))\n")
    };
    HEAD.to_string() + &(2..=lines).map(line).collect::<String>()
}

// A site's sheet with lines changed.
fn changed(lines: usize, to: &[(usize, &str)]) -> String {
    let site = site(lines);
    let lines = site.split_inclusive('\n').zip(1..);
    lines.map(|(line, i)| to.iter().find(|(at, _)| *at == i).map_or(line, |(_, other)| *other)).collect()
}

const BAD: &str = "(show p00 )\n";
const UNKNOWN: &str = "(show nobody)\n";

// Refused at the last line: by the walk over names and kinds, by the form pass that goes on from line 2, for a name, and when that line runs.
fn bad_at_last(lines: usize) -> String {
    changed(lines, &[(lines, BAD)])
}

fn bad_behind_a_name(lines: usize) -> String {
    changed(lines, &[(2, UNKNOWN), (lines, BAD)])
}

fn unknown_at_last(lines: usize) -> String {
    changed(lines, &[(lines, UNKNOWN)])
}

fn centre_at_last(lines: usize) -> String {
    changed(lines, &[(lines, "(let x (enu (geo (m 0) (m 0) (m 0))))\n")])
}

// A site's sheet of 96 lines with lines changed: what it is refused for, and at which line.
fn refused() -> Vec<(String, (u32, u32))> {
    vec![
        (changed(96, &[(2, BAD)]), (3, 2)),
        (changed(96, &[(1, "(ellipsoid 1 298)\n")]), (4, 1)),
        (changed(96, &[(2, UNKNOWN)]), (5, 2)),
        (changed(96, &[(96, "(let x (deg c00))\n")]), (6, 96)),
    ]
}

const READINGS: [f64; 16] = [0.0, 1.5, -2.25, 3.0, 4.75, 5.0, -6.5, 7.0, 8.0, 9.0, 10.0, 11.0, 12.0, 13.0, 14.0, 15.0];

// What an answer and a buffer come to.
fn told(number: u32, line: u32, bytes: &[u8]) -> u64 {
    let ends = bytes.first().zip(bytes.last()).map_or(0, |(&a, &b)| a as u64 * 256 + b as u64);
    (number as u64) << 40 ^ (line as u64) << 32 ^ (bytes.len() as u64) << 16 ^ ends
}

type Check = fn(&[u8], &mut [u8]) -> (u32, u32);
type Run = fn(&[u8], &[f64], &mut [u8]) -> (u32, u32, u64);

fn time_check(name: &str, s: &[u8]) -> (f64, f64) {
    let call = |check: Check| {
        let mut kinds = [0; 96];
        let (number, line) = check(black_box(s), &mut kinds);
        told(number, line, &kinds)
    };
    let (rust, rattle): (Check, Check) = black_box((sheet::check, library::check));
    best(name, CALLS, ROUNDS, |_| call(rust), |_| call(rattle))
}

fn time_run(name: &str, s: &[u8]) -> (f64, f64) {
    let out = std::cell::RefCell::new(vec![0; 24576]);
    let call = |run: Run| {
        let out = &mut *out.borrow_mut();
        let (number, line, written) = run(black_box(s), black_box(&READINGS), out);
        told(number, line, &out[..written as usize])
    };
    let (rust, rattle): (Run, Run) = black_box((sheet::run, library::run));
    best(name, CALLS, ROUNDS, |_| call(rust), |_| call(rattle))
}

// Nanoseconds of a check and of a run, each by the Rust and by the library.
type Times = [f64; 4];

fn times(name: &str, s: &[u8]) -> Times {
    let ((a, b), (c, d)) = (time_check(name, s), time_run(name, s));
    [a, b, c, d]
}

// A table of one sort of sheet, microseconds a call.
fn table((name, make, _): Sort, best: &[Times; 4]) {
    println!("{name}");
    println!("  lines  bytes   check: Rust   Rattle  ratio  Rattle a line     run: Rust   Rattle  ratio  Rattle a line");
    for (lines, t) in LENGTHS.into_iter().zip(best) {
        print!("  {lines:>5} {:>6}", make(lines).len());
        for [a, b] in [[t[0], t[1]], [t[2], t[3]]] {
            print!(" {:>13.2} {:>8.2} {:>6.2} {:>14.3}", a / 1000.0, b / 1000.0, b / a, b / 1000.0 / lines as f64);
        }
        println!();
    }
}

// A sort of sheets, and the numbers that the check and the run answer: 0, or a refusal at the last line.
type Sort = (&'static str, fn(usize) -> String, [u32; 2]);

const SORTS: [Sort; 11] = [
    ("a site's sheet", site, [0, 0]),
    ("one bracket a line", brackets, [0, 0]),
    ("shows of readings", shows, [0, 0]),
    ("shows of a frame", frames, [0, 0]),
    ("shows and totals", totals, [0, 0]),
    ("collars and aparts", aparts, [0, 0]),
    ("a bore a line", bores, [0, 0]),
    ("a site's sheet, its last line bad", bad_at_last, [3, 3]),
    ("a site's sheet, its last line bad and a name unknown on line 2", bad_behind_a_name, [3, 3]),
    ("a site's sheet, a name unknown on its last line", unknown_at_last, [5, 5]),
    ("a site's sheet, the centre on its last line", centre_at_last, [0, 8]),
];

// The number and the line.
fn expected(number: u32, lines: usize) -> (u32, u32) {
    (number, if number == 0 { 0 } else { lines as u32 })
}

fn checked((name, make, [check, run]): Sort, lines: usize) -> String {
    let (text, mut out) = (make(lines), vec![0; 24576]);
    assert_eq!(sheet::check(text.as_bytes(), &mut [0; 96]), expected(check, lines), "the check of {name}, {lines} lines");
    let (number, line, _) = sheet::run(text.as_bytes(), &READINGS, &mut out);
    assert_eq!((number, line), expected(run, lines), "the run of {name}, {lines} lines");
    text
}

fn profile(sort: Sort) {
    let ((name, make, [_, run]), mut out) = (sort, vec![0; 24576]);
    let text = make(96);
    println!("{name}");
    for _ in 0..200 {
        let (number, line, _) = library::run(black_box(text.as_bytes()), &READINGS, &mut out);
        assert_eq!((number, line), expected(run, 96), "{name}");
    }
}

fn once(what: &str, sort: Sort, lines: usize) {
    let (text, mut kinds, mut out) = (checked(sort, lines), [0; 96], vec![0; 24576]);
    let (answer, number) = match what {
        "check" => (library::check(black_box(text.as_bytes()), &mut kinds), sort.2[0]),
        "run" => {
            let (number, line, _) = library::run(black_box(text.as_bytes()), &READINGS, &mut out);
            ((number, line), sort.2[1])
        }
        _ => panic!("check or run"),
    };
    assert_eq!(answer, expected(number, lines), "{}", sort.0);
}

// The least of each time so far.
fn keep(least: &mut Times, times: Times) {
    for (x, t) in least.iter_mut().zip(times) {
        *x = x.min(t);
    }
}

fn sorts_timed() {
    let mut best = [[[f64::INFINITY; 4]; LENGTHS.len()]; SORTS.len()];
    for _ in 0..PASSES {
        for (sort, row) in SORTS.into_iter().zip(&mut best) {
            for (lines, least) in LENGTHS.into_iter().zip(row) {
                keep(least, times(sort.0, checked(sort, lines).as_bytes()));
            }
        }
    }
    for (sort, row) in SORTS.into_iter().zip(&best) {
        table(sort, row);
    }
}

fn refused_timed() {
    let refused = refused();
    let mut best = vec![[f64::INFINITY; 4]; refused.len()];
    for _ in 0..PASSES {
        for ((text, answer), least) in refused.iter().zip(&mut best) {
            assert_eq!(sheet::check(text.as_bytes(), &mut [0; 96]), *answer, "a sheet to be refused");
            keep(least, times("a refused sheet", text.as_bytes()));
        }
    }
    println!("a site's sheet of 96 lines, refused");
    println!("  number line   check: Rust   Rattle  ratio     run: Rust   Rattle  ratio");
    for ((_, (number, line)), t) in refused.iter().zip(&best) {
        print!("  {number:>6} {line:>4}");
        for [a, b] in [[t[0], t[1]], [t[2], t[3]]] {
            print!(" {:>13.3} {:>8.3} {:>6.2}", a / 1000.0, b / 1000.0, b / a);
        }
        println!();
    }
}

fn main() {
    let args: Vec<String> = std::env::args().skip(1).collect();
    let number = |k: &String| k.parse::<usize>().expect("a number");
    match &args[..] {
        [] => {
            println!("microseconds a call, the best of {PASSES} passes of {ROUNDS} rounds of {CALLS} calls");
            sorts_timed();
            refused_timed();
        }
        [word] if word == "sorts" => SORTS.iter().for_each(|sort| println!("{}", sort.0)),
        [word, k] if word == "profile" => profile(SORTS[number(k)]),
        [word, what, k, lines] if word == "once" => once(what, SORTS[number(k)], number(lines)),
        _ => panic!("bench_sheets [sorts | profile K | once check|run K LINES]"),
    }
}
