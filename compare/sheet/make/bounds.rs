// Sheets at the sizes where refusals 1 and 3 begin: bytes, lines, a line's bytes, arguments, letters, digits, depth; and the most that a run looks back on.
use super::numerals::long;
use crate::random::Random;

const FIRST: &str = "(ellipsoid wgs84)\n";

pub fn sheet(r: &mut Random) -> Vec<u8> {
    match r.below(20) {
        0 => Vec::new(),
        1 => vec![r.pick(&[b'\n', b'(', b' ', 0, 255])],
        2 | 3 => bytes(r),
        4..=6 => lines(r),
        7 | 8 => line(r),
        9 => arguments(r),
        10 | 11 => letters(r),
        12 => digits(r),
        13 => names(r),
        14 => wide(r),
        15 => shown(r),
        16 | 17 => collars(r),
        _ => depth(r),
    }
}

// A let of the given count of bytes with its LF, from 80 to 205, of the right kinds; up to 200 no deeper than is allowed.
fn let_of(r: &mut Random, name: &str, bytes: usize) -> String {
    // 57 bytes and 6 for each neg surround the name and six numbers
    let room = bytes - 57 - name.len();
    let low = room.saturating_sub(6 * 16).div_ceil(6);
    let high = ((room - 6) / 6).min(8).max(low);
    let negs = low + r.below((high - low + 1) as u64) as usize;
    let mut left = room - 6 * negs;
    let mut numbers = Vec::new();
    for after in (0..6).rev() {
        let least = left.saturating_sub(after * 16).max(1);
        let most = (left - after).min(16);
        let length = least + r.below((most - least + 1) as u64) as usize;
        numbers.push(long(r, length));
        left -= length;
    }
    let vector = |n: &[String]| format!("(venu (m {}) (m {}) (m {}))", n[0], n[1], n[2]);
    let (first, second) = (vector(&numbers[..3]), vector(&numbers[3..]));
    format!("(let {name} (add {first} {}{second}{}))\n", "(neg ".repeat(negs), ")".repeat(negs))
}

// About 16,384 bytes, of the right kinds; at times only the size is wrong.
fn bytes(r: &mut Random) -> Vec<u8> {
    let total = r.pick(&[16384, 16385, 16383, 16385, 16384, 16386, 16000]);
    let lines = 84 + r.below(13) as usize - 1;
    let rest = total - FIRST.len();
    let mut sheet = FIRST.to_string();
    for k in 0..lines {
        let length = rest * (k + 1) / lines - rest * k / lines;
        sheet.push_str(&let_of(r, &format!("v{k}"), length));
    }
    sheet.into_bytes()
}

// About 96 lines; at times one more follows, or breaks off.
fn lines(r: &mut Random) -> Vec<u8> {
    let count = r.pick(&[94, 95, 95, 95, 96, 96, 97, 120]);
    let mut sheet = FIRST.to_string();
    for k in 0..count {
        match r.below(6) {
            0 => sheet.push_str(&format!("(let n{k} {k})\n")),
            1 => sheet.push_str(r.pick(&["(total)\n", "(apart 5)\n"])),
            _ => sheet.push_str(&format!("(show r{})\n", r.below(16))),
        }
    }
    match r.below(6) {
        0 => sheet.push('('),
        1 => sheet.push('\n'),
        2 => sheet.push_str("(show r0)"),
        3 => sheet.truncate(sheet.len() - 1),
        4 => sheet.push_str(r.pick(&["(total)\n", "(apart 5)\n"])),
        _ => (),
    }
    // and at times an earlier one is bad
    if r.below(6) == 0 {
        sheet = sheet.replacen("(show r1)", r.pick(&["(show R1)", "(show q)", "(let q (m q))"]), 1);
    }
    sheet.into_bytes()
}

// A line of about 200 bytes, at times with something wrong after it.
fn line(r: &mut Random) -> Vec<u8> {
    let length = r.pick(&[198, 199, 200, 200, 201, 201, 202, 205]);
    let name = r.pick(&["a", "bb", "abcdefghijkl"]);
    let mut sheet = format!("{FIRST}(show r0)\n{}(show {name})\n", let_of(r, name, length));
    sheet.push_str(r.pick(&["", "", "(show q)\n", "(show)\n"]));
    sheet.into_bytes()
}

// None to six, after a word of any sort.
fn arguments(r: &mut Random) -> Vec<u8> {
    let word = r.pick(&["foo", "m", "move", "look", "body", "r0", "v", "let", "neg", "geo"]);
    let count = r.below(7) as usize;
    let argument = r.pick(&[" 1", " r0", " (m 1)", " (deg 1)", " v"]);
    format!("{FIRST}(let v (venu (m 1) (m 2) (m 3)))\n(let w ({word}{}))\n", argument.repeat(count)).into_bytes()
}

// Words of about 12 letters, and digits in front, in each place of a word.
fn letters(r: &mut Random) -> Vec<u8> {
    let length = r.pick(&[11, 12, 12, 13, 13, 14, 40]);
    let mut word: String = (0..length).map(|_| r.pick(b"abz09") as char).collect();
    let first = r.pick(b"aaabzz09-.A_") as char;
    word.replace_range(..1, &first.to_string());
    // the same but for its last letter
    let other = word[..length - 1].to_string() + r.pick(&["q", "r", ""]);
    match r.below(4) {
        0 => format!("{FIRST}(let {word} 1)\n(show {word})\n"),
        1 => format!("{FIRST}(let {word} 1)\n(let {other} 2)\n(show {word})\n(show {other})\n"),
        2 => format!("{FIRST}(let a ({word} 1))\n"),
        _ => format!("{FIRST}(let a {word})\n"),
    }
    .into_bytes()
}

// About nine digits before the point and six behind it, in an expression, on line 1 or in an apart.
fn digits(r: &mut Random) -> Vec<u8> {
    let run = |r: &mut Random, count: usize| -> String { (0..count).map(|_| r.pick(b"0123456789") as char).collect() };
    let (before, behind) = (r.pick(&[1, 8, 9, 10, 11]), r.pick(&[0, 1, 5, 6, 7, 8]));
    let mut number = r.pick(&["", "-"]).to_string() + &run(r, before);
    if behind > 0 || r.below(3) == 0 {
        number = number + "." + &run(r, behind);
    }
    match r.below(5) {
        0 => format!("(ellipsoid {number} 298)\n"),
        1 => format!("(ellipsoid 6378137 {number})\n(show r0)\n"),
        2 => format!("{FIRST}(let p (geo (m 0) (m 0) (m 0)))\n(show p)\n(apart {number})\n(show p)\n"),
        _ => format!("{FIRST}(show r0)\n(let a {number})\n(show a)\n"),
    }
    .into_bytes()
}

// Every line gives a name; the first, some other and the last are used.
fn names(r: &mut Random) -> Vec<u8> {
    let mut sheet = FIRST.to_string();
    let count = r.pick(&[92, 93, 94]);
    for k in 0..count {
        let value = if k == 0 { "7".to_string() } else { format!("n{}", r.below(k)) };
        sheet.push_str(&format!("(let n{k} {value})\n"));
    }
    let last = [format!("(show n{})\n", count - 1), "(let n0 1)\n".to_string(), format!("(let last n{})\n", r.below(count + 1))];
    sheet.push_str(&last[r.below(3) as usize]);
    sheet.into_bytes()
}

// About 12 deep, the line's own bracket counted.
fn depth(r: &mut Random) -> Vec<u8> {
    let depth = r.pick(&[11, 12, 12, 13, 13, 14]);
    let (open, inner, inside) = match r.below(4) {
        0 => ("(neg ", "(venu (m 1) (m 2) (m 3))", 2),
        1 => ("(foo ", "r0", 0),
        2 => ("(swap ", "(vned (m 1) (m 2) (m 3))", 2),
        _ => ("(add v ", "v", 0),
    };
    let around = depth - 1 - inside;
    let v = "(let v (venu (m 1) (m 2) (m 3)))\n";
    format!("{FIRST}{v}(let a {}{inner}{})\n(show a)\n", open.repeat(around), ")".repeat(around)).into_bytes()
}

// As many arguments as possible wait while the innermost is worked out, 11 to 13 deep.
fn wide(r: &mut Random) -> Vec<u8> {
    let given = "(let p (lla (deg 50) (deg 8) (m 100)))\n(let f (body (deg 1) (deg 2) (deg 3) p))\n(let v (vbody (m 1) (m 2) (m 3)))\n(let a (deg 4))\n";
    let (open, inner, close, times) = match r.below(4) {
        0 => ("(move f v a a (rz ", "f", "))", 5),
        1 => ("(body a a a (origin ", "f", "))", 5),
        2 => ("(foo 1 1 1 1 ", "1", ")", 10 + r.below(3) as usize),
        _ => ("(foo ", "1", " 1 1 1 1)", 10 + r.below(3) as usize),
    };
    format!("{FIRST}{given}(let b {}{inner}{})\n(show b)\n", open.repeat(times), close.repeat(times)).into_bytes()
}

// About the longest text that a sheet can have.
fn shown(r: &mut Random) -> Vec<u8> {
    let name = r.pick(&["abcdefghijkl", "abcdefghijk", "z"]);
    let count = r.pick(&[90, 93, 94]);
    let frame = r.pick(&["(body (deg 1) (deg 2) (deg 3) (lla (deg 50) (deg 8) (m 100)))", "(wan (deg 1) (lla (deg 50) (deg 8) (m r15)))"]);
    format!("{FIRST}(let {name} {frame})\n{}", format!("(show {name})\n").repeat(count)).into_bytes()
}

// As many collars as can be shown before an apart, 5 metres from one to the next; at times one of them, the last shown or any, stands where another does.
fn collars(r: &mut Random) -> Vec<u8> {
    let count = r.pick(&[46, 47, 47]);
    let (first, any, other) = (r.below(count), r.below(count), r.below(count));
    let moved = r.pick(&[None, Some((first + count - 1) % count), Some(any)]);
    let mut sheet = FIRST.to_string();
    for k in 0..count {
        let east = if moved == Some(k) { other } else { k };
        sheet.push_str(&format!("(let c{k} (geo (m {}) (m 0) (m 0)))\n", 5 * east));
    }
    (0..count).for_each(|k| sheet.push_str(&format!("(show c{})\n", (first + k) % count)));
    format!("{sheet}(apart {})\n", r.pick(&["5", "5", "5", "5.000001", "0"])).into_bytes()
}
