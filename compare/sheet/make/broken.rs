// Sheets broken in one place: a name, a kind, or a byte. At times a breakage does no harm.
use super::WORDS;
use crate::random::Random;
use crate::sheet::words::Op;
use std::ops::Range;

fn pick(r: &mut Random, places: &[Range<usize>]) -> Option<Range<usize>> {
    if places.is_empty() { None } else { Some(places[r.below(places.len() as u64) as usize].clone()) }
}

// The lines with their LFs.
fn lines(sheet: &[u8]) -> Vec<Range<usize>> {
    let mut first = 0;
    let ends = sheet.split_inclusive(|&b| b == b'\n').map(|line| {
        first += line.len();
        first - line.len()..first
    });
    ends.collect()
}

// Words and numbers after line 1, save the words that open a line.
fn tokens(sheet: &[u8]) -> Vec<Range<usize>> {
    let start = lines(sheet).get(1).map_or(sheet.len(), |line| line.start);
    let inner = |b: u8| b.is_ascii_lowercase() || b.is_ascii_digit() || b == b'-' || b == b'.';
    let mut found = Vec::new();
    let mut at = start;
    while at < sheet.len() {
        let length = sheet[at..].iter().take_while(|&&b| inner(b)).count();
        let opens = at >= 2 && sheet[at - 1] == b'(' && sheet[at - 2] == b'\n';
        if length > 0 && !opens {
            found.push(at..at + length);
        }
        at += length.max(1);
    }
    found
}

// Arguments of brackets, whole.
fn arguments(sheet: &[u8]) -> Vec<Range<usize>> {
    let mut found = Vec::new();
    for token in tokens(sheet) {
        let opens = sheet[token.start - 1] == b'(';
        let start = if opens { token.start - 1 } else { token.start };
        let line_word = [&b"(let "[..], b"(show "].iter().any(|word| sheet[..start].ends_with(word));
        if line_word {
            continue;
        }
        let mut end = token.end;
        let mut depth = opens as usize;
        while depth > 0 && end < sheet.len() {
            match sheet[end] {
                b'(' => depth += 1,
                b')' => depth -= 1,
                _ => (),
            }
            end += 1;
        }
        found.push(start..end);
    }
    found
}

// Those that come after the given text.
fn after(sheet: &[u8], text: &[u8]) -> Vec<Range<usize>> {
    tokens(sheet).into_iter().filter(|token| sheet[..token.start].ends_with(text)).collect()
}

fn replace(sheet: &mut Vec<u8>, place: Range<usize>, text: &[u8]) {
    sheet.splice(place, text.iter().copied());
}

// A word of some sort, perhaps one of the sheet's own.
fn word(r: &mut Random, sheet: &[u8]) -> Vec<u8> {
    let mut word = match r.below(6) {
        0 => r.pick(Op::ALL).text().to_vec(),
        1 => format!("r{}", r.below(18)).into_bytes(),
        2 => r.pick(&WORDS).as_bytes().to_vec(),
        3 => b"unknown".to_vec(),
        _ => {
            let given = after(sheet, b"(let ");
            pick(r, &given).map_or(b"unknown".to_vec(), |place| sheet[place].to_vec())
        }
    };
    // or nearly one of these
    match r.below(12) {
        0 => word.push(r.pick(b"0a9z")),
        1 if word.len() > 1 => word.truncate(word.len() - 1),
        2 => {
            let at = r.below(word.len() as u64) as usize;
            word[at] = r.pick(b"azr019");
        }
        _ => (),
    }
    word
}

pub fn name(r: &mut Random, sheet: &mut Vec<u8>) {
    let places = match r.below(5) {
        0 => after(sheet, b"(let "),
        1 => after(sheet, b"(show "),
        2 => return swap_lines(r, sheet),
        _ => tokens(sheet),
    };
    let text = word(r, sheet);
    match pick(r, &places) {
        Some(place) => replace(sheet, place, &text),
        None => {
            let line = [&b"(let "[..], &text, b" ", &word(r, sheet), b")\n"].concat();
            sheet.extend(line);
        }
    }
}

// A line one place up, or twice.
fn swap_lines(r: &mut Random, sheet: &mut Vec<u8>) {
    let lines = lines(sheet);
    if lines.len() < 3 {
        return sheet.extend(b"(show later)\n(let later 1)\n");
    }
    let at = 1 + r.below(lines.len() as u64 - 2) as usize;
    let (first, second) = (lines[at].clone(), lines[at + 1].clone());
    if r.coin() {
        sheet[first.start..second.end].rotate_left(first.len());
    } else {
        let line = sheet[first.clone()].to_vec();
        replace(sheet, first.start..first.start, &line);
    }
}

pub fn kind(r: &mut Random, sheet: &mut Vec<u8>) {
    let all = arguments(sheet);
    let Some(place) = pick(r, &all) else {
        let text = r.pick(&[&b"(r0)"[..], b"(foo)", b"(m)", b"(total)", b"(total 1)", b"(apart)", b"(apart 1)", b"(foo 1 2 3 4 5)", b"(deg (m 1))", b"(let 1)", b"(neg 1)", b"(m 1 2)"]);
        return sheet.extend([&b"(let new "[..], text, b")\n"].concat());
    };
    match r.below(6) {
        // another word in front
        0 | 1 => {
            let text = word(r, sheet);
            let heads = after(sheet, b"(");
            if let Some(head) = pick(r, &heads) {
                replace(sheet, head, &text);
            }
        }
        // left out, its space too
        2 => replace(sheet, place.start - 1..place.end, b""),
        // twice
        3 => {
            let text = [b" ", &sheet[place.clone()]].concat();
            replace(sheet, place.end..place.end, &text);
        }
        // by another of the sheet's, or by a word
        4 => {
            let other = pick(r, &all).unwrap_or(0..0);
            let text = sheet[other].to_vec();
            replace(sheet, place, &text);
        }
        _ => {
            let text = word(r, sheet);
            replace(sheet, place, &text);
        }
    }
}

const BYTES: [u8; 24] = *b" ()\n\r\t\0-.+09azAZ_\x7f\x80\xff/:`{";

pub fn byte(r: &mut Random, sheet: &mut Vec<u8>) {
    let at = r.below(sheet.len() as u64) as usize;
    let any = if r.coin() { r.pick(&BYTES) } else { r.bits() as u8 };
    match r.below(22) {
        0 | 1 => sheet[at] = any,
        2 => replace(sheet, at..at + 1, b""),
        3 => sheet.insert(at, any),
        4 => sheet.insert(at, sheet[at]),
        5 => sheet[at] = sheet[at].to_ascii_uppercase(),
        // the last LF, or all from some place on
        6 => sheet.truncate(sheet.len() - 1),
        7 => sheet.truncate(at.max(1)),
        8 => double(r, sheet, b' '),
        9 => double(r, sheet, b'\n'),
        10 => sheet.push(any),
        11 => number(r, sheet),
        12..=14 => nearly(r, sheet, b"(total)", &TOTALS),
        _ => nearly(r, sheet, b"(apart ", &APARTS),
    }
    // never empty: that is a size
    if sheet.is_empty() {
        sheet.push(any);
    }
}

// One of the bytes of that sort twice, or left out.
fn double(r: &mut Random, sheet: &mut Vec<u8>, byte: u8) {
    let places: Vec<usize> = (0..sheet.len()).filter(|&k| sheet[k] == byte).collect();
    if !places.is_empty() {
        let at = r.pick(&places);
        if r.coin() {
            sheet.insert(at, byte);
        } else {
            sheet.remove(at);
        }
    }
}

// A NUM that is none, or nearly.
fn number(r: &mut Random, sheet: &mut Vec<u8>) {
    let texts = [
        "1.", ".5", "-", "--1", "+1", "1e5", "1.5.2", "1234567890", "123456789", "1.1234567", "1.123456", "-123456789.123456", "0x1", "inf", "nan", "-.5", "1-", "-0",
        "1_0", "-1234567890", "0000000001", "000000001", "1,5", "- 1",
    ];
    let text = r.pick(&texts);
    let numbers: Vec<Range<usize>> = tokens(sheet).into_iter().filter(|token| !sheet[token.start].is_ascii_lowercase()).collect();
    match pick(r, &numbers) {
        Some(place) => replace(sheet, place, text.as_bytes()),
        None => sheet.extend(format!("(let new {text})\n").into_bytes()),
    }
}

const TOTALS: [&str; 24] = [
    "(total )", "(total x)", "(total 1)", "(totals)", "(Total)", "( total)", " (total)", "(total) ", "(total\t)", "(total)\r", "(total", "total)", "total", "(tota)",
    "((total))", "(total))", "(total (m 1))", "(total r0)", "(total)(total)", "(total) (total)", "(show total)", "(let total 1)", "(let total total)", "(let x (total))",
];
const APARTS: [&str; 48] = [
    "(apart)", "(apart )", "(apart -5)", "(apart -0)", "(apart -0.0)", "(apart -000)", "(apart --0)", "(apart - 5)", "(apart -)", "(apart +5)", "(apart 5.)",
    "(apart .5)", "(apart 5 5)", "(apart 5 0)", "(apart 0 0.5)", "(apart  5)", "(apart 5 )", "( apart 5)", " (apart 5)", "(apart 5) ", "(apart\t5)", "(apart 5)\r",
    "(apart 5", "apart 5)", "apart 5", "(apart 5))", "((apart 5))", "(apart (5))", "(apart (m 5))", "(apart r0)", "(apart x)", "(apart apart)", "(apart 1234567890)",
    "(apart 1.1234567)", "(apart 5e1)", "(apart5)", "(aparts 5)", "(apar 5)", "(Apart 5)", "(apart 5)(apart 5)", "(apart 5) (show r0)", "(apart 5m)",
    "(apart 123456789.123456)", "(apart 000000000.000000)", "(show apart)", "(let apart 1)", "(let x (apart 5))", "(let x apart)",
];

// Nearly a line of the sort that begins so, instead of one or behind some line; or a line that has its word as a name.
fn nearly(r: &mut Random, sheet: &mut Vec<u8>, begins: &[u8], texts: &[&str]) {
    let text = r.pick(texts);
    let lines = lines(sheet);
    let such: Vec<Range<usize>> = lines.iter().filter(|line| sheet[line.start..line.end].starts_with(begins)).cloned().collect();
    let place = match pick(r, &such) {
        Some(place) if r.coin() => place,
        _ => pick(r, &lines).map_or(0..0, |line| line.end..line.end),
    };
    replace(sheet, place, format!("{text}\n").as_bytes());
}

// Bytes without a plan.
pub fn noise(r: &mut Random) -> Vec<u8> {
    let mut sheet = if r.coin() { b"(ellipsoid wgs84)\n".to_vec() } else { Vec::new() };
    let length = 1 + r.below(60);
    match r.below(3) {
        0 => sheet.extend((0..length).map(|_| r.bits() as u8)),
        1 => sheet.extend((0..length).map(|_| r.pick(b"()()  \nletshowabm019.-"))),
        _ => {
            let parts = ["(let ", "(show ", "(", ")", ")\n", " ", "r0", "a", "1", "(m ", "(deg ", "(venu ", "-0", "\n", "(ellipsoid ", "(total)\n", "total", "(apart ", "(apart 1)\n", "apart"];
            (0..length / 3 + 1).for_each(|_| sheet.extend(r.pick(&parts).as_bytes()));
        }
    }
    sheet
}
