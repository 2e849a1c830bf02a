// What the comparison of sheets has come to: counts by refusal, by sort and by operator, and of totals and aparts.
use crate::aparts::Aparts;
use crate::beside::{Compared, Counts};
use crate::make::Sort;
use crate::sheet;
use crate::sheet::words::Op;
use crate::totals::Totals;

const NUMBERS: usize = 10;

pub struct Tally {
    // by the refusal's number, 0 for none
    check: [u64; NUMBERS],
    // by the sort, then by the number
    run: [[u64; NUMBERS]; Sort::ALL.len()],
    // the operators of admitted sheets, and those applied by the machine
    pub met: Counts,
    pub applied: Counts,
    bytes: u64,
    written: u64,
    sheets: u64,
    // those whose run meets the line of request One
    request_one: u64,
    // those whose run writes a total, and what becomes of all totals
    with_totals: u64,
    totals: Totals,
    // those whose run meets an apart, and what becomes of all of them
    with_aparts: u64,
    aparts: Aparts,
    // those refused 3 at a line behind one that 4, 5 or 6 would refuse
    behind: u64,
    pub different: u64,
}

impl Tally {
    pub fn new() -> Tally {
        Tally {
            check: [0; NUMBERS],
            run: [[0; NUMBERS]; Sort::ALL.len()],
            met: [0; 35],
            applied: [0; 35],
            bytes: 0,
            written: 0,
            sheets: 0,
            request_one: 0,
            with_totals: 0,
            totals: Totals::default(),
            with_aparts: 0,
            aparts: Aparts::default(),
            behind: 0,
            different: 0,
        }
    }

    pub fn add(&mut self, compared: &Compared) {
        self.check[compared.check.number as usize] += 1;
        self.run[compared.made.sort as usize][compared.run.number as usize] += 1;
        self.bytes += compared.made.sheet.len() as u64;
        self.written += compared.run.written;
        self.sheets += 1;
        self.request_one += compared.request_one as u64;
        self.with_totals += (compared.totals.written > 0) as u64;
        self.totals.add(compared.totals);
        self.with_aparts += compared.aparts.is_any() as u64;
        self.aparts.add(compared.aparts);
        self.behind += (compared.check.number == 3 && refused_before(&compared.made.sheet, compared.check.line)) as u64;
        self.different += !compared.differences.is_empty() as u64;
    }

    pub fn print(&self) {
        println!("sheets by refusal       none        1        2        3        4        5        6        7        8        9");
        println!("check             {}", row(&self.check));
        let mut run = [0; NUMBERS];
        self.run.iter().for_each(|sort| (0..NUMBERS).for_each(|k| run[k] += sort[k]));
        println!("run               {}", row(&run));
        for sort in Sort::ALL.into_iter().filter(|&sort| self.run[sort as usize] != [0; NUMBERS]) {
            println!("   of {:<12}{}", format!("{sort:?}"), row(&self.run[sort as usize]));
        }
        println!("operators in admitted sheets, and applied by the machine");
        for ops in Op::ALL.chunks(5) {
            let cells = ops.iter().map(|&op| {
                let word = op.text().escape_ascii().to_string();
                format!("   {word:<8}{:>9}{:>9}", self.met[op as usize], self.applied[op as usize])
            });
            println!("{}", cells.collect::<String>());
        }
        println!("of those that the check refuses 3, behind a line that 4, 5 or 6 would refuse: {}", self.behind);
        let Totals { written, of_several, refused } = self.totals;
        println!("sheets that write a total: {}; totals written: {written}; of two or more lengths: {of_several}; sums refused 7: {refused}", self.with_totals);
        let Aparts { passed, over_pairs, at_least, broken, beyond } = self.aparts;
        println!("sheets that meet an apart: {}; passed: {passed}; over two or more names: {over_pairs}; with two exactly so far apart: {at_least}", self.with_aparts);
        println!("   refused 9: {broken}; refused 7: {beyond}");
        let Tally { bytes, written, sheets, request_one, different, .. } = self;
        println!("total: {sheets} sheets of {bytes} bytes, {written} bytes written, {request_one} meet request One, {different} different");
    }
}

// Whether the lines before this one alone would be refused 4, 5 or 6.
fn refused_before(text: &[u8], line: u32) -> bool {
    let before: Vec<u8> = text.split_inclusive(|&byte| byte == b'\n').take(line as usize - 1).flatten().copied().collect();
    (4..=6).contains(&sheet::check(&before, &mut [0; 96]).0)
}

fn row(counts: &[u64]) -> String {
    counts.iter().map(|count| format!(" {count:>8}")).collect()
}
