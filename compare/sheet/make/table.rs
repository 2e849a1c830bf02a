// Sheets that know a word of each kind and put some of them behind an operator.
use super::{Made, Sort};
use crate::random::Random;
use crate::sheet::READINGS;
use crate::sheet::words::Op;

const GIVEN: &str = "(ellipsoid wgs84)
(let n 2)
(let a (deg 10))
(let l (m 6000000))
(let g (geo l l l))
(let d (lla a a (m 5)))
(let ve (venu l l l))
(let vn (vned l l l))
(let vb (vbody l l l))
(let vw (vwan l l l))
(let fe (enu d))
(let fn (ned g))
(let fb (body a a a d))
(let fw (wan a g))
";
const WORDS: [&str; 13] = ["n", "a", "l", "g", "d", "ve", "vn", "vb", "vw", "fe", "fn", "fb", "fw"];

fn sheet(op: Op, words: &[&str]) -> Vec<u8> {
    let arguments: String = words.iter().flat_map(|word| [" ", *word]).collect();
    format!("{GIVEN}(let x ({}{arguments}))\n(show x)\n", op.text().escape_ascii()).into_bytes()
}

pub fn any(r: &mut Random) -> Vec<u8> {
    let words = [0; 5].map(|_| r.pick(&WORDS));
    let count = r.below(6) as usize;
    sheet(r.pick(Op::ALL), &words[..count])
}

// The most arguments that are gone through: three, and more for those that take more.
fn most(op: Op) -> u32 {
    match op {
        Op::Body => 4,
        Op::Move => 5,
        _ => 3,
    }
}

// Every operator with every list of kinds.
pub fn all() -> impl Iterator<Item = Made> {
    let kinds = WORDS.len();
    Op::ALL.iter().flat_map(move |&op| {
        (0..=most(op)).flat_map(move |count| {
            (0..kinds.pow(count)).map(move |at| {
                let words: Vec<&str> = (0..count).map(|k| WORDS[at / kinds.pow(k) % kinds]).collect();
                Made { sort: Sort::Table, sheet: sheet(op, &words), readings: [0; READINGS] }
            })
        })
    })
}
