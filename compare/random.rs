// A seeded generator, and doubles of every class that the comparison should meet.
use std::f64::consts::PI;

// splitmix64
pub struct Random(pub u64);

impl Random {
    pub fn bits(&mut self) -> u64 {
        self.0 = self.0.wrapping_add(0x9e37_79b9_7f4a_7c15);
        let z = (self.0 ^ (self.0 >> 30)).wrapping_mul(0xbf58_476d_1ce4_e5b9);
        let z = (z ^ (z >> 27)).wrapping_mul(0x94d0_49bb_1331_11eb);
        z ^ (z >> 31)
    }

    pub fn below(&mut self, n: u64) -> u64 {
        self.bits() % n
    }

    pub fn coin(&mut self) -> bool {
        self.bits() >> 63 == 1
    }

    // From -n to n.
    pub fn about(&mut self, n: i64) -> i64 {
        self.below(2 * n as u64 + 1) as i64 - n
    }

    // From 0 up to 1.
    pub fn unit(&mut self) -> f64 {
        (self.bits() >> 11) as f64 / (1u64 << 53) as f64
    }

    pub fn between(&mut self, low: f64, high: f64) -> f64 {
        low + self.unit() * (high - low)
    }

    // x or -x.
    pub fn signed(&mut self, x: f64) -> f64 {
        if self.coin() { -x } else { x }
    }

    pub fn pick<T: Copy>(&mut self, from: &[T]) -> T {
        from[self.below(from.len() as u64) as usize]
    }

    // x or one of the three doubles on each side of it.
    pub fn beside(&mut self, x: f64) -> f64 {
        let k = self.about(3);
        step(x, k)
    }
}

// The double k places above x.
pub fn step(x: f64, k: i64) -> f64 {
    let place = |b: i64| if b < 0 { i64::MIN.wrapping_sub(b) } else { b };
    f64::from_bits(place(place(x.to_bits() as i64).wrapping_add(k)) as u64)
}

// 2^e
pub fn power_of_two(e: i64) -> f64 {
    f64::from_bits(((e + 1023) as u64) << 52)
}

// Values at which some step changes, or nearly.
pub const EDGES: [f64; 14] = [
    64.0,
    0.41421356,
    1.0,
    f64::EPSILON,
    100000000.0,
    0.5,
    2.0,
    4.0,
    180.0,
    360.0,
    4503599627370496.0,
    9007199254740992.0,
    f64::MAX,
    f64::MIN_POSITIVE,
];

pub const CLASSES: u64 = 13;

// A double of the given class.
pub fn number(r: &mut Random, class: u64) -> f64 {
    match class {
        0 => f64::from_bits(r.bits()),
        1 => r.signed(0.0),
        2 => subnormal(r),
        3 => not_finite(r),
        4 => {
            let edge = r.pick(&EDGES);
            let edge = r.signed(edge);
            r.beside(edge)
        }
        5 => quarter_turns(r),
        6 => r.about(1000) as f64 / 2.0,
        7 => square(r),
        8 => {
            let earth = r.between(1.0, 7e6);
            r.signed(earth)
        }
        9 => r.between(-1.0, 1.0),
        10 => r.between(-64.0, 64.0),
        11 => middling(r),
        _ => few_bits(r),
    }
}

fn subnormal(r: &mut Random) -> f64 {
    let shift = 12 + r.below(52);
    let x = f64::from_bits(r.bits() >> shift);
    r.signed(x)
}

fn not_finite(r: &mut Random) -> f64 {
    let payload = r.bits() >> 12;
    let x = match r.below(4) {
        0 => f64::NAN,
        1 => f64::from_bits(0x7ff0_0000_0000_0000 | payload),
        _ => f64::INFINITY,
    };
    r.signed(x)
}

// k * PI/2 or (k + 0.5) * PI/2, and beside.
fn quarter_turns(r: &mut Random) -> f64 {
    let k = r.about(41) as f64 + if r.coin() { 0.5 } else { 0.0 };
    r.beside(k * (PI / 2.0))
}

// The square of a whole number of 26 or 27 bits times a power of four, and beside.
fn square(r: &mut Random) -> f64 {
    let k = ((1 << 25) + r.below((1 << 27) - (1 << 25))) as f64;
    let scale = if r.coin() { 1.0 } else { power_of_two(2 * r.about(40)) };
    r.beside(k * k * scale)
}

// Of an exponent from -40 to 40.
fn middling(r: &mut Random) -> f64 {
    let x = r.between(1.0, 2.0) * power_of_two(r.about(40));
    r.signed(x)
}

fn few_bits(r: &mut Random) -> f64 {
    let x = r.below(1024) as f64 * power_of_two(r.about(30));
    r.signed(x)
}

// Every value at which something may turn, of both signs, with its neighbours.
pub fn specials() -> Vec<f64> {
    let turns = (1..=83).map(|k| k as f64 * 0.5 * (PI / 2.0));
    let near: Vec<f64> = EDGES.into_iter().chain(turns).collect();
    let mut all = vec![0.0, f64::INFINITY, f64::NAN, step(0.0, 1), step(0.0, 2), step(f64::MIN_POSITIVE, -1)];
    for x in near {
        all.extend((-3..=3).map(|k| step(x, k)));
    }
    all.iter().flat_map(|&x| [x, -x]).collect()
}
