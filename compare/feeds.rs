// Inputs for an operation, by what it takes. Each call of `fill` is the next turn; the classes come round in turn, so that a few dozen turns meet them all.
use crate::earth::Part;
use crate::random::{CLASSES, Random, number, power_of_two};
use crate::remainders;
use crate::turns;
use std::f64::consts::PI;

#[derive(Clone, Copy, PartialEq)]
pub enum Feed {
    Nothing,
    // one number of any class; the next three add more of those that the operation is about
    Number,
    Turn,
    Unit,
    Root,
    // two numbers, often related
    Pair,
    // a number and the maximum to which it is brought; here, in the next and in the last, every third turn is about where request One changes the answer
    Wrap,
    // a number to be brought to 2 PI
    WrapFull,
    // a dividend and a divisor
    Remainder,
    // a sign, digits and tens, whole numbers
    Decimal,
    // vectors, often related, and at the end perhaps one number
    Vectors,
    // what a frame's operation takes, part by part
    Parts(&'static [Part]),
    // the same, where a bearing is taken
    Westward(&'static [Part]),
}

pub struct Feeder {
    pub random: Random,
    pub turn: u64,
    class: u64,
}

impl Feeder {
    // The inputs of an operation, by its number.
    pub fn of(seed: u64, number: usize) -> Feeder {
        Feeder { random: Random(seed ^ (number as u64) << 32), turn: 0, class: 0 }
    }

    pub fn fill(&mut self, feed: Feed, inputs: &mut [u64]) {
        let third = self.turn % 3 == 2;
        match feed {
            Feed::Nothing => {}
            Feed::Number => put(inputs, &[self.next()]),
            Feed::Turn => put(inputs, &[self.often(&[5, 10])]),
            Feed::Unit => put(inputs, &[self.often(&[9, 4])]),
            Feed::Root => {
                let x = self.often(&[7, 0, 9, 11]);
                put(inputs, &[if self.turn % 2 == 0 { x } else { x.abs() }])
            }
            Feed::Pair => put(inputs, &self.pair()),
            Feed::Wrap if third => put(inputs, &turns::pair(&mut self.random, self.turn / 3)),
            Feed::Wrap => put(inputs, &self.wrap()),
            Feed::WrapFull if third => put(inputs, &[turns::angle(&mut self.random, self.turn / 3, 2.0 * PI)]),
            Feed::WrapFull => {
                let x = self.wrapped(2.0 * PI);
                put(inputs, &[x])
            }
            Feed::Remainder => put(inputs, &self.remainder()),
            Feed::Decimal => inputs.copy_from_slice(&self.decimal()),
            Feed::Vectors => self.vectors(inputs),
            Feed::Parts(parts) => self.parts(parts, inputs),
            Feed::Westward(parts) => {
                self.parts(parts, inputs);
                if third {
                    turns::westward(&mut self.random, self.turn / 3, parts, inputs);
                }
            }
        }
        self.turn += 1;
    }

    // A number of the class whose turn it is.
    fn next(&mut self) -> f64 {
        self.class = (self.class + 1) % CLASSES;
        number(&mut self.random, self.class)
    }

    // A number of any class.
    pub fn any(&mut self) -> f64 {
        let class = self.random.below(CLASSES);
        number(&mut self.random, class)
    }

    // Every second time one of the classes given.
    fn often(&mut self, classes: &[u64]) -> f64 {
        if self.turn % 2 == 0 {
            return self.next();
        }
        let class = self.random.pick(classes);
        number(&mut self.random, class)
    }

    fn pair(&mut self) -> [f64; 2] {
        let a = self.next();
        let b = match self.turn % 6 {
            0 => a,
            1 => -a,
            2 => {
                let b = self.random.beside(a);
                self.random.signed(b)
            }
            // a quotient beside one of the edges
            3 => a * number(&mut self.random, 4),
            _ => self.any(),
        };
        if self.random.coin() { [a, b] } else { [b, a] }
    }

    fn wrap(&mut self) -> [f64; 2] {
        let max = match self.turn % 5 {
            0 => 2.0 * PI,
            1 => PI,
            2 => self.any().abs(),
            _ => self.any(),
        };
        [self.wrapped(max), max]
    }

    // Of each sort in turn, then a number and a maximum.
    fn remainder(&mut self) -> [f64; 2] {
        match self.turn % (remainders::SORTS + 1) {
            remainders::SORTS => self.wrap(),
            sort => remainders::pair(&mut self.random, sort),
        }
    }

    // A number that is brought to the range of `max` in some telling way.
    fn wrapped(&mut self, max: f64) -> f64 {
        match self.turn % 7 {
            // a remainder below zero that rounds away beside max, or nearly
            0 => {
                let scale = power_of_two(-50 - self.random.below(12) as i64);
                -max * scale * self.random.between(0.5, 1.0)
            }
            1 => -number(&mut self.random, 2).abs(),
            // multiples, and beside
            2 => {
                let k = self.random.about(1000) as f64;
                self.random.beside(k * max)
            }
            3 => max * self.random.between(-4.0, 4.0),
            _ => self.next(),
        }
    }

    fn decimal(&mut self) -> [u64; 3] {
        let r = &mut self.random;
        let negative = r.below(2);
        let tens = 10u64.pow(r.below(7) as u32);
        if self.turn % 4 != 0 {
            let count = 1 + r.below(15) as u32;
            return [negative, r.below(10u64.pow(count)), tens];
        }
        let top = 1 << 53;
        let any = r.bits() >> r.below(64);
        let digits = [0, 1, top - 1, top, top + 1, any, any % top];
        let tens = [0, 1, tens, top - 1, top, top + 1, any, any % top + 1];
        let at = (self.turn / 4) as usize;
        [negative, digits[at % 7], tens[at % 8]]
    }

    fn vectors(&mut self, inputs: &mut [u64]) {
        let first = self.vector();
        for (k, part) in inputs.chunks_mut(3).enumerate() {
            if part.len() == 1 {
                put(part, &[self.any()]);
            } else if k == 0 {
                put(part, &first);
            } else {
                let v = self.related(first);
                put(part, &v);
            }
        }
        if inputs.len() == 18 && self.turn % 3 == 0 {
            self.same_matrix(inputs);
        }
    }

    // The second matrix as the first, at times but for one part.
    fn same_matrix(&mut self, inputs: &mut [u64]) {
        inputs.copy_within(0..9, 9);
        let at = 9 + self.random.below(9) as usize;
        let x = f64::from_bits(inputs[at]);
        put(&mut inputs[at..], &[if x == 0.0 { -x } else { self.random.beside(x) }]);
    }

    fn vector(&mut self) -> [f64; 3] {
        let r = &mut self.random;
        match self.turn % 8 {
            0 => axis(r),
            1 => unit([0; 3].map(|_| r.between(-1.0, 1.0))),
            2 => [0; 3].map(|_| number(r, 8)),
            // parts alike but for the sign, or nearly
            3 => {
                let x = self.any();
                let r = &mut self.random;
                [0; 3].map(|_| r.signed(x)).map(|x| if r.coin() { r.beside(x) } else { x })
            }
            4 => [0; 3].map(|_| if r.coin() { r.signed(0.0) } else { number(r, 11) }),
            // parts of one class
            5 => {
                let x = self.next();
                let class = self.class;
                [x, number(&mut self.random, class), number(&mut self.random, class)]
            }
            _ => [self.next(), self.any(), self.any()],
        }
    }

    // A vector beside the given one.
    fn related(&mut self, v: [f64; 3]) -> [f64; 3] {
        let r = &mut self.random;
        match (self.turn + self.turn / 8 + r.below(2)) % 8 {
            0 => v,
            1 => v.map(|x| -x),
            2 => v.map(|x| r.beside(x)),
            3 => v.map(|x| -r.beside(x)),
            // equal by ==, zeros of any sign
            4 => v.map(|x| if x == 0.0 { r.signed(0.0) } else { x }),
            5 => {
                let factor = number(r, 11);
                v.map(|x| x * factor)
            }
            6 => [-v[1], v[0], r.signed(0.0)],
            _ => self.vector(),
        }
    }
}

pub fn put(to: &mut [u64], from: &[f64]) {
    for (bits, x) in to.iter_mut().zip(from) {
        *bits = x.to_bits();
    }
}

pub fn axis(r: &mut Random) -> [f64; 3] {
    let mut v = [0; 3].map(|_| r.signed(0.0));
    v[r.below(3) as usize] = r.signed(1.0);
    v
}

pub fn unit(v: [f64; 3]) -> [f64; 3] {
    let n = (v[0] * v[0] + v[1] * v[1] + v[2] * v[2]).sqrt();
    v.map(|x| x / n)
}
