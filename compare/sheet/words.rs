// Words of a sheet, and the operators among them.

// Up to twelve letters and digits, then zeros.
#[derive(Clone, Copy, PartialEq, Eq)]
pub struct Word([u8; Word::LONGEST]);

impl Word {
    const LONGEST: usize = 12;

    // None where the text is too long for a word.
    pub fn of(text: &[u8]) -> Option<Word> {
        let mut letters = [0; Word::LONGEST];
        letters.get_mut(..text.len())?.copy_from_slice(text);
        Some(Word(letters))
    }

    pub fn text(&self) -> &[u8] {
        let end = self.0.iter().position(|&b| b == 0).unwrap_or(Word::LONGEST);
        &self.0[..end]
    }
}

macro_rules! operators {
    ($($op:ident $text:literal)*) => {
        #[derive(Clone, Copy, PartialEq, Eq, Debug)]
        pub enum Op {
            $($op),*
        }

        impl Op {
            pub const ALL: &'static [Op] = &[$(Op::$op),*];

            pub fn of(word: Word) -> Option<Op> {
                match word.text() {
                    $($text => Some(Op::$op),)*
                    _ => None,
                }
            }

            pub fn text(self) -> &'static [u8] {
                match self {
                    $(Op::$op => $text),*
                }
            }
        }
    };
}

operators! {
    Deg b"deg" M b"m"
    Geo b"geo" Lla b"lla" Togeo b"togeo" Tolla b"tolla"
    Venu b"venu" Vned b"vned" Vbody b"vbody" Vwan b"vwan"
    Aenu b"aenu" Aned b"aned" Abody b"abody" Awan b"awan"
    Enu b"enu" Ned b"ned" Wan b"wan" Body b"body" Look b"look"
    Turn b"turn" Move b"move" To b"to" At b"at"
    Neg b"neg" Add b"add" Sub b"sub" Scale b"scale" Swap b"swap"
    Bearing b"bearing" Elev b"elev" Range b"range"
    Origin b"origin" Rz b"rz" Ry b"ry" Rx b"rx"
}
