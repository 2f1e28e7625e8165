//! The functions of the arithmetic layer: what the original answers, and what the port answers.

use crate::{numbers, random::Random};

/// What a function answers: a status, 0 where there are values, and the values' bits.
#[derive(Clone, Copy, PartialEq, Eq, Debug, Default)]
pub struct Answer {
    pub status: u32,
    pub values: [u64; 3],
}

/// A function, by its name, the number of its operands and of its values, and its two sides.
pub struct Function {
    pub name: &'static str,
    pub operands: usize,
    pub values: usize,
    #[cfg(original)]
    pub original: fn(&[f64]) -> Answer,
    pub port: fn(&[f64]) -> Answer,
}

/// The most operands that a function has.
pub const MOST_OPERANDS: usize = 19;

macro_rules! functions {
    ($($name:ident: $operands:literal -> $values:literal,)*) => {
        /// Every function; a row names one by its place here, from 1.
        pub const FUNCTIONS: &[Function] = &[$(Function {
            name: stringify!($name),
            operands: $operands,
            values: $values,
            #[cfg(original)]
            original: original::$name,
            port: port::$name,
        },)*];
    };
}

functions! {
    sqrt: 1 -> 1,
    floor: 1 -> 1,
    abs: 1 -> 1,
    length: 3 -> 1,
    distance: 6 -> 1,
    length_squared: 3 -> 1,
    distance_squared: 6 -> 1,
    dot: 6 -> 1,
    cross: 6 -> 3,
    normalize: 3 -> 3,
    add: 6 -> 3,
    sub: 6 -> 3,
    mul: 6 -> 3,
    div: 6 -> 3,
    add_scalar: 4 -> 3,
    sub_scalar: 4 -> 3,
    mul_scalar: 4 -> 3,
    div_scalar: 4 -> 3,
    segment_distance: 9 -> 1,
    mul_position_w: 19 -> 3,
}

impl Function {
    /// Fills the operands with numbers to try.
    pub fn fill(&self, random: &mut Random, operands: &mut [f64]) {
        match self.name {
            "sqrt" if random.once_in(2) => {
                let pair = numbers::near_middle(random);
                operands[0] = random.one_of(&pair);
            }
            _ => numbers::fill(random, &mut operands[..self.operands]),
        }
    }

    /// Whether two answers are the same: status and values, bit for bit, where two NaN count as equal.
    pub fn same(&self, a: Answer, b: Answer) -> bool {
        let nan = |x: u64| self.name != "floor" && f64::from_bits(x).is_nan();
        let value = |i: usize| a.values[i] == b.values[i] || nan(a.values[i]) && nan(b.values[i]);
        a.status == b.status && (a.status != 0 || (0..self.values).all(value))
    }
}

fn number(x: f64) -> Answer {
    Answer { status: 0, values: [x.to_bits(), 0, 0] }
}

fn point(p: [f64; 3]) -> Answer {
    Answer { status: 0, values: p.map(f64::to_bits) }
}

/// Three operands, from the place `i`.
fn three(o: &[f64], i: usize) -> [f64; 3] {
    [o[i], o[i + 1], o[i + 2]]
}

/// The original's side. Its `normalize` panics at a length of 0, where the port answers that there is none.
#[cfg(original)]
mod original {
    use super::{Answer, number, three};
    use crate::reading;
    use original::eps_1e9::{matrix::Matrix, vector::Vector};
    use ramikohy::c::NONE;

    fn at(o: &[f64], i: usize) -> Vector {
        let [x, y, z] = three(o, i);
        Vector::new(x, y, z)
    }

    fn point(v: Vector) -> Answer {
        super::point([v.x, v.y, v.z])
    }

    fn refused(status: u32) -> Answer {
        Answer { status, ..Answer::default() }
    }

    pub fn sqrt(o: &[f64]) -> Answer {
        if reading::sqrt_takes(o[0]) { number(o[0].sqrt()) } else { refused(reading::NUMBER) }
    }

    pub fn floor(o: &[f64]) -> Answer {
        if !reading::floor_takes(o[0]) {
            return refused(reading::NUMBER);
        }
        Answer { status: 0, values: [o[0].floor() as i64 as u64, 0, 0] }
    }

    pub fn abs(o: &[f64]) -> Answer {
        number(o[0].abs())
    }

    pub fn normalize(o: &[f64]) -> Answer {
        let v = at(o, 0);
        if v.length() == 0.0 { refused(NONE) } else { point(v.normalize()) }
    }

    /// Defines a function by the original's method of the same name.
    macro_rules! by_method {
        ($($name:ident => $answer:ident($($at:literal),*);)*) => {
            $(pub fn $name(o: &[f64]) -> Answer {
                $answer(at(o, 0).$name($(at(o, $at)),*))
            })*
        };
    }

    by_method! {
        length => number();
        distance => number(3);
        length_squared => number();
        distance_squared => number(3);
        dot => number(3);
        cross => point(3);
        add => point(3);
        sub => point(3);
        mul => point(3);
        div => point(3);
        segment_distance => number(3, 6);
    }

    pub fn add_scalar(o: &[f64]) -> Answer {
        point(at(o, 0).add_scalar(o[3]))
    }

    pub fn sub_scalar(o: &[f64]) -> Answer {
        point(at(o, 0).sub_scalar(o[3]))
    }

    pub fn mul_scalar(o: &[f64]) -> Answer {
        point(at(o, 0).mul_scalar(o[3]))
    }

    pub fn div_scalar(o: &[f64]) -> Answer {
        point(at(o, 0).div_scalar(o[3]))
    }

    pub fn mul_position_w(o: &[f64]) -> Answer {
        let m = Matrix {
            x00: o[0],
            x01: o[1],
            x02: o[2],
            x03: o[3],
            x10: o[4],
            x11: o[5],
            x12: o[6],
            x13: o[7],
            x20: o[8],
            x21: o[9],
            x22: o[10],
            x23: o[11],
            x30: o[12],
            x31: o[13],
            x32: o[14],
            x33: o[15],
        };
        point(m.mul_position_w(at(o, 16)))
    }
}

/// The port's side. A place that a refusal must leave alone holds a pattern, which is looked at afterwards.
mod port {
    use super::{Answer, number, point, three};
    use ramikohy::lent;

    const PATTERN: [f64; 3] = [-1.2345e67, 8.9e-10, 1.1e11];

    /// An answer with a status; the pattern must still be there where there is no value.
    fn with_status(status: u32, left: [u64; 3], pattern: [u64; 3]) -> Answer {
        if status == 0 {
            return Answer { status, values: left };
        }
        assert_eq!(left, pattern, "a refusal changed what was lent");
        Answer { status, ..Answer::default() }
    }

    pub fn sqrt(o: &[f64]) -> Answer {
        let mut root = PATTERN[0];
        let status = lent::sqrt(o[0], &mut root);
        with_status(status, [root.to_bits(), 0, 0], [PATTERN[0].to_bits(), 0, 0])
    }

    pub fn floor(o: &[f64]) -> Answer {
        let mut whole = i64::MIN + 7;
        let status = lent::floor(o[0], &mut whole);
        with_status(status, [whole as u64, 0, 0], [(i64::MIN + 7) as u64, 0, 0])
    }

    pub fn abs(o: &[f64]) -> Answer {
        number(lent::abs(o[0]))
    }

    pub fn length(o: &[f64]) -> Answer {
        number(lent::length(&three(o, 0)))
    }

    pub fn length_squared(o: &[f64]) -> Answer {
        number(lent::length_squared(&three(o, 0)))
    }

    pub fn normalize(o: &[f64]) -> Answer {
        let mut out = PATTERN;
        let status = lent::normalize(&three(o, 0), &mut out);
        with_status(status, out.map(f64::to_bits), PATTERN.map(f64::to_bits))
    }

    /// Defines functions of two points by those of the archive: to a number, to a point, or with a number to a point.
    macro_rules! by_archive {
        (numbers: $($number:ident)*; points: $($point:ident)*; scalars: $($scalar:ident)*) => {
            $(pub fn $number(o: &[f64]) -> Answer {
                number(lent::$number(&three(o, 0), &three(o, 3)))
            })*
            $(pub fn $point(o: &[f64]) -> Answer {
                let mut out = PATTERN;
                lent::$point(&three(o, 0), &three(o, 3), &mut out);
                point(out)
            })*
            $(pub fn $scalar(o: &[f64]) -> Answer {
                let mut out = PATTERN;
                lent::$scalar(&three(o, 0), o[3], &mut out);
                point(out)
            })*
        };
    }

    by_archive! {
        numbers: distance distance_squared dot;
        points: cross add sub mul div;
        scalars: add_scalar sub_scalar mul_scalar div_scalar
    }

    pub fn segment_distance(o: &[f64]) -> Answer {
        number(lent::segment_distance(&three(o, 0), &three(o, 3), &three(o, 6)))
    }

    pub fn mul_position_w(o: &[f64]) -> Answer {
        let mut out = PATTERN;
        lent::mul_position_w(o[..16].try_into().unwrap(), &three(o, 16), &mut out);
        point(out)
    }
}
