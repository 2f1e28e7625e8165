//! Numbers to try: every bit pattern, and more often those at which arithmetic is delicate.

use crate::random::Random;

/// Zeros, infinities, NaN, the ends of the ranges, and numbers that the rules name.
pub const SPECIAL: [f64; 37] = [
    0.0,
    -0.0,
    1.0,
    -1.0,
    0.5,
    -0.5,
    2.0,
    3.0,
    4.0,
    0.9,
    1e-6,
    1.5e-6,
    1e-9,
    1e-200,
    -1e-200,
    1e200,
    1048576.0,
    -1048576.0,
    1048576.0000000001,
    4503599627370496.0,
    4503599627370495.5,
    -4503599627370495.5,
    9007199254740991.0,
    -9007199254740991.0,
    9007199254740992.0,
    -9007199254740992.0,
    9223372036854775808.0,
    f64::MIN_POSITIVE,
    -f64::MIN_POSITIVE,
    5e-324,
    -5e-324,
    2.225073858507201e-308,
    f64::MAX,
    f64::MIN,
    f64::INFINITY,
    f64::NEG_INFINITY,
    f64::NAN,
];

/// The kinds of number that are mixed.
#[derive(Clone, Copy)]
enum Kind {
    AnyBits,
    Special,
    AroundOne,
    Coordinate,
    SmallWhole,
    NearPower,
    Subnormal,
    TinySquare,
    HugeSquare,
}

const KINDS: [Kind; 9] = [
    Kind::AnyBits,
    Kind::Special,
    Kind::AroundOne,
    Kind::Coordinate,
    Kind::SmallWhole,
    Kind::NearPower,
    Kind::Subnormal,
    Kind::TinySquare,
    Kind::HugeSquare,
];

fn of_kind(random: &mut Random, kind: Kind) -> f64 {
    let spread = random.unit() * 2.0 - 1.0;
    match kind {
        Kind::AnyBits => f64::from_bits(random.bits()),
        Kind::Special => random.one_of(&SPECIAL),
        Kind::AroundOne => spread,
        Kind::Coordinate => spread * 1048576.0,
        Kind::SmallWhole => (random.below(9) as f64 - 4.0) * random.one_of(&[1.0, 0.25]),
        Kind::NearPower => {
            let power = f64::from_bits((random.below(2047) as u64) << 52);
            let steps = random.below(7) as i64 - 3;
            let near = f64::from_bits((power.to_bits() as i64 + steps).max(0) as u64);
            if random.once_in(2) { -near } else { near }
        }
        Kind::Subnormal => f64::from_bits(random.bits() & 0x800F_FFFF_FFFF_FFFF),
        Kind::TinySquare => spread * f64::from_bits((random.below(0x210) as u64 + 0x1E0) << 52),
        Kind::HugeSquare => spread * f64::from_bits((random.below(0x40) as u64 + 0x5E0) << 52),
    }
}

/// Any number.
pub fn number(random: &mut Random) -> f64 {
    let kind = random.one_of(&KINDS);
    of_kind(random, kind)
}

/// Fills a list with numbers that belong together: mostly of one kind, some repeated, some turned round, so that sums
/// cancel and points coincide.
pub fn fill(random: &mut Random, list: &mut [f64]) {
    let kind = random.one_of(&KINDS);
    let mixed = random.once_in(4);
    let repeats = random.once_in(3);
    for i in 0..list.len() {
        list[i] = if repeats && i >= 3 && random.once_in(2) {
            if random.once_in(3) { -list[i - 3] } else { list[i - 3] }
        } else if mixed {
            number(random)
        } else {
            of_kind(random, kind)
        };
    }
    if list.len() == 9 && random.once_in(3) {
        on_segment(random, list);
    }
}

/// Moves the first of three points near the segment between the others, so that every branch is met. Which
/// pattern a NaN gets in a sum is the machine's own affair, so it is set here: the inputs are the same everywhere.
fn on_segment(random: &mut Random, list: &mut [f64]) {
    let inside = random.unit();
    let along = random.one_of(&[0.0, 1.0, inside, inside * 3.0 - 1.0]);
    for i in 0..3 {
        let x = list[3 + i] + (list[6 + i] - list[3 + i]) * along;
        list[i] = if x.is_nan() { f64::NAN } else { x };
    }
}

/// A number whose root lies as near as can be to the middle of two neighbouring f64: the two on either side of the
/// square of such a middle, of any exponent; one pair in eight is subnormal.
pub fn near_middle(random: &mut Random) -> [f64; 2] {
    let m = (1 << 52 | random.bits() >> 12) as u128;
    let square = m * m + m;
    let whole = 128 - square.leading_zeros() as u64 - 53; // so many digits cut leave 53
    let (shift, exponent) = if random.once_in(8) {
        (54 + 2 * random.below(26) as u64, 0)
    } else {
        (whole, 2 * random.below(1023) as u64 + whole % 2)
    };
    let pattern = (exponent << 52) + (square >> shift) as u64;
    [pattern, pattern + 1].map(f64::from_bits)
}
