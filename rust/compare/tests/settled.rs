//! Roots of numbers next to the square of a whole number: there only the comparison of whole numbers tells which whole
//! number is the root's, and one of f64 tells wrongly.

use ramikohy::lent;

/// The pattern of n * 2^52, for an n of 54 binary digits whose last is 0.
fn pattern(n: u64) -> u64 {
    assert!(n >> 53 == 1 && n.is_multiple_of(2));
    (1023 + 105 << 52) + (n / 2 - (1 << 52))
}

/// Odd numbers whose squares have 54 binary digits: each has a number next below its square that is an f64.
fn odd_roots() -> impl Iterator<Item = u64> {
    let least = (1u64 << 53).isqrt() + 1;
    (least | 1..1 << 27).step_by(2)
}

#[test]
fn below_an_odd_square() {
    for r in odd_roots() {
        let x = f64::from_bits(pattern(r * r - 1));
        let mut root = 0.0;
        assert_eq!(lent::sqrt(x, &mut root), 0);
        assert_eq!(root.to_bits(), x.sqrt().to_bits(), "{r}");
    }
}

/// The wrong program that settles by the f64 of the squares: for none of these numbers is its root below r.
#[test]
fn settled_by_f64_squares_is_wrong() {
    for r in odd_roots() {
        let n = r * r - 1;
        assert!(n < r * r);
        assert!((n as f64) >= (r * r) as f64, "{r}");
    }
}
