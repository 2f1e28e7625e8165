//! Stored rows: a function, its operands and the answer that the original gave, one to a line.
//!
//! A row is words of hexadecimal digits with one space between: the function's number (its place in
//! [`arithmetic::FUNCTIONS`](crate::arithmetic::FUNCTIONS), from 1), the status, the operands' bits, and, where the
//! status is 0, the values' bits. The program `replay` works the same rows out by the proved crate itself.

use crate::arithmetic::{Answer, FUNCTIONS, Function};
use std::fmt::Write;

/// A row of a function with its operands and its answer. A NaN that was answered is always written the same way: which
/// of its patterns comes out of a sum is the machine's own affair.
pub fn line(function: usize, operands: &[f64], answer: Answer) -> String {
    let whole = FUNCTIONS[function].name == "floor";
    let plain = |bits: u64| if !whole && f64::from_bits(bits).is_nan() { f64::NAN.to_bits() } else { bits };
    let values = if answer.status == 0 { FUNCTIONS[function].values } else { 0 };
    let mut line = format!("{:02x} {:02x}", function + 1, answer.status);
    for bits in operands.iter().map(|x| x.to_bits()).chain(answer.values[..values].iter().map(|&b| plain(b))) {
        write!(line, " {bits:016x}").unwrap();
    }
    line
}

/// Reads a row back.
pub fn read(line: &str) -> Option<(&'static Function, Vec<f64>, Answer)> {
    let mut words = line.split(' ').map(|word| u64::from_str_radix(word, 16).ok());
    let function = FUNCTIONS.get((words.next()?? as usize).checked_sub(1)?)?;
    let status = words.next()?? as u32;
    let rest: Vec<u64> = words.collect::<Option<_>>()?;
    let values = if status == 0 { function.values } else { 0 };
    if rest.len() != function.operands + values {
        return None;
    }
    let mut answer = Answer { status, values: [0; 3] };
    answer.values[..values].copy_from_slice(&rest[function.operands..]);
    Some((function, rest[..function.operands].iter().map(|&b| f64::from_bits(b)).collect(), answer))
}
