//! A 4 by 4 matrix.

use crate::vector::written;
use crate::{Vector, lent};

/// A matrix, row by row.
#[derive(Debug, Clone, Copy, PartialEq)]
pub struct Matrix(pub [f64; 16]);

impl Matrix {
    /// The matrix that changes nothing.
    pub const IDENTITY: Matrix = {
        let mut m = [0.0; 16];
        (m[0], m[5], m[10], m[15]) = (1.0, 1.0, 1.0, 1.0);
        Matrix(m)
    };

    /// `b` under the matrix, divided by w.
    ///
    /// ```
    /// use ramikohy::{Matrix, Vector};
    ///
    /// let b = Vector::new(1.0, 2.0, 3.0);
    /// assert_eq!(Matrix::IDENTITY.mul_position_w(b), b);
    /// ```
    pub fn mul_position_w(self, b: Vector) -> Vector {
        written(|out| lent::mul_position_w(&self.0, &b.into(), out))
    }
}
