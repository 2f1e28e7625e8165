//! Points, and the arithmetic on them.

use crate::{c, lent};

/// A point: three f64 carried together.
#[derive(Debug, Clone, Copy, PartialEq, Default)]
pub struct Vector {
    pub x: f64,
    pub y: f64,
    pub z: f64,
}

impl From<[f64; 3]> for Vector {
    fn from([x, y, z]: [f64; 3]) -> Self {
        Vector { x, y, z }
    }
}

impl From<Vector> for [f64; 3] {
    fn from(v: Vector) -> Self {
        [v.x, v.y, v.z]
    }
}

/// The point that `write` puts into an array.
pub(crate) fn written(write: impl FnOnce(&mut [f64; 3])) -> Vector {
    let mut out = [0.0; 3];
    write(&mut out);
    out.into()
}

// The source's own names.
#[allow(clippy::should_implement_trait)]
impl Vector {
    pub fn new(x: f64, y: f64, z: f64) -> Self {
        Vector { x, y, z }
    }

    /// The length, NaN where a coordinate is.
    pub fn length(self) -> f64 {
        lent::length(&self.into())
    }

    /// The distance from `other`.
    pub fn distance(self, other: Vector) -> f64 {
        lent::distance(&self.into(), &other.into())
    }

    /// The square of the length.
    pub fn length_squared(self) -> f64 {
        lent::length_squared(&self.into())
    }

    /// The square of the distance from `other`.
    pub fn distance_squared(self, other: Vector) -> f64 {
        lent::distance_squared(&self.into(), &other.into())
    }

    /// The dot product.
    ///
    /// ```
    /// use ramikohy::Vector;
    ///
    /// assert_eq!(Vector::new(1.0, 2.0, 3.0).dot(Vector::new(4.0, 5.0, 6.0)), 32.0);
    /// ```
    pub fn dot(self, other: Vector) -> f64 {
        lent::dot(&self.into(), &other.into())
    }

    /// The cross product.
    ///
    /// ```
    /// use ramikohy::Vector;
    ///
    /// let (x, y) = (Vector::new(1.0, 0.0, 0.0), Vector::new(0.0, 1.0, 0.0));
    /// assert_eq!(x.cross(y), Vector::new(0.0, 0.0, 1.0));
    /// ```
    pub fn cross(self, other: Vector) -> Vector {
        written(|out| lent::cross(&self.into(), &other.into(), out))
    }

    /// The same direction, one long; none where the computed length is 0.
    ///
    /// ```
    /// use ramikohy::Vector;
    ///
    /// assert_eq!(Vector::new(0.0, 0.0, 2.0).normalize(), Some(Vector::new(0.0, 0.0, 1.0)));
    /// assert_eq!(Vector::new(0.0, 1e-200, 0.0).normalize(), None);
    /// ```
    pub fn normalize(self) -> Option<Vector> {
        let mut status = 0;
        let unit = written(|out| status = lent::normalize(&self.into(), out));
        (status != c::NONE).then_some(unit)
    }

    pub fn add(self, other: Vector) -> Vector {
        written(|out| lent::add(&self.into(), &other.into(), out))
    }

    pub fn sub(self, other: Vector) -> Vector {
        written(|out| lent::sub(&self.into(), &other.into(), out))
    }

    pub fn mul(self, other: Vector) -> Vector {
        written(|out| lent::mul(&self.into(), &other.into(), out))
    }

    pub fn div(self, other: Vector) -> Vector {
        written(|out| lent::div(&self.into(), &other.into(), out))
    }

    pub fn add_scalar(self, s: f64) -> Vector {
        written(|out| lent::add_scalar(&self.into(), s, out))
    }

    pub fn sub_scalar(self, s: f64) -> Vector {
        written(|out| lent::sub_scalar(&self.into(), s, out))
    }

    pub fn mul_scalar(self, s: f64) -> Vector {
        written(|out| lent::mul_scalar(&self.into(), s, out))
    }

    pub fn div_scalar(self, s: f64) -> Vector {
        written(|out| lent::div_scalar(&self.into(), s, out))
    }

    /// The distance from the segment from `v` to `w`.
    ///
    /// ```
    /// use ramikohy::Vector;
    ///
    /// let (v, w) = (Vector::new(0.0, 0.0, 0.0), Vector::new(2.0, 0.0, 0.0));
    /// assert_eq!(Vector::new(1.0, 1.0, 0.0).segment_distance(v, w), 1.0);
    /// ```
    pub fn segment_distance(self, v: Vector, w: Vector) -> f64 {
        lent::segment_distance(&self.into(), &v.into(), &w.into())
    }
}
