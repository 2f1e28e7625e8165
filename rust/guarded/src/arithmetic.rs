//! The functions on numbers and points.

use crate::buffer::Buffer;
use crate::call::{Call, handed, status, value};
use crate::source::Source;
use ramikohy::c;

/// A maker of a call.
type Make = fn(&mut Source) -> Call;

/// The place of a point.
type Point = [f64; 3];

/// Functions by the kind of their parameters: points to a number, points to a point, a point and a number to a point.
macro_rules! functions {
    (numbers: $($number:ident($($a:literal)*))*; points: $($point:ident)*; scalars: $($scalar:ident)*) => {
        /// A maker of a call for each.
        pub const MAKERS: &[Make] = &[
            floor, sqrt, abs, normalize, mul_position_w,
            $(|s| {
                let points = s.points::<{ [$($a),*].len() }>().map(|p| Buffer::input(&p));
                Call::new(stringify!($number), &[], points.into(), |b| value(handed!($number, b, $(($a))*).to_bits()))
            },)*
            $(|s| {
                let [one, other] = s.points().map(|p| Buffer::input(&p));
                Call::new(stringify!($point), &[], vec![one, other, Buffer::place::<Point>()], |b| {
                    handed!($point, b, (0) (1) (2));
                    status(0)
                })
            },)*
            $(|s| {
                let ([point], by) = (s.points(), s.real());
                Call::new(stringify!($scalar), &[], vec![Buffer::input(&point), Buffer::place::<Point>()], move |b| {
                    handed!($scalar, b, (0) {by} (1));
                    status(0)
                })
            },)*
        ];
    };
}

functions! {
    numbers: ramikohy_length(0) ramikohy_length_squared(0) ramikohy_distance(0 1) ramikohy_distance_squared(0 1)
        ramikohy_dot(0 1) ramikohy_segment_distance(0 1 2);
    points: ramikohy_cross ramikohy_add ramikohy_sub ramikohy_mul ramikohy_div;
    scalars: ramikohy_add_scalar ramikohy_sub_scalar ramikohy_mul_scalar ramikohy_div_scalar
}

fn floor(s: &mut Source) -> Call {
    let (x, place) = (s.real(), Buffer::place::<i64>());
    Call::new("ramikohy_floor", &[4], vec![place], move |b| status(handed!(ramikohy_floor, b, { x }(0))))
}

fn sqrt(s: &mut Source) -> Call {
    let (x, place) = (s.real(), Buffer::place::<f64>());
    Call::new("ramikohy_sqrt", &[4], vec![place], move |b| status(handed!(ramikohy_sqrt, b, { x }(0))))
}

fn abs(s: &mut Source) -> Call {
    let x = s.real();
    // SAFETY: nothing is lent.
    Call::new("ramikohy_abs", &[], vec![], move |_| value(unsafe { c::ramikohy_abs(x) }.to_bits()))
}

fn normalize(s: &mut Source) -> Call {
    let [point] = s.points();
    let buffers = vec![Buffer::input(&point), Buffer::place::<Point>()];
    Call::new("ramikohy_normalize", &[c::NONE], buffers, |b| status(handed!(ramikohy_normalize, b, (0)(1))))
}

fn mul_position_w(s: &mut Source) -> Call {
    let (matrix, [point]) = ([(); 16].map(|()| s.real()), s.points());
    let buffers = vec![Buffer::input(&matrix), Buffer::input(&point), Buffer::place::<Point>()];
    Call::new("ramikohy_mul_position_w", &[], buffers, |b| {
        handed!(ramikohy_mul_position_w, b, (0)(1)(2));
        status(0)
    })
}
