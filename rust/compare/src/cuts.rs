//! Cuts made to hurt: as many strokes and points as a call takes, and steps that come to the most points, or far past it.

use ramikohy::Strokes;

/// The most strokes and points of a call.
const MOST: (usize, usize) = (196_608, 1_048_576);

/// What is cut: the length of each span of each stroke, the step, and the room for points.
pub struct Cut {
    pub name: &'static str,
    strokes: fn() -> Vec<Vec<f64>>,
    pub step: f64,
    pub room: usize,
}

impl Cut {
    /// The strokes, each along an axis from 0, on to the right and back.
    pub fn strokes(&self) -> Strokes<[f64; 3]> {
        let stroke = |spans: Vec<f64>| -> Vec<[f64; 3]> {
            let mut x = 0.0;
            let ends = spans.into_iter().map(|span| {
                x = if x == 0.0 { span } else { 0.0 };
                [x, 0.0, 0.0]
            });
            [[0.0; 3]].into_iter().chain(ends).collect()
        };
        let all: Vec<Vec<[f64; 3]>> = (self.strokes)().into_iter().map(stroke).collect();
        all.iter().map(Vec::as_slice).collect()
    }
}

/// Refused, but for those whose name says that they fit.
pub const CUTS: &[Cut] = &[
    Cut {
        name: "a step in the wrong unit, 196,608 strokes",
        strokes: || vec![vec![1.2]; MOST.0],
        step: 1e-6,
        room: MOST.1,
    },
    Cut {
        name: "a step in the wrong unit, one stroke",
        strokes: || vec![vec![1.2; MOST.1 - 1]],
        step: 1e-6,
        room: MOST.1,
    },
    Cut {
        name: "a step so small that its sum stands still",
        strokes: || vec![vec![1.2]; MOST.0],
        step: 1e-300,
        room: MOST.1,
    },
    Cut {
        name: "spans whose squares are subnormal, and a longer one, fits",
        strokes: || vec![[vec![1.1e-160; MOST.1 - 5], vec![1e-158]].concat()],
        step: 5e-159,
        room: MOST.1,
    },
    Cut {
        name: "two strokes, each just below the limit",
        strokes: || vec![vec![262_143.0]; 2],
        step: 0.25,
        room: MOST.1,
    },
    Cut { name: "a point past the limit, 196,608 strokes", strokes: || five_and(16385.25), step: 0.25, room: MOST.1 },
    Cut { name: "at the limit, fits, 196,608 strokes", strokes: || five_and(16385.0), step: 0.25, room: MOST.1 },
    Cut {
        name: "room for a point too few, 196,608 strokes",
        strokes: || five_and(16385.0),
        step: 0.25,
        room: MOST.1 - 1,
    },
    Cut { name: "one span cut up to the limit, fits", strokes: || vec![vec![262_143.75]], step: 0.25, room: MOST.1 },
    Cut {
        name: "one long span among short ones, fits",
        strokes: || vec![long_and(32_768.0, 786_430)],
        step: 0.25,
        room: MOST.1,
    },
    Cut {
        name: "one long span in every stroke, fits",
        strokes: || vec![long_and(2.0, 46); 16_384],
        step: 0.25,
        room: MOST.1,
    },
    Cut {
        name: "every span a hair longer than a step, fits",
        strokes: || vec![vec![0.25_f64.next_up(); MOST.1 / 2 - 1]],
        step: 0.25,
        room: MOST.1,
    },
    Cut {
        name: "no span longer than a step, fits, 196,608 strokes",
        strokes: || vec![vec![0.125]; MOST.0],
        step: 0.25,
        room: MOST.1,
    },
    Cut {
        name: "no span longer than a step, fits",
        strokes: || vec![vec![0.125; MOST.1 - 1]],
        step: 0.25,
        room: MOST.1,
    },
];

/// Strokes that come to five points each by steps of 0.25, and the last as long as this.
fn five_and(last: f64) -> Vec<Vec<f64>> {
    let mut spans = vec![vec![1.0]; MOST.0 - 1];
    spans.push(vec![last]);
    spans
}

/// A long span, there and back, and so many short ones.
fn long_and(long: f64, short: usize) -> Vec<f64> {
    [long, long].into_iter().chain(std::iter::repeat_n(0.125, short)).collect()
}
