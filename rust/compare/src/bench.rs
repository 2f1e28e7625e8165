//! Times of the port beside the original: one process, the same inputs, the best of several runs.

use crate::torus::{self, Mesh};
use std::time::Instant;

/// The two sizes, by the quads around and across, with the count of faces.
pub const SIZES: [(usize, usize, usize); 2] = [(128, 64, 16384), (256, 128, 65536)];

/// The seconds of the best of `runs` runs.
pub fn best(runs: usize, mut work: impl FnMut()) -> f64 {
    let one = |work: &mut dyn FnMut()| {
        let began = Instant::now();
        work();
        began.elapsed().as_secs_f64()
    };
    (0..runs).map(|_| one(&mut work)).fold(f64::INFINITY, f64::min)
}

/// The seconds of the best of `runs` runs of each of two works, by turns: what slows the machine for a while slows
/// both.
pub fn best_by_turns(runs: usize, mut work: impl FnMut(usize)) -> [f64; 2] {
    let turn = |_| [0, 1].map(|which| best(1, || work(which)));
    (0..runs).map(turn).fold([f64::INFINITY; 2], |least, turn| [0, 1].map(|which| least[which].min(turn[which])))
}

/// A call's times at both sizes, in seconds.
pub struct Row {
    pub call: &'static str,
    pub port: [f64; 2],
    pub original: [f64; 2],
}

impl Row {
    /// A line of the table: times at the larger size in milliseconds, the ratio, and how the port's time grows.
    pub fn line(&self) -> String {
        let [small, large] = self.port;
        let theirs = self.original[1];
        format!(
            "| {} | {:.2} | {:.2} | {:.2} | {:.2} |",
            self.call,
            large * 1e3,
            theirs * 1e3,
            large / theirs,
            large / small
        )
    }
}

/// What is timed: the port's work and the original's, each on a mesh.
pub struct Call {
    pub name: &'static str,
    pub port: fn(&Mesh, usize) -> f64,
    pub original: fn(&Mesh, usize) -> f64,
}

/// Times a call at both sizes.
pub fn time(call: &Call, runs: usize) -> Row {
    let at = |size: usize| {
        let (around, across, _) = SIZES[size];
        let mesh = torus::wavy(around, across);
        ((call.port)(&mesh, runs), (call.original)(&mesh, runs))
    };
    let (small, large) = (at(0), at(1));
    Row { call: call.name, port: [small.0, large.0], original: [small.1, large.1] }
}

/// What is timed of a call that the original lacks: the bytes that it handles and the seconds.
pub struct Rated {
    pub name: &'static str,
    pub port: fn(&Mesh, usize) -> (usize, f64),
}

/// A line of such a call: bytes and time at the larger size, bytes a second, and how the time grows.
pub fn rate(call: &Rated, runs: usize) -> String {
    let [small, large] = SIZES.map(|(around, across, _)| (call.port)(&torus::wavy(around, across), runs));
    let (bytes, seconds) = large;
    let a_second = bytes as f64 / seconds / 1e6;
    format!("| {} | {bytes} | {:.2} | {a_second:.0} | {:.2} |", call.name, seconds * 1e3, seconds / small.1)
}

/// A file that is read, by its corners: as many as the mesh has, and all of them f32.
pub struct File {
    pub name: &'static str,
    pub corners: fn(&Mesh) -> Vec<[f64; 3]>,
    pub runs: usize,
}

/// A line of such a file: the times at the larger size of reading it, of welding its corners and of the original's
/// welding of them, reading over welding, and how the time of reading grows.
pub fn file(file: &File, times: impl Fn(&[[f64; 3]], usize) -> [f64; 3]) -> String {
    let at = |(around, across, _)| times(&(file.corners)(&torus::wavy(around, across)), file.runs);
    let [small, large] = SIZES.map(at);
    let [read, weld, original] = large.map(|seconds| seconds * 1e3);
    let (over, growth) = (read / weld, large[0] / small[0]);
    format!("| {} | {read:.2} | {weld:.2} | {over:.2} | {original:.2} | {growth:.2} |", file.name)
}
