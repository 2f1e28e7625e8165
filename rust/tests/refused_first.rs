//! A wrapper allocates nothing for a call that is refused by its input: what is above a limit is refused, and not asked for in memory.

use ramikohy::{Matrix, Mesh, Mode, Plane, Refusal, Strokes, View};
use std::alloc::{GlobalAlloc, Layout, System};
use std::cell::Cell;

struct Counting;

thread_local! {
    /// The bytes that this thread has asked for.
    static ASKED: Cell<usize> = const { Cell::new(0) };
}

// SAFETY: the system's allocator does the work.
unsafe impl GlobalAlloc for Counting {
    unsafe fn alloc(&self, layout: Layout) -> *mut u8 {
        ASKED.with(|asked| asked.set(asked.get() + layout.size()));
        // SAFETY: as the caller says.
        unsafe { System.alloc(layout) }
    }

    unsafe fn dealloc(&self, at: *mut u8, layout: Layout) {
        // SAFETY: as the caller says.
        unsafe { System.dealloc(at, layout) }
    }
}

#[global_allocator]
static ALLOCATOR: Counting = Counting;

/// The bytes that some work asks for, with what it gives.
fn asked<T>(work: impl FnOnce() -> T) -> (T, usize) {
    let before = ASKED.get();
    let gives = work();
    (gives, ASKED.get() - before)
}

/// Refused so, with no memory asked for.
fn refused<T: std::fmt::Debug + PartialEq>(work: impl FnOnce() -> Result<T, Refusal>, why: Refusal) {
    assert_eq!(asked(work), (Err(why), 0));
}

const ABOVE: [f64; 3] = [0.0, 0.0, 5.0];

fn mesh(faces: usize, face: [u32; 3]) -> Mesh {
    Mesh { vertices: vec![[0.0; 3], [1.0, 0.0, 0.0], [0.0, 1.0, 0.0]], faces: vec![face; faces] }
}

fn line<P: Copy>(strokes: usize, point: P) -> Strokes<P> {
    std::iter::repeat_n([point, point], strokes).collect::<Vec<_>>().iter().map(|s| s.as_slice()).collect()
}

#[test]
fn meshes() {
    let plane = Plane { point: [0.0; 3], normal: ABOVE };
    for (mesh, why) in [(mesh(65_537, [0, 1, 2]), Refusal::Count), (mesh(9, [0, 1, 3]), Refusal::Vertex)] {
        refused(|| ramikohy::draw(&mesh, &[], Mode::Polygonal, ABOVE, 1e-9), why);
        refused(|| ramikohy::section(&mesh, &plane, 1e-9), why);
        refused(|| ramikohy::contour(&mesh, &plane, 1e-9), why);
        refused(|| ramikohy::write_stl(&mesh), why);
    }
    let corners = vec![[[0.0; 3]; 3]; 65_537];
    refused(|| ramikohy::weld(&corners), Refusal::Count);
}

/// The allocator that a hundred million faces ended in would have been asked for 25 GB of scratch.
#[test]
fn a_hundred_million_faces() {
    let mesh = mesh(100_000_000, [0; 3]);
    refused(|| ramikohy::draw(&mesh, &[], Mode::Triangles, ABOVE, 1e-9), Refusal::Count);
}

#[test]
fn strokes() {
    let view = View { matrix: Matrix::IDENTITY, width: 1.0, height: 1.0, step: 1.0, tolerance: 1e-9 };
    let (many, bad) = (line(196_609, ABOVE), line(1, [f64::NAN; 3]));
    for (strokes, why) in [(many, Refusal::Count), (bad, Refusal::Number)] {
        refused(|| ramikohy::chop(&strokes, 1.0), why);
        refused(|| ramikohy::chop_adaptive(&strokes, &view), why);
        refused(|| ramikohy::simplify(&strokes, 1.0), why);
    }
    let numbers = line(196_609, 7);
    refused(|| ramikohy::splice(&numbers), Refusal::Count);
}

#[test]
fn sheets() {
    let numbers = line(1, 7);
    refused(|| ramikohy::write_sheet(1, 3, &numbers), Refusal::Vertex);
    refused(|| ramikohy::read_sheet(&[1; 4096]), Refusal::Sheet);
}

/// A file of as many faces whose corners are all 0.
fn file(faces: u32) -> Vec<u8> {
    let mut bytes = vec![0; 84 + 50 * faces as usize];
    bytes[80..84].copy_from_slice(&faces.to_le_bytes());
    bytes
}

#[test]
fn files() {
    let (mut nan, mut mesh) = (file(1), mesh(1, [0, 1, 2]));
    nan[128..132].copy_from_slice(&f32::NAN.to_le_bytes());
    refused(|| ramikohy::read_stl(&nan), Refusal::Number);
    refused(|| ramikohy::read_stl(&[0xFF; 4096]), Refusal::Stl);
    let many = file(65_537);
    refused(|| ramikohy::read_stl(&many), Refusal::Count);
    mesh.vertices[2][1] = 0.1;
    refused(|| ramikohy::write_stl(&mesh), Refusal::Number);
}

/// The count is of this thread's own bytes, so what is accepted shows that it counts.
#[test]
fn what_is_accepted_is_allocated() {
    let (welded, bytes) = asked(|| ramikohy::weld(&[[[0.0; 3]; 3]]));
    assert!(welded.is_ok() && bytes >= 12 * 4 + 9 * 8 + 3 * 4);
}
