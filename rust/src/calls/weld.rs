//! Welding: corners that lie near each other become one vertex.

use super::first;
use crate::{Mesh, Refusal, c};

/// How many vertices and indices an accepted weld wrote.
#[derive(Debug, Clone, Copy, PartialEq, Eq, Default)]
pub struct Welded {
    pub vertices: usize,
    pub indices: usize,
}

/// The mesh of faces that are given by their corners.
///
/// ```
/// use ramikohy::weld;
///
/// let mesh = weld(&[[[0.0, 0.0, 0.0], [6e-7, 0.0, 0.0], [1.2e-6, 0.0, 0.0]]]).unwrap();
/// assert_eq!(mesh.faces, [[0, 0, 1]]);
/// ```
pub fn weld(faces: &[[[f64; 3]; 3]]) -> Result<Mesh, Refusal> {
    let corners = faces.as_flattened();
    first(lent(corners.as_flattened(), &mut [], &mut [], &mut []))?;
    let (mut vertices, mut out) = (vec![[0.0; 3]; corners.len()], vec![[0; 3]; faces.len()]);
    let mut scratch = vec![0; 12 * faces.len()];
    let wrote = lent(corners.as_flattened(), &mut scratch, vertices.as_flattened_mut(), out.as_flattened_mut())?;
    vertices.truncate(wrote.vertices);
    Ok(Mesh { vertices, faces: out })
}

/// The same in the caller's buffers: nine numbers a face in, 12 words of scratch a face, room for 3 vertices and 3 indices a
/// face. Scratch is all zero afterwards; a refusal changes nothing.
pub fn lent(coords: &[f64], scratch: &mut [u32], vertices: &mut [f64], indices: &mut [u32]) -> Result<Welded, Refusal> {
    let mut wrote = Welded::default();
    // SAFETY: each list is a pointer with its length, and what is written overlaps with nothing else.
    let status = unsafe {
        c::ramikohy_weld(
            coords.as_ptr(),
            coords.len(),
            scratch.as_mut_ptr(),
            scratch.len(),
            vertices.as_mut_ptr(),
            vertices.len(),
            indices.as_mut_ptr(),
            indices.len(),
            &mut wrote.vertices,
            &mut wrote.indices,
        )
    };
    Refusal::check(status)?;
    Ok(wrote)
}
