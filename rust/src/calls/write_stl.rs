//! Writing a mesh as a binary STL file.

use super::first;
use crate::{Mesh, Refusal, c};

/// The bytes of a file before its faces, and those of a face.
pub(super) const HEAD: usize = 84;
pub(super) const FACE: usize = 50;

/// The binary STL file of a mesh: header, normals and the two bytes after each face are zero. Refused where a corner is not exactly an
/// f32: nothing is rounded.
///
/// ```
/// use ramikohy::{Mesh, Refusal, write_stl};
///
/// let mut mesh = Mesh { vertices: vec![[-0.0, 0.5, 2f64.powi(-149)], [1048576.0, 0.0, 0.0], [0.0, 1.0, 0.0]], faces: vec![[0, 1, 2]] };
/// let file = write_stl(&mesh).unwrap();
/// let words: Vec<u32> = file[96..132].chunks(4).map(|b| u32::from_le_bytes(b.try_into().unwrap())).collect();
/// assert_eq!(words, [0x80000000, 0x3F000000, 1, 0x49800000, 0, 0, 0, 0x3F800000, 0]);
/// mesh.vertices[2][1] = 0.1;
/// assert_eq!(write_stl(&mesh), Err(Refusal::Number));
/// ```
pub fn write_stl(mesh: &Mesh) -> Result<Vec<u8>, Refusal> {
    let (vertices, indices) = (mesh.vertices.as_flattened(), mesh.faces.as_flattened());
    first(lent(vertices, indices, &mut []))?;
    let mut out = vec![0; HEAD + FACE * mesh.faces.len()];
    lent(vertices, indices, &mut out)?;
    Ok(out)
}

/// The same in the caller's buffer, with room for 84 bytes and 50 a face; answers the bytes written. What lies behind them stays, and a
/// refusal changes nothing.
pub fn lent(vertices: &[f64], indices: &[u32], out: &mut [u8]) -> Result<usize, Refusal> {
    let mut wrote = 0;
    // SAFETY: each list is a pointer with its length, and what is written overlaps with nothing else.
    let status = unsafe {
        c::ramikohy_write_stl(
            vertices.as_ptr(),
            vertices.len(),
            indices.as_ptr(),
            indices.len(),
            out.as_mut_ptr(),
            out.len(),
            &mut wrote,
        )
    };
    Refusal::check(status)?;
    Ok(wrote)
}
