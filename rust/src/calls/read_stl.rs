//! Reading a binary STL file into a welded mesh.

use super::first;
use super::weld::Welded;
use super::write_stl::{FACE, HEAD};
use crate::{Mesh, Refusal, c};

/// The mesh of a binary STL file: its corners, each f32 as the f64 of the same value, welded. Header, normals and the two bytes after
/// each face are not looked at; a header that begins with "solid" is one like any other.
///
/// ```
/// use ramikohy::{Mesh, Refusal, read_stl, write_stl};
///
/// let mesh = Mesh { vertices: vec![[0.0, 0.0, 0.0], [1.0, 0.0, 0.0], [0.0, 1.0, 0.0]], faces: vec![[0, 1, 2]] };
/// let mut file = write_stl(&mesh).unwrap();
/// assert_eq!(file.len(), 134);
/// file[..5].copy_from_slice(b"solid");
/// assert_eq!(read_stl(&file), Ok(mesh));
/// assert_eq!(read_stl(&file[..133]), Err(Refusal::Stl));
/// ```
pub fn read_stl(bytes: &[u8]) -> Result<Mesh, Refusal> {
    first(lent(bytes, &mut [], &mut [], &mut []))?;
    let faces = (bytes.len() - HEAD) / FACE;
    let (mut vertices, mut out) = (vec![[0.0; 3]; 3 * faces], vec![[0; 3]; faces]);
    let mut scratch = vec![0; 12 * faces];
    let wrote = lent(bytes, &mut scratch, vertices.as_flattened_mut(), out.as_flattened_mut())?;
    vertices.truncate(wrote.vertices);
    Ok(Mesh { vertices, faces: out })
}

/// The same in the caller's buffers: 12 words of scratch a face, room for 3 vertices and 3 indices a face. Scratch is all zero afterwards;
/// a refusal changes nothing.
pub fn lent(bytes: &[u8], scratch: &mut [u32], vertices: &mut [f64], indices: &mut [u32]) -> Result<Welded, Refusal> {
    let mut wrote = Welded::default();
    // SAFETY: each list is a pointer with its length, and what is written overlaps with nothing else.
    let status = unsafe {
        c::ramikohy_read_stl(
            bytes.as_ptr(),
            bytes.len(),
            scratch.as_mut_ptr(),
            scratch.len(),
            vertices.as_mut_ptr(),
            vertices.len(),
            indices.as_mut_ptr(),
            indices.len(),
            &mut wrote.vertices,
            &mut wrote.indices,
        )
    };
    Refusal::check(status)?;
    Ok(wrote)
}
