//! Sections: where a plane cuts a mesh.

use super::{Wrote, first};
use crate::{Mesh, Plane, Refusal, Strokes, c};

/// The strokes of two points in which a plane cuts the faces of a mesh, in the order of the faces.
///
/// ```
/// use ramikohy::{Mesh, Plane, section};
///
/// let vertices = vec![[0.0, 0.0, 0.0], [1.0, 1.0, 0.0], [2.0, 0.0, 0.0]];
/// let mesh = Mesh { vertices, faces: vec![[0, 1, 2]] };
/// let plane = Plane { point: [1.0, 0.0, 0.0], normal: [1.0, 0.0, 0.0] };
/// assert_eq!(section(&mesh, &plane, 1e-9).unwrap().points(), [[1.0, 1.0, 0.0], [1.0, 1.0, 0.0]]);
/// ```
pub fn section(mesh: &Mesh, plane: &Plane, tolerance: f64) -> Result<Strokes<[f64; 3]>, Refusal> {
    let (vertices, indices) = (mesh.vertices.as_flattened(), mesh.faces.as_flattened());
    first(lent(vertices, indices, plane, tolerance, &mut [], &mut []))?;
    let (mut points, mut starts) = (vec![[0.0; 3]; 2 * mesh.faces.len()], vec![0; mesh.faces.len()]);
    let wrote = lent(vertices, indices, plane, tolerance, points.as_flattened_mut(), &mut starts)?;
    points.truncate(wrote.points);
    starts.truncate(wrote.starts);
    Ok(Strokes::from_parts(points, starts))
}

/// The same in the caller's buffers, three numbers a vertex and a point: room for 2 points and 1 start a face. A refusal
/// changes nothing.
pub fn lent(
    vertices: &[f64],
    indices: &[u32],
    plane: &Plane,
    tolerance: f64,
    out_points: &mut [f64],
    out_starts: &mut [u32],
) -> Result<Wrote, Refusal> {
    let mut wrote = Wrote::default();
    // SAFETY: each list is a pointer with its length, and what is written overlaps with nothing else.
    let status = unsafe {
        c::ramikohy_section(
            vertices.as_ptr(),
            vertices.len(),
            indices.as_ptr(),
            indices.len(),
            &plane.point,
            &plane.normal,
            tolerance,
            out_points.as_mut_ptr(),
            out_points.len(),
            out_starts.as_mut_ptr(),
            out_starts.len(),
            &mut wrote.points,
            &mut wrote.starts,
        )
    };
    Refusal::check(status)?;
    Ok(wrote)
}
