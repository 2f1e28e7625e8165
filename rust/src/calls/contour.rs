//! Contours: the outline in which a plane cuts a mesh.

use super::{Wrote, first};
use crate::{Mesh, Plane, Refusal, Strokes, c};

/// The outline in which a plane cuts a mesh. The height of a vertex is the dot of the normal, of whatever length, with
/// the vertex minus the plane's point: not below the tolerance it is above, not above minus the tolerance it is below,
/// and else on the plane. A face gives a segment where it has corners above and below, or two on the plane and the third
/// above; the segments are joined where their ends have the same coordinates. Where every edge has an even number of
/// faces, and no face has a vertex twice, all strokes are closed. No coordinate is -0.
///
/// ```
/// use ramikohy::{Mesh, Plane, contour};
///
/// let vertices = vec![[0.0, 0.0, 0.0], [1.0, 1.0, 0.0], [2.0, 0.0, 0.0]];
/// let mesh = Mesh { vertices, faces: vec![[0, 1, 2]] };
/// let plane = Plane { point: [1.0, 0.0, 0.0], normal: [1.0, 0.0, 0.0] };
/// assert_eq!(contour(&mesh, &plane, 1e-9).unwrap().points(), [[1.0, 1.0, 0.0], [1.0, 0.0, 0.0]]);
///
/// let vertices = vec![[0.0, 0.0, 0.0], [2.0, 0.0, 0.0], [0.0, 2.0, 0.0], [0.0, 0.0, 2.0]];
/// let tetrahedron = Mesh { vertices, faces: vec![[0, 2, 1], [0, 1, 3], [0, 3, 2], [1, 2, 3]] };
/// let plane = Plane { point: [0.0, 0.0, 1.0], normal: [0.0, 0.0, 1.0] };
/// let outline = contour(&tetrahedron, &plane, 1e-9).unwrap();
/// assert_eq!(outline.points(), [[0.0, 0.0, 1.0], [1.0, 0.0, 1.0], [0.0, 1.0, 1.0], [0.0, 0.0, 1.0]]);
/// assert_eq!(outline.starts(), [0]);
/// ```
pub fn contour(mesh: &Mesh, plane: &Plane, tolerance: f64) -> Result<Strokes<[f64; 3]>, Refusal> {
    let (vertices, indices) = (mesh.vertices.as_flattened(), mesh.faces.as_flattened());
    first(lent(vertices, indices, plane, tolerance, &mut [], &mut [], &mut [], &mut []))?;
    let faces = mesh.faces.len();
    let (mut scratch, mut numbers) = (vec![0; 16 * faces], vec![0.0; 8 * faces]);
    let (mut points, mut starts) = (vec![[0.0; 3]; 2 * faces], vec![0; faces]);
    let out_points = points.as_flattened_mut();
    let wrote = lent(vertices, indices, plane, tolerance, &mut scratch, &mut numbers, out_points, &mut starts)?;
    points.truncate(wrote.points);
    starts.truncate(wrote.starts);
    Ok(Strokes::from_parts(points, starts))
}

/// The same in the caller's buffers, three numbers a vertex and a point: 16 words and 8 numbers of scratch a face, room
/// for 2 points and 1 start a face, however few of the faces are cut. Both kinds of scratch are all zero afterwards; a
/// refusal changes nothing.
///
/// ```
/// use ramikohy::{Plane, Refusal, lent};
///
/// let vertices = [0.0, 0.0, 0.0, 1.0, 1.0, 0.0, 2.0, 0.0, 0.0];
/// let plane = Plane { point: [1.0, 0.0, 0.0], normal: [1.0, 0.0, 0.0] };
/// let (mut scratch, mut numbers, mut points, mut starts) = ([7; 16], [7.0; 9], [9.0; 7], [9; 2]);
/// let mut cut = |words: usize| {
///     let scratch = &mut scratch[..words];
///     lent::contour(&vertices, &[0, 1, 2], &plane, 1e-9, scratch, &mut numbers, &mut points, &mut starts)
/// };
/// assert_eq!(cut(15), Err(Refusal::Scratch));
/// let wrote = cut(16).unwrap();
/// assert_eq!((wrote.points, wrote.starts), (2, 1));
/// assert_eq!((points, starts), ([1.0, 1.0, 0.0, 1.0, 0.0, 0.0, 9.0], [0, 9]));
/// assert_eq!((scratch, numbers), ([0; 16], [0.0; 9]));
/// ```
#[allow(clippy::too_many_arguments)] // what is lent, list by list
pub fn lent(
    vertices: &[f64],
    indices: &[u32],
    plane: &Plane,
    tolerance: f64,
    scratch: &mut [u32],
    numbers: &mut [f64],
    out_points: &mut [f64],
    out_starts: &mut [u32],
) -> Result<Wrote, Refusal> {
    let mut wrote = Wrote::default();
    // SAFETY: each list is a pointer with its length, and what is written overlaps with nothing else.
    let status = unsafe {
        c::ramikohy_contour(
            vertices.as_ptr(),
            vertices.len(),
            indices.as_ptr(),
            indices.len(),
            &plane.point,
            &plane.normal,
            tolerance,
            scratch.as_mut_ptr(),
            scratch.len(),
            numbers.as_mut_ptr(),
            numbers.len(),
            out_points.as_mut_ptr(),
            out_points.len(),
            out_starts.as_mut_ptr(),
            out_starts.len(),
            &mut wrote.points,
            &mut wrote.starts,
        )
    };
    Refusal::check(status)?;
    Ok(wrote)
}
