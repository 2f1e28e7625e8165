//! Drawing: the edges of a mesh that a mode keeps, joined end to end.

use super::{Wrote, first};
use crate::{Mesh, Refusal, Strokes, c};

/// Which edges a drawing keeps. Polygonal is the mode where nobody says one.
#[derive(Debug, Clone, Copy, PartialEq, Default)]
pub enum Mode {
    /// All of them.
    Triangles,
    /// Those of one face alone, and those where faces meet at an angle.
    #[default]
    Polygonal,
    /// Those where the mesh turns away from the eye, those that two faces do not share, and, if its number is above 0, those
    /// whose faces' cosine is not above it.
    Silhouette(f64),
}

impl Mode {
    /// The number that the archive knows the mode by.
    pub fn number(self) -> u32 {
        match self {
            Mode::Triangles => 1,
            Mode::Polygonal => 2,
            Mode::Silhouette(_) => 3,
        }
    }

    /// The cosine that the mode carries; 0 where it carries none.
    pub fn cos_theta(self) -> f64 {
        match self {
            Mode::Silhouette(cos_theta) => cos_theta,
            Mode::Triangles | Mode::Polygonal => 0.0,
        }
    }
}

/// The numbers beside the mesh of a drawing, as the archive takes them: all are tested, whatever the mode uses.
#[derive(Debug, Clone, Copy, PartialEq)]
pub struct Sight {
    /// The mode's number, [`Mode::number`]; 0, where nobody says one, stands for polygonal.
    pub mode: u32,
    pub cos_theta: f64,
    pub eye: [f64; 3],
    pub tolerance: f64,
}

/// The strokes of vertex numbers that draw a mesh. A flip is a pair of faces, the smaller first, whose shared edge a silhouette
/// keeps where it would not, and the other way round. Triangles draws flat faces; the other modes refuse the lowest of them, by its number.
///
/// ```
/// use ramikohy::{Mesh, Mode, Refusal, draw};
///
/// let vertices = vec![[0.0, 0.0, 0.0], [1.0, 0.0, 0.0], [1.0, 1.0, 0.0], [0.0, 1.0, 0.0]];
/// let square = Mesh { vertices, faces: vec![[0, 1, 2], [0, 2, 3]] };
/// let points = |mode, eye, flips: &[[u32; 2]]| draw(&square, flips, mode, eye, 1e-9).unwrap().points().to_vec();
/// let (triangles, polygonal) = ([0, 2, 3, 0, 1, 2], [1, 0, 3, 2, 1]);
/// let above = [0.0, 0.0, 5.0];
/// assert_eq!(points(Mode::Triangles, above, &[]), triangles);
/// assert_eq!(points(Mode::Polygonal, above, &[]), polygonal);
/// assert_eq!(points(Mode::default(), above, &[]), polygonal);
/// assert_eq!(points(Mode::Silhouette(0.0), above, &[]), polygonal);
/// assert_eq!(points(Mode::Silhouette(0.0), above, &[[0, 1]]), triangles);
/// assert_eq!(points(Mode::Silhouette(0.0), above, &[[1, 0]]), polygonal);
/// assert_eq!(points(Mode::Silhouette(1.0), above, &[]), triangles);
/// assert_eq!(points(Mode::Silhouette(0.0), [5.0, 5.0, 0.0], &[]), triangles);
///
/// let mut flat = Mesh { faces: vec![[0, 0, 1]], ..square.clone() };
/// assert!(draw(&flat, &[], Mode::Triangles, above, 1e-9).is_ok());
/// for mode in [Mode::Polygonal, Mode::Silhouette(0.0)] {
///     assert_eq!(draw(&flat, &[], mode, above, 1e-9), Err(Refusal::Alike { face: 0 }));
/// }
///
/// flat.vertices.push([2.0, 0.0, 0.0]);
/// flat.faces = vec![[0, 1, 2], [0, 1, 4], [0, 0, 1]];
/// assert_eq!(draw(&flat, &[], Mode::Polygonal, above, 1e-9), Err(Refusal::NoLength { face: 1 }));
/// ```
pub fn draw(
    mesh: &Mesh,
    flips: &[[u32; 2]],
    mode: Mode,
    eye: [f64; 3],
    tolerance: f64,
) -> Result<Strokes<u32>, Refusal> {
    let (vertices, indices) = (mesh.vertices.as_flattened(), mesh.faces.as_flattened());
    let sight = Sight { mode: mode.number(), cos_theta: mode.cos_theta(), eye, tolerance };
    let flips = flips.as_flattened();
    first(lent(vertices, indices, flips, &sight, &mut [], &mut [], &mut [], &mut []))?;
    let faces = mesh.faces.len();
    let (mut scratch, mut seen) = (vec![0; 64 * faces], vec![0.0; 4 * faces]);
    let (mut points, mut starts) = (vec![0; 6 * faces], vec![0; 3 * faces]);
    let wrote = lent(vertices, indices, flips, &sight, &mut scratch, &mut seen, &mut points, &mut starts)?;
    points.truncate(wrote.points);
    starts.truncate(wrote.starts);
    Ok(Strokes::from_parts(points, starts))
}

/// The same in the caller's buffers: three numbers a vertex, two face numbers a flip; 64 words and 4 numbers of scratch a face,
/// room for 6 points and 3 starts a face. Both kinds of scratch are all zero afterwards; a refusal changes nothing.
///
/// ```
/// use ramikohy::{Mode, Refusal, Sight, lent};
///
/// let vertices = [0.0, 0.0, 0.0, 1.0, 0.0, 0.0, 0.0, 1.0, 0.0];
/// let sight = Sight { mode: 1, cos_theta: 0.0, eye: [0.0; 3], tolerance: 1e-9 };
/// let (mut scratch, mut seen, mut points, mut starts) = ([7; 65], [7.0; 4], [9; 6], [9; 3]);
/// let mut drawn = |flips: &[u32]| {
///     lent::draw(&vertices, &[0, 1, 2], flips, &sight, &mut scratch, &mut seen, &mut points, &mut starts)
/// };
/// assert_eq!(drawn(&[0]), Err(Refusal::Shape));
/// let wrote = drawn(&[]).unwrap();
/// assert_eq!((wrote.points, wrote.starts), (4, 1));
/// assert_eq!((points, starts), ([1, 0, 2, 1, 9, 9], [0, 9, 9]));
/// assert_eq!((scratch, seen), ([0; 65], [0.0; 4]));
/// ```
#[allow(clippy::too_many_arguments)] // what is lent, list by list
pub fn lent(
    vertices: &[f64],
    indices: &[u32],
    flips: &[u32],
    sight: &Sight,
    scratch: &mut [u32],
    seen: &mut [f64],
    out_points: &mut [u32],
    out_starts: &mut [u32],
) -> Result<Wrote, Refusal> {
    let (mut wrote, mut face) = (Wrote::default(), 0);
    // SAFETY: each list is a pointer with its length, and what is written overlaps with nothing else.
    let status = unsafe {
        c::ramikohy_draw(
            vertices.as_ptr(),
            vertices.len(),
            indices.as_ptr(),
            indices.len(),
            flips.as_ptr(),
            flips.len(),
            sight.mode,
            sight.cos_theta,
            &sight.eye,
            sight.tolerance,
            scratch.as_mut_ptr(),
            scratch.len(),
            seen.as_mut_ptr(),
            seen.len(),
            out_points.as_mut_ptr(),
            out_points.len(),
            out_starts.as_mut_ptr(),
            out_starts.len(),
            &mut wrote.points,
            &mut wrote.starts,
            &mut face,
        )
    };
    Refusal::check_with(status, Some(face))?;
    Ok(wrote)
}
