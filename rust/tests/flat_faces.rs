//! Which flat face: polygonal and silhouette refuse the lowest face without a normal, and say what is wrong with it.

use ramikohy::{Mesh, Mode, Refusal, Sight, draw, lent};

const ABOVE: [f64; 3] = [0.0, 0.0, 5.0];
/// The square, and a point on the line of its first side.
const CORNERS: [[f64; 3]; 5] = [[0.0, 0.0, 0.0], [1.0, 0.0, 0.0], [1.0, 1.0, 0.0], [0.0, 1.0, 0.0], [2.0, 0.0, 0.0]];
const POLYGONAL: Sight = Sight { mode: 2, cos_theta: 0.0, eye: ABOVE, tolerance: 1e-9 };

/// The points of a drawing, or why it is refused.
fn drawn(vertices: &[[f64; 3]], faces: &[[u32; 3]], mode: Mode) -> Result<Vec<u32>, Refusal> {
    let mesh = Mesh { vertices: vertices.to_vec(), faces: faces.to_vec() };
    draw(&mesh, &[], mode, ABOVE, 1e-9).map(|strokes| strokes.points().to_vec())
}

/// The one face of three corners, in both modes that need its normal.
fn one_face(corners: [[f64; 3]; 3]) -> Result<Vec<u32>, Refusal> {
    let [polygonal, silhouette] =
        [Mode::Polygonal, Mode::Silhouette(0.0)].map(|mode| drawn(&corners, &[[0, 1, 2]], mode));
    assert_eq!(polygonal, silhouette);
    polygonal
}

#[test]
fn corners_are_told_apart_by_their_coordinates() {
    let alike = Refusal::Alike { face: 0 };
    assert_eq!(drawn(&CORNERS[..4], &[[0, 0, 1]], Mode::Polygonal), Err(alike));
    assert_eq!(drawn(&CORNERS[..4], &[[0, 0, 1]], Mode::Triangles), Ok(vec![0, 0, 1]));
    assert_eq!(one_face([[0.0, 0.0, 0.0], [-0.0, 0.0, -0.0], [1.0, 0.0, 0.0]]), Err(alike));
    assert_eq!(one_face([[5.0, 1.0, 0.0], [3.0, 0.1, 0.0], [3.0, 0.1, 0.0]]), Err(alike));
}

/// On a line, by underflow and by rounding.
#[test]
fn three_corners_can_have_no_normal() {
    let no_length = Refusal::NoLength { face: 0 };
    let least = 2f64.powi(-269);
    assert_eq!(one_face([[0.0, 0.0, 0.0], [1.0, 1.0, 1.0], [2.0, 2.0, 2.0]]), Err(no_length));
    assert_eq!(one_face([[0.0, 0.0, 0.0], [least, 0.0, 0.0], [0.0, least, 0.0]]), Err(no_length));
    assert_eq!(one_face([[0.0, 0.0, 0.0], [least, 0.0, 0.0], [0.0, 2.0 * least, 0.0]]), Ok(vec![1, 0, 2, 1]));
    assert_eq!(one_face([[1.0, 1.0, 0.0], [0.0, 0.0, 0.0], [1e-20, 0.0, 0.0]]), Err(no_length));
}

/// A drawing with 0, where nobody says a mode, is the polygonal one: what it answers and all that it leaves, drawn or refused.
#[test]
fn a_mode_that_nobody_says_is_polygonal() {
    let left = |mode, indices: &[u32]| {
        let (mut scratch, mut seen, mut points, mut starts) = (vec![7; 130], vec![7.0; 9], vec![9; 14], vec![9; 7]);
        let (sight, vertices) = (Sight { mode, ..POLYGONAL }, CORNERS.as_flattened());
        let answer = lent::draw(vertices, indices, &[], &sight, &mut scratch, &mut seen, &mut points, &mut starts)
            .map(|w| w.points);
        (answer, scratch, seen, points, starts)
    };
    assert_eq!(Mode::default(), Mode::Polygonal);
    assert_eq!((left(0, &[0, 1, 2, 0, 2, 3]).0, &left(0, &[0, 1, 2, 0, 2, 3]).3[..5]), (Ok(5), &[1, 0, 3, 2, 1][..]));
    assert_eq!(left(0, &[0, 1, 2, 0, 0, 1]).0, Err(Refusal::Alike { face: 1 }));
    assert_eq!(left(0, &[0, 1, 4]).0, Err(Refusal::NoLength { face: 0 }));
    for indices in [&[0, 1, 2, 0, 2, 3][..], &[0, 1, 2, 0, 0, 1], &[0, 1, 4], &[0, 1, 9]] {
        assert_eq!(left(0, indices), left(2, indices));
        assert_ne!(left(0, indices).0, Ok(6));
    }
}

#[test]
fn the_lowest_face_decides() {
    let (good, other, line, twice) = ([0, 1, 2], [0, 2, 3], [0, 1, 4], [1, 1, 2]);
    let why = |faces: [[u32; 3]; 4]| drawn(&CORNERS, &faces, Mode::Polygonal);
    assert_eq!(why([good, other, line, twice]), Err(Refusal::NoLength { face: 2 }));
    assert_eq!(why([good, twice, other, line]), Err(Refusal::Alike { face: 1 }));
}

/// Scratch and room are tested before the faces are looked at.
#[test]
fn short_scratch_and_short_room_come_first() {
    let line = |words: usize, points: usize| {
        let (mut scratch, mut out) = (vec![7; words], vec![9; points]);
        let (mut seen, mut starts) = ([7.0; 4], [9; 3]);
        let vertices = CORNERS.as_flattened();
        let answer = lent::draw(vertices, &[0, 1, 4], &[], &POLYGONAL, &mut scratch, &mut seen, &mut out, &mut starts);
        assert_eq!((scratch, out, seen, starts), (vec![7; words], vec![9; points], [7.0; 4], [9; 3]));
        answer
    };
    assert_eq!(line(63, 5), Err(Refusal::Scratch));
    assert_eq!(line(64, 5), Err(Refusal::Room));
    assert_eq!(line(64, 6), Err(Refusal::NoLength { face: 0 }));
}

#[test]
fn a_refusal_names_its_face() {
    let [alike, no_length] = [Refusal::Alike { face: 12 }, Refusal::NoLength { face: 40_000 }];
    assert_eq!([alike, no_length, Refusal::Room].map(Refusal::number), [7, 10, 6]);
    assert_eq!([alike, no_length, Refusal::Room].map(Refusal::face), [Some(12), Some(40_000), None]);
    assert_eq!(alike.to_string(), "refused 7: face 12 has two corners whose coordinates are equal");
    let words = "refused 10: face 40000 has three different corners and a normal of computed length 0";
    assert_eq!(no_length.to_string(), words);
}
