//! The judge of the calls on buffers: the worked cases of the rules, by the original, and what must hold of all answers.
#![cfg(original)]

use compare::calls::{Left, Lent, adaptive, chop, contour, draw, section, simplify, splice, weld};
use compare::calls::{read_sheet, read_stl, write_sheet, write_stl};
use compare::random::Random;
use std::collections::BTreeMap;

/// Room for plenty, with something in it.
fn plenty<P: Copy>(fill: P) -> Lent<P> {
    Lent { scratch: vec![7; 128], numbers: vec![7; 8], points: vec![fill; 96], starts: vec![9; 16], face: None }
}

/// The points that were written, and where their strokes start.
fn written<P: Copy>(left: &Left<P>, width: usize) -> (Vec<P>, Vec<u32>) {
    assert_eq!(left.status, 0);
    (left.lent.points[..left.counts[0] * width].to_vec(), left.lent.starts[..left.counts[1]].to_vec())
}

fn spliced(strokes: &[&[u32]]) -> (Vec<u32>, Vec<u32>) {
    let input = splice::of_strokes(&strokes.iter().map(|s| s.to_vec()).collect::<Vec<_>>());
    let left = splice::judged(&input);
    assert!(splice::is_sound(&input, &left));
    written(&left, 1)
}

#[test]
fn splices_of_the_rules() {
    assert_eq!(spliced(&[&[1, 2], &[2, 3], &[2, 4]]), (vec![1, 2, 4, 2, 3], vec![0, 3]));
    assert_eq!(spliced(&[&[7], &[7]]), (vec![7], vec![0]));
    assert_eq!(spliced(&[&[0, 1], &[1, 2], &[0, 2]]), (vec![1, 0, 2, 1], vec![0]));
}

/// Strokes of points on the x axis.
fn on_x(xs: &[f64]) -> Vec<f64> {
    xs.iter().flat_map(|&x| [x, 0.0, 0.0]).collect()
}

#[test]
fn cuts_of_the_rules() {
    let cut = |step| {
        let input = chop::Input { points: on_x(&[0.0, 1.0]), starts: vec![0], step, lent: plenty(5) };
        chop::judged(&input).counts
    };
    assert_eq!(cut(0.25), [5, 1]);
    assert_eq!(cut(1.0), [2, 1]);
}

#[test]
fn adaptive_cuts_of_the_rules() {
    let halvings = |from: f64, to: f64, step: f64| {
        let mut matrix = [0.0; 16];
        (matrix[0], matrix[5], matrix[10], matrix[15]) = (1.0, 1.0, 1.0, 1.0);
        let left = adaptive::judged(&adaptive::Input {
            points: on_x(&[from, to]),
            starts: vec![0],
            matrix,
            width: 10.0,
            height: 10.0,
            step,
            tolerance: 1e-9,
            lent: plenty(5),
        });
        assert_eq!(left.counts[0], 2 + left.counts[2]);
        left.counts[2]
    };
    assert_eq!(halvings(0.0, 4.0, 2.5), 1);
    assert_eq!(halvings(0.0, 4.0, 2.0), 3);
    assert_eq!(halvings(11.0, 15.0, 2.0), 0);
}

#[test]
fn simplifyings_of_the_rules() {
    let kept = |points: Vec<f64>, threshold| {
        simplify::judged(&simplify::Input { points, starts: vec![0], threshold, lent: plenty(5) }).counts
    };
    let hat = vec![0.0, 0.0, 0.0, 1.0, 1.0, 0.0, 2.0, 0.0, 0.0];
    assert_eq!(kept(hat.clone(), 1.0), [2, 1, 1]);
    assert_eq!(kept(hat, 0.5), [3, 1, 1]);
    assert_eq!(kept(on_x(&[0.0, 1.0, 0.0]), 1.0), [2, 1, 1]);
    assert_eq!(
        simplify::judged(&simplify::Input { points: on_x(&[0.0]), starts: vec![0], threshold: -1.0, lent: plenty(5) })
            .status,
        4
    );
}

fn welded(xs: &[f64; 3]) -> Vec<u32> {
    let left = weld::judged(&weld::Input { corners: on_x(xs), lent: plenty(5) });
    left.lent.starts[..left.counts[1]].to_vec()
}

#[test]
fn welds_of_the_rules() {
    assert_eq!(welded(&[0.0, 0.000001, 0.0]), [0, 1, 0]);
    assert_eq!(welded(&[0.0, 6e-7, 1.2e-6]), [0, 0, 1]);
    assert_eq!(welded(&[1.5e-6, 0.0, 9e-7]), [0, 1, 1]);
}

/// A drawing of the unit square of two faces.
fn square(mode: u32, cos_theta: f64, eye: [f64; 3], flips: &[u32]) -> Vec<u32> {
    let vertices = vec![0.0, 0.0, 0.0, 1.0, 0.0, 0.0, 1.0, 1.0, 0.0, 0.0, 1.0, 0.0];
    let (indices, flips, lent) = (vec![0, 1, 2, 0, 2, 3], flips.to_vec(), plenty(5));
    let input = draw::Input { vertices, indices, flips, mode, cos_theta, eye, tolerance: 1e-9, lent };
    written(&draw::renamed(&input, draw::judged(&input)), 1).0
}

#[test]
fn drawings_of_the_rules() {
    let (triangles, polygonal) = ([0, 2, 3, 0, 1, 2], [1, 0, 3, 2, 1]);
    let above = [0.0, 0.0, 5.0];
    assert_eq!(square(0, 0.0, above, &[]), polygonal);
    assert_eq!(square(1, 0.0, above, &[]), triangles);
    assert_eq!(square(2, 0.0, above, &[]), polygonal);
    assert_eq!(square(3, 0.0, above, &[]), polygonal);
    assert_eq!(square(3, 0.0, above, &[0, 1]), triangles);
    assert_eq!(square(3, 0.0, above, &[1, 0]), polygonal);
    assert_eq!(square(3, 1.0, above, &[]), triangles);
    assert_eq!(square(3, 0.0, [5.0, 5.0, 0.0], &[]), triangles);
}

/// A drawing of faces on some vertices.
fn faces(vertices: &[[f64; 3]], list: &[[u32; 3]], mode: u32) -> Left<u32> {
    draw::judged(&draw::Input {
        vertices: vertices.concat(),
        indices: list.concat(),
        flips: Vec::new(),
        mode,
        cos_theta: 0.0,
        eye: [0.0; 3],
        tolerance: 1e-9,
        lent: Lent { scratch: vec![7; 256], numbers: vec![7; 16], face: Some(99), ..plenty(5) },
    })
}

#[test]
fn faces_of_the_rules() {
    let vertices = [[0.0, 0.0, 0.0], [1.0, 0.0, 0.0], [0.0, 1.0, 0.0]];
    assert_eq!(written(&faces(&vertices, &[[0, 1, 2]], 1), 1), (vec![1, 0, 2, 1], vec![0]));
    let twice = [1, 2, 3].map(|mode| faces(&vertices, &[[0, 0, 1]], mode));
    assert_eq!(twice.map(|left| (left.status, left.lent.face)), [(0, Some(99)), (7, Some(0)), (7, Some(0))]);
    let unsaid = faces(&vertices, &[[0, 1, 2], [0, 0, 1]], 0);
    assert_eq!((unsaid.status, unsaid.lent.face), (7, Some(1)));
}

/// The lowest flat face and its kind, by the original's vectors; that the original dies of each is asked by the judge.
#[test]
fn flat_faces_of_the_rules() {
    let least = 2f64.powi(-269);
    let one = |corners: [[f64; 3]; 3]| {
        let [polygonal, silhouette] = [2, 3].map(|mode| faces(&corners, &[[0, 1, 2]], mode));
        assert_eq!(polygonal, silhouette);
        (polygonal.status, polygonal.lent.face)
    };
    assert_eq!(one([[0.0, 0.0, 0.0], [-0.0, 0.0, -0.0], [1.0, 0.0, 0.0]]), (7, Some(0)));
    assert_eq!(one([[5.0, 1.0, 0.0], [3.0, 0.1, 0.0], [3.0, 0.1, 0.0]]), (7, Some(0)));
    assert_eq!(one([[0.0, 0.0, 0.0], [1.0, 1.0, 1.0], [2.0, 2.0, 2.0]]), (10, Some(0)));
    assert_eq!(one([[0.0, 0.0, 0.0], [least, 0.0, 0.0], [0.0, least, 0.0]]), (10, Some(0)));
    assert_eq!(one([[0.0, 0.0, 0.0], [least, 0.0, 0.0], [0.0, 2.0 * least, 0.0]]), (0, Some(99)));
    assert_eq!(one([[1.0, 1.0, 0.0], [0.0, 0.0, 0.0], [1e-20, 0.0, 0.0]]), (10, Some(0)));
    let corners = [[0.0, 0.0, 0.0], [1.0, 0.0, 0.0], [1.0, 1.0, 0.0], [0.0, 1.0, 0.0], [2.0, 0.0, 0.0]];
    let lowest = |list: [[u32; 3]; 4]| {
        let left = faces(&corners, &list, 2);
        (left.status, left.lent.face)
    };
    assert_eq!(lowest([[0, 1, 2], [0, 2, 3], [0, 1, 4], [1, 1, 2]]), (10, Some(2)));
    assert_eq!(lowest([[0, 1, 2], [1, 1, 2], [0, 2, 3], [0, 1, 4]]), (7, Some(1)));
}

#[test]
fn sections_of_the_rules() {
    let left = section::judged(&section::Input {
        vertices: vec![0.0, 0.0, 0.0, 1.0, 1.0, 0.0, 2.0, 0.0, 0.0],
        indices: vec![0, 1, 2],
        plane: [1.0, 0.0, 0.0, 1.0, 0.0, 0.0],
        tolerance: 1e-9,
        lent: plenty(5),
    });
    let twice = [1.0f64, 1.0, 0.0, 1.0, 1.0, 0.0].map(f64::to_bits);
    assert_eq!(written(&left, 3), (twice.to_vec(), vec![0]));
}

/// The planes of the worked contours: x = 1 and z = 0.
const X: [f64; 6] = [1.0, 0.0, 0.0, 1.0, 0.0, 0.0];
const Z: [f64; 6] = [0.0, 0.0, 0.0, 0.0, 0.0, 1.0];

/// The strokes of a contour. No zero that is written has a sign, and scratch is left zero.
fn contoured(plane: [f64; 6], tolerance: f64, vertices: &[[f64; 3]], faces: &[[u32; 3]]) -> Vec<Vec<[f64; 3]>> {
    let input = contour::of_mesh(vertices.as_flattened(), faces.as_flattened(), plane, tolerance);
    let left = contour::judged(&input);
    assert!(left.status == 0 && contour::is_sound(&input, &left));
    let strokes = contour::strokes(&left);
    assert!(strokes.iter().flatten().flatten().all(|&bits| bits != (-0.0f64).to_bits()));
    assert_eq!((left.lent.scratch, left.lent.numbers), (vec![0; 16 * faces.len()], vec![0; 8 * faces.len()]));
    strokes.iter().map(|s| s.iter().map(|p| p.map(f64::from_bits)).collect()).collect()
}

#[test]
fn contours_of_the_rules() {
    let hat = [[0.0, 0.0, 0.0], [1.0, 1.0, 0.0], [2.0, 0.0, 0.0]];
    assert_eq!(contoured(X, 1e-9, &hat, &[[0, 1, 2]]), [[[1.0, 1.0, 0.0], [1.0, 0.0, 0.0]]]);
    assert_eq!(contoured(X, 1e-9, &hat, &[[2, 0, 1]]), [[[1.0, 0.0, 0.0], [1.0, 1.0, 0.0]]]);
    let side = [[1.0, 0.0, 0.0], [1.0, 1.0, 0.0]];
    let with = |third| contoured(X, 1e-9, &[side[0], side[1], third], &[[0, 1, 2]]);
    assert_eq!(with([2.0, 0.0, 0.0]), [side]);
    assert!(with([0.0, 0.0, 0.0]).is_empty());
    let at_tolerance = [[1.5, 0.0, 0.0], [0.5, 0.0, 0.0], [1.25, 1.0, 0.0]];
    assert_eq!(contoured(X, 0.5, &at_tolerance, &[[0, 1, 2]]), [[[1.0, 0.0, 0.0], [1.25, 1.0, 0.0]]]);
    let signed = [[-0.0, 0.0, -0.0], [1.0, -0.0, 0.0], [0.0, 0.0, 1.0], [0.0, 0.0, 0.0], [0.0, 1.0, -0.0]];
    let one = [[1.0, 0.0, 0.0], [0.0, 0.0, 0.0], [0.0, 1.0, 0.0]];
    assert_eq!(contoured(Z, 1e-9, &signed, &[[0, 1, 2], [3, 4, 2]]), [one]);
    let tetrahedron = [[0.0, 0.0, 0.0], [2.0, 0.0, 0.0], [0.0, 2.0, 0.0], [0.0, 0.0, 2.0]];
    let faces = [[0, 2, 1], [0, 1, 3], [0, 3, 2], [1, 2, 3]];
    let ring = [[0.0, 0.0, 1.0], [1.0, 0.0, 1.0], [0.0, 1.0, 1.0], [0.0, 0.0, 1.0]];
    assert_eq!(contoured([0.0, 0.0, 1.0, 0.0, 0.0, 1.0], 1e-9, &tetrahedron, &faces), [ring]);
}

/// A crossing has the same bits in both faces of its edge, though they have it the other way round.
#[test]
fn a_crossing_is_worked_from_the_lower_vertex() {
    let vertices = [[0.0, 0.0, -0.1], [0.1, 0.0, 0.3], [0.0, 1.0, -0.1], [0.0, -1.0, -0.1]];
    let strokes = contoured(Z, 1e-9, &vertices, &[[0, 1, 2], [1, 0, 3]]);
    assert_eq!(strokes.len(), 1);
    assert_eq!(strokes[0][1].map(f64::to_bits), [0x3F9999999999999A, 0, 0]);
    for face in [[0, 1, 2], [1, 0, 3]] {
        let alone = contoured(Z, 1e-9, &vertices, &[face]).concat();
        assert!(alone.iter().any(|p| p[0].to_bits() == 0x3F9999999999999A), "{alone:?}");
    }
}

/// A face that is cut, and one that is not, with these words, numbers, coordinates and starts lent.
#[test]
fn contours_refused_by_the_rules() {
    let status = |z: f64, [words, numbers, points, starts]: [usize; 4]| {
        let vertices = [0.0, 0.0, z, 1.0, 0.0, 1.0, 0.0, 1.0, 1.0];
        let lent = Lent {
            scratch: vec![7; words],
            numbers: vec![7; numbers],
            points: vec![5; points],
            starts: vec![9; starts],
            face: None,
        };
        let left = contour::judged(&contour::Input { lent, ..contour::of_mesh(&vertices, &[0, 1, 2], Z, 1e-9) });
        left.status
    };
    for z in [-1.0, 1.0] {
        assert_eq!(status(z, [16, 8, 6, 1]), 0);
        assert_eq!([[15, 8, 6, 1], [16, 7, 6, 1], [15, 7, 0, 0]].map(|lent| status(z, lent)), [5; 3]);
        assert_eq!([[16, 8, 3, 1], [16, 8, 5, 1], [16, 8, 6, 0]].map(|lent| status(z, lent)), [6; 3]);
    }
    assert_eq!(status(f64::NAN, [0; 4]), 4);
}

/// Which statuses random inputs meet.
fn met<I, P>(make: fn(&mut Random) -> I, judged: fn(&I) -> Left<P>) -> Vec<u32> {
    let mut random = Random::new(3);
    let mut met: Vec<u32> = (0..20_000).map(|_| judged(&make(&mut random)).status).collect();
    met.sort_unstable();
    met.dedup();
    met
}

#[test]
fn random_inputs_meet_every_refusal_that_they_can() {
    assert_eq!(met(splice::make, splice::judged), [0, 1, 5, 6]);
    assert_eq!(met(chop::make, chop::judged), [0, 1, 4, 6]);
    assert_eq!(met(simplify::make, simplify::judged), [0, 1, 4, 6]);
    assert_eq!(met(adaptive::make, adaptive::judged), [0, 1, 4, 6, 8]);
    assert_eq!(met(weld::make, weld::judged), [0, 1, 4, 5, 6]);
    assert_eq!(met(draw::make, draw::judged), [0, 1, 3, 4, 5, 6, 7, 10]);
    assert_eq!(met(section::make, section::judged), [0, 1, 3, 4, 6]);
    assert_eq!(met(contour::make, contour::judged), [0, 1, 3, 4, 5, 6]);
    assert_eq!(met(write_sheet::make, write_sheet::judged), [0, 1, 2, 3, 4, 6]);
    assert_eq!(met(read_sheet::make, read_sheet::judged), [0, 6, 9]);
    assert_eq!(met(write_stl::make, write_stl::judged), [0, 1, 3, 4, 6]);
    assert_eq!(met(read_stl::make, read_stl::judged), [0, 4, 5, 6, 11]);
}

/// What a random drawing may have to do with flat faces, all of which must come often.
fn notable(input: &draw::Input) -> Vec<&'static str> {
    let left = draw::judged(input);
    let tiny = input.vertices.iter().any(|&x| x != 0.0 && x.abs() < 1e-80);
    if left.status == 0 && input.mode != 1 && tiny {
        return vec!["sides about as short as can be, none flat"];
    }
    let (true, Some(at)) = ([7, 10].contains(&left.status), left.lent.face) else { return vec![] };
    let face = &input.indices[at as usize * 3..][..3];
    let corner = |i: usize| &input.vertices[face[i] as usize * 3..][..3];
    let pairs = [(0, 1), (1, 2), (2, 0)].into_iter().filter(|&(i, j)| corner(i) == corner(j));
    let numbered_apart = |(i, j): (usize, usize)| face[i] != face[j];
    let by_sign = |(i, j): (usize, usize)| corner(i).iter().zip(corner(j)).any(|(x, y)| x.to_bits() != y.to_bits());
    let others = draw::flats(input).any(|(_, status)| status != left.status);
    let all = [
        (left.status == 7, "two corners alike"),
        (left.status == 7 && others, "two corners alike, and one of the other kind behind"),
        (left.status == 10, "three corners"),
        (left.status == 10 && others, "three corners, and one of the other kind behind"),
        (left.status == 10 && tiny, "three corners too near"),
        (pairs.clone().any(numbered_apart), "corners alike that have two numbers"),
        (pairs.clone().any(by_sign), "corners alike but for the sign of a zero"),
        (at > 0, "not the first face"),
    ];
    all.into_iter().filter(|(is_so, _)| *is_so).map(|(_, what)| what).collect()
}

#[test]
fn random_drawings_meet_flat_faces_of_every_kind() {
    let mut random = Random::new(7);
    let mut seen = BTreeMap::<&str, u32>::new();
    for _ in 0..20_000 {
        notable(&draw::make(&mut random)).into_iter().for_each(|what| *seen.entry(what).or_default() += 1);
    }
    println!("{seen:?}");
    assert!(seen.len() == 9 && seen.values().all(|&n| n >= 100), "{seen:?}");
}

/// What a random contour may have to do with the plane and with its ends, all of which must come often.
fn notable_cut(input: &contour::Input) -> Vec<&'static str> {
    use contour::Side::{Above, Below, On};
    let left = contour::judged(input);
    if left.status != 0 {
        return vec![];
    }
    let (segments, strokes) = (input.segments(), contour::strokes(&left));
    let faces: Vec<[u32; 3]> = input.indices.chunks_exact(3).map(|f| [f[0], f[1], f[2]]).collect();
    let counts = |f: &[u32; 3]| [Above, Below, On].map(|s| f.iter().filter(|&&v| input.side(v) == s).count());
    let some = |kinds: &[[usize; 3]]| faces.iter().any(|f| kinds.contains(&counts(f)));
    let at =
        |height: f64| faces.iter().any(|f| input.segment(*f).is_some() && f.iter().any(|&v| input.height(v) == height));
    let is_open = |s: &&Vec<contour::Point>| s.first() != s.last();
    let both_ways = |s: &[contour::Point; 2]| segments.iter().filter(|&&t| t == *s || t == [s[1], s[0]]).count();
    let minus = |f: &[u32; 3]| {
        f.iter().any(|&v| input.vertices[3 * v as usize..][..3].iter().any(|x| x.to_bits() >> 63 == 1 && *x == 0.0))
    };
    let all = [
        (some(&[[1, 1, 1]]), "one above, one below, one on"),
        (some(&[[1, 2, 0], [2, 1, 0]]), "split, none on"),
        (some(&[[1, 0, 2]]), "two on, the third above"),
        (some(&[[0, 1, 2]]), "two on, the third below"),
        (some(&[[0, 0, 3]]), "all on"),
        (some(&[[2, 0, 1], [0, 2, 1]]), "one on, the others on one side"),
        (at(input.tolerance), "just as high as the tolerance"),
        (at(-input.tolerance), "just as low"),
        (at(input.tolerance.next_down()) || at(-input.tolerance.next_down()), "the number before that"),
        (faces.iter().any(|f| input.segment(*f).is_some() && minus(f)), "a -0 in a face that is cut"),
        (segments.iter().any(|s| s[0] == s[1]), "a segment of no length"),
        (segments.iter().any(|s| both_ways(s) > 1), "a segment twice"),
        (!segments.is_empty() && input.is_closed(), "a closed mesh"),
        (strokes.iter().filter(is_open).count() > 1, "more than one open stroke"),
        (strokes.len() > 1 && strokes.iter().all(|s| !is_open(&s)), "more than one closed stroke"),
        (strokes.iter().any(|s| s.len() > 4), "a stroke of more than four points"),
    ];
    all.into_iter().filter(|(is_so, _)| *is_so).map(|(_, what)| what).collect()
}

#[test]
fn random_contours_meet_every_case() {
    let mut random = Random::new(8);
    let mut seen = BTreeMap::<&str, u32>::new();
    for _ in 0..20_000 {
        notable_cut(&contour::make(&mut random)).into_iter().for_each(|what| *seen.entry(what).or_default() += 1);
    }
    println!("{seen:?}");
    assert!(seen.len() == 16 && seen.values().all(|&n| n >= 100), "{seen:?}");
}

/// Joined by the original's splice, the segments of the rules are drawn as often as they are given, with no pen lift
/// too many.
#[test]
fn every_contour_of_the_rules_is_sound() {
    let mut random = Random::new(9);
    let mut accepted = 0;
    for input in contour::all_small().chain((0..20_000).map(|_| contour::make(&mut random))) {
        let left = contour::judged(&input);
        if left.status == 0 {
            assert!(contour::is_sound(&input, &left), "{input:?}");
            accepted += 1;
        }
    }
    assert!(accepted > 20_000);
}

/// The sheet of [1,0,2,1] with 3 vertices, written and read by the rules alone; mode 0 is stored as 2, an empty stroke is not.
#[test]
fn the_sheet_of_the_rules() {
    let words = [1, 3, 1, 4, 24, 28, 0, 1, 0, 2, 1u32];
    let bytes: Vec<u8> = words.iter().flat_map(|word| word.to_le_bytes()).collect();
    for (mode, starts) in [(1, vec![0]), (1, vec![0, 0, 4])] {
        let lent = write_sheet::lent(vec![9; 44]);
        let left =
            write_sheet::judged(&write_sheet::Input { mode, vertices: 3, numbers: vec![1, 0, 2, 1], starts, lent });
        assert_eq!((left.status, left.counts, left.lent.points), (0, vec![44], bytes.clone()));
    }
    let (numbers, lent) = (vec![1, 0, 3, 2, 1], write_sheet::lent(vec![9; 48]));
    let left = write_sheet::judged(&write_sheet::Input { mode: 0, vertices: 4, numbers, starts: vec![0], lent });
    let words = [2, 4, 1, 5, 24, 28, 0, 1, 0, 3, 2, 1u32];
    assert_eq!(left.lent.points, words.iter().flat_map(|word| word.to_le_bytes()).collect::<Vec<u8>>());
    let left = read_sheet::judged(&read_sheet::Input { bytes, lent: plenty(5) });
    assert_eq!(left.counts, [4, 1, 1, 3]);
    assert_eq!((&left.lent.points[..4], left.lent.starts[0]), (&[1, 0, 2, 1][..], 0));
}

/// A file of one face with these x, y and z zero, a header that begins as a text's, NaN normals and two bytes that say
/// nothing.
fn file_on_x(xs: [f32; 3]) -> Vec<u8> {
    let mut bytes = b"solid".to_vec();
    bytes.resize(80, b' ');
    bytes.extend(1u32.to_le_bytes());
    bytes.extend([0xFF; 12]);
    bytes.extend(xs.iter().flat_map(|&x| [x, 0.0, 0.0]).flat_map(f32::to_le_bytes));
    bytes.extend([0xEF, 0xBE]);
    bytes
}

/// What reading leaves with so many words of scratch, numbers and indices.
fn read_with(bytes: &[u8], [words, numbers, indices]: [usize; 3]) -> Left<u64> {
    let lent = Lent { scratch: vec![7; words], points: vec![5; numbers], starts: vec![9; indices], ..Lent::default() };
    read_stl::judged(&read_stl::Input { bytes: bytes.to_vec(), lent })
}

#[test]
fn files_read_by_the_rules() {
    let vertices = |xs: [f64; 2]| xs.iter().flat_map(|&x| [x, 0.0, 0.0]).map(f64::to_bits).collect::<Vec<_>>();
    for (xs, first) in [([0.0, 1.0, -0.0], 0.0), ([-0.0, 1.0, 0.0], -0.0)] {
        let left = read_with(&file_on_x(xs), [12, 9, 3]);
        assert_eq!((left.counts, &left.lent.points[..6]), (vec![2, 3], &vertices([first, 1.0])[..]));
        assert_eq!(left.lent.starts, [0, 1, 0]);
    }
    let least = read_with(&file_on_x([1.0, f32::from_bits(1), 2.0]), [12, 9, 3]);
    assert_eq!(least.lent.points[3], 2f64.powi(-149).to_bits());
}

#[test]
fn files_refused_by_the_rules() {
    let status = |bytes: &[u8], lent| read_with(bytes, lent).status;
    let one = file_on_x([0.0, 1.0, 2.0]);
    let enough = [12, 9, 3];
    assert_eq!([&one[..133], &one[..83], &[], &[&one[..], &[0]].concat()].map(|b| status(b, enough)), [11; 4]);
    for (count, length) in [(65_537u32, 134), (85_899_346, 88), (0, 134), (1, 84)] {
        let mut bytes = one[..length].to_vec();
        bytes[80..84].copy_from_slice(&count.to_le_bytes());
        assert_eq!(status(&bytes, enough), 11);
    }
    let mut many = vec![0xFF; 84 + 50 * 65_537];
    many[80..84].copy_from_slice(&65_537u32.to_le_bytes());
    assert_eq!(status(&many, [0; 3]), 2);
    let past = 1048576f32.next_up();
    for x in [past, -past, f32::NAN, f32::INFINITY] {
        assert_eq!(status(&file_on_x([0.0, 1.0, x]), [11, 9, 3]), 4);
    }
    assert_eq!(status(&one, [11, 0, 0]), 5);
    assert_eq!([[12, 8, 3], [12, 9, 2]].map(|lent| status(&one, lent)), [6; 2]);
}

/// What writing one face leaves, with room for so many bytes; a fourth vertex is named by none.
fn written_as_stl(vertices: [[f64; 3]; 4], room: usize) -> Left<u8> {
    let lent = write_sheet::lent(vec![9; room]);
    write_stl::judged(&write_stl::Input { vertices: vertices.concat(), indices: vec![0, 1, 2], lent })
}

#[test]
fn files_written_by_the_rules() {
    let face = [[-0.0, 0.5, 2f64.powi(-149)], [1048576.0, 0.0, 0.0], [0.0, 1.0, 0.0]];
    let with = |fourth| [face[0], face[1], face[2], fourth];
    let left = written_as_stl(with([0.1; 3]), 140);
    let patterns = [0x80000000u32, 0x3F000000, 1, 0x49800000, 0, 0, 0, 0x3F800000, 0];
    let corners: Vec<u8> = patterns.iter().flat_map(|p| p.to_le_bytes()).collect();
    let file = [&[0; 80][..], &[1, 0, 0, 0], &[0; 12], &corners, &[0; 2], &[9; 6]].concat();
    assert_eq!((left.status, left.counts, left.lent.points), (0, vec![134], file));
    assert_eq!(written_as_stl(with([0.1; 3]), 133).status, 6);
    assert_eq!(written_as_stl(with([f64::NAN; 3]), 0).status, 4);
    for x in [0.1, 1.0 + 2f64.powi(-24), 2f64.powi(-150), 1048576.125] {
        assert_eq!(written_as_stl([face[0], [0.0, x, 0.0], face[2], face[0]], 0).status, 4);
    }
    let empty = write_stl::Input { vertices: vec![], indices: vec![], lent: write_sheet::lent(vec![9; 84]) };
    let left = write_stl::judged(&empty);
    assert_eq!((left.counts, &left.lent.points), (vec![84], &vec![0; 84]));
    assert_eq!(read_with(&left.lent.points, [0; 3]).counts, [0, 0]);
}

#[test]
fn every_splice_of_the_original_is_sound() {
    let mut random = Random::new(4);
    for input in splice::all_small().chain((0..20_000).map(|_| splice::make(&mut random))) {
        let left = splice::judged(&input);
        assert!(left.status != 0 || splice::is_sound(&input, &left), "{input:?}");
    }
}

/// The edges that a plain reading of the rules keeps are those that the original draws.
#[test]
fn every_drawing_of_the_original_is_sound() {
    let mut random = Random::new(6);
    let mut accepted = 0;
    for input in draw::all_small().chain(draw::all_flat()).chain((0..20_000).map(|_| draw::make(&mut random))) {
        let left = draw::judged(&input);
        if left.status == 0 && draw::all_apart(&input) {
            assert!(draw::is_sound(&input, &left), "{input:?}");
            accepted += 1;
        }
    }
    assert!(accepted > 10_000);
}

/// The rules' walk of an adaptive cut, written apart, makes the original's points, for each tolerance that it is built for.
#[test]
fn the_walk_is_the_originals() {
    let mut random = Random::new(5);
    let mut accepted = 0;
    for _ in 0..20_000 {
        let input = adaptive::make(&mut random);
        let left = adaptive::judged(&input);
        if left.status == 0 {
            let (strokes, halvings) = adaptive::walked(&input).unwrap();
            assert_eq!(left, input.lent.accepted(&strokes, 3, &[halvings]));
            accepted += 1;
        }
    }
    assert!(accepted > 5_000);
}
