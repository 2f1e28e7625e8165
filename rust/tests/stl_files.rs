//! Binary STL files: what is read and written, what is refused and in which order, and that a refusal touches nothing.

use ramikohy::{Mesh, Refusal, lent, read_stl, write_stl};

const MOST_FACES: usize = 65_536;

/// A file of these corners. What is not read is at its worst: a header like a text's, normals that are NaN, and 0xBEEF.
fn file(corners: &[[f32; 3]]) -> Vec<u8> {
    let count = corners.len() as u32 / 3;
    let mut bytes = [&[b' '; 80][..], &count.to_le_bytes()].concat();
    bytes[..11].copy_from_slice(b"solid plate");
    for face in corners.chunks(3) {
        bytes.extend([0xFF; 12]);
        bytes.extend(face.as_flattened().iter().flat_map(|x| x.to_bits().to_le_bytes()));
        bytes.extend(0xBEEF_u16.to_le_bytes());
    }
    bytes
}

/// A file of one face with its corners on the x axis.
fn on_x(xs: [f32; 3]) -> Vec<u8> {
    file(&xs.map(|x| [x, 0.0, 0.0]))
}

/// The same file with another count.
fn counted(mut bytes: Vec<u8>, count: u32) -> Vec<u8> {
    bytes[80..84].copy_from_slice(&count.to_le_bytes());
    bytes
}

/// Why reading is refused, with this much scratch and room. Nothing that is lent may change.
fn unread(bytes: &[u8], [words, numbers, indices]: [usize; 3]) -> Refusal {
    let (mut scratch, mut vertices, mut out) = (vec![7; words], vec![7.5; numbers], vec![9; indices]);
    let answer = lent::read_stl(bytes, &mut scratch, &mut vertices, &mut out);
    assert_eq!((scratch, vertices, out), (vec![7; words], vec![7.5; numbers], vec![9; indices]));
    answer.expect_err("a refusal")
}

/// Why writing is refused, with this much room. Nothing that is lent may change.
fn unwritten(vertices: &[f64], indices: &[u32], room: usize) -> Refusal {
    let mut out = vec![7; room];
    let answer = lent::write_stl(vertices, indices, &mut out);
    assert_eq!(out, vec![7; room]);
    answer.expect_err("a refusal")
}

/// A mesh of one face on the first three of these vertices.
fn one_face(vertices: &[[f64; 3]]) -> Mesh {
    Mesh { vertices: vertices.to_vec(), faces: vec![[0, 1, 2]] }
}

/// The bits of a mesh's vertices.
fn bits(mesh: &Mesh) -> Vec<u64> {
    mesh.vertices.as_flattened().iter().map(|x| x.to_bits()).collect()
}

/// The patterns of the numbers of a file's corners.
fn patterns(file: &[u8]) -> Vec<u32> {
    let words = file[84..].chunks(50).flat_map(|face| face[12..48].chunks(4));
    words.map(|b| u32::from_le_bytes(b.try_into().unwrap())).collect()
}

#[test]
fn a_vertex_keeps_the_bits_of_its_first_corner() {
    for (first, last) in [(0.0, -0.0), (-0.0, 0.0)] {
        let mesh = read_stl(&on_x([first, 1.0, last])).unwrap();
        assert_eq!(mesh.faces, [[0, 1, 0]]);
        assert_eq!(bits(&mesh), [f64::from(first), 0.0, 0.0, 1.0, 0.0, 0.0].map(f64::to_bits));
    }
}

/// The least f32, the greatest subnormal, the least normal one, and the greatest coordinate.
#[test]
fn every_f32_is_read_as_its_value() {
    let numbers = [0x0000_0001, 0x807F_FFFF, 0x0080_0000, 0xC980_0000_u32].map(f32::from_bits);
    let due = [2f64.powi(-149), -(2f64.powi(-126) - 2f64.powi(-149)), 2f64.powi(-126), -1048576.0];
    for (number, due) in numbers.into_iter().zip(due) {
        let mesh = read_stl(&file(&[[number, 1.0, 1.0], [2.0; 3], [3.0; 3]])).unwrap();
        assert_eq!(mesh.vertices[0][0].to_bits(), due.to_bits());
        assert_eq!(read_stl(&write_stl(&mesh).unwrap()).as_ref(), Ok(&mesh));
    }
}

const TEXT: &str = "solid plate
facet normal 0 0 1
outer loop
vertex 0 0 0
vertex 1 0 0
vertex 0 1 0
endloop
endfacet
endsolid plate
";

/// Torn, empty, of another length, with a count whose length wraps, and a text: without room, and with plenty of it.
#[test]
fn what_is_no_file_touches_nothing() {
    let good = on_x([0.0, 1.0, 2.0]);
    let longer = [&good[..], &[0]].concat();
    let wraps = counted([&good[..84], &[0; 4]].concat(), 85_899_346);
    let counts = [0, 2, 65_537, u32::MAX, 0x8000_0001].map(|count| counted(good.clone(), count));
    let mut all = vec![&good[..133], &good[..84], &good[..83], &[], &longer, &wraps, &TEXT.as_bytes()[..83]];
    all.extend(counts.iter().map(Vec::as_slice));
    all.push(TEXT.as_bytes());
    for bytes in all {
        assert_eq!([[0; 3], [4096; 3]].map(|room| unread(bytes, room)), [Refusal::Stl; 2]);
        assert_eq!(read_stl(bytes), Err(Refusal::Stl));
    }
}

/// Bytes that are no file come before all; then too many faces, a number, scratch, and room.
#[test]
fn reading_gives_the_lowest_refusal() {
    let many = file(&vec![[f32::NAN; 3]; 3 * MOST_FACES + 3]);
    assert_eq!(unread(&many[..many.len() - 1], [0; 3]), Refusal::Stl);
    assert_eq!(unread(&many, [0; 3]), Refusal::Count);
    let past = 1048576_f32.next_up();
    assert_eq!(f64::from(past), 1048576.125);
    for bad in [past, -past, f32::NAN, f32::INFINITY, f32::NEG_INFINITY] {
        assert_eq!(unread(&on_x([0.0, 1.0, bad]), [11, 8, 2]), Refusal::Number);
    }
    let good = on_x([0.0, 1.0, 1048576.0]);
    let short = [[11, 8, 2], [12, 8, 3], [12, 9, 2]].map(|room| unread(&good, room));
    assert_eq!(short, [Refusal::Scratch, Refusal::Room, Refusal::Room]);
}

#[test]
fn the_most_faces_are_read_and_written() {
    let mesh = read_stl(&file(&vec![[0.5, -0.0, 2.0]; 3 * MOST_FACES])).unwrap();
    assert_eq!(mesh, Mesh { vertices: vec![[0.5, -0.0, 2.0]], faces: vec![[0; 3]; MOST_FACES] });
    let file = write_stl(&mesh).unwrap();
    assert_eq!(file.len(), 84 + 50 * MOST_FACES);
    assert!(patterns(&file).chunks(3).all(|corner| corner == [0x3F00_0000, 0x8000_0000, 0x4000_0000]));
    assert_eq!(read_stl(&file), Ok(mesh));
}

#[test]
fn corners_are_written_by_their_patterns() {
    let mesh = one_face(&[[-0.0, 0.5, 2f64.powi(-149)], [1048576.0, 0.0, 0.0], [0.0, 1.0, 0.0]]);
    let file = write_stl(&mesh).unwrap();
    assert_eq!(patterns(&file), [0x8000_0000, 0x3F00_0000, 1, 0x4980_0000, 0, 0, 0, 0x3F80_0000, 0]);
    assert_eq!((&file[..84], &file[84..96], &file[132..]), (&counted(vec![0; 84], 1)[..], &[0; 12][..], &[0; 2][..]));
    assert_eq!(read_stl(&file).map(|read| (bits(&read), read.faces)), Ok((bits(&mesh), mesh.faces)));
}

#[test]
fn no_faces_are_84_bytes() {
    assert_eq!(write_stl(&Mesh::default()), Ok(vec![0; 84]));
    assert_eq!(read_stl(&[0; 84]), Ok(Mesh::default()));
    let unused = Mesh { vertices: vec![[0.1; 3]], faces: vec![] };
    assert_eq!(write_stl(&unused), Ok(vec![0; 84]));
}

/// Only a corner must be an f32; a vertex that no face names must only be within the bound.
#[test]
fn a_corner_must_be_an_f32() {
    let good = [[0.0; 3], [1.0, 0.0, 0.0], [0.0, 1.0, 0.0]];
    for number in [2f64.powi(-150), 0.1, 1.0 + 2f64.powi(-24), 1e-200, 5e-324] {
        let mut mesh = one_face(&good);
        mesh.vertices.push([0.0, number, -number]);
        assert!(write_stl(&mesh).is_ok(), "no face names {number}");
        mesh.faces[0][2] = 3;
        assert_eq!(write_stl(&mesh), Err(Refusal::Number), "{number}");
    }
    for number in [f64::NAN, f64::INFINITY, 1048576.125, -1048577.0] {
        let mesh = one_face(&[good[0], good[1], good[2], [number, 0.0, 0.0]]);
        assert_eq!(write_stl(&mesh), Err(Refusal::Number), "{number} is outside its range");
    }
}

#[test]
fn writing_gives_the_lowest_refusal() {
    let (bad, faces) = ([[0.1; 3]; 3], vec![9; 3 * MOST_FACES + 3]);
    let bad = bad.as_flattened();
    assert_eq!(unwritten(&bad[..8], &faces, 0), Refusal::Shape);
    assert_eq!(unwritten(bad, &faces[1..], 0), Refusal::Shape);
    assert_eq!(unwritten(bad, &faces, 0), Refusal::Count);
    assert_eq!(unwritten(bad, &[0, 1, 3], 0), Refusal::Vertex);
    assert_eq!(unwritten(bad, &[0, 1, 2], 0), Refusal::Number);
    assert_eq!(unwritten(&[0.5; 9], &[0, 1, 2], 133), Refusal::Room);
    assert_eq!(unwritten(&[], &[], 83), Refusal::Room);
}

#[test]
fn what_lies_behind_the_file_stays() {
    let mut out = [7; 136];
    assert_eq!(lent::write_stl(&[0.5; 9], &[0, 1, 2], &mut out), Ok(134));
    assert_eq!((out[133], out[134..].to_vec()), (0, vec![7; 2]));
}
