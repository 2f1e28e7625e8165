//! The main job on a built-in casting: the scan's corners are welded, the mesh goes through an STL file, it is drawn in
//! each mode, each drawing is written as a sheet and read back, and one sheet is listed. `make run` hands it the proved
//! program that lists a sheet, and the folder that the sheets and the file are left in.

use ramikohy::{Mesh, Mode, Plane, Refusal, Sheet, Strokes, Vector};
use ramikohy::{contour, draw, read_sheet, read_stl, section, weld, write_sheet, write_stl};
use std::collections::BTreeMap;
use std::io::Write;
use std::process::{Command, Stdio};
use std::time::Instant;

type Outcome<T> = Result<T, Box<dyn std::error::Error>>;

const AROUND: usize = 96;
const EYE: [f64; 3] = [600.0, -450.0, 520.0];
const TOLERANCE: f64 = 1e-9;
/// The name of the STL file.
const STL: &str = "casting.stl";
/// Each mode, with the name of its sheet's file.
const MODES: [(&str, &str, Mode); 4] = [
    ("triangles", "triangles.sheet", Mode::Triangles),
    ("polygonal", "polygonal.sheet", Mode::Polygonal),
    ("silhouette, cos_theta 0", "silhouette.sheet", Mode::Silhouette(0.0)),
    ("silhouette, cos_theta 0.9", "silhouette_creases.sheet", Mode::Silhouette(0.9)),
];

fn main() -> Outcome<()> {
    let corners = scan();
    let (mesh, welding) = timed(|| weld(&corners));
    let mesh = mesh?;
    println!(
        "flanged pipe, 300 mm: {} faces by their corners, with a gap where the scan saw nothing",
        mesh.faces.len()
    );
    println!("weld: {} corners are {} vertices, {welding:.2} ms", 3 * corners.len(), mesh.vertices.len());
    println!("{}\n", filed(&mesh)?);
    println!("drawing                    kept edges  strokes  pen lifts   bytes  draw ms  write ms  read ms");
    for (name, _, mode) in MODES {
        println!("{name:<25}{}", archived(&mesh, mode)?);
    }
    println!("\neach kept edge is drawn once and no other is; each sheet reads back as what was written\n");
    let bytes = sheet_of(&mesh, MODES[2].2)?;
    println!("{}, as a sheet of {} bytes, listed:", MODES[2].0, bytes.len());
    for line in listing(&bytes)?.lines().take(4) {
        println!("  {:.90}{}", line, if line.len() > 90 { " .." } else { "" });
    }
    cut(&mesh)?;
    leave(&mesh)
}

/// Leaves each sheet and the STL file in the folder that is named, and says where.
fn leave(mesh: &Mesh) -> Outcome<()> {
    let Some(folder) = std::env::args().nth(2) else { return Ok(()) };
    let place = |file: &str| std::path::Path::new(&folder).join(file);
    let mut bytes = 0;
    for (_, file, mode) in MODES {
        let sheet = sheet_of(mesh, mode)?;
        bytes += sheet.len();
        std::fs::write(place(file), sheet)?;
    }
    std::fs::write(place(STL), write_stl(&rounded(mesh))?)?;
    let files = MODES.map(|(_, file, _)| file).join(" ");
    println!("\nthe sheets, {bytes} bytes, are in {folder}: {files}");
    println!("tools/list < {folder}/{} lists one; the casting itself is in {folder}/{STL}", MODES[2].1);
    Ok(())
}

/// The mesh with the nearest f32 to each coordinate. A scan's f64 are none, and the writer of files rounds nothing:
/// whoever wants a file rounds first, as here.
fn rounded(mesh: &Mesh) -> Mesh {
    let vertices = mesh.vertices.iter().map(|v| v.map(|x| x as f32 as f64)).collect();
    Mesh { vertices, faces: mesh.faces.clone() }
}

/// Writes the casting as an STL file and reads it back, and tells a line of it.
fn filed(mesh: &Mesh) -> Outcome<String> {
    assert_eq!(write_stl(mesh), Err(Refusal::Number), "the scan's numbers are no f32, and none is rounded unasked");
    let mesh = rounded(mesh);
    let (file, writing_ms) = timed(|| write_stl(&mesh));
    let file = file?;
    let (read, reading_ms) = timed(|| read_stl(&file));
    assert_eq!(read?, mesh, "the file reads back: the same vertices, the same faces");
    let bytes = file.len();
    Ok(format!(
        "STL, vertices rounded to f32 first: {bytes} bytes, written in {writing_ms:.2} ms, read back as the same \
         mesh in {reading_ms:.2} ms"
    ))
}

/// The pipe's wall, as radius and height in mm: bore, flange with a raised face, fillet, pipe, and the same back.
fn profile() -> Vec<[f64; 2]> {
    let fillet = (0..=4).map(|i| std::f64::consts::FRAC_PI_2 * i as f64 / 4.0);
    let half: Vec<[f64; 2]> =
        [[50.0, 90.0], [50.0, 150.0], [88.0, 150.0], [88.0, 147.0], [110.0, 147.0], [110.0, 127.0]]
            .into_iter()
            .chain(fillet.map(|t| [67.0 - 10.0 * t.sin(), 117.0 + 10.0 * t.cos()]))
            .collect();
    let below = half.iter().rev().map(|&[r, z]| [r, 150.0 - z]);
    half.iter().map(|&[r, z]| [r, 150.0 + z]).chain(below).collect()
}

/// The faces of a scan, each by its own corners: a corner is never measured twice alike, but to 0.2 millionths of a mm.
fn scan() -> Vec<[[f64; 3]; 3]> {
    let profile = profile();
    let mut noise = 1u64;
    let mut shake = |x: f64| {
        noise = noise.wrapping_mul(6364136223846793005).wrapping_add(1442695040888963407);
        x + ((noise >> 40) as f64 / (1u64 << 24) as f64 - 0.5) * 4e-7
    };
    let corner = |(i, j): (usize, usize)| {
        let (turn, [r, z]) = (std::f64::consts::TAU * (i % AROUND) as f64 / AROUND as f64, profile[j % profile.len()]);
        [r * turn.cos(), r * turn.sin(), z]
    };
    let mut faces = Vec::new();
    for (i, j) in (0..AROUND).flat_map(|i| (0..profile.len()).map(move |j| (i, j))) {
        let [a, b, c, d] = [(i, j), (i + 1, j), (i + 1, j + 1), (i, j + 1)];
        let gap = j == 10 && (20..26).contains(&i);
        faces.extend(
            [[a, b, c], [a, c, d]].into_iter().filter(|_| !gap).map(|f| f.map(|at| corner(at).map(&mut shake))),
        );
    }
    faces
}

/// The milliseconds that some work takes, with what it gives.
fn timed<T>(work: impl FnOnce() -> T) -> (T, f64) {
    let began = Instant::now();
    let gives = work();
    (gives, began.elapsed().as_secs_f64() * 1e3)
}

/// Draws, writes and reads back in one mode, and tells a line of it.
fn archived(mesh: &Mesh, mode: Mode) -> Outcome<String> {
    let (drawing, drawing_ms) = timed(|| draw(mesh, &[], mode, EYE, TOLERANCE));
    let (strokes, vertices) = (drawing?, mesh.vertices.len() as u32);
    let (sheet, writing_ms) = timed(|| write_sheet(mode.number(), vertices, &strokes));
    let sheet = sheet?;
    let (read, reading_ms) = timed(|| read_sheet(&sheet));
    assert_eq!(drawn(&strokes), kept(mesh, mode), "each kept edge is drawn once and no other is");
    let lifts = strokes.iter().filter(|stroke| stroke.first() != stroke.last()).count();
    let (edges, count) = (strokes.points().len() - strokes.starts().len(), strokes.starts().len());
    assert_eq!(read?, Sheet { mode: mode.number(), vertices, strokes }, "the sheet reads back");
    let bytes = sheet.len();
    Ok(format!(
        "  {edges:>10}  {count:>7}  {lifts:>9}  {bytes:>6}  {drawing_ms:>7.2}  {writing_ms:>8.2}  {reading_ms:>7.2}"
    ))
}

/// The pairs of neighbours in strokes, the smaller first, in their order.
fn drawn(strokes: &Strokes<u32>) -> Vec<[u32; 2]> {
    let pairs = strokes.iter().flat_map(|stroke| stroke.windows(2));
    let mut pairs: Vec<[u32; 2]> = pairs.map(|w| [w[0].min(w[1]), w[0].max(w[1])]).collect();
    pairs.sort_unstable();
    pairs
}

/// The edges that the rules keep, in their order, worked out here face by face.
fn kept(mesh: &Mesh, mode: Mode) -> Vec<[u32; 2]> {
    let mut groups: BTreeMap<[u32; 2], Vec<usize>> = BTreeMap::new();
    for (face, &[a, b, c]) in mesh.faces.iter().enumerate() {
        for [p, q] in [[a, b], [b, c], [c, a]] {
            groups.entry([p.min(q), p.max(q)]).or_default().push(face);
        }
    }
    let at = |face: usize, corner: usize| Vector::from(mesh.vertices[mesh.faces[face][corner] as usize]);
    let normal =
        |f: usize| at(f, 1).sub(at(f, 0)).cross(at(f, 2).sub(at(f, 0))).normalize().unwrap().normalize().unwrap();
    let faces_eye = |f: usize| normal(f).dot(Vector::from(EYE).sub(at(f, 0)));
    let cosine = |f: usize, g: usize| normal(f).dot(normal(g)).abs();
    let keeps = |group: &[usize]| match (mode, group) {
        (Mode::Triangles, _) | (Mode::Polygonal, [_]) => true,
        (Mode::Polygonal, _) => group[1..].iter().any(|&f| cosine(group[0], f) < 1.0 - TOLERANCE),
        (Mode::Silhouette(least), &[f, g]) => {
            least > 0.0 && cosine(f, g) <= least || faces_eye(f) * faces_eye(g) <= 0.0
        }
        (Mode::Silhouette(_), _) => true,
    };
    groups.iter().filter(|(_, group)| keeps(group)).map(|(&edge, _)| edge).collect()
}

fn sheet_of(mesh: &Mesh, mode: Mode) -> Outcome<Vec<u8>> {
    let strokes = draw(mesh, &[], mode, EYE, TOLERANCE)?;
    Ok(write_sheet(mode.number(), mesh.vertices.len() as u32, &strokes)?)
}

/// The sheet as text: by the program that is named, or in its format where none is.
fn listing(sheet: &[u8]) -> Outcome<String> {
    let read = read_sheet(sheet)?;
    let line = |numbers: &[u32]| numbers.iter().map(u32::to_string).collect::<Vec<_>>().join(" ") + "\n";
    let counts = [read.mode, read.vertices, read.strokes.starts().len() as u32, read.strokes.points().len() as u32];
    let text = line(&counts) + &read.strokes.iter().map(line).collect::<String>();
    let Some(lister) = std::env::args().nth(1) else { return Ok(text) };
    let mut lister = Command::new(lister).stdin(Stdio::piped()).stdout(Stdio::piped()).spawn()?;
    lister.stdin.take().ok_or("no way in")?.write_all(sheet)?;
    let said = String::from_utf8(lister.wait_with_output()?.stdout)?;
    assert_eq!(said, text, "the program lists what was read");
    Ok(said)
}

/// A cut across the middle of the pipe, where the gap is, and one along its axis, through corners: the segments face by
/// face, with those that are a dot, and the outline.
fn cut(mesh: &Mesh) -> Outcome<()> {
    let across = Plane { point: [0.0, 0.0, 150.0], normal: [0.0, 0.0, 1.0] };
    let along = Plane { point: [0.0; 3], normal: [0.0, 1.0, 0.0] };
    println!("\ncut                        strokes   open  dots  mm of line    ms");
    for (name, plane, tolerance) in [("across the middle", across, TOLERANCE), ("along the axis", along, 1e-6)] {
        println!("section {name:<18}{}", told(timed(|| section(mesh, &plane, tolerance)))?);
        println!("contour {name:<18}{}", told(timed(|| contour(mesh, &plane, tolerance)))?);
    }
    Ok(())
}

/// The strokes of a cut, how many of them are open, how many segments are a dot (under a thousandth of a mm), its
/// length and its milliseconds.
fn told((cut, ms): (Result<Strokes<[f64; 3]>, Refusal>, f64)) -> Outcome<String> {
    let cut = cut?;
    let open = cut.iter().filter(|stroke| stroke.first() != stroke.last()).count();
    let spans = cut.iter().flat_map(|stroke| stroke.windows(2));
    let lengths: Vec<f64> = spans.map(|w| Vector::from(w[0]).distance(Vector::from(w[1]))).collect();
    let (length, dots) = (lengths.iter().sum::<f64>(), lengths.iter().filter(|mm| **mm < 0.001).count());
    Ok(format!("  {:>6}  {open:>5}  {dots:>4}  {length:>10.3}  {ms:>4.2}", cut.starts().len()))
}
