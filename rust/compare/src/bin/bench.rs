//! `bench`: a table of times, port beside original, in Markdown on standard output. (`make bench` writes it to a file.)
//! `bench WORD` times only the calls whose name begins with the word.

#[cfg(not(original))]
fn main() {
    eprintln!("{}", compare::NO_ORIGINAL);
    std::process::exit(1);
}

#[cfg(original)]
fn main() {
    let cores = std::thread::available_parallelism().map_or(1, |n| n.get());
    println!("# Times\n");
    println!("Written by `make bench` on a machine of kind {} with {cores} cores.", std::env::consts::ARCH);
    println!("Port and original ran in one process on the same inputs, in a release build; each time is the best of");
    println!(
        "{RUNS} runs. The inputs come from a wavy torus of 65,536 faces; growth is the port's time there over its time"
    );
    println!("at 16,384 faces, a quarter. A call of the arithmetic is made once for each corner of each face. The");
    println!("original has no contour: in its place stands a plain reading of the rules, its segments joined by the");
    println!("original's splice.\n");
    println!("| call | port, ms | original, ms | port / original | growth |");
    println!("|---|---|---|---|---|");
    let word = std::env::args().nth(1).unwrap_or_default();
    let timed = calls::CALLS.iter().filter(|call| call.name.starts_with(&word));
    let rows = Vec::from_iter(timed.map(|call| {
        let row = compare::bench::time(call, RUNS);
        println!("{}", row.line());
        row
    }));
    for row in rows.iter().filter(|row| row.call == "sqrt") {
        let [ours, theirs] = [row.port[1], row.original[1]];
        let each = ours * 1e9 / (3 * compare::bench::SIZES[1].2) as f64;
        println!("\nA root takes {each:.1} ns, {:.1} times as long as the machine's own.", ours / theirs);
    }
    println!("\n## Inputs made to hurt\n");
    println!(
        "As many roots as the torus has corners, as many edges for a splice, as many vertices to simplify (best of 5 runs),\n\
         sixteen points a face to cut (best of 5), as many corners for a weld (long ways at many places: best of 3), as many\n\
         faces for a drawing and for a contour; growth as above.\n"
    );
    println!("| call | port, ms | original, ms | port / original | growth |");
    println!("|---|---|---|---|---|");
    for call in calls::WORST.iter().filter(|call| call.name.starts_with(&word)) {
        println!("{}", compare::bench::time(call, RUNS).line());
    }
    println!(
        "\nCuts at the limits, `chop` on lent buffers and the safe function, which brings its own and grows them. The"
    );
    println!("original has no limit: it is timed where the cut fits.\n");
    println!("| chop | lent, ms | safe, ms | original, ms |");
    println!("|---|---|---|---|");
    for cut in compare::cuts::CUTS.iter().filter(|_| "chop".starts_with(&word)) {
        println!("{}", calls::cut(cut, RUNS));
    }
    contours(&word);
    println!("\n## Sheets\n");
    println!("The original has none. The drawing of the torus in triangles is written and read; growth as above.\n");
    println!("| call | bytes | port, ms | MB a second | growth |");
    println!("|---|---|---|---|---|");
    for call in calls::SHEETS.iter().filter(|call| call.name.starts_with(&word)) {
        println!("{}", compare::bench::rate(call, RUNS));
    }
    stl(&word);
}

/// What is told of contours.
#[cfg(original)]
fn contours(word: &str) {
    println!("\n## Contours\n");
    println!(
        "Beside the port's own `section` of the same mesh, and its `splice` of as many strokes as the contour has segments,\n\
         their ends numbered beforehand. 65,536 faces.\n"
    );
    println!("| contour | segments | contour, ms | section, ms | splice, ms | contour / (section + splice) |");
    println!("|---|---|---|---|---|---|");
    for outline in calls::OUTLINES.iter().filter(|_| "contour".starts_with(word)) {
        println!("{}", calls::outline(outline, RUNS));
    }
}

/// What is told of STL files.
#[cfg(original)]
fn stl(word: &str) {
    println!("\n## STL files\n");
    println!("The original has none. The torus, its vertices made f32, is written and read; growth as above.\n");
    println!("| call | bytes | port, ms | MB a second | growth |");
    println!("|---|---|---|---|---|");
    for call in calls::FILED.iter().filter(|call| call.name.starts_with(word)) {
        println!("{}", compare::bench::rate(call, RUNS));
    }
    println!(
        "\nReading is testing and welding: by turns, a file is read and its corners, as f64, are welded. The original\n\
         welds the same. As many faces as the torus has (long ways: best of 5); growth as above.\n"
    );
    println!("| file | read, ms | weld, ms | read / weld | original's weld, ms | growth |");
    println!("|---|---|---|---|---|---|");
    for file in calls::FILES.iter().filter(|file| file.name.starts_with(word)) {
        println!("{}", compare::bench::file(file, calls::read_beside));
    }
    println!("\nFiles that are refused, with nothing lent.\n");
    println!("| file | bytes | refused by | port, ms |");
    println!("|---|---|---|---|");
    for file in calls::REFUSED.iter().filter(|file| file.name.starts_with(word)) {
        println!("{}", calls::refused(file, RUNS));
    }
}

#[cfg(original)]
const RUNS: usize = 25;

#[cfg(original)]
mod calls {
    use compare::bench::{Call, File, Rated, best, best_by_turns};
    use compare::calls::contour;
    use compare::calls::write_stl::bytes_of;
    use compare::crowded;
    use compare::cuts::Cut;
    use compare::random::Random;
    use compare::torus::{self, Mesh};
    use original::eps_1e9::{
        matrix::Matrix, mesh, mesh::MeshTexture, path::Paths, plane::Plane, shape::RenderArgs, shape::Shape,
        triangle::Triangle, vector::Vector,
    };
    use ramikohy::lent;
    use std::collections::HashMap;
    use std::hint::black_box;

    pub const CALLS: &[Call] = &[
        Call {
            name: "sqrt",
            port: |mesh, runs| sqrt_of(&squares(mesh), runs),
            original: |mesh, runs| machine_sqrt_of(&squares(mesh), runs),
        },
        Call { name: "normalize", port: normalize_port, original: normalize_original },
        Call { name: "segment_distance", port: segment_port, original: segment_original },
        Call { name: "mul_position_w", port: position_port, original: position_original },
        Call { name: "chop of long spans, some twenty steps each", port: long_port, original: long_original },
        Call { name: "chop into five steps a span", port: chop_port, original: chop_original },
        Call { name: "chop_adaptive", port: adaptive_port, original: adaptive_original },
        Call { name: "simplify, 4,096 points a stroke", port: simplify_port, original: simplify_original },
        Call { name: "splice of all edges", port: splice_port, original: splice_original },
        Call { name: "weld", port: weld_port, original: weld_original },
        Call { name: "section", port: section_port, original: section_original },
        Call {
            name: "contour",
            port: |mesh, runs| contour_of(mesh, &PLANE, 1e-9, runs),
            original: |mesh, runs| plain_contour_of(mesh, &PLANE, 1e-9, runs),
        },
        Call {
            name: "contour through many corners",
            port: |mesh, runs| contour_of(mesh, &FLOOR, 1e-9, runs),
            original: |mesh, runs| plain_contour_of(mesh, &FLOOR, 1e-9, runs),
        },
        Call {
            name: "draw, triangles",
            port: |mesh, runs| draw_of(mesh, TRIANGLES, &[], runs),
            original: |mesh, runs| paths_of(mesh, TRIANGLES, &[], runs),
        },
        Call {
            name: "draw, polygonal",
            port: |mesh, runs| draw_of(mesh, POLYGONAL, &[], runs),
            original: |mesh, runs| paths_of(mesh, POLYGONAL, &[], runs),
        },
        Call {
            name: "draw, silhouette",
            port: |mesh, runs| draw_of(mesh, SILHOUETTE, &[], runs),
            original: |mesh, runs| paths_of(mesh, SILHOUETTE, &[], runs),
        },
        Call {
            name: "draw, silhouette, a million flips",
            port: |mesh, runs| draw_of(mesh, SILHOUETTE, &million(mesh), runs),
            original: |mesh, runs| paths_of(mesh, SILHOUETTE, &million(mesh), runs),
        },
    ];

    /// Edges and corners that a search by value or by cell would be slow on.
    pub const WORST: &[Call] = &[
        Call { name: "sqrt, each of a sum with the root before", port: sqrt_chain, original: machine_sqrt_chain },
        Call {
            name: "sqrt of subnormals",
            port: |mesh, runs| sqrt_of(&subnormals(mesh), runs),
            original: |mesh, runs| machine_sqrt_of(&subnormals(mesh), runs),
        },
        Call {
            name: "splice, one vertex in every edge",
            port: |mesh, runs| splice_of(&star(mesh), runs),
            original: |mesh, runs| splice_exact_of(&star(mesh), runs),
        },
        Call {
            name: "splice, no vertex in two edges",
            port: |mesh, runs| splice_of(&apart(mesh), runs),
            original: |mesh, runs| splice_exact_of(&apart(mesh), runs),
        },
        Call {
            name: "splice, one chain in a mixed order",
            port: |mesh, runs| splice_of(&chain(mesh), runs),
            original: |mesh, runs| splice_exact_of(&chain(mesh), runs),
        },
        Call {
            name: "splice, rings of two",
            port: |mesh, runs| splice_of(&rings_of_two(mesh), runs),
            original: |mesh, runs| splice_exact_of(&rings_of_two(mesh), runs),
        },
        Call {
            name: "splice, one edge over and over",
            port: |mesh, runs| splice_of(&equal(mesh), runs),
            original: |mesh, runs| splice_exact_of(&equal(mesh), runs),
        },
        Call {
            name: "simplify, every square a few f64 above the last",
            port: |mesh, runs| simplify_of(&spokes(mesh, 4096, few_above), runs),
            original: |mesh, runs| path_simplify_of(&spokes(mesh, 4096, few_above), runs),
        },
        Call {
            name: "simplify, squares up and down by a few f64",
            port: |mesh, runs| simplify_of(&spokes(mesh, 4096, |i| few_above(i ^ 1)), runs),
            original: |mesh, runs| path_simplify_of(&spokes(mesh, 4096, |i| few_above(i ^ 1)), runs),
        },
        Call {
            name: "simplify, all squares equal",
            port: |mesh, runs| simplify_of(&spokes(mesh, 4096, |_| 1.25), runs),
            original: |mesh, runs| path_simplify_of(&spokes(mesh, 4096, |_| 1.25), runs),
        },
        Call {
            name: "simplify, subnormal squares, each one above the last",
            port: |mesh, runs| simplify_of(&spokes(mesh, 4096, subnormal), runs),
            original: |mesh, runs| path_simplify_of(&spokes(mesh, 4096, subnormal), runs),
        },
        Call {
            name: "simplify, strokes of four points, squares a few f64 apart",
            port: |mesh, runs| simplify_of(&spokes(mesh, 4, few_above), runs),
            original: |mesh, runs| path_simplify_of(&spokes(mesh, 4, few_above), runs),
        },
        Call {
            name: "chop_adaptive, every product subnormal",
            port: |mesh, runs| tiny_port(mesh, runs.min(5)),
            original: |mesh, runs| tiny_original(mesh, runs.min(5)),
        },
        Call {
            name: "weld, all corners in one cell",
            port: |mesh, runs| weld_of(&cluster(mesh, 0.0), runs),
            original: |mesh, runs| get_or_insert_of(&cluster(mesh, 0.0), runs),
        },
        Call {
            name: "weld, a grid as dense as vertices lie",
            port: |mesh, runs| weld_of(&cluster(mesh, 1.0000001e-6), runs),
            original: |mesh, runs| get_or_insert_of(&cluster(mesh, 1.0000001e-6), runs),
        },
        Call {
            name: "weld, nothing near anything",
            port: |mesh, runs| weld_of(&cluster(mesh, 1.0), runs),
            original: |mesh, runs| get_or_insert_of(&cluster(mesh, 1.0), runs),
        },
        Call {
            name: "weld, a lattice in one bucket",
            port: |mesh, runs| weld_of(&cluster(mesh, 12884.901885), runs),
            original: |mesh, runs| get_or_insert_of(&cluster(mesh, 12884.901885), runs),
        },
        Call {
            name: "weld, corners made for one bucket",
            port: |mesh, runs| weld_of(&crowded::one_bucket(mesh.faces.len() * 3, 0), runs),
            original: |mesh, runs| get_or_insert_of(&crowded::one_bucket(mesh.faces.len() * 3, 0), runs),
        },
        Call {
            name: "weld, the same with 16 bits alike",
            port: |mesh, runs| weld_of(&crowded::one_bucket(mesh.faces.len() * 3, 16), runs),
            original: |mesh, runs| get_or_insert_of(&crowded::one_bucket(mesh.faces.len() * 3, 16), runs),
        },
        Call {
            name: "weld, long ways to packed cells",
            port: |mesh, runs| weld_of(&crowded::long_ways(mesh.faces.len() * 3), runs),
            original: |mesh, runs| get_or_insert_of(&crowded::long_ways(mesh.faces.len() * 3), runs),
        },
        Call {
            name: "weld, long ways at sixty places, mixed",
            port: |mesh, runs| weld_of(&crowded::many_long_ways(mesh.faces.len() * 3), runs.min(3)),
            original: |mesh, runs| get_or_insert_of(&crowded::many_long_ways(mesh.faces.len() * 3), runs.min(3)),
        },
        Call {
            name: "weld, the longest ways found, asked in turn",
            port: |mesh, runs| weld_of(&crowded::longest_ways(mesh.faces.len() * 3), runs.min(3)),
            original: |mesh, runs| get_or_insert_of(&crowded::longest_ways(mesh.faces.len() * 3), runs.min(3)),
        },
        Call {
            name: "weld, long ways past subnormal squares",
            port: |mesh, runs| weld_of(&crowded::subnormal_ways(mesh.faces.len() * 3), runs.min(3)),
            original: |mesh, runs| get_or_insert_of(&crowded::subnormal_ways(mesh.faces.len() * 3), runs.min(3)),
        },
        Call {
            name: "weld, long ways and subnormal squares near it",
            port: |mesh, runs| weld_of(&crowded::origin_ways(mesh.faces.len() * 3), runs.min(3)),
            original: |mesh, runs| get_or_insert_of(&crowded::origin_ways(mesh.faces.len() * 3), runs.min(3)),
        },
        Call {
            name: "draw, triangles, one vertex in every face",
            port: |mesh, runs| draw_of(&mesh.fan(), TRIANGLES, &[], runs),
            original: |mesh, runs| paths_of(&mesh.fan(), TRIANGLES, &[], runs),
        },
        Call {
            name: "draw, polygonal, one vertex in every face",
            port: |mesh, runs| draw_of(&mesh.fan(), POLYGONAL, &[], runs),
            original: |mesh, runs| paths_of(&mesh.fan(), POLYGONAL, &[], runs),
        },
        Call {
            name: "draw, silhouette, one vertex in every face",
            port: |mesh, runs| draw_of(&mesh.fan(), SILHOUETTE, &[], runs),
            original: |mesh, runs| paths_of(&mesh.fan(), SILHOUETTE, &[], runs),
        },
        Call {
            name: "draw, triangles, one face over and over",
            port: |mesh, runs| draw_of(&mesh.equal(), TRIANGLES, &[], runs),
            original: |mesh, runs| paths_of(&mesh.equal(), TRIANGLES, &[], runs),
        },
        Call {
            name: "draw, polygonal, one face over and over",
            port: |mesh, runs| draw_of(&mesh.equal(), POLYGONAL, &[], runs),
            original: |mesh, runs| paths_of(&mesh.equal(), POLYGONAL, &[], runs),
        },
        Call {
            name: "draw, silhouette, one face over and over",
            port: |mesh, runs| draw_of(&mesh.equal(), SILHOUETTE, &[], runs),
            original: |mesh, runs| paths_of(&mesh.equal(), SILHOUETTE, &[], runs),
        },
        Call {
            name: "draw, triangles, many faces on every edge",
            port: |mesh, runs| draw_of(&mesh.shared(), TRIANGLES, &[], runs),
            original: |mesh, runs| paths_of(&mesh.shared(), TRIANGLES, &[], runs),
        },
        Call {
            name: "draw, polygonal, many faces on every edge",
            port: |mesh, runs| draw_of(&mesh.shared(), POLYGONAL, &[], runs),
            original: |mesh, runs| paths_of(&mesh.shared(), POLYGONAL, &[], runs),
        },
        Call {
            name: "draw, silhouette, many faces on every edge",
            port: |mesh, runs| draw_of(&mesh.shared(), SILHOUETTE, &[], runs),
            original: |mesh, runs| paths_of(&mesh.shared(), SILHOUETTE, &[], runs),
        },
        Call {
            name: "draw, triangles, no vertex in two faces",
            port: |mesh, runs| draw_of(&mesh.apart(), TRIANGLES, &[], runs),
            original: |mesh, runs| paths_of(&mesh.apart(), TRIANGLES, &[], runs),
        },
        Call {
            name: "draw, polygonal, no vertex in two faces",
            port: |mesh, runs| draw_of(&mesh.apart(), POLYGONAL, &[], runs),
            original: |mesh, runs| paths_of(&mesh.apart(), POLYGONAL, &[], runs),
        },
        Call {
            name: "draw, silhouette, no vertex in two faces",
            port: |mesh, runs| draw_of(&mesh.apart(), SILHOUETTE, &[], runs),
            original: |mesh, runs| paths_of(&mesh.apart(), SILHOUETTE, &[], runs),
        },
        Call {
            name: "contour, every face cut, one ring",
            port: |mesh, runs| contour_of(&mesh.band(1), &FLOOR, 1e-9, runs),
            original: |mesh, runs| plain_contour_of(&mesh.band(1), &FLOOR, 1e-9, runs),
        },
        Call {
            name: "contour, the same in a mixed order",
            port: |mesh, runs| contour_of(&mesh.band(7919), &FLOOR, 1e-9, runs),
            original: |mesh, runs| plain_contour_of(&mesh.band(7919), &FLOOR, 1e-9, runs),
        },
        Call {
            name: "contour, the same, every height subnormal",
            port: |mesh, runs| contour_of(&tiny(mesh.band(7919)), &FLOOR, 5e-324, runs),
            original: |mesh, runs| plain_contour_of(&tiny(mesh.band(7919)), &FLOOR, 5e-324, runs),
        },
        Call {
            name: "contour, no two points alike",
            port: |mesh, runs| contour_of(&mesh.needles(), &FLOOR, 1e-9, runs),
            original: |mesh, runs| plain_contour_of(&mesh.needles(), &FLOOR, 1e-9, runs),
        },
        Call {
            name: "contour, no two alike, two with one mix",
            port: |mesh, runs| contour_of(&mesh.one_mix(), &FLOOR, 0.25, runs),
            original: |mesh, runs| plain_contour_of(&mesh.one_mix(), &FLOOR, 0.25, runs),
        },
        Call {
            name: "contour, all points in one place",
            port: |mesh, runs| contour_of(&mesh.column(), &FLOOR, 1e-9, runs),
            original: |mesh, runs| plain_contour_of(&mesh.column(), &FLOOR, 1e-9, runs),
        },
        Call {
            name: "contour, one face over and over",
            port: |mesh, runs| contour_of(&mesh.equal(), &ABOVE_FLOOR, 1e-9, runs),
            original: |mesh, runs| plain_contour_of(&mesh.equal(), &ABOVE_FLOOR, 1e-9, runs),
        },
        Call {
            name: "contour, one vertex in every face",
            port: |mesh, runs| contour_of(&mesh.fan(), &ABOVE_FLOOR, 1e-9, runs),
            original: |mesh, runs| plain_contour_of(&mesh.fan(), &ABOVE_FLOOR, 1e-9, runs),
        },
    ];

    /// What the original lacks.
    pub const SHEETS: &[Rated] =
        &[Rated { name: "write_sheet", port: write_sheet_port }, Rated { name: "read_sheet", port: read_sheet_port }];

    pub const FILED: &[Rated] = &[
        Rated { name: "write_stl", port: |mesh, runs| write_stl_of(&singles(mesh), runs) },
        Rated {
            name: "write_stl, a vertex that no face names is no f32",
            port: |mesh, runs| {
                let mut mesh = singles(mesh);
                mesh.vertices.push([0.1; 3]);
                write_stl_of(&mesh, runs)
            },
        },
        Rated {
            name: "write_stl, no vertex in two faces, in a mixed order",
            port: |mesh, runs| write_stl_of(&singles(&scattered(mesh)), runs),
        },
        Rated { name: "read_stl", port: read_stl_port },
    ];

    /// The torus, and files made to hurt.
    pub const FILES: &[File] = &[
        File { name: "read_stl, the torus", corners: |mesh| singles(mesh).corners(), runs: 25 },
        File { name: "read_stl, all corners in one cell", corners: |mesh| anywhere(mesh, 1e-6, 1.0), runs: 25 },
        File { name: "read_stl, every coordinate subnormal", corners: |mesh| anywhere(mesh, 1e-38, -1.0), runs: 25 },
        File { name: "read_stl, every coordinate 0 or -0", corners: |mesh| anywhere(mesh, 0.0, -1.0), runs: 25 },
        File { name: "read_stl, corners anywhere", corners: |mesh| anywhere(mesh, 1048576.0, -1.0), runs: 25 },
        File {
            name: "read_stl, a grid as dense as vertices lie",
            corners: |mesh| cluster(mesh, 1.000001e-6),
            runs: 25,
        },
        File { name: "read_stl, nothing near anything", corners: |mesh| cluster(mesh, 1.0), runs: 25 },
        File {
            name: "read_stl, corners made for one bucket",
            corners: |mesh| crowded::singles_in_one_bucket(mesh.faces.len() * 3, 0),
            runs: 25,
        },
        File {
            name: "read_stl, the same with 12 bits alike",
            corners: |mesh| crowded::singles_in_one_bucket(mesh.faces.len() * 3, 12),
            runs: 25,
        },
        File {
            name: "read_stl, long ways at forty places, mixed",
            corners: |mesh| crowded::many_single_ways(mesh.faces.len() * 3),
            runs: 5,
        },
        File {
            name: "read_stl, the longest ways found, asked in turn",
            corners: |mesh| crowded::longest_single_ways(mesh.faces.len() * 3),
            runs: 5,
        },
    ];

    /// A file that is refused.
    pub struct Refused {
        pub name: &'static str,
        bytes: fn() -> Vec<u8>,
    }

    pub const REFUSED: &[Refused] = &[
        Refused { name: "read_stl, no bytes", bytes: Vec::new },
        Refused { name: "read_stl, a million faces by the length, none by the count", bytes: || counted(1_000_000, 0) },
        Refused { name: "read_stl, a million faces", bytes: || counted(1_000_000, 1_000_000) },
        Refused { name: "read_stl, 65,537 faces, every byte of them FF", bytes: || counted(65_537, 65_537) },
        Refused { name: "read_stl, 65,536 faces, a NaN at the end", bytes: nan_at_the_end },
        Refused { name: "read_stl, 65,536 good faces", bytes: || bytes_of(&[0.0; 9].repeat(65_536)) },
    ];

    /// As many edges as the mesh has, by a rule on their number.
    fn made_edges(mesh: &Mesh, edge: impl Fn(u32, u32) -> [u32; 2]) -> Vec<[u32; 2]> {
        let n = mesh.edges().len() as u32;
        (0..n).map(|i| edge(i, n)).collect()
    }

    fn star(mesh: &Mesh) -> Vec<[u32; 2]> {
        made_edges(mesh, |i, _| [0, i + 1])
    }

    fn apart(mesh: &Mesh) -> Vec<[u32; 2]> {
        made_edges(mesh, |i, _| [2 * i, 2 * i + 1])
    }

    /// The counts of edges are not multiples of 7,919.
    fn chain(mesh: &Mesh) -> Vec<[u32; 2]> {
        made_edges(mesh, |i, n| {
            let at = (i as u64 * 7919 % n as u64) as u32;
            [at, at + 1]
        })
    }

    fn rings_of_two(mesh: &Mesh) -> Vec<[u32; 2]> {
        made_edges(mesh, |i, _| [i / 2 * 2, i / 2 * 2 + 1])
    }

    fn equal(mesh: &Mesh) -> Vec<[u32; 2]> {
        made_edges(mesh, |_, _| [0, 1])
    }

    /// As many corners as the mesh has, in a cube with this distance from one to the next.
    fn cluster(mesh: &Mesh, apart: f64) -> Vec<[f64; 3]> {
        let n = mesh.faces.len() * 3;
        let side = (n as f64).cbrt().ceil() as usize;
        let at = |i: usize| [i % side, i / side % side, i / side / side].map(|k| k as f64 * apart);
        (0..n).map(at).collect()
    }

    /// A view of the torus with perspective.
    const VIEW: [f64; 16] = [1.2, 0.1, 0.0, 512.0, 0.0, 1.3, 0.2, 384.0, 0.1, 0.0, 1.1, 0.5, 0.0, 0.01, 0.02, 4.0];

    fn vectors(mesh: &Mesh) -> Vec<Vector> {
        mesh.corners().iter().map(|&[x, y, z]| Vector::new(x, y, z)).collect()
    }

    fn squares(mesh: &Mesh) -> Vec<f64> {
        vectors(mesh).iter().map(|v| v.length_squared()).collect()
    }

    /// Subnormal numbers, as many: the digits of the squares, from all 52 down to one.
    fn subnormals(mesh: &Mesh) -> Vec<f64> {
        let digits = |(i, x): (usize, &f64)| (x.to_bits() & 0x000F_FFFF_FFFF_FFFF | 1 << 51) >> (i % 52);
        squares(mesh).iter().enumerate().map(digits).map(f64::from_bits).collect()
    }

    fn sqrt_of(input: &[f64], runs: usize) -> f64 {
        let mut out = vec![0.0; input.len()];
        best(runs, || {
            input.iter().zip(&mut out).for_each(|(&x, y)| {
                lent::sqrt(black_box(x), y);
            });
            black_box(&mut out);
        })
    }

    fn machine_sqrt_of(input: &[f64], runs: usize) -> f64 {
        let mut out = vec![0.0; input.len()];
        best(runs, || {
            input.iter().zip(&mut out).for_each(|(&x, y)| *y = black_box(x).sqrt());
            black_box(&mut out);
        })
    }

    /// Each root is of a sum with the root before, so that it cannot begin sooner.
    fn sqrt_chain(mesh: &Mesh, runs: usize) -> f64 {
        let (input, mut root) = (squares(mesh), 0.0);
        best(runs, || {
            input.iter().for_each(|&x| {
                lent::sqrt(x + root, &mut root);
            });
            black_box(root);
        })
    }

    fn machine_sqrt_chain(mesh: &Mesh, runs: usize) -> f64 {
        let (input, mut root) = (squares(mesh), 0.0);
        best(runs, || {
            input.iter().for_each(|&x| root = (x + root).sqrt());
            black_box(root);
        })
    }

    fn normalize_port(mesh: &Mesh, runs: usize) -> f64 {
        let (input, mut out) = (mesh.corners(), vec![[0.0; 3]; mesh.faces.len() * 3]);
        best(runs, || {
            input.iter().zip(&mut out).for_each(|(a, unit)| {
                lent::normalize(a, unit);
            });
            black_box(&mut out);
        })
    }

    fn normalize_original(mesh: &Mesh, runs: usize) -> f64 {
        let (input, mut out) = (vectors(mesh), vec![Vector::default(); mesh.faces.len() * 3]);
        best(runs, || {
            input.iter().zip(&mut out).for_each(|(a, unit)| *unit = black_box(a).normalize());
            black_box(&mut out);
        })
    }

    fn segment_port(mesh: &Mesh, runs: usize) -> f64 {
        let (input, mut out) = (mesh.corners(), vec![0.0; mesh.faces.len() * 3]);
        best(runs, || {
            input.windows(3).zip(&mut out).for_each(|(w, d)| *d = lent::segment_distance(&w[1], &w[0], &w[2]));
            black_box(&mut out);
        })
    }

    fn segment_original(mesh: &Mesh, runs: usize) -> f64 {
        let (input, mut out) = (vectors(mesh), vec![0.0; mesh.faces.len() * 3]);
        best(runs, || {
            input.windows(3).zip(&mut out).for_each(|(w, d)| *d = black_box(w)[1].segment_distance(w[0], w[2]));
            black_box(&mut out);
        })
    }

    fn position_port(mesh: &Mesh, runs: usize) -> f64 {
        let (input, mut out) = (mesh.corners(), vec![[0.0; 3]; mesh.faces.len() * 3]);
        best(runs, || {
            input.iter().zip(&mut out).for_each(|(a, b)| lent::mul_position_w(&VIEW, a, b));
            black_box(&mut out);
        })
    }

    fn position_original(mesh: &Mesh, runs: usize) -> f64 {
        let [x00, x01, x02, x03, x10, x11, x12, x13, x20, x21, x22, x23, x30, x31, x32, x33] = VIEW;
        let view = Matrix { x00, x01, x02, x03, x10, x11, x12, x13, x20, x21, x22, x23, x30, x31, x32, x33 };
        let (input, mut out) = (vectors(mesh), vec![Vector::default(); mesh.faces.len() * 3]);
        best(runs, || {
            input.iter().zip(&mut out).for_each(|(a, b)| *b = black_box(&view).mul_position_w(*a));
            black_box(&mut out);
        })
    }

    /// The vertices as rings, and a step that cuts their mean span into five.
    fn rings(mesh: &Mesh) -> (Vec<f64>, Vec<u32>, f64) {
        let points = mesh.vertices.as_flattened().to_vec();
        let starts = (0..mesh.vertices.len() as u32).step_by(64).collect();
        let spans = mesh.vertices.windows(2).map(|w| ramikohy::lent::distance(&w[0], &w[1]));
        (points, starts, spans.sum::<f64>() / mesh.vertices.len() as f64 / 5.0)
    }

    fn chop_port(mesh: &Mesh, runs: usize) -> f64 {
        let (points, starts, step) = rings(mesh);
        let (mut out_points, mut out_starts) = (vec![0.0; points.len() * 16], starts.clone());
        best(runs, || {
            lent::chop(&points, &starts, step, &mut out_points, &mut out_starts).unwrap();
            black_box((&mut out_points, &mut out_starts));
        })
    }

    fn chop_original(mesh: &Mesh, runs: usize) -> f64 {
        let (points, _, step) = rings(mesh);
        let vectors: Vec<Vector> = points.chunks_exact(3).map(|p| Vector::new(p[0], p[1], p[2])).collect();
        let mut paths = Paths::new();
        vectors.chunks(64).for_each(|ring| paths.new_path().extend(ring.iter().copied()));
        best(runs, || {
            black_box(paths.chop(step));
        })
    }

    /// A line of the table of cuts.
    pub fn cut(cut: &Cut, runs: usize) -> String {
        let strokes = cut.strokes();
        let (points, starts) = (strokes.points().as_flattened(), strokes.starts());
        let (mut out_points, mut out_starts) = (vec![0.0; 3 * cut.room], starts.to_vec());
        let mut fits = false;
        let lent = best(runs, || {
            fits = lent::chop(points, starts, cut.step, &mut out_points, &mut out_starts).is_ok();
            black_box((&mut out_points, &mut out_starts));
        });
        let safe = best(runs, || {
            black_box(ramikohy::chop(&strokes, cut.step)).ok();
        });
        let mut paths = Paths::new();
        strokes.iter().for_each(|s| paths.new_path().extend(s.iter().map(|&[x, y, z]| Vector::new(x, y, z))));
        let original = fits.then(|| {
            best(runs, || {
                black_box(paths.chop(cut.step));
            })
        });
        let theirs = original.map_or("-".into(), |seconds| format!("{:.2}", seconds * 1e3));
        format!("| {} | {:.2} | {:.2} | {theirs} |", cut.name, lent * 1e3, safe * 1e3)
    }

    /// Every sixteenth vertex, in strokes of 64 points, and a step that cuts a span into some twenty.
    fn long_spans(mesh: &Mesh) -> (Vec<Vector>, f64) {
        let points: Vec<Vector> = mesh.vertices.iter().step_by(16).map(|&[x, y, z]| Vector::new(x, y, z)).collect();
        let total: f64 = points.chunks(64).flat_map(|some| some.windows(2).map(|w| w[0].distance(w[1]))).sum();
        let step = total / (20 * points.len()) as f64;
        (points, step)
    }

    fn long_port(mesh: &Mesh, runs: usize) -> f64 {
        let (vectors, step) = long_spans(mesh);
        let points: Vec<f64> = vectors.iter().flat_map(|v| [v.x, v.y, v.z]).collect();
        let starts: Vec<u32> = (0..vectors.len() as u32).step_by(64).collect();
        let (mut out_points, mut out_starts) = (vec![0.0; points.len() * 64], starts.clone());
        best(runs, || {
            lent::chop(&points, &starts, step, &mut out_points, &mut out_starts).unwrap();
            black_box((&mut out_points, &mut out_starts));
        })
    }

    fn long_original(mesh: &Mesh, runs: usize) -> f64 {
        let (vectors, step) = long_spans(mesh);
        let mut paths = Paths::new();
        vectors.chunks(64).for_each(|some| paths.new_path().extend(some.iter().copied()));
        best(runs, || {
            black_box(paths.chop(step));
        })
    }

    /// The vertices as strokes of so many points.
    fn strokes(mesh: &Mesh, size: usize) -> Paths<Vector> {
        let vectors: Vec<Vector> = mesh.vertices.iter().map(|&[x, y, z]| Vector::new(x, y, z)).collect();
        let mut paths = Paths::new();
        vectors.chunks(size).for_each(|some| paths.new_path().extend(some.iter().copied()));
        paths
    }

    fn adaptive_port(mesh: &Mesh, runs: usize) -> f64 {
        let (points, starts, _) = rings(mesh);
        let view = ramikohy::View {
            matrix: ramikohy::Matrix(VIEW),
            width: 1024.0,
            height: 768.0,
            step: 0.01,
            tolerance: 1e-9,
        };
        adaptive_of(&points, &starts, &view, points.len() * 16, runs)
    }

    fn adaptive_original(mesh: &Mesh, runs: usize) -> f64 {
        chop_adaptive_of(&strokes(mesh, 64), VIEW, [1024.0, 768.0], 0.01, runs)
    }

    /// A view and a stroke of which every product is subnormal, and no span is halved: at 65,536 faces as many points as a call takes.
    const TINY: f64 = 1e-155;

    fn tiny_view() -> [f64; 16] {
        [1.0, 1.1, 1.2, 0.0, 1.0, 1.3, 1.4, 0.0, 1.0, 1.5, 1.6, 0.0, 1.0, 1.0, 1.0, 1.0].map(|x| x * TINY)
    }

    fn tiny_stroke(mesh: &Mesh) -> Vec<[f64; 3]> {
        let at = |i: usize| if i % 2 == 0 { [1.0, 1.1, 1.2] } else { [0.3, 0.2, 0.1] };
        (0..16 * mesh.faces.len()).map(|i| at(i).map(|x| x * TINY)).collect()
    }

    fn tiny_port(mesh: &Mesh, runs: usize) -> f64 {
        let matrix = ramikohy::Matrix(tiny_view());
        let view = ramikohy::View { matrix, width: 1.0, height: 1.0, step: 1.0, tolerance: 1e-9 };
        let points = tiny_stroke(mesh).concat();
        adaptive_of(&points, &[0], &view, points.len(), runs)
    }

    fn tiny_original(mesh: &Mesh, runs: usize) -> f64 {
        let mut paths = Paths::new();
        paths.new_path().extend(tiny_stroke(mesh).iter().map(|&[x, y, z]| Vector::new(x, y, z)));
        chop_adaptive_of(&paths, tiny_view(), [1.0, 1.0], 1.0, runs)
    }

    fn adaptive_of(points: &[f64], starts: &[u32], view: &ramikohy::View, room: usize, runs: usize) -> f64 {
        let (mut out_points, mut out_starts) = (vec![0.0; room], starts.to_vec());
        best(runs, || {
            lent::chop_adaptive(points, starts, view, &mut out_points, &mut out_starts).unwrap();
            black_box((&mut out_points, &mut out_starts));
        })
    }

    fn chop_adaptive_of(
        paths: &Paths<Vector>,
        view: [f64; 16],
        [width, height]: [f64; 2],
        step: f64,
        runs: usize,
    ) -> f64 {
        let [x00, x01, x02, x03, x10, x11, x12, x13, x20, x21, x22, x23, x30, x31, x32, x33] = view;
        let screen_mat = Matrix { x00, x01, x02, x03, x10, x11, x12, x13, x20, x21, x22, x23, x30, x31, x32, x33 };
        let args = RenderArgs { screen_mat, eye: Vector::default(), up: Vector::default(), width, height, step };
        best(runs, || {
            black_box(paths.chop_adaptive(&args));
        })
    }

    fn simplify_port(mesh: &Mesh, runs: usize) -> f64 {
        let points = mesh.vertices.as_flattened();
        let starts: Vec<u32> = (0..mesh.vertices.len() as u32).step_by(4096).collect();
        let (mut out_points, mut out_starts) = (points.to_vec(), starts.clone());
        best(runs, || {
            lent::simplify(points, &starts, 0.01, &mut out_points, &mut out_starts).unwrap();
            black_box((&mut out_points, &mut out_starts));
        })
    }

    fn simplify_original(mesh: &Mesh, runs: usize) -> f64 {
        let paths = strokes(mesh, 4096);
        best(runs, || {
            black_box(paths.simplify(0.01));
        })
    }

    /// As many points as the mesh has vertices, in strokes of so many: from the first point each of the others lies along an axis,
    /// this way or that, so that its distance from the span to any other is its length, given by a rule on its number.
    fn spokes(mesh: &Mesh, size: usize, length: impl Fn(u64) -> f64) -> Paths<Vector> {
        let point = |i: usize| {
            let mut p = [0.0; 3];
            p[i / 2 % 3] = length(i as u64) * if i == 0 { 0.0 } else { 1.0 - 2.0 * (i % 2) as f64 };
            Vector::new(p[0], p[1], p[2])
        };
        let mut paths = Paths::new();
        (0..mesh.vertices.len() / size).for_each(|_| paths.new_path().extend((0..size).map(point)));
        paths
    }

    /// The squares of these lie one or two f64 apart, and their roots one.
    fn few_above(i: u64) -> f64 {
        f64::from_bits(1.5f64.to_bits() + i)
    }

    /// The squares of these lie one f64 apart.
    fn subnormal(i: u64) -> f64 {
        (i as f64).sqrt() * 2f64.powi(-537)
    }

    fn simplify_of(paths: &Paths<Vector>, runs: usize) -> f64 {
        let (mut points, mut starts) = (Vec::new(), Vec::new());
        for path in paths.iter_paths() {
            starts.push((points.len() / 3) as u32);
            points.extend(path.iter().flat_map(|v| [v.x, v.y, v.z]));
        }
        let (mut out_points, mut out_starts) = (points.clone(), starts.clone());
        best(runs.min(5), || {
            lent::simplify(&points, &starts, 0.0, &mut out_points, &mut out_starts).unwrap();
            black_box((&mut out_points, &mut out_starts));
        })
    }

    fn path_simplify_of(paths: &Paths<Vector>, runs: usize) -> f64 {
        best(runs.min(5), || {
            black_box(paths.simplify(0.0));
        })
    }

    fn splice_port(mesh: &Mesh, runs: usize) -> f64 {
        splice_of(&mesh.edges(), runs)
    }

    fn splice_original(mesh: &Mesh, runs: usize) -> f64 {
        splice_exact_of(&mesh.edges(), runs)
    }

    fn splice_of(edges: &[[u32; 2]], runs: usize) -> f64 {
        let points = edges.concat();
        let starts: Vec<u32> = (0..points.len() as u32 / 2).map(|i| 2 * i).collect();
        let (mut scratch, mut out_points, mut out_starts) = (vec![0; 8 * starts.len()], points.clone(), starts.clone());
        best(runs, || {
            lent::splice(&points, &starts, &mut scratch, &mut out_points, &mut out_starts).unwrap();
            black_box((&mut out_points, &mut out_starts));
        })
    }

    fn splice_exact_of(edges: &[[u32; 2]], runs: usize) -> f64 {
        let mut paths = Paths::new();
        edges.iter().for_each(|edge| paths.new_path().extend(edge.map(|v| v as usize)));
        best(runs, || {
            black_box(paths.splice_exact());
        })
    }

    fn weld_port(mesh: &Mesh, runs: usize) -> f64 {
        weld_of(&mesh.corners(), runs)
    }

    fn weld_original(mesh: &Mesh, runs: usize) -> f64 {
        get_or_insert_of(&mesh.corners(), runs)
    }

    fn weld_of(corners: &[[f64; 3]], runs: usize) -> f64 {
        let (mut vertices, mut indices) = (vec![0.0; corners.len() * 3], vec![0; corners.len()]);
        let mut scratch = vec![0; 4 * corners.len()];
        best(runs, || {
            lent::weld(corners.as_flattened(), &mut scratch, &mut vertices, &mut indices).unwrap();
            black_box((&mut vertices, &mut indices));
        })
    }

    fn get_or_insert_of(corners: &[[f64; 3]], runs: usize) -> f64 {
        let corners: Vec<Vector> = corners.iter().map(|&[x, y, z]| Vector::new(x, y, z)).collect();
        best(runs, || {
            black_box(mesh::weld(&corners));
        })
    }

    const TRIANGLES: ramikohy::Mode = ramikohy::Mode::Triangles;
    const POLYGONAL: ramikohy::Mode = ramikohy::Mode::Polygonal;
    const SILHOUETTE: ramikohy::Mode = ramikohy::Mode::Silhouette(0.0);

    /// Where a drawing is seen from.
    const EYE: [f64; 3] = [9.0, 6.0, 5.0];

    /// A million flips, in no order, of faces that lie near each other.
    fn million(mesh: &Mesh) -> Vec<[u32; 2]> {
        let n = mesh.faces.len() as u32;
        (0..1_000_000u64).map(|i| (i * 7919 % n as u64) as u32).map(|f| [f, f + 1]).collect()
    }

    fn draw_of(mesh: &Mesh, mode: ramikohy::Mode, flips: &[[u32; 2]], runs: usize) -> f64 {
        let (vertices, indices) = (mesh.vertices.as_flattened(), mesh.faces.as_flattened());
        let faces = mesh.faces.len();
        let (mut scratch, mut seen) = (vec![0; 64 * faces], vec![0.0; 4 * faces]);
        let (mut points, mut starts) = (vec![0; 6 * faces], vec![0; 3 * faces]);
        let sight = ramikohy::Sight { mode: mode.number(), cos_theta: mode.cos_theta(), eye: EYE, tolerance: 1e-9 };
        let flips = flips.as_flattened();
        best(runs, || {
            lent::draw(vertices, indices, flips, &sight, &mut scratch, &mut seen, &mut points, &mut starts).unwrap();
            black_box((&mut points, &mut starts));
        })
    }

    fn paths_of(mesh: &Mesh, mode: ramikohy::Mode, flips: &[[u32; 2]], runs: usize) -> f64 {
        let vector = |[x, y, z]: [f64; 3]| Vector::new(x, y, z);
        let vertices = mesh.vertices.iter().map(|&p| vector(p)).collect();
        let indices = mesh.faces.as_flattened().iter().map(|&v| v as usize).collect();
        let flips = flips.iter().map(|&[a, b]| (a as usize, b as usize)).collect();
        let texture = match mode {
            ramikohy::Mode::Triangles => MeshTexture::Triangles,
            ramikohy::Mode::Polygonal => MeshTexture::Polygonal,
            ramikohy::Mode::Silhouette(cos_theta) => MeshTexture::Silhouette(cos_theta),
        };
        let mesh = mesh::Mesh::builder(vertices, indices).flipped_triangles(flips).texture(texture).build();
        let args = RenderArgs {
            screen_mat: Matrix::identity(),
            eye: vector(EYE),
            up: Vector::default(),
            width: 0.0,
            height: 0.0,
            step: 0.0,
        };
        best(runs, || {
            black_box(mesh.paths(&args));
        })
    }

    /// The strokes of the mesh in triangles, and room for their sheet.
    fn drawing(mesh: &Mesh) -> (ramikohy::Strokes<u32>, Vec<u8>) {
        let mesh = ramikohy::Mesh { vertices: mesh.vertices.clone(), faces: mesh.faces.clone() };
        let strokes = ramikohy::draw(&mesh, &[], TRIANGLES, EYE, 1e-9).unwrap();
        let sheet = ramikohy::write_sheet(1, mesh.vertices.len() as u32, &strokes).unwrap();
        (strokes, sheet)
    }

    fn write_sheet_port(mesh: &Mesh, runs: usize) -> (usize, f64) {
        let (strokes, mut sheet) = drawing(mesh);
        let (count, points, starts) = (mesh.vertices.len() as u32, strokes.points(), strokes.starts());
        let seconds = best(runs, || {
            lent::write_sheet(1, count, points, starts, &mut sheet).unwrap();
            black_box(&mut sheet);
        });
        (sheet.len(), seconds)
    }

    fn read_sheet_port(mesh: &Mesh, runs: usize) -> (usize, f64) {
        let (strokes, sheet) = drawing(mesh);
        let (mut points, mut starts) = (strokes.points().to_vec(), strokes.starts().to_vec());
        let seconds = best(runs, || {
            lent::read_sheet(&sheet, &mut points, &mut starts).unwrap();
            black_box((&mut points, &mut starts));
        });
        (sheet.len(), seconds)
    }

    /// The mesh with the nearest f32 to each coordinate.
    fn singles(mesh: &Mesh) -> Mesh {
        let vertices = mesh.vertices.iter().map(|v| v.map(|x| x as f32 as f64)).collect();
        Mesh { vertices, faces: mesh.faces.clone() }
    }

    /// As many faces that share no vertex, each with vertices from all over the list. The counts of corners are not
    /// multiples of 7,919.
    fn scattered(mesh: &Mesh) -> Mesh {
        let mut apart = mesh.apart();
        let n = apart.vertices.len() as u64;
        apart.faces.as_flattened_mut().iter_mut().for_each(|v| *v = (*v as u64 * 7919 % n) as u32);
        apart
    }

    fn write_stl_of(mesh: &Mesh, runs: usize) -> (usize, f64) {
        let (vertices, indices) = (mesh.vertices.as_flattened(), mesh.faces.as_flattened());
        let mut file = vec![0; 84 + 50 * mesh.faces.len()];
        let seconds = best(runs, || {
            lent::write_stl(vertices, indices, &mut file).unwrap();
            black_box(&mut file);
        });
        (file.len(), seconds)
    }

    fn read_stl_port(mesh: &Mesh, runs: usize) -> (usize, f64) {
        let corners = singles(mesh).corners();
        let bytes = 84 + 50 * mesh.faces.len();
        (bytes, read_and_weld(&corners, runs)[0])
    }

    /// The seconds of reading the file of these corners, and of welding them, in the same buffers.
    fn read_and_weld(corners: &[[f64; 3]], runs: usize) -> [f64; 2] {
        let (bytes, coords) = (bytes_of(corners.as_flattened()), corners.as_flattened());
        let (mut vertices, mut indices) = (vec![0.0; coords.len()], vec![0; corners.len()]);
        let mut scratch = vec![0; 4 * corners.len()];
        best_by_turns(runs, |which| {
            let wrote = match which {
                0 => lent::read_stl(&bytes, &mut scratch, &mut vertices, &mut indices),
                _ => lent::weld(coords, &mut scratch, &mut vertices, &mut indices),
            };
            black_box((wrote.unwrap(), &mut vertices, &mut indices));
        })
    }

    /// The same, and the seconds of the original's weld.
    pub fn read_beside(corners: &[[f64; 3]], runs: usize) -> [f64; 3] {
        let [read, weld] = read_and_weld(corners, runs);
        [read, weld, get_or_insert_of(corners, runs.min(5))]
    }

    /// As many corners as the mesh has, at random up to a bound, one in two times the sign, as f32.
    fn anywhere(mesh: &Mesh, most: f64, sign: f64) -> Vec<[f64; 3]> {
        let mut random = Random::new(11);
        let mut any = || (random.unit() * most * random.one_of(&[1.0, sign])) as f32 as f64;
        (0..3 * mesh.faces.len()).map(|_| [any(), any(), any()]).collect()
    }

    /// A file of so many faces, by its count as many as is said, every byte of them FF.
    fn counted(faces: usize, said: u32) -> Vec<u8> {
        let mut bytes = vec![0xFF; 84 + 50 * faces];
        bytes[80..84].copy_from_slice(&said.to_le_bytes());
        bytes
    }

    /// The torus with a NaN as its last coordinate.
    fn nan_at_the_end() -> Vec<u8> {
        let mut corners = compare::torus::wavy(256, 128).corners().concat();
        *corners.last_mut().unwrap() = f64::NAN;
        bytes_of(&corners)
    }

    /// A line of the table of files that are refused.
    pub fn refused(file: &Refused, runs: usize) -> String {
        let bytes = (file.bytes)();
        let mut why = None;
        let seconds = best(runs, || why = black_box(lent::read_stl(&bytes, &mut [], &mut [], &mut [])).err());
        let number = why.map_or(0, |why| why.number());
        format!("| {} | {} | {number} | {:.4} |", file.name, bytes.len(), seconds * 1e3)
    }

    /// A slanted plane through the torus.
    const PLANE: ramikohy::Plane = ramikohy::Plane { point: [0.1, 0.2, 0.05], normal: [0.3, 0.9, 0.2] };

    /// The plane z = 0, and one between the first vertices of a screw.
    const FLOOR: ramikohy::Plane = ramikohy::Plane { point: [0.0; 3], normal: [0.0, 0.0, 1.0] };
    const ABOVE_FLOOR: ramikohy::Plane = ramikohy::Plane { point: [0.0, 0.0, 0.0005], normal: [0.0, 0.0, 1.0] };

    /// A mesh so small that its heights are subnormal.
    fn tiny(mesh: Mesh) -> Mesh {
        Mesh { vertices: mesh.vertices.iter().map(|v| v.map(|x| x * 1e-310)).collect(), ..mesh }
    }

    fn contour_of(mesh: &Mesh, plane: &ramikohy::Plane, tolerance: f64, runs: usize) -> f64 {
        let (vertices, indices) = (mesh.vertices.as_flattened(), mesh.faces.as_flattened());
        let faces = mesh.faces.len();
        let (mut scratch, mut numbers) = (vec![0; 16 * faces], vec![0.0; 8 * faces]);
        let (mut points, mut starts) = (vec![0.0; 6 * faces], vec![0; faces]);
        best(runs, || {
            let (scratch, numbers) = (&mut scratch[..], &mut numbers[..]);
            lent::contour(vertices, indices, plane, tolerance, scratch, numbers, &mut points, &mut starts).unwrap();
            black_box((&mut points, &mut starts));
        })
    }

    fn input_of(mesh: &Mesh, plane: &ramikohy::Plane, tolerance: f64) -> contour::Input {
        let ([a, b, c], [d, e, f]) = (plane.point, plane.normal);
        let (vertices, indices) = (mesh.vertices.as_flattened(), mesh.faces.as_flattened());
        contour::of_mesh(vertices, indices, [a, b, c, d, e, f], tolerance)
    }

    fn plain_contour_of(mesh: &Mesh, plane: &ramikohy::Plane, tolerance: f64, runs: usize) -> f64 {
        let input = input_of(mesh, plane, tolerance);
        best(runs, || {
            black_box(contour::spliced(&black_box(&input).segments()));
        })
    }

    /// What is cut, by which plane.
    pub struct Outline {
        name: &'static str,
        mesh: fn(Mesh) -> Mesh,
        plane: ramikohy::Plane,
        tolerance: f64,
    }

    pub const OUTLINES: &[Outline] = &[
        Outline { name: "the torus", mesh: |torus| torus, plane: PLANE, tolerance: 1e-9 },
        Outline { name: "through many corners", mesh: |torus| torus, plane: FLOOR, tolerance: 1e-9 },
        Outline { name: "every face cut, one ring", mesh: |torus| torus.band(1), plane: FLOOR, tolerance: 1e-9 },
        Outline { name: "the same, mixed", mesh: |torus| torus.band(7919), plane: FLOOR, tolerance: 1e-9 },
        Outline { name: "no two points alike", mesh: |torus| torus.needles(), plane: FLOOR, tolerance: 1e-9 },
        Outline { name: "two with one mix", mesh: |torus| torus.one_mix(), plane: FLOOR, tolerance: 0.25 },
        Outline { name: "all in one place", mesh: |torus| torus.column(), plane: FLOOR, tolerance: 1e-9 },
        Outline { name: "one face over and over", mesh: |torus| torus.equal(), plane: ABOVE_FLOOR, tolerance: 1e-9 },
    ];

    /// A line of the table of contours.
    pub fn outline(cut: &Outline, runs: usize) -> String {
        let mesh = (cut.mesh)(torus::wavy(256, 128));
        let strokes = numbered(&input_of(&mesh, &cut.plane, cut.tolerance).segments());
        let whole = contour_of(&mesh, &cut.plane, cut.tolerance, runs);
        let parts = [section_of(&mesh, &cut.plane, cut.tolerance, runs), splice_of(&strokes, runs)];
        let ([section, splice], over) = (parts.map(|s| s * 1e3), whole / (parts[0] + parts[1]));
        let (name, count, whole) = (cut.name, strokes.len(), whole * 1e3);
        format!("| {name} | {count} | {whole:.2} | {section:.2} | {splice:.2} | {over:.2} |")
    }

    /// Segments by the numbers of their points.
    fn numbered(segments: &[[contour::Point; 2]]) -> Vec<[u32; 2]> {
        let mut numbers = HashMap::new();
        let mut number = |point| {
            let next = numbers.len() as u32;
            *numbers.entry(point).or_insert(next)
        };
        segments.iter().map(|segment| segment.map(&mut number)).collect()
    }

    fn section_port(mesh: &Mesh, runs: usize) -> f64 {
        section_of(mesh, &PLANE, 1e-9, runs)
    }

    fn section_of(mesh: &Mesh, plane: &ramikohy::Plane, tolerance: f64, runs: usize) -> f64 {
        let (vertices, indices) = (mesh.vertices.as_flattened(), mesh.faces.as_flattened());
        let (mut points, mut starts) = (vec![0.0; 6 * mesh.faces.len()], vec![0; mesh.faces.len()]);
        best(runs, || {
            lent::section(vertices, indices, plane, tolerance, &mut points, &mut starts).unwrap();
            black_box((&mut points, &mut starts));
        })
    }

    fn section_original(mesh: &Mesh, runs: usize) -> f64 {
        let vector = |[x, y, z]: [f64; 3]| Vector::new(x, y, z);
        let plane = Plane::new(vector(PLANE.point), vector(PLANE.normal));
        let at = |v: u32| vector(mesh.vertices[v as usize]);
        best(runs, || {
            let mut paths = Paths::new();
            for &[a, b, c] in &mesh.faces {
                if let Some((p, q)) = plane.intersect_triangle(&Triangle::new(at(a), at(b), at(c))) {
                    paths.new_path().extend([p, q]);
                }
            }
            black_box(paths);
        })
    }
}
