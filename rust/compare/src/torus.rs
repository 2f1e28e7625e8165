//! The mesh of the benchmarks: a wavy torus of quads, each cut into two triangles.

use crate::random::Random;

/// A mesh as the calls take it: three coordinates a vertex, three vertex numbers a face.
pub struct Mesh {
    pub vertices: Vec<[f64; 3]>,
    pub faces: Vec<[u32; 3]>,
}

impl Mesh {
    /// Every edge once, by its two vertices, the smaller first, in their order: what a drawing of all edges splices.
    pub fn edges(&self) -> Vec<[u32; 2]> {
        let sides = self.faces.iter().flat_map(|&[a, b, c]| [[a, b], [b, c], [c, a]]);
        let mut edges: Vec<[u32; 2]> = sides.map(|[a, b]| [a.min(b), a.max(b)]).collect();
        edges.sort_unstable();
        edges.dedup();
        edges
    }

    /// The corners of every face, one after the other: what a weld is handed.
    pub fn corners(&self) -> Vec<[f64; 3]> {
        self.faces.iter().flatten().map(|&v| self.vertices[v as usize]).collect()
    }

    /// As many faces as this mesh has, by a rule on their number, on the vertices of a screw, no three of which lie on a line.
    fn made(&self, count: u32, face: impl Fn(u32) -> [u32; 3]) -> Mesh {
        let at = |v: u32| [(v as f64).cos(), (v as f64).sin(), v as f64 / 1024.0];
        let faces = (0..self.faces.len() as u32).map(face).collect();
        Mesh { vertices: (0..count).map(at).collect(), faces }
    }

    /// No vertex in two faces.
    pub fn apart(&self) -> Mesh {
        self.made(3 * self.faces.len() as u32, |f| [3 * f, 3 * f + 1, 3 * f + 2])
    }

    /// One vertex in every face.
    pub fn fan(&self) -> Mesh {
        self.made(self.faces.len() as u32 + 2, |f| [0, f + 1, f + 2])
    }

    /// One face over and over.
    pub fn equal(&self) -> Mesh {
        self.made(3, |_| [0, 1, 2])
    }

    /// As many faces as this mesh has, all cut by the plane z = 0: a band of one ring, in whose list a face comes
    /// `step` after the one before. The counts of faces are not multiples of 7,919.
    pub fn band(&self, step: usize) -> Mesh {
        let n = self.faces.len();
        let turn = |v: usize| v as f64 / n as f64 * std::f64::consts::TAU;
        let at = |v: usize| [turn(v).cos(), turn(v).sin(), if v.is_multiple_of(2) { 0.75 } else { -0.5 }];
        let face = |f: usize| [f, (f + 1) % n, (f + 2) % n].map(|v| v as u32);
        Mesh { vertices: (0..n).map(at).collect(), faces: (0..n).map(|i| face(i * step % n)).collect() }
    }

    /// As many faces, cut by that plane in one place, with no length.
    pub fn column(&self) -> Mesh {
        let vertices = vec![[0.25, 0.5, 1.0], [0.25, 0.5, -0.5], [0.25, 0.5, -1.0]];
        Mesh { vertices, faces: vec![[0, 1, 2]; self.faces.len()] }
    }

    /// As many faces, cut by that plane in no two places alike, in no order.
    pub fn needles(&self) -> Mesh {
        let part = |f: usize, ratio: f64| (f as f64 * ratio).fract();
        let [golden, plastic] = [0.618033988749895, 0.754877666246693];
        let needle = |f: usize| {
            let [x, y] = [part(f, golden), part(f, plastic)];
            [[x, y, 0.5], [x, y + 1.0, -0.25], [x, y + 2.0, -0.25]]
        };
        let faces = (0..self.faces.len() as u32).map(|f| [3 * f, 3 * f + 1, 3 * f + 2]).collect();
        Mesh { vertices: (0..self.faces.len()).flat_map(needle).collect(), faces }
    }

    /// As many faces, each with a side close to that plane and the third corner above it, in no two places alike; those
    /// of the first face have one mix.
    pub fn one_mix(&self) -> Mesh {
        let mut random = Random::new(13);
        let mut near = || [random.unit(), random.unit(), random.unit() / 4.0 - 0.125];
        let mut vertices: Vec<[f64; 3]> = self.faces.iter().flat_map(|_| [near(), near(), [0.5, 0.5, 1.0]]).collect();
        vertices[..2].copy_from_slice(&ONE_MIX);
        let faces = (0..self.faces.len() as u32).map(|f| [3 * f, 3 * f + 1, 3 * f + 2]).collect();
        Mesh { vertices, faces }
    }

    /// Every choice of three of a few vertices, so that every edge has many faces.
    pub fn shared(&self) -> Mesh {
        let few = (self.faces.len() as f64).cbrt().ceil() as u32 + 2;
        let other = |a: u32, k: u32| (a + 1 + k % (few - 2)) % few;
        self.made(few, |f| {
            let [a, b] = [f % few, other(f % few, f / few)];
            let c = (0..few).map(|i| (f / few / (few - 2) + i) % few).find(|&c| c != a && c != b).unwrap();
            [a, b, c]
        })
    }
}

/// Two points with one mix: what the low word of x adds to it, that of y takes off (`mix` of crates/path_classes).
pub const ONE_MIX: [[f64; 3]; 2] = [
    [f64::from_bits(0x3FE0_0000_0000_0000), f64::from_bits(0x3FE0_0000_9E37_79B1), 0.0],
    [f64::from_bits(0x3FE0_0000_C2B2_AE3D), f64::from_bits(0x3FE0_0000_0000_0000), 0.0],
];

/// A torus of `around` by `across` quads: 128 by 64 has 16,384 faces, 256 by 128 has 65,536.
pub fn wavy(around: usize, across: usize) -> Mesh {
    let turn = std::f64::consts::TAU;
    let mut vertices = Vec::with_capacity(around * across);
    let mut faces = Vec::with_capacity(around * across * 2);
    for i in 0..around {
        for j in 0..across {
            let (u, v) = (turn * i as f64 / around as f64, turn * j as f64 / across as f64);
            let tube = 1.0 + 0.1 * (5.0 * u).sin() * (3.0 * v).cos();
            let ring = 3.0 + tube * v.cos();
            vertices.push([ring * u.cos(), ring * u.sin(), tube * v.sin()]);
            let at = |i: usize, j: usize| (i % around * across + j % across) as u32;
            let [a, b, c, d] = [at(i, j), at(i + 1, j), at(i + 1, j + 1), at(i, j + 1)];
            faces.extend([[a, b, c], [a, c, d]]);
        }
    }
    Mesh { vertices, faces }
}
