//! Numbers and lists made of bytes, such that most are good: the bytes come from a generator or from the fuzzer.

/// The bytes that are left. Where none is, zeros follow.
pub struct Source<'a>(&'a [u8]);

/// Strokes as a call takes them.
pub struct Strokes<P> {
    pub points: Vec<P>,
    pub starts: Vec<u32>,
}

/// The most strokes that a call takes.
pub const MOST_STROKES: usize = 196_608;

/// Numbers at the ends of the ranges, and what is no number.
const ODD: [f64; 16] = [
    -0.0,
    1048576.0,
    -1048576.0,
    1048576.0000000002,
    1048577.0,
    f64::NAN,
    f64::INFINITY,
    f64::NEG_INFINITY,
    1e-200,
    1e200,
    5e-324,
    f64::MAX,
    1e-6,
    1e-9,
    9007199254740991.0,
    9007199254740992.0,
];

/// Patterns of f32 at the ends of the ranges: subnormal ones, the least normal one, the greatest coordinates, just past
/// them, and what is no number.
const ODD_PATTERNS: [u32; 12] = [
    0x0000_0001,
    0x8000_0001,
    0x807F_FFFF,
    0x0080_0000,
    0x4980_0000,
    0xC980_0000,
    0x4980_0001,
    0xC980_0001,
    0x7F80_0000,
    0xFF80_0000,
    0x7F80_0001,
    0xFFC0_0000,
];

/// Random bytes (splitmix64), the same for a seed everywhere.
pub fn random_bytes(seed: u64, len: usize) -> Vec<u8> {
    let word = |i: u64| {
        let z = (seed << 20 | i).wrapping_add(1).wrapping_mul(0x9E37_79B9_7F4A_7C15);
        let z = (z ^ (z >> 30)).wrapping_mul(0xBF58_476D_1CE4_E5B9);
        let z = (z ^ (z >> 27)).wrapping_mul(0x94D0_49BB_1331_11EB);
        z ^ (z >> 31)
    };
    (0..len.div_ceil(8) as u64).flat_map(|i| word(i).to_le_bytes()).take(len).collect()
}

impl<'a> Source<'a> {
    pub fn new(bytes: &'a [u8]) -> Self {
        Source(bytes)
    }

    pub fn byte(&mut self) -> u8 {
        let Some((&first, rest)) = self.0.split_first() else { return 0 };
        self.0 = rest;
        first
    }

    /// A number below `n`, which is at most 256.
    pub fn below(&mut self, n: usize) -> usize {
        self.byte() as usize % n
    }

    /// A count: mostly below `few`, and now and then below 64.
    pub fn some(&mut self, few: usize) -> usize {
        if self.once_in(8) { self.below(64) } else { self.below(few) }
    }

    /// True for one byte in `n`, and never where no bytes are left.
    pub fn once_in(&mut self, n: usize) -> bool {
        self.below(n) == n - 1
    }

    pub fn one_of<T: Copy>(&mut self, list: &[T]) -> T {
        list[self.below(list.len())]
    }

    pub fn word(&mut self) -> u32 {
        u32::from_le_bytes([(); 4].map(|()| self.byte()))
    }

    /// Any pattern of a number, an odd one, or a small one.
    pub fn real(&mut self) -> f64 {
        match self.below(4) {
            0 => f64::from_bits((self.word() as u64) << 32 | self.word() as u64),
            1 => self.one_of(&ODD),
            2 => (self.below(33) as f64 - 16.0) * 0.25,
            _ => (self.word() as f64 - 2147483648.0) / 2048.0,
        }
    }

    /// How far apart numbers of one list lie: a few parts of a weld's cell, about one, or any power of two down to the least.
    fn scale(&mut self) -> f64 {
        let scales = [1.0, 0.25, 3.7, 1e-7, 2.5e-7, 5e-7, 1e-6, 65536.0];
        if self.once_in(6) { f64::from_bits((1023 - 4 * self.byte() as u64) << 52) } else { self.one_of(&scales) }
    }

    /// Points that belong together: each number any, or all small multiples of one.
    pub fn points<const N: usize>(&mut self) -> [[f64; 3]; N] {
        if self.once_in(2) {
            return [(); N].map(|()| [(); 3].map(|()| self.real()));
        }
        let scale = if self.once_in(4) { 1.0 / self.scale() } else { self.scale() };
        [(); N].map(|()| [(); 3].map(|()| (self.below(17) as f64 - 8.0) * scale))
    }

    /// A length that points of this scale may be apart, to the last place: a root of a small number, times the scale.
    pub fn length(&mut self, scale: f64) -> f64 {
        let root = (self.below(25) as f64).sqrt();
        let length = self.one_of(&[root, 0.5 * root, 0.25 * root, root.next_up(), root.next_down()]);
        length * scale
    }

    /// A number that is mostly one of the first `good` of a list, seldom another of it, and now and then any.
    pub fn mostly(&mut self, good: usize, list: &[f64]) -> f64 {
        match self.byte() {
            255 => self.real(),
            b @ 240..255 => list[b as usize % list.len()],
            b => list[b as usize % good],
        }
    }

    /// Coordinates of `points` points: few values, so that points coincide, and now and then one that is odd, or one too few.
    /// Answers how far apart they lie, too.
    pub fn coordinates(&mut self, points: usize) -> (Vec<f64>, f64) {
        let scale = self.scale();
        let about = self.one_of(&[0.0, 0.0, 0.0, 0.0, 1.0, -1.0, 1000.0, -1048575.5]);
        let about = if scale < 1e-9 { 0.0 } else { about };
        let mut one = || match self.byte() {
            255 => self.real(),
            b => (b % 9) as f64 * scale - 4.0 * scale + about,
        };
        let mut list: Vec<f64> = (0..points * 3).map(|_| one()).collect();
        if self.once_in(64) {
            list.pop();
        }
        (list, scale)
    }

    /// Any pattern of an f32, or an odd one.
    pub fn pattern(&mut self) -> u32 {
        if self.once_in(2) { self.word() } else { self.one_of(&ODD_PATTERNS) }
    }

    /// Coordinates of `points` points that are f32: few values, at any scale, so that points coincide; at times a -0,
    /// and now and then an odd one.
    pub fn singles(&mut self, points: usize) -> Vec<f32> {
        let scale = self.one_of(&[1.0, 0.25, 1e-7, 2.5e-7, 5e-7, 1e-6, 65536.0, f32::from_bits(1), f32::MIN_POSITIVE]);
        let about = self.one_of(&[0.0, 0.0, 0.0, 0.0, 0.0, 1.0, 1000.0, -1048575.5]);
        let one = |b: u8, s: &mut Self| match b {
            254.. => f32::from_bits(s.pattern()),
            240.. => -0.0,
            b => (b % 9) as f32 * scale - 4.0 * scale + about,
        };
        (0..3 * points).map(|_| one(self.byte(), self)).collect()
    }

    /// The lengths of a few strokes, empty ones too.
    fn lengths(&mut self) -> Vec<usize> {
        let strokes = self.some(9);
        (0..strokes).map(|_| self.below(7)).collect()
    }

    /// The table of strokes of these lengths; now and then it is at fault.
    fn starts(&mut self, lengths: &[usize]) -> Vec<u32> {
        let at = |i: usize| lengths[..i].iter().sum::<usize>() as u32;
        let mut starts: Vec<u32> = (0..lengths.len()).map(at).collect();
        match self.byte() {
            249 => starts.resize(MOST_STROKES + 1, at(lengths.len())),
            250 => starts.clear(),
            251..=253 if !starts.is_empty() => {
                let k = self.below(starts.len());
                starts[k] = self.one_of(&[0, 1, 7, u32::MAX, at(lengths.len()), at(lengths.len()) + 1]);
            }
            254 => starts.push(self.word()),
            _ => {}
        }
        starts
    }

    /// Strokes of coordinates, three numbers a point, and how far apart they lie.
    pub fn strokes(&mut self) -> (Strokes<f64>, f64) {
        let lengths = self.lengths();
        let (points, scale) = self.coordinates(lengths.iter().sum());
        (Strokes { points, starts: self.starts(&lengths) }, scale)
    }

    /// Strokes of vertex numbers, most of them below `vertices`.
    pub fn numbered(&mut self, vertices: usize) -> Strokes<u32> {
        let lengths = self.lengths();
        let mut one = || match self.byte() {
            255 => self.word(),
            254 => vertices as u32,
            b => (b as usize % vertices.max(1)) as u32,
        };
        let points = (0..lengths.iter().sum()).map(|_| one()).collect();
        Strokes { points, starts: self.starts(&lengths) }
    }

    /// Vertices and the vertex numbers of faces: few, so that edges are shared.
    pub fn mesh(&mut self) -> (Vec<f64>, Vec<u32>) {
        let count = 1 + self.some(8);
        let vertices = self.coordinates(count).0;
        (vertices, self.faces(count))
    }

    /// The vertex numbers of a few faces, most of them below `count`; now and then one too few.
    pub fn faces(&mut self, count: usize) -> Vec<u32> {
        let faces = self.some(13);
        let mut one = || match self.byte() {
            255 => self.word(),
            254 => count as u32,
            b => (b as usize % count) as u32,
        };
        let mut indices: Vec<u32> = (0..faces * 3).map(|_| one()).collect();
        if self.once_in(64) {
            indices.pop();
        }
        indices
    }
}
