
// ---- what follows is not the original's

/// Stands for what the crate `bon` makes of `Mesh`: its builder.
pub struct MeshBuilder {
    vertices: Vec<Vector>,
    triangles: Vec<usize>,
    flipped_triangles: HashSet<(usize, usize)>,
    texture: MeshTexture,
}

impl Mesh {
    pub fn builder(vertices: Vec<Vector>, triangles: Vec<usize>) -> MeshBuilder {
        MeshBuilder {
            vertices,
            triangles,
            flipped_triangles: HashSet::new(),
            texture: MeshTexture::default(),
        }
    }
}

impl MeshBuilder {
    pub fn flipped_triangles(mut self, flipped: HashSet<(usize, usize)>) -> Self {
        self.flipped_triangles = flipped;
        self
    }

    pub fn texture(mut self, texture: MeshTexture) -> Self {
        self.texture = texture;
        self
    }

    pub fn build(self) -> Mesh {
        let triangle = |w: &[usize]| Triangle::new(self.vertices[w[0]], self.vertices[w[1]], self.vertices[w[2]]);
        Mesh {
            bx: BBox::for_vectors(&self.vertices),
            tree: Tree::new(self.triangles.chunks_exact(3).map(triangle).collect()),
            flipped_triangles: self.flipped_triangles,
            texture: self.texture,
            triangles: self.triangles,
            vertices: self.vertices,
        }
    }
}

/// The original's merging of corners, by itself: `from_triangles` also builds a tree, which is not ported.
pub fn weld(corners: &[Vector]) -> (Vec<Vector>, Vec<usize>) {
    let mut merger = VertexMerger::new(1e-6);
    let indices = corners.iter().map(|&v| merger.get_or_insert(v)).collect();
    (merger.vertices, indices)
}
