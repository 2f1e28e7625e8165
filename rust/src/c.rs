//! The functions of the archive as C has them, the same as in `include/ramikohy.h`.
//!
//! A point is three f64, a matrix sixteen, row by row; a list is a pointer and its length. Nothing that is written may overlap with anything else that is
//! lent. [`crate::lent`] has the same functions with references, which see to that.

/// The status that says that there is none. No refusal has this number.
pub const NONE: u32 = 255;

unsafe extern "C" {
    pub fn ramikohy_floor(x: f64, whole: *mut i64) -> u32;
    pub fn ramikohy_sqrt(x: f64, root: *mut f64) -> u32;
    pub fn ramikohy_abs(x: f64) -> f64;
    pub fn ramikohy_length(a: *const [f64; 3]) -> f64;
    pub fn ramikohy_distance(a: *const [f64; 3], b: *const [f64; 3]) -> f64;
    pub fn ramikohy_length_squared(a: *const [f64; 3]) -> f64;
    pub fn ramikohy_distance_squared(a: *const [f64; 3], b: *const [f64; 3]) -> f64;
    pub fn ramikohy_dot(a: *const [f64; 3], b: *const [f64; 3]) -> f64;
    pub fn ramikohy_cross(a: *const [f64; 3], b: *const [f64; 3], out: *mut [f64; 3]);
    pub fn ramikohy_normalize(a: *const [f64; 3], out: *mut [f64; 3]) -> u32;
    pub fn ramikohy_add(a: *const [f64; 3], b: *const [f64; 3], out: *mut [f64; 3]);
    pub fn ramikohy_sub(a: *const [f64; 3], b: *const [f64; 3], out: *mut [f64; 3]);
    pub fn ramikohy_mul(a: *const [f64; 3], b: *const [f64; 3], out: *mut [f64; 3]);
    pub fn ramikohy_div(a: *const [f64; 3], b: *const [f64; 3], out: *mut [f64; 3]);
    pub fn ramikohy_add_scalar(a: *const [f64; 3], s: f64, out: *mut [f64; 3]);
    pub fn ramikohy_sub_scalar(a: *const [f64; 3], s: f64, out: *mut [f64; 3]);
    pub fn ramikohy_mul_scalar(a: *const [f64; 3], s: f64, out: *mut [f64; 3]);
    pub fn ramikohy_div_scalar(a: *const [f64; 3], s: f64, out: *mut [f64; 3]);
    pub fn ramikohy_segment_distance(a: *const [f64; 3], v: *const [f64; 3], w: *const [f64; 3]) -> f64;
    pub fn ramikohy_mul_position_w(m: *const [f64; 16], a: *const [f64; 3], out: *mut [f64; 3]);
    pub fn ramikohy_chop(
        points: *const f64,
        points_len: usize,
        starts: *const u32,
        starts_len: usize,
        step: f64,
        out_points: *mut f64,
        out_points_len: usize,
        out_starts: *mut u32,
        out_starts_len: usize,
        point_count: *mut usize,
        start_count: *mut usize,
    ) -> u32;
    pub fn ramikohy_splice(
        points: *const u32,
        points_len: usize,
        starts: *const u32,
        starts_len: usize,
        scratch: *mut u32,
        scratch_len: usize,
        out_points: *mut u32,
        out_points_len: usize,
        out_starts: *mut u32,
        out_starts_len: usize,
        point_count: *mut usize,
        start_count: *mut usize,
    ) -> u32;
    pub fn ramikohy_weld(
        coords: *const f64,
        coords_len: usize,
        scratch: *mut u32,
        scratch_len: usize,
        vertices: *mut f64,
        vertices_len: usize,
        indices: *mut u32,
        indices_len: usize,
        vertex_count: *mut usize,
        index_count: *mut usize,
    ) -> u32;
    pub fn ramikohy_read_stl(
        bytes: *const u8,
        bytes_len: usize,
        scratch: *mut u32,
        scratch_len: usize,
        vertices: *mut f64,
        vertices_len: usize,
        indices: *mut u32,
        indices_len: usize,
        vertex_count: *mut usize,
        index_count: *mut usize,
    ) -> u32;
    pub fn ramikohy_write_stl(
        vertices: *const f64,
        vertices_len: usize,
        indices: *const u32,
        indices_len: usize,
        out: *mut u8,
        out_len: usize,
        byte_count: *mut usize,
    ) -> u32;
    pub fn ramikohy_section(
        vertices: *const f64,
        vertices_len: usize,
        indices: *const u32,
        indices_len: usize,
        plane_point: *const [f64; 3],
        plane_normal: *const [f64; 3],
        tolerance: f64,
        out_points: *mut f64,
        out_points_len: usize,
        out_starts: *mut u32,
        out_starts_len: usize,
        point_count: *mut usize,
        start_count: *mut usize,
    ) -> u32;
    pub fn ramikohy_contour(
        vertices: *const f64,
        vertices_len: usize,
        indices: *const u32,
        indices_len: usize,
        plane_point: *const [f64; 3],
        plane_normal: *const [f64; 3],
        tolerance: f64,
        scratch: *mut u32,
        scratch_len: usize,
        numbers: *mut f64,
        numbers_len: usize,
        out_points: *mut f64,
        out_points_len: usize,
        out_starts: *mut u32,
        out_starts_len: usize,
        point_count: *mut usize,
        start_count: *mut usize,
    ) -> u32;
    pub fn ramikohy_draw(
        vertices: *const f64,
        vertices_len: usize,
        indices: *const u32,
        indices_len: usize,
        flips: *const u32,
        flips_len: usize,
        mode: u32,
        cos_theta: f64,
        eye: *const [f64; 3],
        tolerance: f64,
        scratch: *mut u32,
        scratch_len: usize,
        seen: *mut f64,
        seen_len: usize,
        out_points: *mut u32,
        out_points_len: usize,
        out_starts: *mut u32,
        out_starts_len: usize,
        point_count: *mut usize,
        start_count: *mut usize,
        face: *mut u32,
    ) -> u32;
    pub fn ramikohy_chop_adaptive(
        points: *const f64,
        points_len: usize,
        starts: *const u32,
        starts_len: usize,
        matrix: *const [f64; 16],
        width: f64,
        height: f64,
        step: f64,
        tolerance: f64,
        out_points: *mut f64,
        out_points_len: usize,
        out_starts: *mut u32,
        out_starts_len: usize,
        point_count: *mut usize,
        start_count: *mut usize,
        halving_count: *mut usize,
    ) -> u32;
    pub fn ramikohy_simplify(
        points: *const f64,
        points_len: usize,
        starts: *const u32,
        starts_len: usize,
        threshold: f64,
        out_points: *mut f64,
        out_points_len: usize,
        out_starts: *mut u32,
        out_starts_len: usize,
        point_count: *mut usize,
        start_count: *mut usize,
        distance_count: *mut usize,
    ) -> u32;
    pub fn ramikohy_write_sheet(
        mode: u32,
        vertices: u32,
        numbers: *const u32,
        numbers_len: usize,
        starts: *const u32,
        starts_len: usize,
        out: *mut u8,
        out_len: usize,
        byte_count: *mut usize,
    ) -> u32;
    pub fn ramikohy_read_sheet(
        bytes: *const u8,
        bytes_len: usize,
        out_numbers: *mut u32,
        out_numbers_len: usize,
        out_starts: *mut u32,
        out_starts_len: usize,
        point_count: *mut usize,
        start_count: *mut usize,
        mode: *mut u32,
        vertices: *mut u32,
    ) -> u32;
    pub fn ramikohy_strokes_left(starts: *const u32, starts_len: usize, i: usize) -> usize;
    pub fn ramikohy_stroke_first(
        points: *const u32,
        points_len: usize,
        starts: *const u32,
        starts_len: usize,
        i: usize,
    ) -> usize;
    pub fn ramikohy_stroke_length(
        points: *const u32,
        points_len: usize,
        starts: *const u32,
        starts_len: usize,
        i: usize,
    ) -> usize;
}
