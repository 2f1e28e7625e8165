/* Ramikohy's proved functions for C. A point is three doubles, a matrix sixteen, row by row.
 *
 * A function that can refuse answers a status: 0, or the number of the refusal, and then the place of its value is left
 * as it was. The others answer the value itself, or write the point to their last parameter.
 *
 * Every pointer is aligned as its type asks for (8 bytes for a double or a size_t, 4 for a uint32_t). A list of length 0 may be
 * null; nothing else may. What is written must not overlap with anything else that is lent. No function allocates, blocks, keeps a
 * pointer or uses anything but its parameters, so each may be called from several threads at once.
 *
 * Stack, at most, as the tests bound it on x86-64 and on Arm: simplify 400,000 bytes, chop_adaptive 65,536, draw 6,144,
 * splice and contour 4,096, every other function 2,048. */
#ifndef RAMIKOHY_H
#define RAMIKOHY_H

#include <stddef.h>
#include <stdint.h>

#ifdef __cplusplus
extern "C" {
#endif

/* Refusals. The lowest that applies is given, but for four cases: in chop_adaptive ROOM and DEEP go to whichever the walk meets first,
 * reading a sheet tests SHEET before ROOM, reading an STL file tests STL before all others, and of ALIKE and NO_LENGTH the one that the
 * lowest face at fault has is given. These two alone carry something, the number of that face. */
#define RAMIKOHY_SHAPE 1      /* a list that is not one of triangles, points, pairs or strokes */
#define RAMIKOHY_COUNT 2      /* a count above its limit, below */
#define RAMIKOHY_VERTEX 3     /* a vertex number not below the vertex count */
#define RAMIKOHY_NUMBER 4     /* a number outside its range, below, a mode number above 3, or a corner to be written that is no f32 */
#define RAMIKOHY_SCRATCH 5    /* scratch too short */
#define RAMIKOHY_ROOM 6       /* output too short, or a cut that would write over RAMIKOHY_MOST_POINTS */
#define RAMIKOHY_ALIKE 7      /* polygonal or silhouette: a face that has two corners whose coordinates compare equal (-0 equals 0) */
#define RAMIKOHY_DEEP 8       /* chop_adaptive would halve a span already 64 halvings deep */
#define RAMIKOHY_SHEET 9      /* bytes that are not a sheet */
#define RAMIKOHY_NO_LENGTH 10 /* polygonal or silhouette: a face with three different corners and a normal of computed length 0 */
#define RAMIKOHY_STL 11       /* bytes that are not a binary STL file */

/* The status that says that there is none. No refusal has this number. */
#define RAMIKOHY_NONE 255

/* Limits of counts. */
#define RAMIKOHY_MOST_FACES 65536
#define RAMIKOHY_MOST_VERTICES 196608
#define RAMIKOHY_MOST_STROKES 196608
#define RAMIKOHY_MOST_POINTS 1048576
#define RAMIKOHY_MOST_TO_SIMPLIFY 4096 /* the points of a stroke */

/* Ranges of numbers; no NaN in any. Coordinates, eye, plane and matrix entries: of magnitude at most RAMIKOHY_MOST_NUMBER. Steps: above 0, at
 * most that. Width and height: 0 to that. Tolerance: above 0, below 1. Threshold: 0 or more. cos_theta: any. Floor: of magnitude below
 * 2^53. Root: 0 (of either sign) or more. */
#define RAMIKOHY_MOST_NUMBER 1048576.0

uint32_t ramikohy_floor(double x, int64_t *whole);
uint32_t ramikohy_sqrt(double x, double *root);
double ramikohy_abs(double x);
double ramikohy_length(const double a[3]);
double ramikohy_distance(const double a[3], const double b[3]);
double ramikohy_length_squared(const double a[3]);
double ramikohy_distance_squared(const double a[3], const double b[3]);
double ramikohy_dot(const double a[3], const double b[3]);
void ramikohy_cross(const double a[3], const double b[3], double out[3]);
/* RAMIKOHY_NONE where the computed length is 0: `out` is then left as it was. */
uint32_t ramikohy_normalize(const double a[3], double out[3]);
void ramikohy_add(const double a[3], const double b[3], double out[3]);
void ramikohy_sub(const double a[3], const double b[3], double out[3]);
void ramikohy_mul(const double a[3], const double b[3], double out[3]);
void ramikohy_div(const double a[3], const double b[3], double out[3]);
void ramikohy_add_scalar(const double a[3], double s, double out[3]);
void ramikohy_sub_scalar(const double a[3], double s, double out[3]);
void ramikohy_mul_scalar(const double a[3], double s, double out[3]);
void ramikohy_div_scalar(const double a[3], double s, double out[3]);
double ramikohy_segment_distance(const double a[3], const double v[3], const double w[3]);
void ramikohy_mul_position_w(const double m[16], const double a[3], double out[3]);

/* The calls on lists. A list is a pointer and its length; a list of points has three doubles a point, a list of strokes
 * its points and the place of each stroke's first point. Each call answers a status, and how much it wrote goes to its
 * last parameters, those of type `size_t *`. An accepted call leaves scratch all zero, and output past what it wrote as it
 * was; a refusal changes nothing that is lent, but for the place of the face that it carries. */

/* Strokes cut into steps. Output: what is written, and no more. Stack: 2,048 bytes. */
uint32_t ramikohy_chop(const double *points, size_t points_len, const uint32_t *starts, size_t starts_len, double step,
                       double *out_points, size_t out_points_len, uint32_t *out_starts, size_t out_starts_len,
                       size_t *point_count, size_t *start_count);

/* Strokes of vertex numbers, joined end to end. Scratch: 8 words a stroke. Output: as many points and starts as the input.
 * Stack: 4,096 bytes. */
uint32_t ramikohy_splice(const uint32_t *points, size_t points_len, const uint32_t *starts, size_t starts_len,
                         uint32_t *scratch, size_t scratch_len, uint32_t *out_points, size_t out_points_len,
                         uint32_t *out_starts, size_t out_starts_len, size_t *point_count, size_t *start_count);

/* Strokes whose spans are halved until they are short on the screen. Output: what is written, and no more. Stack: 65,536
 * bytes, for 64 halvings on each other. */
uint32_t ramikohy_chop_adaptive(const double *points, size_t points_len, const uint32_t *starts, size_t starts_len,
                                const double matrix[16], double width, double height, double step, double tolerance,
                                double *out_points, size_t out_points_len, uint32_t *out_starts, size_t out_starts_len,
                                size_t *point_count, size_t *start_count, size_t *halving_count);

/* Strokes without the points that are near enough to a line. Output: as many points and starts as the input. Stack:
 * 400,000 bytes, for a stroke of 4,096 points whose farthest is always next to an end. */
uint32_t ramikohy_simplify(const double *points, size_t points_len, const uint32_t *starts, size_t starts_len,
                           double threshold, double *out_points, size_t out_points_len, uint32_t *out_starts,
                           size_t out_starts_len, size_t *point_count, size_t *start_count, size_t *distance_count);

/* Corners, nine numbers a face, as vertices and three vertex numbers a face. Scratch: 12 words a face. Output: 3 vertices
 * and 3 indices a face. Corners strictly nearer to each other than 0.000001, in the unit of the coordinates, may become one vertex:
 * the first such that is found in the order of cells. Stack: 2,048 bytes. */
uint32_t ramikohy_weld(const double *coords, size_t coords_len, uint32_t *scratch, size_t scratch_len, double *vertices,
                       size_t vertices_len, uint32_t *indices, size_t indices_len, size_t *vertex_count,
                       size_t *index_count);

/* A binary STL file as a welded mesh: 80 bytes of header, the count of faces, then 50 bytes a face. Header, normals and the two bytes
 * after each face are not looked at. Scratch, output and what becomes one vertex: those of a weld. RAMIKOHY_STL comes before all other
 * refusals. Stack: 2,048 bytes. */
uint32_t ramikohy_read_stl(const uint8_t *bytes, size_t bytes_len, uint32_t *scratch, size_t scratch_len, double *vertices,
                           size_t vertices_len, uint32_t *indices, size_t indices_len, size_t *vertex_count,
                           size_t *index_count);

/* A mesh as a binary STL file: header, normals and the two bytes after each face are 0. A corner that is not exactly an f32 is
 * RAMIKOHY_NUMBER; a vertex that no face names is held to its range alone. Output: 84 bytes, and 50 a face. Stack: 2,048 bytes. */
uint32_t ramikohy_write_stl(const double *vertices, size_t vertices_len, const uint32_t *indices, size_t indices_len,
                            uint8_t *out, size_t out_len, size_t *byte_count);

/* Where a plane cuts the faces of a mesh, a stroke of two points each. Output: 2 points and 1 start a face. Stack: 2,048
 * bytes. */
uint32_t ramikohy_section(const double *vertices, size_t vertices_len, const uint32_t *indices, size_t indices_len,
                          const double plane_point[3], const double plane_normal[3], double tolerance,
                          double *out_points, size_t out_points_len, uint32_t *out_starts, size_t out_starts_len,
                          size_t *point_count, size_t *start_count);

/* The outline in which a plane cuts a mesh. The height of a vertex is the dot of the normal, of whatever length, with the
 * vertex minus the plane's point: not below the tolerance it is above, not above minus the tolerance it is below, and
 * else on the plane. A face gives a segment where it has corners above and below, or two on the plane and the third
 * above: between the corners on the plane and where its sides cross it. Segments are joined end to end where coordinates
 * are equal. No -0 is written. Where every edge has an even number of faces, and no face has a vertex twice, every
 * stroke is closed. Scratch: 16 words and 8 numbers a face. Output: 2 points and 1 start a face, however few of them are
 * cut. Stack: 4,096 bytes. */
uint32_t ramikohy_contour(const double *vertices, size_t vertices_len, const uint32_t *indices, size_t indices_len,
                          const double plane_point[3], const double plane_normal[3], double tolerance,
                          uint32_t *scratch, size_t scratch_len, double *numbers, size_t numbers_len,
                          double *out_points, size_t out_points_len, uint32_t *out_starts, size_t out_starts_len,
                          size_t *point_count, size_t *start_count);

/* The edges of a mesh that a mode keeps (1 triangles, 2 polygonal, 3 silhouette, and 0 is 2), as strokes of vertex numbers joined
 * end to end. `flips` has two face numbers a pair. Scratch: 64 words and 4 numbers a face. Output: 6 points and 3 starts a face.
 * RAMIKOHY_ALIKE and RAMIKOHY_NO_LENGTH write the lowest face at fault to `face`, counted from 0; an accepted call and every other refusal
 * leave it as it was. Stack: 6,144 bytes. */
uint32_t ramikohy_draw(const double *vertices, size_t vertices_len, const uint32_t *indices, size_t indices_len,
                       const uint32_t *flips, size_t flips_len, uint32_t mode, double cos_theta, const double eye[3],
                       double tolerance, uint32_t *scratch, size_t scratch_len, double *seen, size_t seen_len,
                       uint32_t *out_points, size_t out_points_len, uint32_t *out_starts, size_t out_starts_len,
                       size_t *point_count, size_t *start_count, uint32_t *face);

/* Strokes of vertex numbers as a sheet, of a mode (1 triangles, 2 polygonal, 3 silhouette, and 0 is 2) and so many vertices. An
 * empty stroke is not written. Output: the sheet's exact length, 24 bytes, and 4 for each stroke and for each point. A sheet holds no
 * coordinates: keep the mesh beside it. Stack: 2,048 bytes. */
uint32_t ramikohy_write_sheet(uint32_t mode, uint32_t vertices, const uint32_t *numbers, size_t numbers_len,
                              const uint32_t *starts, size_t starts_len, uint8_t *out, size_t out_len,
                              size_t *byte_count);

/* A sheet's strokes of vertex numbers, its mode and its vertices. Output: the points and strokes in its header. Stack: 2,048
 * bytes. */
uint32_t ramikohy_read_sheet(const uint8_t *bytes, size_t bytes_len, uint32_t *out_numbers, size_t out_numbers_len,
                             uint32_t *out_starts, size_t out_starts_len, size_t *point_count, size_t *start_count,
                             uint32_t *mode, uint32_t *vertices);

/* The reader over a list of strokes of vertex numbers: how many are left from stroke i on, 0 where none is; the place of stroke i's
 * first point among `points`; and how many points it has, 0 of an empty one. */
size_t ramikohy_strokes_left(const uint32_t *starts, size_t starts_len, size_t i);
size_t ramikohy_stroke_first(const uint32_t *points, size_t points_len, const uint32_t *starts, size_t starts_len, size_t i);
size_t ramikohy_stroke_length(const uint32_t *points, size_t points_len, const uint32_t *starts, size_t starts_len, size_t i);

#ifdef __cplusplus
}
#endif

#endif
