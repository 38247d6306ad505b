/* Spunmarrow: quads from blocks of voxels. The C interface.
 *
 * Link with libspunmarrow.a, which host/archive writes to target/staticlib/, on x86-64 Linux:
 *     cc -Iinclude FILE.c target/staticlib/libspunmarrow.a
 * Plain C99; C++17 takes it as well. host/mesh_file.c, with host/block.c, is a program to copy. The archive needs
 * memset of the C library and nothing else, and any x86-64 processor will do: it has no instruction past SSE2.
 *
 * WHAT THE CALLER GUARANTEES. What each function answers and leaves in each buffer is proved, for every value of every
 * number that it is handed. A proof can't see through a pointer, so this is left to the caller:
 *   - A pointer to an array of fixed length points to that many numbers, aligned as its type asks, and is never NULL.
 *   - A pointer beside a length points to at least that many numbers, aligned as its type asks. With a length of 0 any
 *     pointer will do, NULL as well: nothing is read or written through it.
 *   - What is read (const) may be written by nobody during the call, and what is written may be read or written by
 *     nobody else. No buffer that a call writes overlaps another buffer of that call. Buffers that are only read may
 *     overlap each other.
 *   - A bool is true or false: 0 or 1 and no other bits.
 *   - The processor's floating-point mode is the default: round to nearest, subnormals kept (a program built with
 *     -ffast-math may have changed it), exceptions masked. spunmarrow_corner rests on it. The drawing calls may raise
 *     exception flags, and clear none.
 *   - There is stack for the call. The most that was measured is 1,067 bytes, of greedy meshing, with its arguments and
 *     memset's part among them (host/stack.c); 2 KB are ample.
 * Given that, any numbers at all may be handed in. Nothing is read or written but what the buffers have, nothing is
 * allocated, nothing is kept from call to call, and every call ends. Calls from several threads at once are fine where
 * their buffers are apart.
 *
 * REFUSALS. A call that can't do what it is asked says so by a number, SPUNMARROW_REFUSED_.. below. The checks are made
 * in the order that each function lists; the first that applies is given. What a refusal leaves of each buffer is
 * written at each function.
 *
 * POINTS. Shape, min and max are three numbers each, in the order x, y, z.
 *
 * A FACE is two numbers. Its sign is 1 or -1: the side of its normal axis n that it looks to. Its permutation's number
 * says which axes are n, u and v:
 *     0 Xyz   1 Zxy   2 Yzx   3 Zyx   4 Xzy   5 Yxz     (the letters are n, u, v in that order)
 * The faces of a cube, each with the permutation of the Rust's `OrientedBlockFace::canonical`: +X and -X are 1 and -1
 * with 0, +Y and -Y with 2, +Z and -Z with 1. As a mesher's `faces`, in this order:
 * {1, 0, -1, 0, 1, 2, -1, 2, 1, 1, -1, 1}.
 *
 * A QUAD is five numbers: the x, y and z of its least voxel, its width (voxels along u) and its height (voxels along
 * v). Quad limits: x, y and z at most 255, width and height at least 1, and neither the minimum plus the width on u
 * nor the minimum plus the height on v above 256.
 *
 * A VOXEL is 16 bits. The top two are its class: 0 empty, 1 translucent, 2 opaque; 3 is bad. The other fourteen are its
 * merge value: greedy quads span voxels of one merge value. So an opaque voxel of merge value 7 is 2 * 16384 + 7. The
 * voxel (x, y, z) of a block of X by Y by Z has the index x + X*y + X*Y*z.
 *
 * A MESH that is handed in is six faces, six counts and a list of greedy quads, the groups end to end, as greedy
 * meshing leaves it: counts[k] quads on face k. A quad's number runs over the whole list from 0, and not anew in each
 * group.
 */
#ifndef SPUNMARROW_H
#define SPUNMARROW_H

#include <stdbool.h>
#include <stddef.h>
#include <stdint.h>

#ifdef __cplusplus
extern "C" {
#endif

/* How many numbers each listed quad has in `out`: a greedy quad, and a unit quad (which is one voxel: its x, y, z). */
#define SPUNMARROW_GREEDY_QUAD_NUMBERS 5
#define SPUNMARROW_UNIT_QUAD_NUMBERS 3

/* The largest axis of a shape. */
#define SPUNMARROW_LARGEST_AXIS 256

/* How many faces a mesher takes, and how many numbers they are: for each its sign and its permutation's number. */
#define SPUNMARROW_FACES 6
#define SPUNMARROW_FACE_NUMBERS 12

/* A mesher's answer: nine numbers, and what stands where. */
#define SPUNMARROW_ANSWER_NUMBERS 9
#define SPUNMARROW_ANSWER_REFUSAL 0 /* the refusal, or SPUNMARROW_ACCEPTED */
#define SPUNMARROW_ANSWER_PLACE 1   /* where: see each refusal; 0 where the call is accepted */
#define SPUNMARROW_ANSWER_COUNTS 2  /* six numbers: how many quads each face's group has; all 0 after a refusal */
#define SPUNMARROW_ANSWER_TESTS 8   /* greedy meshing: the voxel tests, over all faces; else, and after a refusal, 0 */

/* A writer's answer: three numbers. The refusal and the place stand where a mesher's answer has them. */
#define SPUNMARROW_WRITE_ANSWER_NUMBERS 3
#define SPUNMARROW_WRITE_ANSWER_WRITTEN 2 /* how many bytes were written, from the output's start; 0 after a refusal */

/* How long an OBJ text may be: SPUNMARROW_OBJ_HEAD_BYTES + quads * SPUNMARROW_OBJ_MOST_QUAD_BYTES bytes are always
 * enough, and without quads it is as long as its head. */
#define SPUNMARROW_OBJ_HEAD_BYTES 7
#define SPUNMARROW_OBJ_MOST_QUAD_BYTES 138

/* All refusal numbers: when each is given; the place. A mesher's and a writer's answer have the place, and the drawing
 * calls, where it is always 0, tell none. An axis as place is 0, 1, 2 for x, y, z, and a face 0 to 5. 12 and 13 have
 * two meanings: one of the drawing calls, one of a mesh that is handed in. 10 and 11 are of signed axes, which no call
 * here makes. */
#define SPUNMARROW_ACCEPTED 0
#define SPUNMARROW_REFUSED_SHAPE 1          /* an axis of the shape is 0 or above 256; the first such axis */
#define SPUNMARROW_REFUSED_FEW_VOXELS 2     /* fewer voxels lent than X*Y*Z; 0 */
#define SPUNMARROW_REFUSED_MIN_ABOVE_MAX 3  /* min is above max on an axis; the first such axis */
#define SPUNMARROW_REFUSED_MAX_PAST_SHAPE 4 /* max is at or past the shape on an axis; the first such axis */
#define SPUNMARROW_REFUSED_MIN_IS_MAX 5     /* min equals max on an axis; the first such axis */
#define SPUNMARROW_REFUSED_FACE_SIGN 6      /* a face's sign is neither 1 nor -1; of six faces the first such face */
#define SPUNMARROW_REFUSED_FEW_VISITED 7    /* greedy meshing: fewer visited bytes lent than X*Y*Z; 0 */
#define SPUNMARROW_REFUSED_BAD_VOXEL 8      /* a voxel of class 3 inside the box; its index, the lowest of them */
#define SPUNMARROW_REFUSED_MANY_QUADS 9     /* more quads than the output holds; how many it holds */
#define SPUNMARROW_REFUSED_QUAD_LIMITS 12   /* a quad outside the quad limits; 0. Of a list or file: the number of the
                                             * first such quad */
#define SPUNMARROW_REFUSED_FIRST_INDEX 13   /* a first index above 4,294,967,292; 0. Of a writer: more than
                                             * 1,073,741,823 quads; 0 */
#define SPUNMARROW_REFUSED_VOXEL_SIZE 14    /* a voxel size that is NaN or infinite; 0 */
#define SPUNMARROW_REFUSED_SHORT_OUTPUT 15  /* a writer's output is shorter than what is to be written; 0 */
#define SPUNMARROW_REFUSED_NUMBER 17        /* a permutation's number outside 0 to 5, a corner's outside 0 to 3, or an
                                             * axis' outside 0 to 2; of six faces the first such face */
#define SPUNMARROW_REFUSED_COUNTS 24        /* the counts sum to more quads than the list holds; 0 */

/* ---- meshing ----
 *
 * Both meshers look at the box from min to max, max included, of a block of the shape X by Y by Z, and mesh its
 * interior: one voxel in from each side of the box. (So a block is lent with a border of its neighbours.) An axis on
 * which the box spans two voxels has no interior: the call is accepted and lists nothing.
 *
 * A voxel's face is visible when the voxel isn't empty and the neighbour that the face looks to is empty, or is
 * translucent while the voxel is opaque.
 *
 * `out` gets six groups of quads, a group for each face in the order given, end to end from the start.
 * answer[SPUNMARROW_ANSWER_COUNTS + k] is how many quads group k has. `out` holds
 * out_len / SPUNMARROW_.._QUAD_NUMBERS quads, rounded down; the rest of its length is never written. Six quads an
 * interior voxel are always room enough: an out_len of 30 * the interior voxels for greedy meshing, and of 18 * for
 * unit meshing.
 *
 * All nine numbers of `answer` are written, whatever happens; what they held before is not read.
 */

/* Greedy meshing: the visible faces as rectangles, five numbers each.
 *
 * Every visible face in the interior lies in exactly one quad of its face's group, and no other voxel lies in any.
 * The slices go from low n to high n, and in a slice the voxels are tested in scan order, x fastest, then y, then z:
 * a voxel passes if it isn't empty, no quad of the group has it yet, and its face is visible. From one that passes a
 * quad grows: along +u while the voxels pass and have its merge value, then along +v by whole rows of that width, to
 * the edge of the interior. The quads of a group stand in the order in which they are found. Class is not compared:
 * an opaque and a translucent voxel of one merge value may share a quad. A test is one voxel looked at, the failing
 * one of a row included; a voxel may be tested more than once.
 *
 * Refuses by 17, then 1, 2, 3, 4, 5, 6, 7, 8, then 9.
 *   After 17 and 1 to 8  `out` and `visited` are as they were.
 *   After 9              `out` holds the first quads of the listing, as many as it holds, and nothing past them has
 *                        changed; the first X*Y*Z bytes of `visited` are 0 and the others as they were.
 *   Accepted             nothing of `out` past the last quad has changed; `visited` as after 9.
 * `visited` is scratch space: what it holds before the call doesn't matter, and X*Y*Z bytes of it are used.
 */
void spunmarrow_greedy_quads(const uint32_t shape[3], const uint32_t min[3], const uint32_t max[3],
                             const int32_t faces[12], const uint16_t *voxels, size_t voxels_len, uint8_t *visited,
                             size_t visited_len, uint32_t *out, size_t out_len, uint64_t answer[9]);

/* Unit meshing: every visible face by itself, three numbers each: the voxel's x, y and z. A group is in scan order, x
 * fastest, then y, then z. To draw one, width and height are 1.
 *
 * Refuses by 17, then 1, 2, 3, 4, 5, 6, 8, then 9.
 *   After 17, 1 to 6, 8  `out` is as it was.
 *   After 9              `out` holds the first quads of the listing, as many as it holds, and nothing past them has
 *                        changed.
 *   Accepted             nothing of `out` past the last quad has changed.
 */
void spunmarrow_visible_block_faces(const uint32_t shape[3], const uint32_t min[3], const uint32_t max[3],
                                    const int32_t faces[12], const uint16_t *voxels, size_t voxels_len, uint32_t *out,
                                    size_t out_len, uint64_t answer[9]);

/* ---- drawing ----
 *
 * Each call answers the refusal number, and `out` is then as it was; or SPUNMARROW_ACCEPTED, and all of `out` is
 * written. (Of a float in `out` that was NaN it is proved that it is NaN still; that its bits are the same is seen in
 * a run, host/check.c, and not proved.)
 *
 * The corners of a quad have the numbers 0 to 3: the base, +u width, +v height, both. The base is the quad's minimum,
 * one step up along n where the sign is 1.
 */

/* Where one corner of a quad is drawn: x, y and z. Each is one product of voxel_size and the corner's coordinate,
 * rounded once as IEEE 754 says; it may be infinite and is never NaN. Refuses by 17 (permutation, corner), then 6,
 * 12, 14. */
uint32_t spunmarrow_corner(int32_t sign, uint32_t permutation, const uint32_t quad[5], uint32_t corner,
                           float voxel_size, float out[3]);

/* The four corners of a quad in voxels: x, y and z of corner 0, then of 1, 2 and 3. Refuses by 17, then 6, 12. */
uint32_t spunmarrow_corners(int32_t sign, uint32_t permutation, const uint32_t quad[5], uint32_t out[12]);

/* The normal of a face: one of x, y and z is 1 or -1, and the others are plus zero. Refuses by 17, then 6. */
uint32_t spunmarrow_normal(int32_t sign, uint32_t permutation, float out[3]);

/* The vertex numbers of a quad's two triangles, where corner k has the number start + k; the next quad's first vertex
 * is then start + 4. In right-handed axes both triangles run counterclockwise as seen from the side that the face
 * looks to. Refuses by 17, then 6, 13. */
uint32_t spunmarrow_indices(int32_t sign, uint32_t permutation, uint32_t start, uint32_t out[6]);

/* The texture pairs of a quad's four corners, u and v of corner 0, then of 1, 2 and 3, for a texture that repeats at
 * each voxel: (0,0), (w,0), (0,h), (w,h). flip_v swaps 0 and h. 0 and w are swapped on a face of sign -1 whose normal
 * axis isn't u_flip_axis (0, 1, 2 for x, y, z), and on one of sign 1 whose normal axis is. Refuses by 17
 * (permutation, axis), then 6, 12. */
uint32_t spunmarrow_tex_coords(int32_t sign, uint32_t permutation, uint32_t u_flip_axis, bool flip_v,
                               const uint32_t quad[5], float out[8]);

/* ---- writing ---- */

/* A greedy mesh as Wavefront OBJ text.
 *
 * Refuses, the first that applies, and `out` is then as it was:
 *   17  a permutation's number is outside 0 to 5; the place is the first such face.
 *   24  the counts sum to more than quads_len / SPUNMARROW_GREEDY_QUAD_NUMBERS, rounded down, which is what the list
 *       holds; 0. The sum is the mathematical one: counts whose sum is 2 to the 64th or more are refused as well.
 *   6   a sign is neither 1 nor -1, also of a face whose group is empty; the first such face.
 *   12  a quad of group k is outside the quad limits by the u and v of face k; the first such quad's number.
 *   13  there are more than 1,073,741,823 quads, so that the last vertex number would not fit in 32 bits; 0.
 *   15  out_len is less than the length of the text; 0. An out_len of exactly that length is enough.
 * Accepted: the text stands at the start of `out`, answer[SPUNMARROW_WRITE_ANSWER_WRITTEN] bytes of it, and nothing of
 * `out` past it has changed. No zero byte ends it. All three numbers of `answer` are written, whatever happens; what
 * they held before is not read.
 *
 * The text is `o mesh` and then, for each quad in the order of the list, six lines: `v x y z` for the corners 0 to 3,
 * as spunmarrow_corners has them, and `f a b c` for the two triangles, as spunmarrow_indices has them of a start of
 * 4k + 1, where k is the quad's number. Numbers are decimal, without leading zeros; one space stands between words, and
 * every line ends in one line feed. One quad 1 1 1 1 1 on +X, and nothing on the other faces, is these 55 bytes:
 *     o mesh
 *     v 2 1 1
 *     v 2 2 1
 *     v 2 1 2
 *     v 2 2 2
 *     f 1 2 3
 *     f 2 4 3
 *
 * `counts` may lie in a mesher's answer; the writer's own `answer` is another array. Quads past the counts' sum, and a
 * last part quad, are never read. What greedy meshing has accepted is refused by 15 alone, where it is handed in with
 * the same faces:
 *     uint64_t mesh[SPUNMARROW_ANSWER_NUMBERS], answer[SPUNMARROW_WRITE_ANSWER_NUMBERS];
 *     spunmarrow_greedy_quads(shape, min, max, faces, voxels, voxels_len, visited, visited_len, quads, quads_len,
 *                             mesh);
 *     if (mesh[SPUNMARROW_ANSWER_REFUSAL] == SPUNMARROW_ACCEPTED)
 *         spunmarrow_write_obj(faces, mesh + SPUNMARROW_ANSWER_COUNTS, quads, quads_len, out, out_len, answer);
 * A refused mesher's counts are 0, and would give the text of an empty mesh. host/obj_file.c is a program to copy.
 */
void spunmarrow_write_obj(const int32_t faces[12], const uint64_t counts[6], const uint32_t *quads, size_t quads_len,
                          uint8_t *out, size_t out_len, uint64_t answer[3]);

/* A number in decimal digits, as the writer has it. Where `scratch` has fewer bytes than the number has digits it is as
 * it was, and the answer is 0, which stands for SPUNMARROW_REFUSED_SHORT_OUTPUT; 10 bytes are enough for every number.
 * Else the answer is how many digits stand at the start of `scratch`: no leading zeros, and 0 is `0`. Nothing past them
 * has changed, and no zero byte ends them.
 *     uint8_t scratch[10];
 *     size_t digits = spunmarrow_decimal(1024, scratch, sizeof scratch);     4, and scratch begins with 1024
 */
size_t spunmarrow_decimal(uint32_t n, uint8_t *scratch, size_t scratch_len);

#ifdef __cplusplus
}
#endif

#endif
