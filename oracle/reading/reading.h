/* A second reading of documents 01 and 02. It is not the oracle: the oracle is the Rust's text.

   The first nine calls are those of the C interface, with the same arguments and the same answers. The last three answer what
   document 01 says of signed axes and canonical faces, which the C interface does not offer. */
#ifndef READING_H
#define READING_H

#include <stdbool.h>
#include <stddef.h>
#include <stdint.h>

/* answer: [0] refusal, 0 where accepted; [1] place; [2..7] the six counts; [8] tests (greedy; 0 for unit meshing) */
void reading_greedy_quads(const uint32_t shape[3], const uint32_t min[3], const uint32_t max[3], const int32_t faces[12],
                          const uint16_t *voxels, size_t voxels_len, uint8_t *visited, size_t visited_len,
                          uint32_t *out, size_t out_len, uint64_t answer[9]);
void reading_visible_block_faces(const uint32_t shape[3], const uint32_t min[3], const uint32_t max[3], const int32_t faces[12],
                                 const uint16_t *voxels, size_t voxels_len, uint32_t *out, size_t out_len, uint64_t answer[9]);

/* each returns the refusal number, 0 where accepted; a refusal leaves out as it was */
uint32_t reading_corner(int32_t sign, uint32_t permutation, const uint32_t quad[5], uint32_t corner, float voxel_size, float out[3]);
uint32_t reading_corners(int32_t sign, uint32_t permutation, const uint32_t quad[5], uint32_t out[12]);
uint32_t reading_normal(int32_t sign, uint32_t permutation, float out[3]);
uint32_t reading_indices(int32_t sign, uint32_t permutation, uint32_t start, uint32_t out[6]);
uint32_t reading_tex_coords(int32_t sign, uint32_t permutation, uint32_t u_flip_axis, bool flip_v, const uint32_t quad[5], float out[8]);

/* answer: [0] refusal, 0 where accepted; [1] place; [2] bytes written; a refusal leaves out as it was */
void reading_write_obj(const int32_t faces[12], const uint64_t counts[6], const uint32_t *quads, size_t quads_len, uint8_t *out,
                       size_t out_len, uint64_t answer[3]);
/* how many digits stand at the start of scratch; 0: too short (15), scratch as it was */
size_t reading_decimal(uint32_t n, uint8_t *scratch, size_t scratch_len);

/* out: the axis, 0 to 2, and the sign, 1 or -1 */
uint32_t reading_signed_axis(int32_t sign, uint32_t axis, int32_t out[2]);
uint32_t reading_signed_axis_of_vector(const int32_t vector[3], int32_t out[2]);
/* out: the face's sign and its permutation's number */
uint32_t reading_canonical(int32_t sign, uint32_t axis, int32_t out[2]);

#endif
