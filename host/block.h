/* A block of voxels that lies in a file: its shape and box from the words of a command, its voxels, its quads, and in
 * words what was refused. What the programs of host/ share that mesh a block. */
#ifndef BLOCK_H
#define BLOCK_H

#include <stddef.h>
#include <stdint.h>

#include "spunmarrow.h"

/* What is asked for, and the buffers, which may be kept from file to file. All 0 but for the program at first. */
struct block {
    const char *program; /* whom standard error speaks of */
    int unit;            /* a quad for each visible face; else greedy */
    int boxed;           /* --box was given */
    uint32_t shape[3];
    uint32_t min[3];
    uint32_t max[3];
    size_t size; /* voxels of the block */
    unsigned char *bytes;
    uint16_t *voxels;
    uint8_t *visited; /* scratch for greedy meshing, a byte a voxel */
    uint32_t *quads;
    size_t capacity; /* how many quads fit */
};

/* The faces of a cube, and the permutation that each has: +X, -X, +Y, -Y, +Z, -Z. */
extern const int32_t cube_faces[SPUNMARROW_FACE_NUMBERS];
extern const char *const cube_face_names[SPUNMARROW_FACES];

/* Take the six words after --box, and the three of the shape; `left` is how many words there are. Each answers NULL, or
 * what is wrong with them. */
const char *block_box(struct block *b, char **words, int left);
const char *block_shape(struct block *b, char **words, int left);

/* Asks for the buffers, once the shape is known. Answers 0 and says so where there is no memory. */
int block_open(struct block *b);
void block_close(struct block *b);

/* Reads a file's voxels. Answers 0 and says why where they are not exactly the block's. */
int block_read(struct block *b, const char *file);

/* How many numbers a quad has. */
size_t block_quad_numbers(const struct block *b);

/* Meshes the voxels; makes the quads' buffer larger where they don't fit. */
void block_mesh(struct block *b, uint64_t answer[SPUNMARROW_ANSWER_NUMBERS]);

/* Says in words what a mesher or a writer refused, and where. */
void block_explain(const struct block *b, const char *file, const uint64_t *answer);

#endif
