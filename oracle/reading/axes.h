/* Faces by their letters: what both halves of the second reading take from document 01, 'Faces'. */
#ifndef AXES_H
#define AXES_H

#include <stdint.h>

/* "Permutations name (n, u, v)": number 0 to 5 by name. */
static const char permutations[6][4] = {"xyz", "zxy", "yzx", "zyx", "xzy", "yxz"};

/* The axis, 0 to 2, that a permutation has at place 0 (n), 1 (u) or 2 (v). */
static inline int axis_of(uint32_t permutation, int place) {
    return permutations[permutation][place] - 'x';
}

#define N_OF(permutation) axis_of(permutation, 0)
#define U_OF(permutation) axis_of(permutation, 1)
#define V_OF(permutation) axis_of(permutation, 2)

#endif
