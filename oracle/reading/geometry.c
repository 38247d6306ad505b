/* A second reading of document 01, 'Faces', 'Corners and vertex numbers' and the refusals of geometry calls, written apart
   from the product and from the Rust. It is not the oracle. */
#include "reading.h"
#include "axes.h"

/* "Even (sign 1)" and "odd (sign -1)", by counting the pairs of letters that stand the wrong way round. */
static int permutation_sign(uint32_t permutation) {
    const char *p = permutations[permutation];
    int wrong = (p[0] > p[1]) + (p[0] > p[2]) + (p[1] > p[2]);
    return wrong % 2 == 0 ? 1 : -1;
}

/* The refusals, each by itself: its number where it applies, else 0. A call's order is the order of its list. */
static uint32_t no_17(uint32_t number, uint32_t how_many) { return number < how_many ? 0 : 17; }
static uint32_t no_6(int32_t sign) { return sign == 1 || sign == -1 ? 0 : 6; }
static uint32_t no_13(uint32_t start) { return start > 4294967292u ? 13 : 0; }

/* "Voxel size NaN or infinite": a number that differs from itself, or that lies past every finite one. */
static uint32_t no_14(float size) {
    return size != size || size > 3.40282346638528859812e38f || size < -3.40282346638528859812e38f ? 14 : 0;
}

/* "Minimum at most 255 on each axis, width and height at least 1, minimum plus width on u and minimum plus height on v at
   most 256." Without a permutation (17 was given) the limits mean nothing. */
static uint32_t no_12(uint32_t permutation, const uint32_t quad[5]) {
    if (permutation > 5) return 0;
    for (int axis = 0; axis < 3; axis++)
        if (quad[axis] > 255) return 12;
    if (quad[3] == 0 || quad[4] == 0) return 12;
    uint64_t u_end = (uint64_t)quad[U_OF(permutation)] + quad[3];
    uint64_t v_end = (uint64_t)quad[V_OF(permutation)] + quad[4];
    return u_end > 256 || v_end > 256 ? 12 : 0;
}

static uint32_t first_of(const uint32_t *refusals, int how_many) {
    for (int i = 0; i < how_many; i++)
        if (refusals[i] != 0) return refusals[i];
    return 0;
}

#define FIRST_OF(...) first_of((const uint32_t[]){__VA_ARGS__}, sizeof((const uint32_t[]){__VA_ARGS__}) / sizeof(uint32_t))

/* A corner's coordinate on one axis. Corner 1 and 3 lie at the far end of u, 2 and 3 at the far end of v. */
static uint32_t coordinate(int32_t sign, uint32_t permutation, const uint32_t quad[5], uint32_t corner, int axis) {
    uint32_t at = quad[axis];
    if (axis == N_OF(permutation) && sign == 1) at += 1;
    if (axis == U_OF(permutation) && corner % 2 == 1) at += quad[3];
    if (axis == V_OF(permutation) && corner / 2 == 1) at += quad[4];
    return at;
}

uint32_t reading_corners(int32_t sign, uint32_t permutation, const uint32_t quad[5], uint32_t out[12]) {
    uint32_t refusal = FIRST_OF(no_17(permutation, 6), no_6(sign), no_12(permutation, quad));
    if (refusal != 0) return refusal;
    for (uint32_t corner = 0; corner < 4; corner++)
        for (int axis = 0; axis < 3; axis++) out[3 * corner + axis] = coordinate(sign, permutation, quad, corner, axis);
    return 0;
}

/* "One f32 product .., rounded once": a float has 24 bits and a coordinate 9, so their product is exact as a double, and the
   cast rounds it, once. */
uint32_t reading_corner(int32_t sign, uint32_t permutation, const uint32_t quad[5], uint32_t corner, float voxel_size, float out[3]) {
    uint32_t refusal = FIRST_OF(no_17(permutation, 6), no_17(corner, 4), no_6(sign), no_12(permutation, quad), no_14(voxel_size));
    if (refusal != 0) return refusal;
    for (int axis = 0; axis < 3; axis++) {
        double exact = (double)voxel_size * (double)coordinate(sign, permutation, quad, corner, axis);
        out[axis] = (float)exact;
    }
    return 0;
}

/* "As f32 its zeros are plus zero." */
uint32_t reading_normal(int32_t sign, uint32_t permutation, float out[3]) {
    uint32_t refusal = FIRST_OF(no_17(permutation, 6), no_6(sign));
    if (refusal != 0) return refusal;
    for (int axis = 0; axis < 3; axis++) out[axis] = axis != N_OF(permutation) ? 0.0f : sign == 1 ? 1.0f : -1.0f;
    return 0;
}

uint32_t reading_indices(int32_t sign, uint32_t permutation, uint32_t start, uint32_t out[6]) {
    static const uint32_t positive[6] = {0, 1, 2, 1, 3, 2}, otherwise[6] = {0, 2, 1, 1, 2, 3};
    uint32_t refusal = FIRST_OF(no_17(permutation, 6), no_6(sign), no_13(start));
    if (refusal != 0) return refusal;
    const uint32_t *steps = sign == permutation_sign(permutation) ? positive : otherwise;
    for (int i = 0; i < 6; i++) out[i] = start + steps[i];
    return 0;
}

/* "u is flipped when the sign is negative and `u_flip_face` differs from the normal axis, or the sign is positive and it
   equals it." A flip swaps the two ends. */
uint32_t reading_tex_coords(int32_t sign, uint32_t permutation, uint32_t u_flip_axis, bool flip_v, const uint32_t quad[5], float out[8]) {
    uint32_t refusal = FIRST_OF(no_17(permutation, 6), no_17(u_flip_axis, 3), no_6(sign), no_12(permutation, quad));
    if (refusal != 0) return refusal;
    bool at_normal = u_flip_axis == (uint32_t)N_OF(permutation);
    bool flip_u = (sign == -1 && !at_normal) || (sign == 1 && at_normal);
    for (int corner = 0; corner < 4; corner++) {
        bool u_far = (corner % 2 == 1) != flip_u, v_far = (corner / 2 == 1) != flip_v;
        out[2 * corner] = u_far ? (float)quad[3] : 0.0f;
        out[2 * corner + 1] = v_far ? (float)quad[4] : 0.0f;
    }
    return 0;
}

/* "A signed axis is made from any nonzero sign." */
uint32_t reading_signed_axis(int32_t sign, uint32_t axis, int32_t out[2]) {
    if (axis > 2) return 17;
    if (sign == 0) return 10;
    out[0] = (int32_t)axis;
    out[1] = sign > 0 ? 1 : -1;
    return 0;
}

/* "A vector with exactly one nonzero part gives that axis with that part's sign"; none is 10, more are 11. */
uint32_t reading_signed_axis_of_vector(const int32_t vector[3], int32_t out[2]) {
    int nonzero = 0;
    for (int axis = 0; axis < 3; axis++) nonzero += vector[axis] != 0;
    if (nonzero != 1) return nonzero == 0 ? 10 : 11;
    for (uint32_t axis = 0; axis < 3; axis++)
        if (vector[axis] != 0) reading_signed_axis(vector[axis], axis, out);
    return 0;
}

/* "The canonical face of X, Y, Z uses Xyz, Yzx, Zxy": the even permutation that has the axis as n. */
uint32_t reading_canonical(int32_t sign, uint32_t axis, int32_t out[2]) {
    if (axis > 2) return 17;
    if (sign == 0) return 10;
    for (uint32_t p = 0; p < 6; p++)
        if ((uint32_t)N_OF(p) == axis && permutation_sign(p) == 1) {
            out[0] = sign > 0 ? 1 : -1;
            out[1] = (int32_t)p;
        }
    return 0;
}
