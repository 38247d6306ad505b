/* Stands between the driver and the archive (the linker's --wrap) with one fault, whose number is FAULT; 0 is none. fire/faults.txt says what each is. */
#include "spunmarrow.h"

#include <string.h>
#include <xmmintrin.h>

#define REAL(function) __typeof__(spunmarrow_##function) __real_spunmarrow_##function; __typeof__(spunmarrow_##function) __wrap_spunmarrow_##function
REAL(greedy_quads);
REAL(visible_block_faces);
REAL(corner);
REAL(corners);
REAL(normal);
REAL(indices);
REAL(tex_coords);
REAL(write_obj);
REAL(decimal);

static int is(int fault)
{
    return FAULT == fault;
}

/* one number read, whatever it is */
#define READ(place) ((void)*(volatile __typeof__(place) *)&(place))
/* one number written as it was */
#define WRITE(place) (*(volatile __typeof__(place) *)&(place) = *(volatile __typeof__(place) *)&(place))

void __wrap_spunmarrow_greedy_quads(const uint32_t shape[3], const uint32_t min[3], const uint32_t max[3], const int32_t faces[12], const uint16_t *voxels, size_t voxels_len, uint8_t *visited,
                                    size_t visited_len, uint32_t *out, size_t out_len, uint64_t answer[9])
{
    uint64_t before[9];

    if (is(2) && voxels_len != 0)
        READ(voxels[-1]);
    if (is(3) && voxels_len == 0)
        READ(voxels[0]);
    if (is(4) && voxels_len != 0)
        WRITE(*(uint16_t *)(uintptr_t)voxels);
    if (is(5))
        WRITE(*(int32_t *)(uintptr_t)&faces[11]);
    if (is(6))
        READ(((const uint32_t *)shape)[3]);
    if (is(7))
        voxels_len = (uint32_t)voxels_len;
    if (is(8))
        out_len += 4; /* a quad that fits in part is counted as whole */
    if (is(9) && visited_len == 0)
        READ(visited[0]);
    memcpy(before, answer, sizeof before);
    __real_spunmarrow_greedy_quads(shape, min, max, faces, voxels, voxels_len, visited, visited_len, out, out_len, answer);
    if (is(1) && voxels_len < 1u << 20 && voxels_len != 0)
        READ(voxels[voxels_len]);
    if (is(10) && out_len < 1u << 20 && out_len != 0)
        out[out_len] = 0;
    if (is(11) && visited_len < 1u << 20 && visited_len != 0)
        visited[visited_len] = 0;
    if (is(12) && answer[0] == 8)
        visited[0] = 0;
    if (is(13) && answer[0] != 0)
        answer[8] = before[8];
    if (is(14) && answer[0] == 9 && out_len >= 5)
        out[0]++;
    if (is(15) && answer[0] == 5 && out_len != 0 && out_len < 1u << 20)
        out[out_len - 1] ^= 1;
    if (is(16) && answer[0] == 0)
        visited[(size_t)shape[0] * shape[1] * shape[2] - 1] = 1;
    if (is(17))
        __asm__ volatile("std");
    if (is(18))
        WRITE(answer[-1]);
}

void __wrap_spunmarrow_visible_block_faces(const uint32_t shape[3], const uint32_t min[3], const uint32_t max[3], const int32_t faces[12], const uint16_t *voxels, size_t voxels_len,
                                           uint32_t *out, size_t out_len, uint64_t answer[9])
{
    if (is(19))
        READ(((const uint32_t *)max)[3]);
    if (is(20) && (uint64_t)(uint32_t)(shape[0] * shape[1] * shape[2]) > voxels_len && shape[0] > 256) {
        memset(answer, 0, 9 * sizeof answer[0]);
        answer[0] = 2; /* the block's size modulo 2 to the 32nd, before the shape */
        return;
    }
    __real_spunmarrow_visible_block_faces(shape, min, max, faces, voxels, voxels_len, out, out_len, answer);
    if (is(21) && out_len < 1u << 20 && out_len != 0)
        WRITE(out[-1]);
    if (is(22) && answer[0] == 17)
        answer[1] = 0;
}

uint32_t __wrap_spunmarrow_corner(int32_t sign, uint32_t permutation, const uint32_t quad[5], uint32_t corner, float voxel_size, float out[3])
{
    uint32_t refusal;

    if (is(23))
        _mm_setcsr(0x9F80); /* subnormals become zero */
    refusal = __real_spunmarrow_corner(sign, permutation, quad, corner, voxel_size, out);
    _mm_setcsr(0x1F80);
    if (is(24))
        _mm_setcsr(0x3F80); /* rounds down from now on */
    return refusal;
}

uint32_t __wrap_spunmarrow_corners(int32_t sign, uint32_t permutation, const uint32_t quad[5], uint32_t out[12])
{
    if (is(25))
        READ(((const uint32_t *)quad)[5]);
    return __real_spunmarrow_corners(sign, permutation, quad, out);
}

uint32_t __wrap_spunmarrow_normal(int32_t sign, uint32_t permutation, float out[3])
{
    while (is(26) && sign == INT32_MIN)
        __asm__ volatile(""); /* does not end */
    if (is(27))
        __asm__ volatile("mov $7, %r13"); /* which a function must keep */
    return __real_spunmarrow_normal(sign, permutation, out);
}

uint32_t __wrap_spunmarrow_indices(int32_t sign, uint32_t permutation, uint32_t start, uint32_t out[6])
{
    uint32_t refusal = __real_spunmarrow_indices(sign, permutation, start, out);

    if (is(28))
        WRITE(((uint32_t *)out)[6]);
    if (is(29) && refusal == 13)
        out[5] = 0;
    return refusal;
}

/* 30 looks at the whole of a register that holds 32 bits */
uint32_t __wrap_spunmarrow_tex_coords(int32_t sign, uint32_t permutation, uint32_t u_flip_axis, bool flip_v, const uint32_t quad[5], float out[8])
{
    uint64_t whole = u_flip_axis;

    if (is(30)) {
        __asm__ volatile("mov %%rdx, %0" : "=r"(whole));
        if (whole > 2)
            return 17;
    }
    return __real_spunmarrow_tex_coords(sign, permutation, (uint32_t)whole, flip_v, quad, out);
}

/* The counts' sum modulo 2 to the 64th. */
static uint64_t sum_of(const uint64_t counts[6])
{
    return counts[0] + counts[1] + counts[2] + counts[3] + counts[4] + counts[5];
}

void __wrap_spunmarrow_write_obj(const int32_t faces[12], const uint64_t counts[6], const uint32_t *quads, size_t quads_len, uint8_t *out, size_t out_len, uint64_t answer[3])
{
    static const uint64_t nothing[6];
    uint64_t before[3], sum = sum_of(counts);
    int32_t mended[12];
    int i;

    memcpy(before, answer, sizeof before);
    memcpy(mended, faces, sizeof mended);
    if (is(31))
        READ(((const uint64_t *)counts)[6]);
    if (is(32) && quads_len / 5 == sum && quads_len != 0)
        READ(quads[5 * sum]);
    if (is(33) && quads_len / 5 != 0 && sum == 0)
        counts = nothing; /* which a sum that wraps round takes them for */
    if (is(34) && out_len != 0 && out_len < 1u << 30)
        out_len--;
    if (is(35))
        quads_len = (uint32_t)quads_len;
    if (is(36))
        out_len = (uint32_t)out_len;
    if (is(37) && quads_len != 0)
        WRITE(*(uint32_t *)(uintptr_t)quads);
    if (is(38))
        WRITE(*(uint64_t *)(uintptr_t)&counts[5]);
    for (i = 0; i < 6; i++)
        if (is(39) && counts[i] == 0)
            mended[2 * i] = 1; /* the sign of an empty group is not looked at */
    if (is(40) && quads_len == 0)
        READ(quads[0]);
    if (is(49))
        quads_len += 4; /* a part quad is counted as whole */
    __real_spunmarrow_write_obj(mended, counts, quads, quads_len, out, out_len, answer);
    if (is(41) && answer[0] == 6) { /* 12 comes before 6 */
        for (i = 0; i < 6; i++)
            mended[2 * i] = 1;
        __real_spunmarrow_write_obj(mended, counts, quads, quads_len, NULL, 0, answer);
        if (answer[0] != 12)
            __real_spunmarrow_write_obj(faces, counts, quads, quads_len, out, out_len, answer);
    }
    if (is(42) && answer[0] == 0 && answer[2] < out_len)
        out[answer[2]] = 0; /* as a string would end */
    if (is(43) && answer[0] == 15 && out_len != 0)
        out[0] = 'o';
    if (is(44) && answer[0] == 12 && answer[1] >= counts[0])
        answer[1] -= counts[0]; /* the number in the group */
    if (is(45) && answer[0] != 0)
        answer[2] = before[2];
    if (is(46))
        WRITE(answer[3]);
    if (is(47) && answer[0] == 0 && answer[2] > 7)
        out[answer[2] - 2] ^= 1;
    if (is(48) && answer[0] == 0 && out_len < 1u << 30)
        out[out_len] = 0;
    if (is(50) && answer[0] == 24)
        answer[1] = 1;
}

/* 54 looks at the whole of a register that holds 32 bits */
size_t __wrap_spunmarrow_decimal(uint32_t n, uint8_t *scratch, size_t scratch_len)
{
    uint64_t whole = n;
    size_t length;

    if (is(54)) {
        __asm__ volatile("mov %%rdi, %0" : "=r"(whole));
        if (whole > UINT32_MAX)
            return 0;
    }
    if (is(51) && n == 0)
        return 0;
    if (is(52) && scratch_len != 0)
        scratch_len--;
    if (is(55))
        scratch_len = (uint8_t)scratch_len;
    length = __real_spunmarrow_decimal((uint32_t)whole, scratch, scratch_len);
    if (is(53) && length != 0 && length < scratch_len)
        scratch[length] = 0;
    if (is(56) && length == 0 && scratch_len != 0)
        scratch[0] = '0' + n % 10;
    return length;
}
