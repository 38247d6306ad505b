/* Calls every function of the archive from C: E1, E10 to E12, E14 and E15 of document 01, the OBJ text of some meshes
 * and each bad number at the boundary, with what a buffer must hold afterwards. Prints what differs; its last line is
 * 'N checks, M failed', and its exit status 0 where M is 0.
 *
 *     check [--large]
 *
 * --large makes the calls with too many quads for an OBJ text instead, and with one fewer, on a list of 20 GiB that
 * takes 10 MiB of memory. It says how long each took: under emulation, on an Arm machine, 81, 80 and 217 s of processor
 * time.
 */
#define _GNU_SOURCE
#include <inttypes.h>
#include <math.h>
#include <stdio.h>
#include <string.h>
#include <sys/mman.h>
#include <time.h>
#include <unistd.h>

#include "spunmarrow.h"

static int checks, failed;

static void same(const char *what, const void *got, const void *wanted, size_t size)
{
    checks++;
    if (memcmp(got, wanted, size) != 0) {
        failed++;
        printf("differs: %s\n", what);
    }
}

static void number(const char *what, uint64_t got, uint64_t wanted)
{
    checks++;
    if (got != wanted) {
        failed++;
        printf("differs: %s: %" PRIu64 ", and not %" PRIu64 "\n", what, got, wanted);
    }
}

/* The faces of a cube: +X, -X, +Y, -Y, +Z, -Z. */
static const int32_t cube[12] = {1, 0, -1, 0, 1, 2, -1, 2, 1, 1, -1, 1};
static const uint32_t quad[5] = {1, 2, 3, 4, 5};

static void drawing(void)
{
    static const uint32_t corners_pos[12] = {2, 2, 3, 2, 6, 3, 2, 2, 8, 2, 6, 8}, corners_neg[12] = {1, 2, 3, 1, 6, 3, 1, 2, 8, 1, 6, 8};
    static const float pairs[8] = {4, 0, 0, 0, 4, 5, 0, 5}, down[3] = {0, -1, 0}, place[3] = {0.5f, 1.5f, 0.75f}, asis[8] = {9, 9, 9, 9, 9, 9, 9, 9};
    static const uint32_t front[6] = {7, 8, 9, 8, 10, 9}, back[6] = {7, 9, 8, 8, 9, 10}, untouched[12] = {9, 9, 9, 9, 9, 9, 9, 9, 9, 9, 9, 9};
    static const uint32_t thin[5] = {1, 2, 3, 0, 5};
    static const uint32_t nans[8] = {0x7fc00000, 0x7f800001, 0xffc00000, 0xff800001, 0x7fffffff, 0xffffffff, 0x7fa12345, 0xffedcba9};
    uint32_t u[12];
    float f[8];

    /* E10 */
    number("E10, +X", spunmarrow_corners(1, 0, quad, u), 0);
    same("E10's corners, +X", u, corners_pos, sizeof corners_pos);
    number("E10, -X", spunmarrow_corners(-1, 0, quad, u), 0);
    same("E10's corners, -X", u, corners_neg, sizeof corners_neg);
    /* E11 */
    number("E11", spunmarrow_tex_coords(1, 0, 0, false, quad, f), 0);
    same("E11's pairs", f, pairs, sizeof pairs);
    /* E14 */
    number("E14, the last start", spunmarrow_indices(1, 0, 4294967292u, u), 0);
    number("E14, one more", spunmarrow_indices(1, 0, 4294967293u, u), 13);
    number("indices, +X", spunmarrow_indices(1, 0, 7, u), 0);
    same("indices, +X", u, front, sizeof front);
    number("indices, -X", spunmarrow_indices(-1, 0, 7, u), 0);
    same("indices, -X", u, back, sizeof back);
    /* E15: the coordinate 6 at a size of 0.25 */
    number("E15", spunmarrow_corner(1, 0, quad, 1, 0.25f, f), 0);
    same("E15's position", f, place, sizeof place);
    number("the normal of -Y", spunmarrow_normal(-1, 2, f), 0);
    same("the normal of -Y", f, down, sizeof down);

    /* numbers outside their ranges come first, and out stays as it was */
    memcpy(u, untouched, sizeof u);
    memcpy(f, asis, sizeof f);
    number("corner, permutation 6", spunmarrow_corner(0, 6, thin, 0, NAN, f), 17);
    number("corner, corner 4", spunmarrow_corner(0, 5, thin, 4, NAN, f), 17);
    number("corner, sign 0", spunmarrow_corner(0, 5, thin, 3, NAN, f), 6);
    number("corner, width 0", spunmarrow_corner(1, 5, thin, 3, NAN, f), 12);
    number("corner, size NaN", spunmarrow_corner(1, 5, quad, 3, NAN, f), 14);
    number("corner, size infinite", spunmarrow_corner(1, 5, quad, 3, INFINITY, f), 14);
    number("corners, permutation 4294967295", spunmarrow_corners(2, 4294967295u, thin, u), 17);
    number("corners, sign 2", spunmarrow_corners(2, 0, thin, u), 6);
    number("corners, width 0", spunmarrow_corners(1, 0, thin, u), 12);
    number("normal, permutation 6", spunmarrow_normal(0, 6, f), 17);
    number("normal, sign 0", spunmarrow_normal(0, 0, f), 6);
    number("indices, permutation 6", spunmarrow_indices(0, 6, 4294967295u, u), 17);
    number("indices, sign 0", spunmarrow_indices(0, 0, 4294967295u, u), 6);
    number("tex_coords, permutation 6", spunmarrow_tex_coords(0, 6, 3, true, thin, f), 17);
    number("tex_coords, axis 3", spunmarrow_tex_coords(0, 0, 3, true, thin, f), 17);
    number("tex_coords, sign 0", spunmarrow_tex_coords(0, 0, 2, true, thin, f), 6);
    number("tex_coords, width 0", spunmarrow_tex_coords(1, 0, 2, true, thin, f), 12);
    same("what refused calls leave of floats", f, asis, sizeof asis);
    /* a NaN's bits, quiet or signalling, are not proved to stay */
    memcpy(f, nans, sizeof f);
    number("corner, size NaN, over NaNs", spunmarrow_corner(1, 5, quad, 3, NAN, f), 14);
    number("normal, sign 0, over NaNs", spunmarrow_normal(0, 0, f), 6);
    number("tex_coords, width 0, over NaNs", spunmarrow_tex_coords(1, 0, 2, true, thin, f), 12);
    number("corner, permutation 6, over NaNs", spunmarrow_corner(0, 6, thin, 0, NAN, f), 17);
    same("what refused calls leave of NaNs", f, nans, sizeof nans);
    same("what refused calls leave of numbers", u, untouched, sizeof untouched);
}

static void meshing(void)
{
    static const uint32_t shape[3] = {3, 3, 3}, min[3] = {0, 0, 0}, max[3] = {2, 2, 2}, none[3] = {0, 0, 0};
    static const uint32_t ones[20] = {1, 1, 1, 1, 1, 1, 1, 1, 1, 1, 1, 1, 1, 1, 1, 1, 1, 1, 9, 9};
    uint16_t voxels[27] = {0};
    uint32_t out[20], before[20];
    uint64_t answer[9], wanted[9] = {0, 0, 1, 1, 1, 1, 1, 1, 0}, refused[9] = {0};
    int32_t faces[12];
    int k;

    voxels[13] = 2 * 16384 + 7; /* E1: one opaque voxel in the middle */
    for (k = 0; k < 20; k++)
        out[k] = before[k] = 9;
    memset(answer, 255, sizeof answer);
    spunmarrow_visible_block_faces(shape, min, max, cube, voxels, 27, out, 20, answer);
    same("E1's answer", answer, wanted, sizeof answer);
    same("E1's quads, and what stands past them", out, ones, sizeof out);

    /* a face without a permutation, before anything else */
    memcpy(out, before, sizeof out);
    for (k = 0; k < 6; k++) {
        memcpy(faces, cube, sizeof faces);
        faces[2 * k + 1] = k % 2 ? -1 : 6;
        faces[11] = 77;
        faces[0] = 5;
        memset(answer, 255, sizeof answer);
        refused[0] = 17;
        refused[1] = (uint64_t)k;
        spunmarrow_visible_block_faces(none, max, min, faces, voxels, 0, out, 20, answer);
        same("refusal 17 of a face", answer, refused, sizeof answer);
    }
    /* one past its end is E12's refusal; the quads that fit are there */
    refused[0] = 9;
    refused[1] = 5;
    spunmarrow_visible_block_faces(shape, min, max, cube, voxels, 27, out, 17, answer);
    same("capacity 5", answer, refused, sizeof answer);
    same("the quads that fit", out, ones, 15 * sizeof out[0]);
    same("what stands past them", out + 15, before + 15, 5 * sizeof out[0]);
    /* with a length of 0 nothing is read or written */
    refused[0] = 2;
    refused[1] = 0;
    spunmarrow_visible_block_faces(shape, min, max, cube, NULL, 0, NULL, 0, answer);
    same("no voxels", answer, refused, sizeof answer);
    refused[0] = 9;
    spunmarrow_visible_block_faces(shape, min, max, cube, voxels, 27, NULL, 0, answer);
    same("no output", answer, refused, sizeof answer);
    voxels[13] = 0;
    memset(wanted, 0, sizeof wanted);
    spunmarrow_visible_block_faces(shape, min, max, cube, voxels, 27, NULL, 0, answer);
    same("all empty, with capacity 0", answer, wanted, sizeof answer);
    voxels[26] = 3 * 16384;
    refused[0] = 8;
    refused[1] = 26;
    spunmarrow_visible_block_faces(shape, min, max, cube, voxels, 27, NULL, 0, answer);
    same("a bad voxel", answer, refused, sizeof answer);
}

static void greedy(void)
{
    static const uint32_t shape[3] = {3, 3, 3}, min[3] = {0, 0, 0}, max[3] = {2, 2, 2};
    static const uint32_t ones[31] = {1, 1, 1, 1, 1, 1, 1, 1, 1, 1, 1, 1, 1, 1, 1, 1, 1, 1, 1, 1, 1, 1, 1, 1, 1, 1, 1, 1, 1, 1, 9};
    static const uint8_t used[28] = {[27] = 5};
    uint16_t voxels[27] = {0};
    uint8_t visited[28];
    uint32_t out[31];
    uint64_t answer[9], wanted[9] = {0, 0, 1, 1, 1, 1, 1, 1, 12}, refused[9] = {0};
    int32_t faces[12];
    int k;

    voxels[13] = 2 * 16384 + 7;
    for (k = 0; k < 31; k++)
        out[k] = 9;
    memset(visited, 5, sizeof visited);
    spunmarrow_greedy_quads(shape, min, max, cube, voxels, 27, visited, 28, out, 31, answer);
    same("E1's answer, greedy", answer, wanted, sizeof answer);
    same("E1's quads, greedy, and what stands past them", out, ones, sizeof out);
    same("the visited bytes", visited, used, sizeof visited);
    refused[0] = 7;
    spunmarrow_greedy_quads(shape, min, max, cube, voxels, 27, NULL, 0, out, 31, answer);
    same("no visited bytes", answer, refused, sizeof answer);
    memcpy(faces, cube, sizeof faces);
    faces[7] = 6;
    refused[0] = 17;
    refused[1] = 3;
    memset(visited, 5, sizeof visited);
    spunmarrow_greedy_quads(shape, max, min, faces, NULL, 0, visited, 28, out, 31, answer);
    same("refusal 17 of a face, greedy", answer, refused, sizeof answer);
    for (k = 0; k < 28; k++)
        number("a visited byte after 17", visited[k], 5);
    refused[0] = 9;
    refused[1] = 0;
    spunmarrow_greedy_quads(shape, min, max, cube, voxels, 27, visited, 28, NULL, 0, answer);
    same("no output, greedy", answer, refused, sizeof answer);
}

/* ---- writing */

enum { BESIDE = 8, TEXT = 1024 };

/* A call of the writer into `out_len` bytes, or into NULL where that is 0. The answer is as wanted: accepted with the
 * text, or refused with a place, and every other byte of the output is as it was. */
static void written(const char *what, const int32_t *faces, const uint64_t *counts, const uint32_t *quads,
                    size_t quads_len, size_t out_len, uint64_t refusal, uint64_t place, const char *text)
{
    uint8_t out[BESIDE + TEXT + BESIDE], wanted_out[sizeof out];
    uint64_t answer[5] = {77, 77, 77, 77, 77}, wanted[5] = {77, refusal, place, 0, 77};

    memset(out, '#', sizeof out);
    memset(wanted_out, '#', sizeof out);
    if (refusal == 0) {
        wanted[3] = strlen(text);
        memcpy(wanted_out + BESIDE, text, strlen(text));
    }
    spunmarrow_write_obj(faces, counts, quads, quads_len, out_len == 0 ? NULL : out + BESIDE, out_len, answer + 1);
    same(what, answer, wanted, sizeof answer);
    same(what, out, wanted_out, sizeof out);
}

/* A text with its exact length, a byte more and a byte less. */
static void written_exactly(const char *what, const int32_t *faces, const uint64_t *counts, const uint32_t *quads,
                            size_t quads_len, size_t length, const char *text)
{
    number(what, strlen(text), length);
    written(what, faces, counts, quads, quads_len, length, 0, 0, text);
    written(what, faces, counts, quads, quads_len, length + 1, 0, 0, text);
    written(what, faces, counts, quads, quads_len, length - 1, 15, 0, text);
    written(what, faces, counts, quads, quads_len, 0, 15, 0, text);
}

/* The cube's faces with one number changed. */
static const int32_t *with(int k, int32_t value)
{
    static int32_t faces[12];

    memcpy(faces, cube, sizeof faces);
    faces[k] = value;
    return faces;
}

static void writing(void)
{
    static const char one_text[] = "o mesh\nv 2 1 1\nv 2 2 1\nv 2 1 2\nv 2 2 2\nf 1 2 3\nf 2 4 3\n";
    static const char back[] = "o mesh\nv 1 1 1\nv 1 2 1\nv 1 1 2\nv 1 2 2\nf 1 3 2\nf 2 3 4\n";
    static const char odd[] = "o mesh\nv 2 2 3\nv 2 2 7\nv 2 7 3\nv 2 7 7\nf 1 3 2\nf 2 3 4\n";
    static const char six[] =
        "o mesh\n"
        "v 2 1 1\nv 2 2 1\nv 2 1 2\nv 2 2 2\nf 1 2 3\nf 2 4 3\n"
        "v 1 1 1\nv 1 2 1\nv 1 1 2\nv 1 2 2\nf 5 7 6\nf 6 7 8\n"
        "v 1 2 1\nv 1 2 2\nv 2 2 1\nv 2 2 2\nf 9 10 11\nf 10 12 11\n"
        "v 1 1 1\nv 1 1 2\nv 2 1 1\nv 2 1 2\nf 13 15 14\nf 14 15 16\n"
        "v 1 1 2\nv 2 1 2\nv 1 2 2\nv 2 2 2\nf 17 18 19\nf 18 20 19\n"
        "v 1 1 1\nv 2 1 1\nv 1 2 1\nv 2 2 1\nf 21 23 22\nf 22 23 24\n";
    static const char far[] =
        "o mesh\nv 256 0 255\nv 256 256 255\nv 256 0 256\nv 256 256 256\nf 1 2 3\nf 2 4 3\n";
    static const uint64_t none[6] = {0}, first[6] = {1}, second[6] = {0, 1}, both[6] = {1, 1}, two[6] = {2};
    static const uint64_t each[6] = {1, 1, 1, 1, 1, 1}, last[6] = {0, 0, 0, 0, 0, 1}, sixth[6] = {1, 0, 0, 0, 0, 1};
    static const uint64_t quarter = UINT64_C(1) << 62;
    const uint64_t wraps[][6] = {{UINT64_MAX, 1},
                                 {UINT64_MAX, 0, 0, 0, 0, 2},
                                 {0, 0, 0, 0, 1, UINT64_MAX},
                                 {2 * quarter, 2 * quarter},
                                 {quarter, quarter, quarter, quarter, 1, 1},
                                 {UINT64_MAX},
                                 {0, 0, 0, 0, 0, UINT64_MAX}};
    static const uint32_t ones[31] = {1, 1, 1, 1, 1, 1, 1, 1, 1, 1, 1, 1, 1, 1, 1, 1,
                                      1, 1, 1, 1, 1, 1, 1, 1, 1, 1, 1, 1, 1, 1, 0};
    static const uint32_t thin[5] = {1, 1, 1, 0, 1}, then_thin[10] = {1, 1, 1, 1, 1, 1, 1, 1, 0, 1};
    static const uint32_t far_quad[5] = {255, 0, 255, 256, 1}, past[5] = {256, 0, 0, 1, 1};
    static const uint32_t wide_u[5] = {0, 1, 0, 256, 1}, wide_y[5] = {200, 0, 200, 56, 256};
    uint32_t quads[30];
    uint8_t visited[27];
    uint16_t voxels[27] = {[13] = 2 * 16384 + 7};
    static const uint32_t shape[3] = {3, 3, 3}, min[3] = {0, 0, 0}, max[3] = {2, 2, 2};
    uint64_t mesh[SPUNMARROW_ANSWER_NUMBERS];
    size_t k;

    /* one quad: its text into 55 bytes, 56 and 54; the quads past the counts' sum and a part quad are not read */
    written_exactly("one quad on +X", cube, first, ones, 5, 55, one_text);
    written("one quad on +X, a part quad past it", cube, first, ones, 9, 55, 0, 0, one_text);
    written("one quad on +X, a bad quad past it", cube, first, then_thin, 10, 55, 0, 0, one_text);
    written("one quad on -X", with(0, -1), first, ones, 5, 55, 0, 0, back);
    written("one quad in the second group", cube, second, ones, 5, 55, 0, 0, back);
    written_exactly("one quad on +X by Xzy", with(1, 4), first, quad, 5, 55, odd);
    written_exactly("a quad as far out as may be", cube, first, far_quad, 5, strlen(far), far);
    /* no quads, with and without a list */
    written_exactly("no quads", cube, none, NULL, 0, 7, "o mesh\n");
    written("no quads of a list of bad ones", cube, none, thin, 5, 7, 0, 0, "o mesh\n");
    /* E1's six quads, by hand and as greedy meshing leaves them */
    written_exactly("E1's quads", cube, each, ones, 30, 318, six);
    spunmarrow_greedy_quads(shape, min, max, cube, voxels, 27, visited, 27, quads, 30, mesh);
    written("E1, meshed and written", cube, mesh + SPUNMARROW_ANSWER_COUNTS, quads, 30, 318, 0, 0, six);

    /* 24: the counts' sum is mathematical */
    written("two quads in nine numbers", cube, two, ones, 9, 0, 24, 0, "");
    written("one quad of no list", cube, last, NULL, 0, TEXT, 24, 0, "");
    written("seven quads in a list of six", cube, (const uint64_t[6]){1, 1, 1, 1, 1, 2}, ones, 31, TEXT, 24, 0, "");
    for (k = 0; k < sizeof wraps / sizeof *wraps; k++) {
        written("counts past 64 bits, no list", cube, wraps[k], NULL, 0, TEXT, 24, 0, "");
        written("counts past 64 bits", cube, wraps[k], ones, 30, TEXT, 24, 0, "");
    }

    /* the order: 24, 6, 12, 15, each with all that come after it */
    written("four numbers, sign 0, width 0, no output", with(10, 0), first, thin, 4, 0, 24, 0, "");
    written("sign 0 of an empty group, width 0, no output", with(10, 0), first, thin, 5, 0, 6, 5, "");
    written("width 0, no output", cube, first, thin, 5, 0, 12, 0, "");
    written("no output", cube, first, ones, 5, 0, 15, 0, "");
    /* 17 before all */
    for (k = 0; k < 6; k++) {
        int32_t faces[12];

        memcpy(faces, cube, sizeof faces);
        faces[0] = 0;
        faces[11] = 6;
        faces[2 * k + 1] = k % 2 ? -1 : 6;
        written("a permutation's number", faces, wraps[0], thin, 5, 0, 17, k, "");
    }
    /* 6: the first face, also where its group is empty; two signs */
    for (k = 0; k < 6; k++) {
        int32_t faces[12];

        memcpy(faces, cube, sizeof faces);
        faces[10] = INT32_MIN;
        faces[2 * k] = k % 2 ? 2 : -2;
        written("a sign, no quads", faces, none, NULL, 0, TEXT, 6, k, "");
    }
    /* 12: by the quad's own group, its number over the whole list */
    written("the second quad's width 0", cube, both, then_thin, 10, TEXT, 12, 1, "");
    written("the second quad's width 0, in the last group", cube, sixth, then_thin, 10, TEXT, 12, 1, "");
    written("a minimum of 256", cube, first, past, 5, TEXT, 12, 0, "");
    written("256 wide along z, on +Y", cube, (const uint64_t[6]){0, 0, 1}, wide_u, 5, TEXT, 0, 0,
            "o mesh\nv 0 2 0\nv 0 2 256\nv 1 2 0\nv 1 2 256\nf 1 2 3\nf 2 4 3\n");
    written("256 wide along y from 1, on +X", cube, first, wide_u, 5, TEXT, 12, 0, "");
    written("256 high along y, on +Z", cube, (const uint64_t[6]){0, 0, 0, 0, 1}, wide_y, 5, TEXT, 0, 0,
            "o mesh\nv 200 0 201\nv 256 0 201\nv 200 256 201\nv 256 256 201\nf 1 2 3\nf 2 4 3\n");
    written("256 high along z from 200, on +X", cube, first, wide_y, 5, TEXT, 12, 0, "");
    for (k = 0; k < 5; k++) { /* 4294967295 does not wrap round to a small number */
        uint32_t large[5] = {1, 1, 1, 1, 1};

        large[k] = UINT32_MAX;
        written("a number of 4294967295", cube, first, large, 5, TEXT, 12, 0, "");
    }
}

/* The digits of a number: in a scratch that is long enough, exactly as long, a byte too short, and none. */
static void digits(uint32_t n, const char *text)
{
    size_t length = strlen(text), room;

    for (room = 0; room <= 12; room++) {
        uint8_t scratch[14] = "zzzzzzzzzzzzz", wanted[14] = "zzzzzzzzzzzzz";

        if (room >= length)
            memcpy(wanted + 1, text, length);
        number(text, spunmarrow_decimal(n, room == 0 ? NULL : scratch + 1, room), room < length ? 0 : length);
        same(text, scratch, wanted, sizeof scratch);
    }
}

static void decimals(void)
{
    uint32_t power = 1;
    char text[16];

    digits(0, "0");
    digits(7, "7");
    digits(10, "10");
    digits(4294967292u, "4294967292");
    digits(UINT32_MAX, "4294967295");
    for (;; power *= 10) {
        snprintf(text, sizeof text, "%" PRIu32, power);
        digits(power, text);
        snprintf(text, sizeof text, "%" PRIu32, power - 1);
        digits(power - 1, text);
        if (power == 1000000000)
            break;
    }
}

/* A refused call that takes its time, which is said. */
static void written_slowly(const char *what, const int32_t *faces, const uint64_t *counts, const uint32_t *quads,
                           size_t quads_len, uint64_t refusal, uint64_t place)
{
    clock_t began = clock();

    written(what, faces, counts, quads, quads_len, TEXT, refusal, place, "");
    printf("%s: %.0f s of processor time\n", what, (double)(clock() - began) / CLOCKS_PER_SEC);
    fflush(stdout);
}

/* One file of 10 MiB, 524,288 quads of ones, mapped 2,048 times in a row: 2 to the 30th quads, one more than an OBJ
 * text may have. */
static void large(void)
{
    enum { PIECE = 10 << 20, PIECES = 2048 };
    static const uint64_t many = UINT64_C(1) << 30, most = (UINT64_C(1) << 30) - 1;
    size_t length = (size_t)PIECE * PIECES, i;
    int fd = memfd_create("quads", 0);
    uint8_t *list = mmap(NULL, length, PROT_NONE, MAP_PRIVATE | MAP_ANONYMOUS | MAP_NORESERVE, -1, 0);
    uint32_t *ones, *quads = (uint32_t *)(void *)list;
    uint64_t counts[6] = {0};

    if (fd < 0 || list == MAP_FAILED || ftruncate(fd, PIECE) != 0) {
        failed++;
        printf("no room for the list\n");
        return;
    }
    for (i = 0; i < PIECES; i++) /* the last piece by itself, so that a quad of it can be changed */
        if (mmap(list + i * PIECE, PIECE, PROT_READ | PROT_WRITE,
                 (i + 1 < PIECES ? MAP_SHARED : MAP_PRIVATE) | MAP_FIXED, fd, 0) == MAP_FAILED) {
            failed++;
            printf("the list can't be mapped\n");
            return;
        }
    ones = quads;
    for (i = 0; i < PIECE / sizeof *ones; i++)
        ones[i] = 1;
    length /= sizeof *quads;
    counts[0] = 1;
    counts[5] = many;
    written("one quad more than the list holds", cube, counts, quads, length, TEXT, 24, 0, "");
    counts[5] = most;
    written_slowly("2 to the 30th quads", cube, counts, quads, length, 13, 0);
    quads[length - 1] = 0;
    written_slowly("2 to the 30th quads, the last of height 0", cube, counts, quads, length, 12, most);
    counts[5] = most - 1;
    written_slowly("1,073,741,823 quads", cube, counts, quads, length, 15, 0);
    munmap(list, length * sizeof *quads);
    close(fd);
}

int main(int argc, char **argv)
{
    if (argc > 2 || (argc == 2 && strcmp(argv[1], "--large") != 0)) {
        fprintf(stderr, "usage: check [--large]\n");
        return 2;
    }
    if (argc == 2) {
        large();
    } else {
        drawing();
        meshing();
        greedy();
        writing();
        decimals();
    }
    printf("%d checks, %d failed\n", checks, failed);
    return failed != 0;
}
