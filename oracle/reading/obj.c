/* A second reading of document 02, request 1 (Wavefront OBJ), written apart from the product. It is not the oracle.

   It makes the text line by line by the C library's own formatting, in memory of its own, and copies it to the output only
   whole, where it fits. Corners, indices and quad limits are those of the second reading of document 01 (geometry.c). */
#include "reading.h"
#include <inttypes.h>
#include <stdio.h>
#include <stdlib.h>
#include <string.h>

struct call {
    const int32_t *faces;
    const uint64_t *counts;
    const uint32_t *quads;
    uint64_t quads_len, out_len;
};

/* "Mathematical" sums: six numbers below 2 to the 64th stay far below 2 to the 128th. */
typedef unsigned __int128 whole;

static whole quads_of(const struct call *c) {
    whole sum = 0;
    for (int group = 0; group < 6; group++) sum += c->counts[group];
    return sum;
}

/* ---- the groups, one after the other: for each quad `each` gets its face, the quad and its number over the whole list. The
   walk ends at the first quad for which it answers true; then `number` is that quad's. */

typedef bool each_quad(int32_t sign, uint32_t permutation, const uint32_t quad[5], uint64_t number, void *with);

static bool first_quad(const struct call *c, each_quad *each, void *with, uint64_t *number) {
    const uint32_t *quad = c->quads;
    *number = 0;
    for (int group = 0; group < 6; group++)
        for (uint64_t left = c->counts[group]; left > 0; left--, quad += 5, ++*number)
            if (each(c->faces[2 * group], (uint32_t)c->faces[2 * group + 1], quad, *number, with)) return true;
    return false;
}

/* ---- the text so far. What is longer than the output is not kept: how much longer it is does not matter. */

struct text {
    char *bytes;
    uint64_t length, room, most;
};

static bool too_long(const struct text *t) { return t->length > t->most; }

static void add(struct text *t, const char *line) {
    uint64_t more = strlen(line);
    if (t->length + more > t->room) {
        t->room = 2 * (t->length + more) + 256;
        t->bytes = realloc(t->bytes, t->room);
        if (t->bytes == NULL) abort();
    }
    memcpy(t->bytes + t->length, line, more);
    t->length += more;
}

/* "v" or "f", three numbers and one line feed. */
static void add_line(struct text *t, char what, uint32_t a, uint32_t b, uint32_t c) {
    char line[64];
    snprintf(line, sizeof line, "%c %" PRIu32 " %" PRIu32 " %" PRIu32 "\n", what, a, b, c);
    add(t, line);
}

/* "Four v lines with the integer corners and two f lines with the indices of document 01 counted from 1; quad k (from 0) starts
   at index 4k." */
static bool add_quad(int32_t sign, uint32_t permutation, const uint32_t quad[5], uint64_t number, void *with) {
    struct text *t = with;
    uint32_t at[12], i[6];
    if (reading_corners(sign, permutation, quad, at) != 0) abort();
    if (reading_indices(sign, permutation, (uint32_t)(4 * number), i) != 0) abort();
    for (int k = 0; k < 12; k += 3) add_line(t, 'v', at[k], at[k + 1], at[k + 2]);
    for (int k = 0; k < 6; k += 3) add_line(t, 'f', i[k] + 1, i[k + 1] + 1, i[k + 2] + 1);
    return too_long(t);
}

/* ---- refusals: one function each. It says whether the refusal applies where those before it do not, and at which place. */

static bool no_17(const struct call *c, uint64_t *place) {
    for (*place = 0; *place < 6; ++*place)
        if (c->faces[2 * *place + 1] < 0 || c->faces[2 * *place + 1] > 5) return true;
    return false;
}

/* "Counts that sum to more than the lent list holds": a part of a quad at its end is no quad. */
static bool no_24(const struct call *c, uint64_t *place) {
    *place = 0;
    return quads_of(c) > c->quads_len / 5;
}

/* All six faces, those of empty groups too. */
static bool no_6(const struct call *c, uint64_t *place) {
    for (*place = 0; *place < 6; ++*place)
        if (c->faces[2 * *place] != 1 && c->faces[2 * *place] != -1) return true;
    return false;
}

static bool bad_quad(int32_t sign, uint32_t permutation, const uint32_t quad[5], uint64_t number, void *with) {
    uint32_t at[12];
    (void)number;
    (void)with;
    return reading_corners(sign, permutation, quad, at) == 12;
}

static bool no_12(const struct call *c, uint64_t *place) { return first_quad(c, bad_quad, NULL, place); }

static bool no_13(const struct call *c, uint64_t *place) {
    *place = 0;
    return quads_of(c) > 1073741823;
}

static const struct {
    uint64_t number;
    bool (*applies)(const struct call *, uint64_t *);
} refusals[] = {{17, no_17}, {24, no_24}, {6, no_6}, {12, no_12}, {13, no_13}};

/* ---- the two calls */

void reading_write_obj(const int32_t faces[12], const uint64_t counts[6], const uint32_t *quads, size_t quads_len, uint8_t *out,
                       size_t out_len, uint64_t answer[3]) {
    struct call c = {faces, counts, quads, quads_len, out_len};
    memset(answer, 0, 3 * sizeof answer[0]);
    for (size_t i = 0; i < sizeof refusals / sizeof refusals[0]; i++) {
        uint64_t place;
        if (refusals[i].applies(&c, &place)) {
            answer[0] = refusals[i].number;
            answer[1] = place;
            return;
        }
    }

    struct text t = {NULL, 0, 0, out_len};
    uint64_t number;
    add(&t, "o mesh\n");
    if (!too_long(&t)) first_quad(&c, add_quad, &t, &number);
    if (too_long(&t)) {
        answer[0] = 15;
    } else {
        memcpy(out, t.bytes, t.length);
        answer[2] = t.length;
    }
    free(t.bytes);
}

/* "Filled from its start; an empty part means 15, too short, unchanged." */
size_t reading_decimal(uint32_t n, uint8_t *scratch, size_t scratch_len) {
    char digits[16];
    size_t length = (size_t)snprintf(digits, sizeof digits, "%" PRIu32, n);
    if (length > scratch_len) return 0;
    memcpy(scratch, digits, length);
    return length;
}
