/* A second reading of document 01, 'Voxels and their places', 'Unit meshing', 'Greedy meshing' and 'Refusal numbers', written
   apart from the product and from the Rust. It is not the oracle.

   It goes by points and never by strides: a neighbour is a point plus a vector, a slice is all interior points with one n, and
   a point is visited when a quad of its group contains it. It is slow. */
#include "reading.h"
#include "axes.h"
#include <stdlib.h>
#include <string.h>

struct call {
    bool greedy;
    const uint32_t *shape, *min, *max;
    const int32_t *faces;
    const uint16_t *voxels;
    uint64_t voxels_len, visited_len, out_len;
};

/* ---- points */

struct point {
    int64_t at[3];
};

static uint64_t size_of(const struct call *c) { return (uint64_t)c->shape[0] * c->shape[1] * c->shape[2]; }

static uint64_t index_of(const struct call *c, struct point p) {
    return (uint64_t)(p.at[0] + c->shape[0] * p.at[1] + (int64_t)c->shape[0] * c->shape[1] * p.at[2]);
}

static struct point point_of(const struct call *c, uint64_t index) {
    struct point p = {{(int64_t)(index % c->shape[0]), (int64_t)(index / c->shape[0] % c->shape[1]),
                       (int64_t)(index / c->shape[0] / c->shape[1])}};
    return p;
}

/* "The box is min to max, max included"; the interior is the box with `in` = 1. */
static bool inside(const struct call *c, struct point p, int64_t in) {
    for (int axis = 0; axis < 3; axis++)
        if (p.at[axis] < c->min[axis] + in || p.at[axis] > c->max[axis] - in) return false;
    return true;
}

static struct point moved(struct point p, int axis, int64_t by) {
    p.at[axis] += by;
    return p;
}

/* ---- voxels */

enum { EMPTY, TRANSLUCENT, OPAQUE, BAD };

static int class_of(uint16_t voxel) { return voxel / 16384; }
static int merge_value_of(uint16_t voxel) { return voxel % 16384; }
static uint16_t voxel_at(const struct call *c, struct point p) { return c->voxels[index_of(c, p)]; }

static bool visible(const struct call *c, int face, struct point p) {
    int own = class_of(voxel_at(c, p));
    int next = class_of(voxel_at(c, moved(p, N_OF((uint32_t)c->faces[2 * face + 1]), c->faces[2 * face])));
    return own != EMPTY && (next == EMPTY || (next == TRANSLUCENT && own == OPAQUE));
}

/* ---- the list of quads: five numbers each, x, y, z, width, height; all groups end to end */

struct list {
    uint32_t (*quads)[5];
    uint64_t count, room;
};

static void append(struct list *l, struct point p, uint32_t width, uint32_t height) {
    if (l->count == l->room) {
        l->room = 2 * l->room + 64;
        l->quads = realloc(l->quads, l->room * sizeof *l->quads);
        if (l->quads == NULL) abort();
    }
    uint32_t *quad = l->quads[l->count++];
    for (int axis = 0; axis < 3; axis++) quad[axis] = (uint32_t)p.at[axis];
    quad[3] = width;
    quad[4] = height;
}

/* ---- unit meshing */

static void unit_group(const struct call *c, int face, struct list *l) {
    for (uint64_t index = 0; index < size_of(c); index++) {
        struct point p = point_of(c, index);
        if (inside(c, p, 1) && visible(c, face, p)) append(l, p, 1, 1);
    }
}

/* ---- greedy meshing */

/* One group while it is made: its quads are those of the list from `first`. */
struct group {
    const struct call *c;
    int face, n, u, v;
    struct list *l;
    uint64_t first, tests;
};

static bool visited(const struct group *g, struct point p) {
    for (uint64_t i = g->l->count; i > g->first; i--) {
        const uint32_t *q = g->l->quads[i - 1];
        if (p.at[g->n] == q[g->n] && p.at[g->u] >= q[g->u] && p.at[g->u] < (int64_t)q[g->u] + q[3] && p.at[g->v] >= q[g->v] &&
            p.at[g->v] < (int64_t)q[g->v] + q[4])
            return true;
    }
    return false;
}

/* "Each voxel is tested: not empty, not visited, face visible." */
static bool tested(struct group *g, struct point p) {
    g->tests++;
    return class_of(voxel_at(g->c, p)) != EMPTY && !visited(g, p) && visible(g->c, g->face, p);
}

/* "Walk along +u .., testing each voxel, also its merge value against the first one's; stop at the first failure or at the
   slice's edge." At most `most` voxels. */
static uint32_t row(struct group *g, struct point from, int merge_value, uint32_t most) {
    uint32_t width = 0;
    while (width < most) {
        struct point p = moved(from, g->u, width);
        if (!inside(g->c, p, 1)) break;
        if (!tested(g, p) || merge_value_of(voxel_at(g->c, p)) != merge_value) break;
        width++;
    }
    return width;
}

static void rectangle(struct group *g, struct point p) {
    int merge_value = merge_value_of(voxel_at(g->c, p));
    uint32_t width = row(g, p, merge_value, UINT32_MAX), height = 1;
    for (;;) {
        struct point next = moved(p, g->v, height);
        if (!inside(g->c, next, 1) || row(g, next, merge_value, width) < width) break;
        height++;
    }
    append(g->l, p, width, height);
}

/* "Slices go from low n to high n. In a slice, in scan order": z outermost, x innermost, with n held at the slice. */
static uint64_t greedy_group(const struct call *c, int face, struct list *l) {
    uint32_t permutation = (uint32_t)c->faces[2 * face + 1];
    struct group g = {c, face, N_OF(permutation), U_OF(permutation), V_OF(permutation), l, l->count, 0};
    for (int64_t slice = c->min[g.n] + 1LL; slice < c->max[g.n]; slice++) {
        int64_t from[3], to[3];
        for (int axis = 0; axis < 3; axis++) {
            from[axis] = axis == g.n ? slice : c->min[axis] + 1LL;
            to[axis] = axis == g.n ? slice : c->max[axis] - 1LL;
        }
        for (int64_t z = from[2]; z <= to[2]; z++)
            for (int64_t y = from[1]; y <= to[1]; y++)
                for (int64_t x = from[0]; x <= to[0]; x++) {
                    struct point p = {{x, y, z}};
                    if (tested(&g, p)) rectangle(&g, p);
                }
    }
    return g.tests;
}

/* ---- refusals: one function each. It says whether the refusal applies where those before it do not, and at which place. */

static bool no_17(const struct call *c, uint64_t *place) {
    for (*place = 0; *place < 6; ++*place)
        if (c->faces[2 * *place + 1] < 0 || c->faces[2 * *place + 1] > 5) return true;
    return false;
}

static bool no_1(const struct call *c, uint64_t *place) {
    for (*place = 0; *place < 3; ++*place)
        if (c->shape[*place] == 0 || c->shape[*place] > 256) return true;
    return false;
}

static bool no_2(const struct call *c, uint64_t *place) {
    *place = 0;
    return c->voxels_len < size_of(c);
}

static bool no_3(const struct call *c, uint64_t *place) {
    for (*place = 0; *place < 3; ++*place)
        if (c->min[*place] > c->max[*place]) return true;
    return false;
}

static bool no_4(const struct call *c, uint64_t *place) {
    for (*place = 0; *place < 3; ++*place)
        if (c->max[*place] >= c->shape[*place]) return true;
    return false;
}

static bool no_5(const struct call *c, uint64_t *place) {
    for (*place = 0; *place < 3; ++*place)
        if (c->min[*place] == c->max[*place]) return true;
    return false;
}

static bool no_6(const struct call *c, uint64_t *place) {
    for (*place = 0; *place < 6; ++*place)
        if (c->faces[2 * *place] != 1 && c->faces[2 * *place] != -1) return true;
    return false;
}

static bool no_7(const struct call *c, uint64_t *place) {
    *place = 0;
    return c->greedy && c->visited_len < size_of(c);
}

static bool no_8(const struct call *c, uint64_t *place) {
    for (*place = 0; *place < size_of(c); ++*place)
        if (inside(c, point_of(c, *place), 0) && class_of(c->voxels[*place]) == BAD) return true;
    return false;
}

static const struct {
    uint64_t number;
    bool (*applies)(const struct call *, uint64_t *);
} refusals[] = {{17, no_17}, {1, no_1}, {2, no_2}, {3, no_3}, {4, no_4}, {5, no_5}, {6, no_6}, {7, no_7}, {8, no_8}};

/* ---- the two calls */

static void mesh(const struct call *c, uint8_t *visited_bytes, uint32_t *out, uint64_t answer[9]) {
    memset(answer, 0, 9 * sizeof answer[0]);
    for (size_t i = 0; i < sizeof refusals / sizeof refusals[0]; i++) {
        uint64_t place;
        if (refusals[i].applies(c, &place)) {
            answer[0] = refusals[i].number;
            answer[1] = place;
            return;
        }
    }

    struct list l = {NULL, 0, 0};
    uint64_t counts[6], tests = 0;
    for (int face = 0; face < 6; face++) {
        uint64_t before = l.count;
        if (c->greedy)
            tests += greedy_group(c, face, &l);
        else
            unit_group(c, face, &l);
        counts[face] = l.count - before;
    }

    uint64_t numbers = c->greedy ? 5 : 3, capacity = c->out_len / numbers;
    for (uint64_t i = 0; i < l.count && i < capacity; i++)
        for (uint64_t k = 0; k < numbers; k++) out[numbers * i + k] = l.quads[i][k];
    if (c->greedy) memset(visited_bytes, 0, size_of(c));

    if (l.count > capacity) {
        answer[0] = 9;
        answer[1] = capacity;
    } else {
        memcpy(answer + 2, counts, sizeof counts);
        answer[8] = tests;
    }
    free(l.quads);
}

void reading_greedy_quads(const uint32_t shape[3], const uint32_t min[3], const uint32_t max[3], const int32_t faces[12],
                          const uint16_t *voxels, size_t voxels_len, uint8_t *visited_bytes, size_t visited_len,
                          uint32_t *out, size_t out_len, uint64_t answer[9]) {
    struct call c = {true, shape, min, max, faces, voxels, voxels_len, visited_len, out_len};
    mesh(&c, visited_bytes, out, answer);
}

void reading_visible_block_faces(const uint32_t shape[3], const uint32_t min[3], const uint32_t max[3], const int32_t faces[12],
                                 const uint16_t *voxels, size_t voxels_len, uint32_t *out, size_t out_len, uint64_t answer[9]) {
    struct call c = {false, shape, min, max, faces, voxels, voxels_len, 0, out_len};
    mesh(&c, NULL, out, answer);
}
