/* Hostile calls of every function of include/spunmarrow.h. Each buffer, the small arrays as well, lies flush against a page that may not be touched, before it or behind it; what is
 * const lies on pages that may not be written. Afterwards all that the call left is compared with the second reading of documents 01 and 02 (oracle/reading) and with the header's words.
 *
 * A room is some pages between two that may not be touched. Its pages are mapped twice: as they are lent, which is read-only for what is const, and as the driver writes them.
 */
#define _GNU_SOURCE
#include "common.h"
#include "reading.h"
#include "spunmarrow.h"

#include <stdio.h>
#include <stdlib.h>
#include <string.h>
#include <sys/mman.h>
#include <unistd.h>
#include <xmmintrin.h>

const char *const target_name = "the C interface";

/* ---- rooms */

enum kind { SHAPE, MIN, MAX, FACES, VOXELS, VISITED, OUT, ANSWER, QUAD, DRAWN, COUNTS, LIST, TEXT, SCRATCH, KINDS };
static const int read_only[KINDS] = {1, 1, 1, 1, 1, 0, 0, 0, 1, 0, 1, 1, 0, 0};
static const int classes[KINDS] = {1, 1, 1, 1, 5, 4, 9, 1, 1, 1, 1, 5, 9, 1}; /* a room of 1, 2, 4, .. pages each */

struct room {
    uint8_t *lent, *mine;
    size_t size;
};
#define CLASSES 9
static struct room rooms[KINDS][CLASSES];
static size_t page;
static uint8_t *canary; /* what a room holds at rest */

static struct room make_room(size_t size, int const_room)
{
    struct room r;
    uint8_t *around = mmap(NULL, size + 2 * page, PROT_NONE, MAP_PRIVATE | MAP_ANONYMOUS | MAP_NORESERVE, -1, 0);
    int fd = memfd_create("room", 0);

    if (around == MAP_FAILED || fd < 0 || ftruncate(fd, (off_t)size) != 0)
        abort();
    r.size = size;
    r.lent = mmap(around + page, size, const_room ? PROT_READ : PROT_READ | PROT_WRITE, MAP_SHARED | MAP_FIXED, fd, 0);
    r.mine = mmap(NULL, size, PROT_READ | PROT_WRITE, MAP_SHARED, fd, 0);
    if (r.lent == MAP_FAILED || r.mine == MAP_FAILED)
        abort();
    close(fd);
    memcpy(r.mine, canary, size);
    return r;
}

/* ---- figures */

enum function { GREEDY, UNIT, CORNER, CORNERS, NORMAL, INDICES, TEX, WRITE, DECIMAL, FUNCTIONS };
static const char *const names[FUNCTIONS] = {"spunmarrow_greedy_quads", "spunmarrow_visible_block_faces", "spunmarrow_corner", "spunmarrow_corners",
                                             "spunmarrow_normal", "spunmarrow_indices", "spunmarrow_tex_coords", "spunmarrow_write_obj", "spunmarrow_decimal"};
#define NUMBERS 25
static uint64_t by_number[FUNCTIONS][NUMBERS], inputs, quads_listed, accepted_with_quads, quads_written, bytes_written, flush_end, flush_start, no_memory, long_lengths, overlapping;

/* ---- the call under way */

static struct {
    enum function function;
    uint32_t shape[3], min[3], max[3], quad[5];
    int32_t faces[12];
    uint64_t counts[6];
    uint64_t lengths[3]; /* voxels, visited, out; of the writer the list, none, out */
    const void *at[3];
    int32_t sign;
    uint32_t permutation, number, flip; /* number: the corner, the start, the axis, or what is spelled */
    float size;
} now;

void target_describe(int fd)
{
    uint32_t bits;
    int i;

    dprintf(fd, "fire: call %s", names[now.function]);
    if (now.function == GREEDY || now.function == UNIT) {
        dprintf(fd, " shape %u %u %u min %u %u %u max %u %u %u faces", now.shape[0], now.shape[1], now.shape[2], now.min[0], now.min[1], now.min[2], now.max[0], now.max[1], now.max[2]);
        for (i = 0; i < 12; i++)
            dprintf(fd, " %d", now.faces[i]);
        dprintf(fd, " voxels %p length %llu visited %p length %llu out %p length %llu\n", now.at[0], (unsigned long long)now.lengths[0], now.at[1], (unsigned long long)now.lengths[1],
                now.at[2], (unsigned long long)now.lengths[2]);
        return;
    }
    if (now.function == WRITE) {
        dprintf(fd, " faces");
        for (i = 0; i < 12; i++)
            dprintf(fd, " %d", now.faces[i]);
        dprintf(fd, " counts");
        for (i = 0; i < 6; i++)
            dprintf(fd, " %llu", (unsigned long long)now.counts[i]);
        dprintf(fd, " quads %p length %llu out %p length %llu\n", now.at[0], (unsigned long long)now.lengths[0], now.at[2], (unsigned long long)now.lengths[2]);
        return;
    }
    if (now.function == DECIMAL) {
        dprintf(fd, " number %u scratch %p length %llu\n", now.number, now.at[2], (unsigned long long)now.lengths[2]);
        return;
    }
    memcpy(&bits, &now.size, sizeof bits);
    dprintf(fd, " sign %d permutation %u quad %u %u %u %u %u corner, start or axis %u size by its bits %08x flip %u\n", now.sign, now.permutation, now.quad[0], now.quad[1],
            now.quad[2], now.quad[3], now.quad[4], now.number, bits, now.flip);
}

void target_report(int fd)
{
    static const int shown[] = {1, 2, 3, 4, 5, 6, 7, 8, 9, 12, 13, 14, 15, 17, 24};
    uint64_t all = 0, calls;
    int f;
    size_t i;

    for (f = 0; f < FUNCTIONS; f++) {
        calls = 0;
        for (i = 0; i < NUMBERS; i++)
            calls += by_number[f][i];
        all += calls;
        dprintf(fd, "fire: %s: %llu calls, %llu accepted; refused", names[f], (unsigned long long)calls, (unsigned long long)by_number[f][0]);
        for (i = 0; i < sizeof shown / sizeof shown[0]; i++)
            if (by_number[f][shown[i]] != 0)
                dprintf(fd, " by %d: %llu", shown[i], (unsigned long long)by_number[f][shown[i]]);
        dprintf(fd, "\n");
    }
    dprintf(fd, "fire: of the accepted calls of the meshers %llu listed quads, %llu in all; the writer wrote %llu quads in %llu bytes\n", (unsigned long long)accepted_with_quads,
            (unsigned long long)quads_listed, (unsigned long long)quads_written, (unsigned long long)bytes_written);
    dprintf(fd, "fire: buffers flush against the page behind them %llu, against the page before them %llu, of length 0 and nowhere %llu; lengths past the memory lent %llu; read-only buffers that overlap %llu\n",
            (unsigned long long)flush_end, (unsigned long long)flush_start, (unsigned long long)no_memory, (unsigned long long)long_lengths, (unsigned long long)overlapping);
    dprintf(fd, "fire: %llu inputs, %llu calls of the C interface\n", (unsigned long long)inputs, (unsigned long long)all);
}

/* ---- leases: a buffer in a room */

struct lease {
    struct room *room;
    size_t from, bytes;
    int at_end;
    uint8_t *lent, *mine;
};

/* A buffer of so many bytes, at the room's end or at its start. */
static struct lease lend(struct bytes *b, enum kind kind, size_t bytes)
{
    struct lease l;
    int class = 0;

    while (rooms[kind][class].size < bytes)
        if (++class >= classes[kind])
            abort();
    l.room = &rooms[kind][class];
    l.bytes = bytes;
    l.at_end = chance(b, 160);
    l.from = l.at_end ? l.room->size - bytes : 0;
    l.lent = l.room->lent + l.from;
    l.mine = l.room->mine + l.from;
    return l;
}

static struct lease lend_copy(struct bytes *b, enum kind kind, const void *of, size_t bytes)
{
    struct lease l = lend(b, kind, bytes);

    memcpy(l.mine, of, bytes);
    return l;
}

/* What the call is handed. */
static void *hand(const struct lease *l)
{
    if (l->at_end)
        flush_end++;
    else
        flush_start++;
    return l->lent;
}

/* Takes a buffer back: nothing beside it has changed, and the room is at rest again. */
static void take_back(struct lease *l, const char *what)
{
    size_t end = l->from + l->bytes;

    if (memcmp(l->room->mine, canary, l->from) != 0 || memcmp(l->room->mine + end, canary + end, l->room->size - end) != 0)
        finding("bytes beside %s were written", what);
    memcpy(l->mine, canary + l->from, l->bytes);
}

/* Any pointer will do where the length is 0. */
static void *nowhere(struct bytes *b, enum kind kind)
{
    no_memory++;
    switch (draw_below(b, 5)) {
    case 0: return NULL;
    case 1: return (void *)1;
    case 2: return (void *)0xDEAD00000000BEEFu;
    case 3: return (void *)UINTPTR_MAX;
    default: return rooms[kind][0].lent + rooms[kind][0].size;
    }
}

/* ---- the call itself, through a few instructions that fill the registers that a function must keep, and look at them afterwards */

uint64_t fire_broken, fire_stack;
void *fire_target;
void fire_through(void);
__asm__(".pushsection .text\n"
        ".globl fire_through\n"
        "fire_through:\n"
        "  push %rbp\n  push %rbx\n  push %r12\n  push %r13\n  push %r14\n  push %r15\n"
        "  pushq 88(%rsp)\n  pushq 88(%rsp)\n  pushq 88(%rsp)\n  pushq 88(%rsp)\n  pushq 88(%rsp)\n"
        "  mov %rsp, fire_stack(%rip)\n"
        "  movabs $0x1B1B1B1B1B1B1B1B, %rbp\n  movabs $0x2B2B2B2B2B2B2B2B, %rbx\n  movabs $0x3C3C3C3C3C3C3C3C, %r12\n"
        "  movabs $0x4D4D4D4D4D4D4D4D, %r13\n  movabs $0x5E5E5E5E5E5E5E5E, %r14\n  movabs $0x6F6F6F6F6F6F6F6F, %r15\n"
        "  call *fire_target(%rip)\n"
        "  pushfq\n  pop %rdx\n  and $0x400, %edx\n  cld\n"
        "  mov fire_stack(%rip), %rcx\n  xor %rsp, %rcx\n  or %rcx, %rdx\n  mov fire_stack(%rip), %rsp\n"
        "  movabs $0x1B1B1B1B1B1B1B1B, %rcx\n  xor %rbp, %rcx\n  or %rcx, %rdx\n"
        "  movabs $0x2B2B2B2B2B2B2B2B, %rcx\n  xor %rbx, %rcx\n  or %rcx, %rdx\n"
        "  movabs $0x3C3C3C3C3C3C3C3C, %rcx\n  xor %r12, %rcx\n  or %rcx, %rdx\n"
        "  movabs $0x4D4D4D4D4D4D4D4D, %rcx\n  xor %r13, %rcx\n  or %rcx, %rdx\n"
        "  movabs $0x5E5E5E5E5E5E5E5E, %rcx\n  xor %r14, %rcx\n  or %rcx, %rdx\n"
        "  movabs $0x6F6F6F6F6F6F6F6F, %rcx\n  xor %r15, %rcx\n  or %rcx, %rdx\n"
        "  mov %rdx, fire_broken(%rip)\n"
        "  add $40, %rsp\n  pop %r15\n  pop %r14\n  pop %r13\n  pop %r12\n  pop %rbx\n  pop %rbp\n"
        "  ret\n"
        ".popsection\n");

/* The same types, but that a number of 32 bits is handed over in all 64 of its register: a callee may not look at the upper half. */
typedef void greedy_type(const void *, const void *, const void *, const void *, const void *, size_t, void *, size_t, void *, size_t, void *);
typedef void unit_type(const void *, const void *, const void *, const void *, const void *, size_t, void *, size_t, void *);
typedef uint32_t corner_type(uint64_t, uint64_t, const void *, uint64_t, float, void *);
typedef uint32_t corners_type(uint64_t, uint64_t, const void *, void *);
typedef uint32_t normal_type(uint64_t, uint64_t, void *);
typedef uint32_t indices_type(uint64_t, uint64_t, uint64_t, void *);
typedef uint32_t tex_type(uint64_t, uint64_t, uint64_t, bool, const void *, void *);
typedef void write_type(const void *, const void *, const void *, size_t, void *, size_t, void *);
typedef size_t decimal_type(uint64_t, void *, size_t);

#define DEFAULT_FLOATS 0x1F80u
#define THROUGH(type, function) (fire_target = (void *)(function), entered(), (type *)(void *)fire_through)

static uint64_t upper; /* what the upper halves hold */

static uint64_t wide(uint32_t number)
{
    return upper << 32 | number;
}

static void kept_registers(void)
{
    left();
    if (fire_broken != 0)
        finding("a register that a function must keep, the stack's or the direction flag has changed");
    if ((_mm_getcsr() & ~0x3Fu) != DEFAULT_FLOATS)
        finding("the floating-point mode has changed");
}

/* ---- what is drawn */

static const uint32_t odd_numbers[] = {0, 1, 2, 3, 255, 256, 257, 258, 65535, 65536, 65537, 1u << 21, 1u << 22, 0x7FFFFFFF, 0x80000000, 0x80000001, 0xAAAAAAAB, 0xFFFFFFFE, 0xFFFFFFFF};

static uint32_t odd_number(struct bytes *b)
{
    uint32_t k = draw_below(b, sizeof odd_numbers / sizeof odd_numbers[0] + 2);

    return k < sizeof odd_numbers / sizeof odd_numbers[0] ? odd_numbers[k] : (uint32_t)draw_word(b);
}

static int32_t draw_sign(struct bytes *b)
{
    return chance(b, 16) ? (int32_t)odd_number(b) : chance(b, 128) ? 1 : -1;
}

static uint32_t draw_permutation(struct bytes *b)
{
    return chance(b, 12) ? odd_number(b) : draw_below(b, 6);
}

static void draw_shape(struct bytes *b, uint32_t shape[3])
{
    uint32_t kind = draw_below(b, 32), axis = draw_below(b, 3), i;

    for (i = 0; i < 3; i++)
        shape[i] = 3 + draw_below(b, 6);
    if (kind >= 29)
        shape[axis] = odd_number(b);
    else if (kind == 28)
        for (i = 0; i < 3; i++)
            shape[i] = odd_number(b);
    else if (kind == 27) { /* products of 2 to the 32nd and 2 to the 64th, and one past */
        static const uint32_t overflow[5][3] = {{65536, 65536, 1}, {1u << 22, 1u << 21, 1u << 21}, {0x80000000, 2, 1}, {0xFFFFFFFF, 0xFFFFFFFF, 1}, {641, 6700417, 1}};

        memcpy(shape, overflow[draw_below(b, 5)], 3 * sizeof shape[0]);
    } else if (kind >= 25)
        for (i = 0; i < 3; i++)
            shape[i] = 1 + draw_below(b, 3);
    else if (kind == 24) /* long and thin */
        shape[axis] = 250 + draw_below(b, 8);
    else if (kind == 23) {
        shape[axis] = 256;
        shape[(axis + 1) % 3] = 2 + draw_below(b, 7);
        shape[(axis + 2) % 3] = 2 + draw_below(b, 2);
    } else if (kind == 22)
        for (i = 0; i < 3; i++)
            shape[i] = 2 + draw_below(b, 10);
}

static void draw_box(struct bytes *b, const uint32_t shape[3], uint32_t min[3], uint32_t max[3])
{
    uint32_t kind = draw_below(b, 32), axis = draw_below(b, 3), i;

    for (i = 0; i < 3; i++) {
        min[i] = 0;
        max[i] = shape[i] - 1;
        if (kind < 8 && shape[i] > 2 && shape[i] <= 65536) { /* a part of the block */
            min[i] = draw_below(b, shape[i] - 1);
            max[i] = min[i] + 1 + draw_below(b, shape[i] - 1 - min[i]);
        }
    }
    switch (kind) {
    case 6: case 14: max[axis] = shape[axis]; break;
    case 7: case 15: min[axis] = max[axis]; break;
    case 16: min[axis] = max[axis] + 1; break;
    case 17: min[axis] = odd_number(b); break;
    case 18: max[axis] = odd_number(b); break;
    case 19: max[axis] = min[axis] + 1; break;
    case 20:
        for (i = 0; i < 3; i++) {
            min[i] = odd_number(b);
            max[i] = odd_number(b);
        }
        break;
    default: break;
    }
}

static void draw_faces(struct bytes *b, int32_t faces[12])
{
    static const int32_t cube[12] = {1, 0, -1, 0, 1, 2, -1, 2, 1, 1, -1, 1};
    uint32_t kind = draw_below(b, 16), i;

    memcpy(faces, cube, sizeof cube);
    if (kind < 8)
        for (i = 0; i < 6; i++) {
            faces[2 * i] = chance(b, 128) ? 1 : -1;
            faces[2 * i + 1] = (int32_t)draw_below(b, 6);
        }
    if (kind == 7)
        faces[2 * draw_below(b, 6)] = (int32_t)odd_number(b);
    if (kind == 15)
        faces[2 * draw_below(b, 6) + 1] = (int32_t)odd_number(b);
    if (kind == 14 && chance(b, 64))
        for (i = 0; i < 12; i++)
            faces[i] = (int32_t)odd_number(b);
}

/* Voxels of one manner: how many are empty, how many translucent, how many merge values. Past the block they are anything. */
static void draw_voxels(struct bytes *b, uint16_t *voxels, size_t block, size_t count)
{
    uint64_t state = draw_word(b);
    uint32_t empty = chance(b, 64) ? draw_below(b, 257) : 64 + draw_below(b, 129), translucent = draw_below(b, 129), merges = chance(b, 64) ? 16384 : 1 + draw_below(b, 3);
    size_t i;

    for (i = 0; i < count; i++) {
        uint64_t r = next_random(&state);

        if (i >= block)
            voxels[i] = (uint16_t)(r | (r >> 16 & 0xC000)); /* mostly bad */
        else if ((r & 255) < empty)
            voxels[i] = (uint16_t)(r >> 16 & 1 ? r >> 32 & 16383 : 0);
        else
            voxels[i] = (uint16_t)(((r >> 8 & 255) < translucent ? 16384 : 32768) + (r >> 16) % merges);
    }
    if (chance(b, 20) && block != 0 && count != 0) /* a bad voxel, in the box or not */
        for (i = 1 + draw_below(b, 2); i > 0; i--) {
            size_t at = draw_below(b, 16384) % (block < count ? block : count);

            voxels[at] = (uint16_t)(voxels[at] | 0xC000);
        }
}

/* ---- a mesher */

#define MOST_VOXELS 32768u   /* what the rooms take, with some to spare */
#define MOST_VISITED 32768u
#define MOST_OUT 262144u

struct lot {
    size_t claimed;  /* the length handed over */
    size_t real;     /* the numbers there */
};

/* A length beside what is needed: exact, short, none, more, or far more than there is memory for. What a call may use is there in each case. */
static struct lot draw_length(struct bytes *b, size_t needed, size_t most)
{
    static const uint64_t far[] = {1ull << 31, (1ull << 32) - 1, 1ull << 32, (1ull << 32) + 1, 1ull << 33, 1ull << 60};
    uint32_t kind = draw_below(b, 64);
    struct lot l;

    if (needed > most)
        kind = 59 + kind % 2 * 4; /* nothing can be enough */
    l.real = needed;
    if (kind < 40)
        ;
    else if (kind < 50)
        l.real = needed + 1 + draw_below(b, 40);
    else if (kind < 53)
        l.real = needed == 0 ? 0 : needed - 1;
    else if (kind < 55)
        l.real = 0;
    else if (kind < 58)
        l.real = needed == 0 ? 0 : draw_below(b, 65536) % needed;
    else if (kind < 60)
        l.real = draw_below(b, 256);
    if (l.real > most)
        l.real = most;
    l.claimed = l.real;
    if (kind >= 60 && l.real == needed && needed != 0) {
        l.claimed = far[draw_below(b, sizeof far / sizeof far[0])] + draw_below(b, 3);
        long_lengths++;
    }
    return l;
}

static uint8_t *dirt; /* random bytes, as many as the largest room has */

static void dirty(struct bytes *b, uint8_t *at, size_t bytes)
{
    switch (draw_below(b, 4)) {
    case 0: memset(at, 0, bytes); break;
    case 1: memset(at, 1, bytes); break;
    case 2: memset(at, 0xA5, bytes); break;
    default: memcpy(at, dirt + draw_below(b, 256), bytes); break;
    }
}

static void read_again(int greedy, const uint16_t *voxels, size_t voxels_len, uint8_t *visited, size_t visited_len, uint32_t *out, size_t out_len, uint64_t answer[9])
{
    if (greedy)
        reading_greedy_quads(now.shape, now.min, now.max, now.faces, voxels, voxels_len, visited, visited_len, out, out_len, answer);
    else
        reading_visible_block_faces(now.shape, now.min, now.max, now.faces, voxels, voxels_len, out, out_len, answer);
}

/* What the header says of every call, without the second reading. */
static void header_holds(int greedy, const uint64_t answer[9], const uint32_t *out, const uint32_t *out_before, size_t out_real, size_t out_len, const uint8_t *visited,
                         const uint8_t *visited_before, size_t visited_real)
{
    size_t numbers = greedy ? SPUNMARROW_GREEDY_QUAD_NUMBERS : SPUNMARROW_UNIT_QUAD_NUMBERS, written, block, i;
    uint64_t listed = 0, refusal = answer[SPUNMARROW_ANSWER_REFUSAL];
    int k, axis;

    if (refusal > 9 && refusal != 17)
        finding("a refusal that is no number of a mesher: %llu", (unsigned long long)refusal);
    for (k = 0; k < SPUNMARROW_FACES; k++)
        listed += answer[SPUNMARROW_ANSWER_COUNTS + k];
    if (refusal != 0 && (listed != 0 || answer[SPUNMARROW_ANSWER_TESTS] != 0))
        finding("counts or tests on a refusal");
    if (!greedy && answer[SPUNMARROW_ANSWER_TESTS] != 0)
        finding("tests of unit meshing");
    if (refusal == 0 && answer[SPUNMARROW_ANSWER_PLACE] != 0)
        finding("a place where the call is accepted");
    if (refusal == 9)
        listed = out_len / numbers;
    if (listed > out_len / numbers)
        finding("more quads than the output holds, and not refused");
    written = (size_t)listed * numbers;
    if (written > out_real || memcmp(out + written, out_before + written, (out_real - written) * sizeof *out) != 0)
        finding("the output has changed past the last quad, or on a refusal that leaves it");
    for (i = 0; i < written; i += numbers)
        for (axis = 0; axis < 3; axis++)
            if (out[i + axis] <= now.min[axis] || out[i + axis] >= now.max[axis])
                finding("a quad outside the box's interior");
    if (!greedy)
        return;
    block = refusal == 0 || refusal == 9 ? (size_t)now.shape[0] * now.shape[1] * now.shape[2] : 0;
    for (i = 0; i < block; i++)
        if (visited[i] != 0)
            finding("a visited byte of the block is not 0");
    if (block > visited_real || memcmp(visited + block, visited_before + block, visited_real - block) != 0)
        finding("visited bytes have changed past the block, or on a refusal that leaves them");
}

static void mesh_once(struct bytes *b, int greedy)
{
    static uint16_t voxels[MOST_VOXELS];
    static uint32_t scratch[MOST_OUT];
    static uint8_t marks[MOST_VISITED], m_before[MOST_VISITED], m_want[MOST_VISITED];
    static uint32_t o_before[MOST_OUT], o_want[MOST_OUT];
    size_t block = 0, room_enough = 0, numbers = greedy ? 5 : 3;
    struct lot v_lot, m_lot = {0, 0}, o_lot;
    struct lease shape, min, max, faces, v, m = {0}, o, a;
    uint64_t product, want[9], answer[9], poison[9];
    uint16_t *voxels_at;
    uint8_t *visited_at = NULL;
    uint32_t *out_at, how, overlap = 12;
    const void *min_at, *max_at;
    int i, fits = 1;

    now.function = greedy ? GREEDY : UNIT;
    upper = draw_word(b);
    draw_shape(b, now.shape);
    draw_box(b, now.shape, now.min, now.max);
    draw_faces(b, now.faces);
    if (chance(b, 8)) { /* what is only read may overlap: min lies among the faces, or max is the shape */
        overlap = draw_below(b, 11);
        overlapping++;
        if (overlap < 10)
            memcpy(now.min, now.faces + overlap, sizeof now.min);
        else
            memcpy(now.max, now.shape, sizeof now.max);
    }
    for (i = 0; i < 3; i++)
        fits = fits && now.shape[i] >= 1 && now.shape[i] <= 256;
    /* where the shape is refused the lengths go by its product modulo 2 to the 64th, which a careless caller would have taken */
    product = (uint64_t)now.shape[0] * now.shape[1] * now.shape[2];
    block = (size_t)product;
    if (fits && block > 16384) { /* too slow to read again; such blocks are the oracle's */
        now.shape[0] = now.shape[1] = now.shape[2] = 3;
        block = 27;
        overlap = 12;
    }
    v_lot = draw_length(b, block, MOST_VOXELS - 64);
    draw_voxels(b, voxels, block, v_lot.real);
    if (greedy)
        m_lot = draw_length(b, block, MOST_VISITED - 64);

    /* how long the output is: by the quads that there are, or by chance */
    how = draw_below(b, 16);
    if (how >= 10) { /* what the header says is always enough */
        room_enough = 6 * numbers;
        for (i = 0; i < 3; i++)
            room_enough *= now.max[i] - now.min[i] <= 256 && now.max[i] - now.min[i] > 1 ? now.max[i] - now.min[i] - 1 : 0;
    } else if (fits && v_lot.claimed >= block) {
        memset(marks, 0, block);
        read_again(greedy, voxels, v_lot.claimed, marks, block, scratch, MOST_OUT, want);
        if (want[0] == 0)
            for (i = 2; i < 8; i++)
                room_enough += (size_t)want[i] * numbers;
    }
    o_lot.real = room_enough;
    if (how == 0)
        o_lot.real = 0;
    else if (how == 1)
        o_lot.real = room_enough == 0 ? 0 : room_enough - 1;
    else if (how == 2)
        o_lot.real = draw_below(b, 65536) % (room_enough + 1);
    else if (how < 6)
        o_lot.real = room_enough + 1 + draw_below(b, 200);
    else if (how == 6)
        o_lot.real = room_enough + draw_below(b, 5);
    if (o_lot.real > MOST_OUT)
        o_lot.real = MOST_OUT;
    o_lot.claimed = o_lot.real;
    if (how == 7 && room_enough != 0 && room_enough <= MOST_OUT) {
        static const uint64_t far[] = {1ull << 31, 1ull << 32, (1ull << 32) + 3, (1ull << 32) + 4, 1ull << 33, 1ull << 60};
        o_lot.claimed = far[draw_below(b, 6)];
        long_lengths++;
    }

    /* the buffers */
    shape = lend_copy(b, SHAPE, now.shape, sizeof now.shape);
    min = lend_copy(b, MIN, now.min, sizeof now.min);
    max = lend_copy(b, MAX, now.max, sizeof now.max);
    faces = lend_copy(b, FACES, now.faces, sizeof now.faces);
    min_at = overlap < 10 ? faces.lent + overlap * sizeof now.faces[0] : hand(&min);
    max_at = overlap == 10 ? shape.lent : hand(&max);
    v = lend_copy(b, VOXELS, voxels, v_lot.real * sizeof voxels[0]);
    voxels_at = v_lot.claimed == 0 ? nowhere(b, VOXELS) : hand(&v);
    if (greedy) {
        m = lend(b, VISITED, m_lot.real);
        dirty(b, m.mine, m.bytes);
        memcpy(m_before, m.mine, m.bytes);
        memcpy(m_want, m.mine, m.bytes);
        visited_at = m_lot.claimed == 0 ? nowhere(b, VISITED) : hand(&m);
    }
    o = lend(b, OUT, o_lot.real * sizeof *out_at);
    dirty(b, o.mine, o.bytes);
    memcpy(o_before, o.mine, o.bytes);
    memcpy(o_want, o.mine, o.bytes);
    out_at = o_lot.claimed == 0 ? nowhere(b, OUT) : hand(&o);
    for (i = 0; i < 9; i++)
        poison[i] = 0xFACE000000000000u + (uint64_t)i;
    a = lend_copy(b, ANSWER, poison, sizeof poison);
    now.lengths[0] = v_lot.claimed, now.lengths[1] = m_lot.claimed, now.lengths[2] = o_lot.claimed;
    now.at[0] = voxels_at, now.at[1] = visited_at, now.at[2] = out_at;

    _mm_setcsr(DEFAULT_FLOATS);
    if (greedy)
        THROUGH(greedy_type, spunmarrow_greedy_quads)(hand(&shape), min_at, max_at, hand(&faces), voxels_at, v_lot.claimed, visited_at, m_lot.claimed, out_at, o_lot.claimed, hand(&a));
    else
        THROUGH(unit_type, spunmarrow_visible_block_faces)(hand(&shape), min_at, max_at, hand(&faces), voxels_at, v_lot.claimed, out_at, o_lot.claimed, hand(&a));
    kept_registers();

    /* what it left */
    memcpy(answer, a.mine, sizeof answer);
    for (i = 0; i < 9; i++)
        if (answer[i] == poison[i])
            finding("number %d of the answer is not written", i);
    header_holds(greedy, answer, (uint32_t *)(void *)o.mine, o_before, o_lot.real, o_lot.claimed, m.mine, m_before, m.bytes);
    read_again(greedy, voxels, v_lot.claimed, m_want, m_lot.claimed, o_want, o_lot.claimed, want);
    for (i = 0; i < 9; i++)
        if (answer[i] != want[i])
            finding("number %d of the answer is %llu, and by the second reading %llu", i, (unsigned long long)answer[i], (unsigned long long)want[i]);
    if (memcmp(o.mine, o_want, o.bytes) != 0)
        finding("the output is not the second reading's");
    if (greedy && memcmp(m.mine, m_want, m.bytes) != 0)
        finding("the visited bytes are not the second reading's");
    if (memcmp(shape.mine, now.shape, shape.bytes) != 0 || memcmp(min.mine, now.min, min.bytes) != 0 || memcmp(max.mine, now.max, max.bytes) != 0 ||
        memcmp(faces.mine, now.faces, faces.bytes) != 0 || memcmp(v.mine, voxels, v.bytes) != 0)
        finding("what was lent to be read has changed");
    take_back(&shape, "the shape");
    take_back(&min, "min");
    take_back(&max, "max");
    take_back(&faces, "the faces");
    take_back(&v, "the voxels");
    take_back(&o, "the output");
    take_back(&a, "the answer");
    if (greedy)
        take_back(&m, "the visited bytes");

    by_number[now.function][answer[0]]++;
    if (answer[0] == 0) {
        uint64_t quads = 0;

        for (i = 2; i < 8; i++)
            quads += answer[i];
        quads_listed += quads;
        accepted_with_quads += quads != 0;
    }
}

/* ---- drawing */

static void draw_quad(struct bytes *b, uint32_t quad[5])
{
    int i;

    for (i = 0; i < 3; i++)
        quad[i] = chance(b, 8) ? odd_number(b) : draw_below(b, 200);
    for (i = 3; i < 5; i++)
        quad[i] = chance(b, 8) ? odd_number(b) : 1 + draw_below(b, 56);
    if (chance(b, 48)) { /* up to the limit, or one past it */
        int axis = (int)draw_below(b, 3);

        quad[3 + draw_below(b, 2)] = 256 - (quad[axis] & 255) + draw_below(b, 2);
    }
}

static float draw_size(struct bytes *b)
{
    static const uint32_t some[] = {0x3F800000, 0x3E800000, 0, 0x80000000, 1, 0x80000001, 0x007FFFFF, 0x00800000, 0x7F7FFFFF, 0xFF7FFFFF, 0x7F800000, 0xFF800000, 0x7F800001, 0x7FC00000, 0xFFFFFFFF, 0x3DCCCCCD};
    uint32_t bits = chance(b, 128) ? (uint32_t)draw_word(b) : some[draw_below(b, sizeof some / sizeof some[0])];
    float size;

    memcpy(&size, &bits, sizeof size);
    return size;
}

static void draw_once(struct bytes *b, enum function function)
{
    static const size_t words[FUNCTIONS] = {0, 0, 3, 12, 3, 6, 8};
    struct lease quad, out;
    uint32_t before[12], want[12], refusal = 0, wanted = 0;
    size_t bytes = words[function] * sizeof want[0];
    float floats[12];
    void *as_floats = floats;

    now.function = function;
    upper = draw_word(b);
    now.sign = draw_sign(b);
    now.permutation = draw_permutation(b);
    draw_quad(b, now.quad);
    now.size = draw_size(b);
    now.flip = draw_below(b, 2);
    now.number = chance(b, 16) ? odd_number(b) : draw_below(b, function == CORNER ? 4 : 3);
    if (function == INDICES)
        now.number = chance(b, 96) ? 4294967288u + draw_below(b, 8) : odd_number(b);
    quad = lend_copy(b, QUAD, now.quad, sizeof now.quad);
    out = lend(b, DRAWN, bytes);
    dirty(b, out.mine, bytes);
    memcpy(before, out.mine, bytes);
    memcpy(want, before, bytes);
    memcpy(floats, before, bytes);

    _mm_setcsr(DEFAULT_FLOATS);
    switch (function) {
    case CORNER:
        refusal = THROUGH(corner_type, spunmarrow_corner)(wide((uint32_t)now.sign), wide(now.permutation), hand(&quad), wide(now.number), now.size, hand(&out));
        break;
    case CORNERS:
        refusal = THROUGH(corners_type, spunmarrow_corners)(wide((uint32_t)now.sign), wide(now.permutation), hand(&quad), hand(&out));
        break;
    case NORMAL:
        refusal = THROUGH(normal_type, spunmarrow_normal)(wide((uint32_t)now.sign), wide(now.permutation), hand(&out));
        break;
    case INDICES:
        refusal = THROUGH(indices_type, spunmarrow_indices)(wide((uint32_t)now.sign), wide(now.permutation), wide(now.number), hand(&out));
        break;
    default:
        refusal = THROUGH(tex_type, spunmarrow_tex_coords)(wide((uint32_t)now.sign), wide(now.permutation), wide(now.number), now.flip != 0, hand(&quad), hand(&out));
        break;
    }
    kept_registers();

    if (refusal != 0 && memcmp(out.mine, before, bytes) != 0)
        finding("a refusal by %u has changed the output", refusal);
    switch (function) {
    case CORNER: wanted = reading_corner(now.sign, now.permutation, now.quad, now.number, now.size, as_floats); break;
    case CORNERS: wanted = reading_corners(now.sign, now.permutation, now.quad, want); break;
    case NORMAL: wanted = reading_normal(now.sign, now.permutation, as_floats); break;
    case INDICES: wanted = reading_indices(now.sign, now.permutation, now.number, want); break;
    default: wanted = reading_tex_coords(now.sign, now.permutation, now.number, now.flip != 0, now.quad, as_floats); break;
    }
    if (refusal != wanted)
        finding("refused by %u, and by the second reading %u", refusal, wanted);
    if (memcmp(out.mine, function == CORNERS || function == INDICES ? (void *)want : as_floats, bytes) != 0)
        finding("the output is not the second reading's");
    if (memcmp(quad.mine, now.quad, quad.bytes) != 0)
        finding("what was lent to be read has changed");
    take_back(&quad, "the quad");
    take_back(&out, "the output");
    by_number[function][refusal]++;
}

/* ---- writing */

#define MOST_QUADS 3000u
#define MOST_LIST 16384u
#define MOST_TEXT (1u << 20)

/* How many quads each group has: few, one group alone, many, none. */
static void draw_counts(struct bytes *b, uint64_t counts[6])
{
    uint32_t kind = draw_below(b, 16), one = draw_below(b, 6), many = chance(b, 16) ? MOST_QUADS / 6 : 40, i;

    for (i = 0; i < 6; i++)
        counts[i] = kind < 10 ? draw_below(b, 6) : kind < 13 ? (i == one ? 1 + draw_below(b, 30) : 0) : kind < 14 ? draw_below(b, many) : 0;
}

/* Quads of the groups, within the limits on their own faces and up to them, and past them anything. */
static void draw_list(struct bytes *b, const uint64_t counts[6], uint32_t *list, size_t numbers)
{
    static const int u_of[6] = {1, 0, 2, 1, 2, 0}, v_of[6] = {2, 1, 0, 0, 1, 2}; /* Xyz, Zxy, Yzx, Zyx, Xzy, Yxz */
    uint64_t state = draw_word(b), k;
    uint32_t *quad = list;
    size_t i, quads;
    int group;

    for (i = 0; i < numbers; i++)
        list[i] = (uint32_t)next_random(&state);
    for (group = 0; group < 6; group++) {
        uint32_t permutation = (uint32_t)now.faces[2 * group + 1] % 6;

        for (k = 0; k < counts[group]; k++, quad += 5) {
            uint64_t r = next_random(&state);
            uint32_t u, v;

            for (i = 0; i < 3; i++)
                quad[i] = (uint32_t)(r >> 8 * i & 255);
            u = 256 - quad[u_of[permutation]];
            v = 256 - quad[v_of[permutation]];
            quad[3] = r >> 24 & 3 ? 1 + (uint32_t)(r >> 32 & 255) % u : u;
            quad[4] = r >> 26 & 3 ? 1 + (uint32_t)(r >> 40 & 255) % v : v;
        }
    }
    quads = (size_t)(quad - list) / 5;
    if (quads != 0 && chance(b, 64)) /* one number or two of the groups' are odd, or one past their limit */
        for (i = 1 + draw_below(b, 2); i > 0; i--) {
            size_t at = draw_below(b, 65536) % (quads * 5);

            list[at] = chance(b, 128) ? odd_number(b) : at % 5 < 3 ? list[at] + 1 : 257 - list[at - at % 5 + draw_below(b, 3)];
        }
}

/* What the header says of every call, without the second reading. */
static void writer_holds(const uint64_t answer[3], const uint8_t *out, const uint8_t *before, size_t real, size_t out_len, uint64_t quads)
{
    uint64_t refusal = answer[SPUNMARROW_ANSWER_REFUSAL], written = answer[SPUNMARROW_WRITE_ANSWER_WRITTEN], lines = 0, most = SPUNMARROW_OBJ_HEAD_BYTES + quads * SPUNMARROW_OBJ_MOST_QUAD_BYTES;
    size_t i;

    if (refusal != 0 && refusal != 6 && refusal != 12 && refusal != 13 && refusal != 15 && refusal != 17 && refusal != 24)
        finding("a refusal that is no number of the writer: %llu", (unsigned long long)refusal);
    if (refusal != 0 && written != 0)
        finding("bytes are said to be written on a refusal");
    if (refusal == 15 && out_len >= most)
        finding("an output that is always enough is refused");
    if (refusal == 0 && answer[SPUNMARROW_ANSWER_PLACE] != 0)
        finding("a place where the call is accepted");
    if (written > out_len || written > real || memcmp(out + written, before + written, real - written) != 0)
        finding("the output has changed past the text, or on a refusal");
    if (refusal != 0)
        return;
    if (written > most || written < SPUNMARROW_OBJ_HEAD_BYTES || memcmp(out, "o mesh\n", SPUNMARROW_OBJ_HEAD_BYTES) != 0)
        finding("the text does not begin with its head, or is longer than it may be");
    for (i = SPUNMARROW_OBJ_HEAD_BYTES; i < written; i++) {
        if (memchr("0123456789 vf\n", out[i], 14) == NULL)
            finding("the text has the byte %u", out[i]);
        lines += out[i] == '\n';
    }
    if (lines != 6 * quads || out[written - 1] != '\n')
        finding("the text has %llu lines after its head, and should have %llu", (unsigned long long)lines, (unsigned long long)(6 * quads));
}

static void write_once(struct bytes *b)
{
    static uint32_t list[MOST_LIST];
    static uint8_t before[MOST_TEXT], want_out[MOST_TEXT], scratch[MOST_TEXT];
    struct lease faces, counts, q, o, a;
    struct lot lot, o_lot;
    uint64_t quads = 0, want[3], answer[3], poison[3], around[9];
    uint32_t how, false_counts = draw_below(b, 16), overlap = chance(b, 8) ? draw_below(b, 3) : 3;
    const void *counts_at, *list_at;
    void *out_at;
    size_t exact;
    int i, in_answer;

    now.function = WRITE;
    upper = draw_word(b);
    draw_faces(b, now.faces);
    draw_counts(b, now.counts);
    for (i = 0; i < 6; i++)
        quads += now.counts[i];

    /* the list: as long as the counts say, with more quads or a part of one, short, none, or said to be far longer */
    lot = draw_length(b, (size_t)quads * 5, MOST_LIST - 64);
    draw_list(b, now.counts, list, lot.real > quads * 5 ? lot.real : (size_t)quads * 5);
    if (false_counts < 2) { /* more than the list holds, whatever that is: one too many, or sums of 2 to the 64th and more */
        uint32_t one = draw_below(b, 6), other = (one + 1 + draw_below(b, 5)) % 6;
        uint64_t large = chance(b, 128) ? UINT64_MAX : 1ull << (60 + draw_below(b, 4));

        if (false_counts == 0) {
            now.counts[one] = large;
            now.counts[other] = 0 - large + draw_below(b, 4) * (uint64_t)draw_below(b, 2);
        } else if (lot.claimed == lot.real)
            now.counts[one] += 1 + draw_below(b, 4);
    }
    if (overlap == 0) /* what is only read may overlap: the counts lie in the faces or in the list, or the list is the faces */
        memcpy(now.counts, now.faces, sizeof now.counts);
    else if (overlap == 1) {
        memcpy(list, now.faces, sizeof now.faces);
        lot.real = lot.claimed = 12;
    } else if (overlap == 2 && lot.real >= 12 && lot.claimed == lot.real)
        memcpy(list, now.counts, sizeof now.counts);
    else
        overlap = 3;
    overlapping += overlap < 3;
    if (overlap == 0 && lot.claimed != lot.real)
        lot.claimed = lot.real;

    /* how long the output is: by the text, or by chance */
    reading_write_obj(now.faces, now.counts, list, lot.claimed, scratch, MOST_TEXT, want);
    exact = want[0] == 0 ? (size_t)want[2] : SPUNMARROW_OBJ_HEAD_BYTES + draw_below(b, 200);
    how = draw_below(b, 16);
    o_lot.real = how == 0 ? 0 : how < 3 ? exact - 1 : how == 3 ? draw_below(b, 65536) % exact : how < 6 ? exact + 1 + draw_below(b, 300) : exact;
    if (o_lot.real > MOST_TEXT)
        o_lot.real = MOST_TEXT;
    o_lot.claimed = o_lot.real;
    if (how == 7) {
        static const uint64_t far[] = {1ull << 31, 1ull << 32, (1ull << 32) + 6, (1ull << 32) + 7, 1ull << 33, 1ull << 60};

        o_lot.claimed = far[draw_below(b, 6)];
        long_lengths++;
    }

    /* the buffers; the counts may lie in a mesher's answer */
    in_answer = chance(b, 64);
    for (i = 0; i < 9; i++)
        around[i] = i < 2 || i == 8 ? draw_word(b) : now.counts[i - 2];
    faces = lend_copy(b, FACES, now.faces, sizeof now.faces);
    counts = in_answer ? lend_copy(b, COUNTS, around, sizeof around) : lend_copy(b, COUNTS, now.counts, sizeof now.counts);
    q = lend_copy(b, LIST, list, lot.real * sizeof list[0]);
    if (overlap == 2 && (uintptr_t)q.lent % sizeof now.counts[0] != 0)
        overlap = 3;
    counts_at = overlap == 0 ? faces.lent : overlap == 2 ? q.lent : (uint8_t *)hand(&counts) + (in_answer ? 2 * sizeof around[0] : 0);
    list_at = overlap == 1 ? faces.lent : lot.claimed == 0 ? nowhere(b, LIST) : hand(&q);
    o = lend(b, TEXT, o_lot.real);
    dirty(b, o.mine, o.bytes);
    memcpy(before, o.mine, o.bytes);
    memcpy(want_out, o.mine, o.bytes);
    out_at = o_lot.claimed == 0 ? nowhere(b, TEXT) : hand(&o);
    for (i = 0; i < 3; i++)
        poison[i] = 0xFACE000000000000u + (uint64_t)i;
    a = lend_copy(b, ANSWER, poison, sizeof poison);
    now.lengths[0] = lot.claimed, now.lengths[2] = o_lot.claimed;
    now.at[0] = list_at, now.at[2] = out_at;

    _mm_setcsr(DEFAULT_FLOATS);
    THROUGH(write_type, spunmarrow_write_obj)(hand(&faces), counts_at, list_at, lot.claimed, out_at, o_lot.claimed, hand(&a));
    kept_registers();

    /* what it left */
    memcpy(answer, a.mine, sizeof answer);
    for (i = 0; i < 3; i++)
        if (answer[i] == poison[i])
            finding("number %d of the answer is not written", i);
    for (quads = 0, i = 0; i < 6; i++)
        quads += now.counts[i];
    writer_holds(answer, o.mine, before, o_lot.real, o_lot.claimed, quads);
    reading_write_obj(now.faces, now.counts, list, lot.claimed, want_out, o_lot.claimed, want);
    for (i = 0; i < 3; i++)
        if (answer[i] != want[i])
            finding("number %d of the answer is %llu, and by the second reading %llu", i, (unsigned long long)answer[i], (unsigned long long)want[i]);
    if (memcmp(o.mine, want_out, o.bytes) != 0)
        finding("the text is not the second reading's");
    if (memcmp(faces.mine, now.faces, faces.bytes) != 0 || memcmp(counts.mine, in_answer ? around : now.counts, counts.bytes) != 0 || memcmp(q.mine, list, q.bytes) != 0)
        finding("what was lent to be read has changed");
    take_back(&faces, "the faces");
    take_back(&counts, "the counts");
    take_back(&q, "the list");
    take_back(&o, "the output");
    take_back(&a, "the answer");
    by_number[WRITE][answer[0]]++;
    if (answer[0] == 0) {
        quads_written += quads;
        bytes_written += answer[2];
    }
}

static void spell_once(struct bytes *b)
{
    static const uint32_t powers[] = {1, 10, 100, 1000, 10000, 100000, 1000000, 10000000, 100000000, 1000000000};
    uint32_t kind = draw_below(b, 4), how = draw_below(b, 16);
    uint8_t before[64], want_scratch[64];
    size_t digits = 1, length, wanted, i;
    uint64_t value = 0;
    struct lease s;
    struct lot lot;
    void *at;

    now.function = DECIMAL;
    upper = draw_word(b);
    now.number = kind == 0 ? odd_number(b) : kind == 1 ? powers[draw_below(b, 10)] - draw_below(b, 2) : kind == 2 ? (uint32_t)draw_word(b) >> draw_below(b, 32) : 4294967288u + draw_below(b, 8);
    while (digits < 10 && now.number >= powers[digits])
        digits++;
    lot.real = how < 6 ? digits : how < 9 ? digits - 1 : how < 11 ? draw_below(b, 11) : how < 14 ? digits + 1 + draw_below(b, 40) : how == 14 ? 0 : digits;
    lot.claimed = lot.real;
    if (how == 15) {
        static const uint64_t far[] = {1ull << 8, 1ull << 16, 1ull << 31, 1ull << 32, (1ull << 32) + 1, 1ull << 60};

        lot.claimed = far[draw_below(b, 6)];
        long_lengths++;
    }
    s = lend(b, SCRATCH, lot.real);
    dirty(b, s.mine, s.bytes);
    memcpy(before, s.mine, s.bytes);
    memcpy(want_scratch, s.mine, s.bytes);
    at = lot.claimed == 0 ? nowhere(b, SCRATCH) : hand(&s);
    now.lengths[2] = lot.claimed;
    now.at[2] = at;

    _mm_setcsr(DEFAULT_FLOATS);
    length = THROUGH(decimal_type, spunmarrow_decimal)(wide(now.number), at, lot.claimed);
    kept_registers();

    if (length != (lot.claimed < digits ? 0 : digits))
        finding("%llu digits, where there are %llu", (unsigned long long)length, (unsigned long long)digits);
    if (memcmp(s.mine + length, before + length, s.bytes - length) != 0)
        finding("the scratch has changed past the digits, or where it is too short");
    for (i = 0; i < length; i++) {
        if (s.mine[i] < '0' || s.mine[i] > '9')
            finding("a byte that is no digit: %u", s.mine[i]);
        value = 10 * value + s.mine[i] - '0';
    }
    if (length != 0 && value != now.number)
        finding("the digits are %llu's", (unsigned long long)value);
    wanted = reading_decimal(now.number, want_scratch, lot.claimed);
    if (length != wanted || memcmp(s.mine, want_scratch, s.bytes) != 0)
        finding("the digits are not the second reading's");
    take_back(&s, "the scratch");
    by_number[DECIMAL][length == 0 ? 15 : 0]++;
}

/* ---- the target */

void target_prepare(void)
{
    size_t largest, i;
    uint64_t state = 0;
    int kind, class;

    page = (size_t)sysconf(_SC_PAGESIZE);
    largest = page << (CLASSES - 1);
    canary = malloc(largest);
    dirt = malloc(largest + 256);
    if (canary == NULL || dirt == NULL)
        abort();
    for (i = 0; i < largest + 256; i++)
        dirt[i] = (uint8_t)next_random(&state);
    for (i = 0; i < largest; i++)
        canary[i] = (uint8_t)(0xC0 | (i * 37 + 11 + (i >> 8)) % 64); /* as voxels they are bad */
    for (kind = 0; kind < KINDS; kind++)
        for (class = 0; class < classes[kind]; class++)
            rooms[kind][class] = make_room(page << class, read_only[kind]);
}

int LLVMFuzzerTestOneInput(const uint8_t *data, size_t size)
{
    struct bytes b = bytes_of(data, size);
    int function;

    started(data, size);
    inputs++;
    if (chance(&b, 128)) {
        mesh_once(&b, 1);
        mesh_once(&b, 0);
    } else {
        mesh_once(&b, 0);
        mesh_once(&b, 1);
    }
    for (function = CORNER; function <= TEX; function++)
        draw_once(&b, (enum function)function);
    write_once(&b);
    spell_once(&b);
    return 0;
}
