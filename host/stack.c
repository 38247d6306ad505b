/* How much stack each call takes: each is called on a stack of its own, filled beforehand, accepted and refused. Prints
 * the most bytes that each wrote below where its caller stood, memset's among them; its exit status is 0 where all are
 * below the 2 KB that the header asks for.
 */
#define _XOPEN_SOURCE 700
#include <math.h>
#include <stdio.h>
#include <stdlib.h>
#include <string.h>
#include <ucontext.h>

#include "spunmarrow.h"

enum { ROOM = 1 << 18, FILLED = 0xA5, MOST = 2048, SIDE = 34, VOXELS = SIDE * SIDE * SIDE };

static unsigned char stack[ROOM];
static ucontext_t here, there;
static const unsigned char *entry;

/* The cube's faces, and six whose u and v are turned. */
static const int32_t faces[2][12] = {{1, 0, -1, 0, 1, 2, -1, 2, 1, 1, -1, 1}, {-1, 4, 1, 5, -1, 3, 1, 4, -1, 5, 1, 3}};
static const uint32_t quads[2][5] = {{1, 2, 3, 4, 5}, {1, 2, 3, 0, 5}};
static uint16_t voxels[VOXELS];
static uint8_t visited[VOXELS];
static uint32_t out[30 * VOXELS];
static uint8_t text[1 << 20];
static int bad, turned, small;

static void nothing(void) {}

static void corner(void)
{
    static float p[3];
    spunmarrow_corner(bad ? 3 : 1, turned ? 4 : 2, quads[small], 3, bad && small ? NAN : 0.1f, p);
}

static void corners(void)
{
    static uint32_t p[12];
    spunmarrow_corners(bad ? 3 : -1, turned ? 4 : 2, quads[small], p);
}

static void normal(void)
{
    static float p[3];
    spunmarrow_normal(bad ? 3 : 1, small ? 9 : 0, p);
}

static void indices(void)
{
    static uint32_t p[6];
    spunmarrow_indices(turned ? -1 : 1, bad ? 6 : 1, small ? 4294967295u : 0, p);
}

static void tex_coords(void)
{
    static float p[8];
    spunmarrow_tex_coords(turned ? -1 : 1, 1, bad ? 3 : 1, small, quads[small], p);
}

static void greedy_quads(void)
{
    static const uint32_t shape[3] = {SIDE, SIDE, SIDE}, min[3] = {0, 0, 0}, max[3] = {SIDE - 1, SIDE - 1, SIDE - 1};
    static uint64_t answer[9];
    spunmarrow_greedy_quads(shape, bad ? max : min, max, faces[turned], voxels, VOXELS, visited, VOXELS, out,
                            small ? 7 : sizeof out / sizeof *out, answer);
}

static void visible_block_faces(void)
{
    static const uint32_t shape[3] = {SIDE, SIDE, SIDE}, min[3] = {0, 0, 0}, max[3] = {SIDE - 1, SIDE - 1, SIDE - 1};
    static uint64_t answer[9];
    spunmarrow_visible_block_faces(shape, bad ? max : min, max, faces[turned], voxels, VOXELS, out,
                                   small ? 7 : sizeof out / sizeof *out, answer);
}

static void write_obj(void)
{
    static const uint32_t list[2][10] = {{1, 2, 3, 4, 5, 6, 7, 8, 9, 10}, {1, 2, 3, 4, 5, 6, 7, 8, 9, 0}};
    static const uint64_t counts[2][6] = {{1, 0, 0, 1, 0, 0}, {1, 0, 0, 0, 0, 2}};
    static uint64_t answer[3];
    spunmarrow_write_obj(faces[turned], counts[bad && small], list[bad], 10, text, small ? 7 : sizeof text, answer);
}

static void decimal(void)
{
    spunmarrow_decimal(bad ? 0 : 4294967295u, text, small ? 1 : sizeof text);
}

static void (*called)(void);

/* Notes where the caller's frame is, and calls. */
static void begin(void)
{
    unsigned char mark;
    entry = &mark;
    called();
}

/* How many bytes below the caller's frame the call writes. */
static long depth(void)
{
    const unsigned char *low = stack;

    memset(stack, FILLED, sizeof stack);
    if (getcontext(&there) != 0)
        exit(2);
    there.uc_stack.ss_sp = stack;
    there.uc_stack.ss_size = sizeof stack;
    there.uc_link = &here;
    makecontext(&there, begin, 0);
    if (swapcontext(&here, &there) != 0)
        exit(2);
    while (*low == FILLED)
        low++;
    return (long)(entry - low);
}

/* The most of that over accepted and refused input. */
static long deepest(void (*call)(void))
{
    long most = 0;
    int k;

    called = call;
    for (k = 0; k < 8; k++) {
        long one;
        bad = k & 1;
        turned = k >> 1 & 1;
        small = k >> 2 & 1;
        call(); /* the first time the loader may look a function of the C library up; that is not the call's */
        one = depth();
        if (one > most)
            most = one;
    }
    return most;
}

int main(void)
{
    static const struct {
        const char *name;
        void (*call)(void);
    } calls[] = {
        {"spunmarrow_corner", corner},
        {"spunmarrow_corners", corners},
        {"spunmarrow_normal", normal},
        {"spunmarrow_indices", indices},
        {"spunmarrow_tex_coords", tex_coords},
        {"spunmarrow_greedy_quads", greedy_quads},
        {"spunmarrow_visible_block_faces", visible_block_faces},
        {"spunmarrow_write_obj", write_obj},
        {"spunmarrow_decimal", decimal},
    };
    size_t k;
    int status = 0;
    long none;

    for (k = 0; k < VOXELS; k++) {
        static uint32_t seed = 1;
        seed = seed * 1664525u + 1013904223u;
        voxels[k] = (uint16_t)((seed >> 16) % 3 * 16384 + (seed >> 24) % 4);
    }
    none = deepest(nothing);
    printf("bytes of stack, of %ld for a call that does nothing\n", none);
    for (k = 0; k < sizeof calls / sizeof *calls; k++) {
        long most = deepest(calls[k].call);
        printf("%s: %ld\n", calls[k].name, most);
        if (most >= MOST)
            status = 1;
    }
    return status;
}
