/* Two plain writers of an OBJ text, which bench/run measures beside the product's: one by fprintf, and one that makes
 * its digits itself. Neither looks at whether its list is good, nor at whether its output is long enough. */
#include <stdint.h>
#include <stdio.h>
#include <stdlib.h>
#include <string.h>

/* The axes n, u and v of each permutation, and its sign. */
static const struct {
    int n, u, v, sign;
} permutations[6] = {{0, 1, 2, 1}, {2, 0, 1, 1}, {1, 2, 0, 1}, {2, 1, 0, -1}, {0, 2, 1, -1}, {1, 0, 2, -1}};

/* A quad's corners. */
static void corners(int32_t sign, int32_t permutation, const uint32_t quad[5], uint32_t at[4][3])
{
    int n = permutations[permutation].n, u = permutations[permutation].u, v = permutations[permutation].v;
    for (int corner = 0; corner < 4; corner++) {
        for (int axis = 0; axis < 3; axis++)
            at[corner][axis] = quad[axis];
        if (sign > 0)
            at[corner][n]++;
        if (corner & 1)
            at[corner][u] += quad[3];
        if (corner & 2)
            at[corner][v] += quad[4];
    }
}

/* The two triangles of a quad, by its vertices' numbers from 1. The second row is for a face whose sign is its
 * permutation's. */
static const uint32_t triangles[2][6] = {{1, 3, 2, 2, 3, 4}, {1, 2, 3, 2, 4, 3}};

static const uint32_t *triangles_of(int32_t sign, int32_t permutation)
{
    return triangles[sign * permutations[permutation].sign > 0];
}

/* ---- by fprintf */

static void print_obj(FILE *file, const int32_t faces[12], const uint64_t counts[6], const uint32_t *quads)
{
    uint32_t first = 0, at[4][3];
    fprintf(file, "o mesh\n");
    for (int group = 0; group < 6; group++) {
        int32_t sign = faces[2 * group], permutation = faces[2 * group + 1];
        const uint32_t *t = triangles_of(sign, permutation);
        for (uint64_t i = 0; i < counts[group]; i++, quads += 5, first += 4) {
            corners(sign, permutation, quads, at);
            for (int corner = 0; corner < 4; corner++)
                fprintf(file, "v %u %u %u\n", at[corner][0], at[corner][1], at[corner][2]);
            fprintf(file, "f %u %u %u\n", first + t[0], first + t[1], first + t[2]);
            fprintf(file, "f %u %u %u\n", first + t[3], first + t[4], first + t[5]);
        }
    }
}

/* The text in memory. */
size_t fprintf_to_memory(const int32_t faces[12], const uint64_t counts[6], const uint32_t *quads, char *out,
                         size_t out_len)
{
    FILE *file = fmemopen(out, out_len, "w");
    if (file == NULL)
        abort();
    print_obj(file, faces, counts, quads);
    if (fflush(file) != 0)
        abort();
    long length = ftell(file);
    fclose(file);
    return (size_t)length;
}

/* The same, but the bytes go nowhere: the file is /dev/null, and has a buffer of a mebibyte. */
void fprintf_to_nowhere(const int32_t faces[12], const uint64_t counts[6], const uint32_t *quads)
{
    static char buffer[1 << 20];
    FILE *file = fopen("/dev/null", "w");
    if (file == NULL || setvbuf(file, buffer, _IOFBF, sizeof buffer) != 0)
        abort();
    print_obj(file, faces, counts, quads);
    if (fclose(file) != 0)
        abort();
}

/* ---- by its own digits */

static char *number(char *out, uint32_t n)
{
    char digits[10];
    int count = 0;
    do {
        digits[count++] = (char)('0' + n % 10);
        n /= 10;
    } while (n > 0);
    while (count > 0)
        *out++ = digits[--count];
    return out;
}

static char *line(char *out, char what, uint32_t a, uint32_t b, uint32_t c)
{
    *out++ = what;
    *out++ = ' ';
    out = number(out, a);
    *out++ = ' ';
    out = number(out, b);
    *out++ = ' ';
    out = number(out, c);
    *out++ = '\n';
    return out;
}

size_t digits_to_memory(const int32_t faces[12], const uint64_t counts[6], const uint32_t *quads, char *out)
{
    char *start = out;
    uint32_t first = 0, at[4][3];
    memcpy(out, "o mesh\n", 7);
    out += 7;
    for (int group = 0; group < 6; group++) {
        int32_t sign = faces[2 * group], permutation = faces[2 * group + 1];
        const uint32_t *t = triangles_of(sign, permutation);
        for (uint64_t i = 0; i < counts[group]; i++, quads += 5, first += 4) {
            corners(sign, permutation, quads, at);
            for (int corner = 0; corner < 4; corner++)
                out = line(out, 'v', at[corner][0], at[corner][1], at[corner][2]);
            out = line(out, 'f', first + t[0], first + t[1], first + t[2]);
            out = line(out, 'f', first + t[3], first + t[4], first + t[5]);
        }
    }
    return (size_t)(out - start);
}
