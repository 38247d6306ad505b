/* A block of voxels that lies in a file: block.h has what is here. */
#include "block.h"

#include <errno.h>
#include <inttypes.h>
#include <stdio.h>
#include <stdlib.h>
#include <string.h>

const int32_t cube_faces[SPUNMARROW_FACE_NUMBERS] = {1, 0, -1, 0, 1, 2, -1, 2, 1, 1, -1, 1};
const char *const cube_face_names[SPUNMARROW_FACES] = {"+X", "-X", "+Y", "-Y", "+Z", "-Z"};
static const char *const axis_names[3] = {"x", "y", "z"};

/* ---- the words of the command */

/* A number of the command line. Answers 0 where the word is none. */
static int number(const char *word, uint32_t *n)
{
    char *end;
    unsigned long long value;

    if (word[0] < '0' || word[0] > '9')
        return 0;
    errno = 0;
    value = strtoull(word, &end, 10);
    if (errno != 0 || *end != '\0' || value > UINT32_MAX)
        return 0;
    *n = (uint32_t)value;
    return 1;
}

const char *block_box(struct block *b, char **words, int left)
{
    int k;

    if (b->boxed)
        return "--box is given once";
    b->boxed = 1;
    for (k = 0; k < 6; k++)
        if (k >= left || !number(words[k], k < 3 ? &b->min[k] : &b->max[k - 3]))
            return "--box takes six numbers";
    return NULL;
}

const char *block_shape(struct block *b, char **words, int left)
{
    int k;

    for (k = 0; k < 3; k++) {
        if (k >= left || !number(words[k], &b->shape[k]))
            return "the block's shape is three numbers";
        if (b->shape[k] < 1 || b->shape[k] > SPUNMARROW_LARGEST_AXIS)
            return "refused by 1: an axis of the block is 0 or above 256"; /* said before any memory is asked for */
        if (!b->boxed)
            b->max[k] = b->shape[k] - 1;
    }
    return NULL;
}

/* ---- the buffers */

size_t block_quad_numbers(const struct block *b)
{
    return b->unit ? SPUNMARROW_UNIT_QUAD_NUMBERS : SPUNMARROW_GREEDY_QUAD_NUMBERS;
}

int block_open(struct block *b)
{
    b->size = (size_t)b->shape[0] * b->shape[1] * b->shape[2];
    b->capacity = 65536;
    b->bytes = malloc(b->size * 2);
    b->voxels = malloc(b->size * sizeof *b->voxels);
    b->visited = malloc(b->size);
    b->quads = malloc(b->capacity * block_quad_numbers(b) * sizeof *b->quads);
    if (b->bytes == NULL || b->voxels == NULL || b->visited == NULL || b->quads == NULL) {
        fprintf(stderr, "%s: there is no memory for a block of %lu voxels\n", b->program, (unsigned long)b->size);
        block_close(b);
        return 0;
    }
    return 1;
}

void block_close(struct block *b)
{
    free(b->bytes);
    free(b->voxels);
    free(b->visited);
    free(b->quads);
}

int block_read(struct block *b, const char *file)
{
    size_t wanted = b->size * 2, got, i;
    int more;
    FILE *f = fopen(file, "rb");

    if (f == NULL) {
        fprintf(stderr, "%s: %s: can't be opened: %s\n", b->program, file, strerror(errno));
        return 0;
    }
    got = fread(b->bytes, 1, wanted, f);
    if (ferror(f)) {
        fprintf(stderr, "%s: %s: can't be read: %s\n", b->program, file, strerror(errno));
        fclose(f);
        return 0;
    }
    more = got == wanted && fgetc(f) != EOF;
    fclose(f);
    if (got != wanted || more) {
        fprintf(stderr, "%s: %s: has %s bytes than the block's %lu, two for each of %lu voxels\n", b->program, file,
                more ? "more" : "fewer", (unsigned long)wanted, (unsigned long)b->size);
        return 0;
    }
    for (i = 0; i < b->size; i++)
        b->voxels[i] = (uint16_t)(b->bytes[2 * i] | b->bytes[2 * i + 1] << 8);
    return 1;
}

/* ---- meshing */

/* One call of a mesher. */
static void call(const struct block *b, uint64_t answer[SPUNMARROW_ANSWER_NUMBERS])
{
    size_t out_len = b->capacity * block_quad_numbers(b);

    if (b->unit) {
        spunmarrow_visible_block_faces(b->shape, b->min, b->max, cube_faces, b->voxels, b->size, b->quads, out_len,
                                       answer);
        return;
    }
    spunmarrow_greedy_quads(b->shape, b->min, b->max, cube_faces, b->voxels, b->size, b->visited, b->size, b->quads,
                            out_len, answer);
}

/* Nobody knows beforehand how many quads there are: where they don't fit, the buffer is made twice as large and the
 * block is meshed again. */
void block_mesh(struct block *b, uint64_t answer[SPUNMARROW_ANSWER_NUMBERS])
{
    for (;;) {
        uint32_t *larger;

        call(b, answer);
        if (answer[SPUNMARROW_ANSWER_REFUSAL] != SPUNMARROW_REFUSED_MANY_QUADS)
            return;
        larger = realloc(b->quads, b->capacity * 2 * block_quad_numbers(b) * sizeof *b->quads);
        if (larger == NULL) {
            fprintf(stderr, "%s: there is no memory for more than %lu quads\n", b->program,
                    (unsigned long)b->capacity);
            return; /* the refusal stands */
        }
        b->quads = larger;
        b->capacity *= 2;
    }
}

void block_explain(const struct block *b, const char *file, const uint64_t *answer)
{
    uint64_t refusal = answer[SPUNMARROW_ANSWER_REFUSAL];
    uint64_t place = answer[SPUNMARROW_ANSWER_PLACE];
    uint64_t x = b->shape[0], y = b->shape[1], z = b->shape[2];

    fprintf(stderr, "%s: %s: refused by %" PRIu64 " at %" PRIu64 ": ", b->program, file, refusal, place);
    switch (refusal) {
    case SPUNMARROW_REFUSED_SHAPE:
        fprintf(stderr, "the block's %s axis is %" PRIu32 " long, and must be 1 to %d\n", axis_names[place],
                b->shape[place], SPUNMARROW_LARGEST_AXIS);
        break;
    case SPUNMARROW_REFUSED_FEW_VOXELS:
        fprintf(stderr, "fewer voxels were lent than the block has, which is %" PRIu64 "\n", x * y * z);
        break;
    case SPUNMARROW_REFUSED_MIN_ABOVE_MAX:
        fprintf(stderr, "the box starts at %" PRIu32 " and ends at %" PRIu32 " on %s\n", b->min[place], b->max[place],
                axis_names[place]);
        break;
    case SPUNMARROW_REFUSED_MAX_PAST_SHAPE:
        fprintf(stderr, "the box ends at %" PRIu32 " on %s, and the last voxel there is %" PRIu32 "\n", b->max[place],
                axis_names[place], b->shape[place] - 1);
        break;
    case SPUNMARROW_REFUSED_MIN_IS_MAX:
        fprintf(stderr, "the box is one voxel thick on %s, and must be two or more\n", axis_names[place]);
        break;
    case SPUNMARROW_REFUSED_FACE_SIGN:
        fprintf(stderr, "the sign of face %" PRIu64 " is neither 1 nor -1\n", place);
        break;
    case SPUNMARROW_REFUSED_FEW_VISITED:
        fprintf(stderr, "fewer visited bytes were lent than the block has voxels, which is %" PRIu64 "\n", x * y * z);
        break;
    case SPUNMARROW_REFUSED_BAD_VOXEL:
        fprintf(stderr, "the voxel (%" PRIu64 ", %" PRIu64 ", %" PRIu64 ") is of class 3, which is bad\n", place % x,
                place / x % y, place / x / y);
        break;
    case SPUNMARROW_REFUSED_MANY_QUADS:
        fprintf(stderr, "there are more than the %" PRIu64 " quads that fit\n", place);
        break;
    case SPUNMARROW_REFUSED_QUAD_LIMITS:
        fprintf(stderr, "quad %" PRIu64 " of the list is outside the quad limits\n", place);
        break;
    case SPUNMARROW_REFUSED_FIRST_INDEX:
        fprintf(stderr, "there are more than the 1073741823 quads whose corners can be numbered\n");
        break;
    case SPUNMARROW_REFUSED_SHORT_OUTPUT:
        fprintf(stderr, "the output is too short for what is to be written\n");
        break;
    case SPUNMARROW_REFUSED_NUMBER:
        fprintf(stderr, "the permutation's number of face %" PRIu64 " is not 0 to 5\n", place);
        break;
    case SPUNMARROW_REFUSED_COUNTS:
        fprintf(stderr, "the counts sum to more quads than the list holds\n");
        break;
    default:
        fprintf(stderr, "a number that this program doesn't know\n");
        break;
    }
}
