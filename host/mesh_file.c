/* Meshes blocks of voxels that lie in files: with block.c, which makes the calls, the example to copy for a program
 * that links libspunmarrow.a.
 *
 *     mesh_file [--unit] [--quads] [--box X0 Y0 Z0 X1 Y1 Z1] X Y Z FILE..
 *
 * Each FILE has the X*Y*Z voxels of a block, x fastest, then y, then z, two bytes each, the low byte first. Every file
 * is meshed on the six faces of a cube, greedily or, after --unit, a quad for each visible face; --box, given once,
 * meshes a part of the block, both corners included. A line is printed for each file: how many quads each face has, and
 * the tests. --quads prints the quads as well. What can't be read or is refused is said on standard error, and the next
 * file is gone on with. The exit status is 0 where every file was meshed, 1 where some were not, and 2 where the words
 * of the command are wrong.
 */
#include <inttypes.h>
#include <stdio.h>
#include <string.h>
#include <time.h>

#include "block.h"

static void print(const char *file, const struct block *b, int quads, const uint64_t answer[SPUNMARROW_ANSWER_NUMBERS])
{
    size_t numbers = block_quad_numbers(b), i;
    const uint32_t *quad = b->quads;
    uint64_t k, all = 0;
    int face;

    for (face = 0; face < SPUNMARROW_FACES; face++) {
        uint64_t count = answer[SPUNMARROW_ANSWER_COUNTS + face];

        all += count;
        for (k = 0; quads && k < count; k++, quad += numbers) {
            printf("%s", cube_face_names[face]);
            for (i = 0; i < numbers; i++)
                printf(" %" PRIu32, quad[i]);
            printf("\n");
        }
    }
    printf("%s: %" PRIu64 " quads:", file, all);
    for (face = 0; face < SPUNMARROW_FACES; face++)
        printf(" %s %" PRIu64, cube_face_names[face], answer[SPUNMARROW_ANSWER_COUNTS + face]);
    printf(", tests %" PRIu64 "\n", answer[SPUNMARROW_ANSWER_TESTS]);
}

static int usage(const char *what)
{
    fprintf(stderr, "mesh_file: %s\nusage: mesh_file [--unit] [--quads] [--box X0 Y0 Z0 X1 Y1 Z1] X Y Z FILE..\n",
            what);
    return 2;
}

int main(int argc, char **argv)
{
    struct block b = {.program = "mesh_file"};
    uint64_t answer[SPUNMARROW_ANSWER_NUMBERS];
    int quads = 0, i = 1, files, done, failed = 0;
    const char *wrong;
    time_t began, said;

    for (; i < argc && strncmp(argv[i], "--", 2) == 0; i++) {
        if (strcmp(argv[i], "--unit") == 0) {
            b.unit = 1;
        } else if (strcmp(argv[i], "--quads") == 0) {
            quads = 1;
        } else if (strcmp(argv[i], "--box") == 0) {
            if ((wrong = block_box(&b, argv + i + 1, argc - i - 1)) != NULL)
                return usage(wrong);
            i += 6;
        } else {
            return usage("a word that begins with -- is --unit, --quads or --box");
        }
    }
    if ((wrong = block_shape(&b, argv + i, argc - i)) != NULL)
        return usage(wrong);
    i += 3;
    files = argc - i;
    if (files == 0)
        return usage("there is no file to mesh");
    if (!block_open(&b))
        return 1;

    began = said = time(NULL);
    for (done = 0; done < files; done++) {
        const char *file = argv[i + done];
        time_t now = time(NULL);

        if (now != said) { /* at most once a second */
            fprintf(stderr, "mesh_file: %d of %d files after %.0f s, %d not meshed\n", done, files,
                    difftime(now, began), failed);
            said = now;
        }
        if (!block_read(&b, file)) {
            failed++;
            continue;
        }
        block_mesh(&b, answer);
        if (answer[SPUNMARROW_ANSWER_REFUSAL] != SPUNMARROW_ACCEPTED) {
            block_explain(&b, file, answer);
            failed++;
            continue;
        }
        print(file, &b, quads, answer);
    }
    if (fflush(stdout) != 0 || ferror(stdout)) {
        fprintf(stderr, "mesh_file: what was meshed could not be written\n");
        failed++;
    }
    block_close(&b);
    return failed == 0 ? 0 : 1;
}
