/* Writes the greedy mesh of a block as Wavefront OBJ, for blocks of any size that the archive takes.
 *
 *     obj_file [--box X0 Y0 Z0 X1 Y1 Z1] X Y Z BLOCK OUT.obj
 *
 * BLOCK is a file of voxels as mesh_file.c has it, and is meshed on the six faces of a cube; --box, given once, meshes
 * a part of the block, both corners included. What can't be read, is refused or can't be written is said on standard
 * error. The exit status is 0 where OUT.obj has the whole mesh, 1 where it was not written, and 2 where the words of
 * the command are wrong.
 *
 * Under the name OUT.obj stands either what stood there before or the whole mesh, whatever happens: the text goes to a
 * file beside it, OUT.obj.N.part, where N is the number of the process, and that gets the name once all of it is on the
 * disk. Where anything fails it is removed; it is left where the program is killed. What stands under the name is
 * replaced where it is a plain file. A folder, a device or a link is not.
 */
#define _XOPEN_SOURCE 700
#include <errno.h>
#include <fcntl.h>
#include <signal.h>
#include <stdio.h>
#include <stdlib.h>
#include <string.h>
#include <sys/stat.h>
#include <unistd.h>

#include "block.h"

static int usage(const char *what)
{
    fprintf(stderr, "obj_file: %s\nusage: obj_file [--box X0 Y0 Z0 X1 Y1 Z1] X Y Z BLOCK OUT.obj\n", what);
    return 2;
}

/* Says what failed, by errno, and answers 0. */
static int failed(const char *file, const char *what)
{
    fprintf(stderr, "obj_file: %s: %s: %s\n", file, what, strerror(errno));
    return 0;
}

/* Whether the name is free, or has a plain file that is not the block. */
static int may_replace(const char *file, const char *block)
{
    struct stat there, read;

    if (lstat(file, &there) != 0)
        return errno == ENOENT || failed(file, "can't be looked at");
    if (!S_ISREG(there.st_mode)) {
        fprintf(stderr, "obj_file: %s: is there and is no plain file, so it is not replaced\n", file);
        return 0;
    }
    if (stat(block, &read) == 0 && read.st_dev == there.st_dev && read.st_ino == there.st_ino) {
        fprintf(stderr, "obj_file: %s: is the block itself, so it is not replaced\n", file);
        return 0;
    }
    return 1;
}

/* Writes all of the text to a file that is not there yet, and to the disk. */
static int write_part(const char *part, const uint8_t *text, size_t size)
{
    int fd = open(part, O_WRONLY | O_CREAT | O_EXCL, 0666), good;
    FILE *f;

    if (fd < 0)
        return failed(part, "can't be made");
    f = fdopen(fd, "wb");
    if (f == NULL) {
        failed(part, "can't be opened");
        close(fd);
        remove(part);
        return 0;
    }
    good = fwrite(text, 1, size, f) == size && fflush(f) == 0 && fsync(fd) == 0;
    if (!good)
        failed(part, "can't be written");
    if (fclose(f) != 0 && good)
        good = failed(part, "can't be closed");
    if (!good)
        remove(part);
    return good;
}

/* Puts the text under the name. Answers 0 and says why where it can't; what stood there then stands there still. */
static int save(const char *file, const uint8_t *text, size_t size)
{
    size_t room = strlen(file) + sizeof ".18446744073709551615.part";
    char *part = malloc(room);
    int good;

    if (part == NULL) {
        fprintf(stderr, "obj_file: %s: there is no memory for its name\n", file);
        return 0;
    }
    snprintf(part, room, "%s.%lu.part", file, (unsigned long)getpid());
    good = write_part(part, text, size);
    if (good && rename(part, file) != 0) {
        good = failed(file, "can't be put in place");
        remove(part);
    }
    free(part);
    return good;
}

/* Meshes the block, and writes the mesh. Answers 0 and says why where it can't. */
static int mesh_to(struct block *b, const char *block, const char *file)
{
    uint64_t mesh[SPUNMARROW_ANSWER_NUMBERS], answer[SPUNMARROW_WRITE_ANSWER_NUMBERS];
    size_t quads = 0, room;
    uint8_t *text;
    int face, good = 0;

    if (!block_read(b, block))
        return 0;
    block_mesh(b, mesh);
    if (mesh[SPUNMARROW_ANSWER_REFUSAL] != SPUNMARROW_ACCEPTED) {
        block_explain(b, block, mesh);
        return 0;
    }
    for (face = 0; face < SPUNMARROW_FACES; face++)
        quads += (size_t)mesh[SPUNMARROW_ANSWER_COUNTS + face];
    room = SPUNMARROW_OBJ_HEAD_BYTES + quads * SPUNMARROW_OBJ_MOST_QUAD_BYTES;
    text = malloc(room);
    if (text == NULL) {
        fprintf(stderr, "obj_file: %s: there is no memory for the text of %lu quads\n", block, (unsigned long)quads);
        return 0;
    }
    spunmarrow_write_obj(cube_faces, mesh + SPUNMARROW_ANSWER_COUNTS, b->quads,
                         b->capacity * SPUNMARROW_GREEDY_QUAD_NUMBERS, text, room, answer);
    if (answer[SPUNMARROW_ANSWER_REFUSAL] != SPUNMARROW_ACCEPTED)
        block_explain(b, block, answer);
    else
        good = save(file, text, (size_t)answer[SPUNMARROW_WRITE_ANSWER_WRITTEN]);
    free(text);
    return good;
}

int main(int argc, char **argv)
{
    struct block b = {.program = "obj_file"};
    const char *wrong;
    int i = 1, good;

    for (; i < argc && strncmp(argv[i], "--", 2) == 0; i++) {
        if (strcmp(argv[i], "--unit") == 0)
            return usage("--unit is not for OBJ: it is written of greedy meshes alone");
        if (strcmp(argv[i], "--box") != 0)
            return usage("a word that begins with -- is --box");
        if ((wrong = block_box(&b, argv + i + 1, argc - i - 1)) != NULL)
            return usage(wrong);
        i += 6;
    }
    if ((wrong = block_shape(&b, argv + i, argc - i)) != NULL)
        return usage(wrong);
    i += 3;
    if (argc - i != 2)
        return usage("after the shape come two files: the block, and the OBJ to write");
    signal(SIGXFSZ, SIG_IGN); /* a file past the shell's limit is then a write that fails */
    if (!may_replace(argv[i + 1], argv[i]) || !block_open(&b))
        return 1;
    good = mesh_to(&b, argv[i], argv[i + 1]);
    block_close(&b);
    return good ? 0 : 1;
}
