/* Hostile words and files for host/mesh_file.c and host/obj_file.c, which are compiled in with their mains under other names and their allocations, and what writes a file, through this
 * one. What they print and write, their exit status, their memory and their open files are held to what their heads say, with the second reading (oracle/reading) as the mesher and writer.
 */
#define _GNU_SOURCE
#include "common.h"
#include "reading.h"
#include "spunmarrow.h"

#include <dirent.h>
#include <errno.h>
#include <fcntl.h>
#include <stdarg.h>
#include <stdio.h>
#include <stdio_ext.h>
#include <stdlib.h>
#include <string.h>
#include <sys/mman.h>
#include <sys/stat.h>
#include <unistd.h>

int mesh_file_main(int argc, char **argv);
int obj_file_main(int argc, char **argv);
void *fire_malloc(size_t size);
void *fire_realloc(void *old, size_t size);
void fire_free(void *old);
FILE *fire_fdopen(int fd, const char *mode);
size_t fire_fwrite(const void *from, size_t size, size_t count, FILE *f);
int fire_fflush(FILE *f);
int fire_fsync(int fd);
int fire_fclose(FILE *f);
int fire_rename(const char *from, const char *to);
int fire_remove(const char *name);

const char *const target_name = "the programs of host/";

/* ---- the program's memory: an allocation that fails, and what is not given back. In half of the runs each block ends flush against a page that may not be touched, for the archive, which
   no sanitizer sees; in the others the sanitizer has them. */

struct block {
    uint8_t *at, *map;
    size_t size, mapped;
};
#define MOST_BLOCKS 16
static struct block blocks[MOST_BLOCKS];
static int asked, fail_at; /* the allocation that fails, from 1; 0 for none */
static int guarded;

static struct block *block_at(const void *at)
{
    int i;

    for (i = 0; i < MOST_BLOCKS; i++)
        if (blocks[i].at == at)
            return &blocks[i];
    finding("memory is given back that was not asked for, or too much is asked for");
}

static void drop(struct block *b)
{
    if (b->map != NULL)
        munmap(b->map, b->mapped);
    else
        free(b->at);
    memset(b, 0, sizeof *b);
}

static void *take(size_t size)
{
    size_t page = (size_t)sysconf(_SC_PAGESIZE);
    struct block *b = block_at(NULL);

    b->size = size;
    if (guarded) {
        b->mapped = (size + page - 1) / page * page + 2 * page;
        b->map = mmap(NULL, b->mapped, PROT_NONE, MAP_PRIVATE | MAP_ANONYMOUS, -1, 0);
        if (b->map == MAP_FAILED || (size != 0 && mprotect(b->map + page, b->mapped - 2 * page, PROT_READ | PROT_WRITE) != 0))
            abort();
        b->at = b->map + b->mapped - page - size;
    } else {
        b->at = malloc(size);
        if (b->at == NULL)
            abort();
    }
    memset(b->at, 0xA5, size < 65536 ? size : 65536); /* what is new is not 0 */
    return b->at;
}

void *fire_malloc(size_t size)
{
    return ++asked == fail_at ? NULL : take(size);
}

void *fire_realloc(void *old, size_t size)
{
    struct block *b;
    void *new;

    if (++asked == fail_at)
        return NULL;
    b = block_at(old);
    new = take(size);
    memcpy(new, old, size < b->size ? size : b->size);
    drop(b);
    return new;
}

void fire_free(void *old)
{
    if (old != NULL)
        drop(block_at(old));
}

/* ---- what obj_file writes by: one step that fails */

enum step { NO_STEP, FDOPEN, FWRITE, FFLUSH, FSYNC, FCLOSE, RENAME, STEPS };
static enum step broken;

/* Whether this is the step that fails. */
static int breaks(enum step step)
{
    errno = step == RENAME ? EACCES : ENOSPC;
    return step == broken;
}

FILE *fire_fdopen(int fd, const char *mode)
{
    return breaks(FDOPEN) ? NULL : fdopen(fd, mode);
}

size_t fire_fwrite(const void *from, size_t size, size_t count, FILE *f)
{
    size_t done = fwrite(from, size, broken == FWRITE ? count / 2 : count, f);

    errno = ENOSPC;
    return done;
}

int fire_fflush(FILE *f)
{
    return fflush(f) != 0 || breaks(FFLUSH) ? EOF : 0;
}

int fire_fsync(int fd)
{
    (void)fd; /* what is written need not outlive the run */
    return breaks(FSYNC) ? -1 : 0;
}

int fire_fclose(FILE *f)
{
    return fclose(f) != 0 || breaks(FCLOSE) ? EOF : 0;
}

/* Nothing outside of the folder is ever replaced or removed, whatever is wrong with the program. */
static char folder[48];

static void inside(const char *name)
{
    if (name[0] != '\0' && strncmp(name, folder, strlen(folder)) != 0)
        finding("%.60s would be replaced or removed, which is not in the folder", name);
}

int fire_rename(const char *from, const char *to)
{
    inside(to);
    return breaks(RENAME) ? -1 : rename(from, to);
}

int fire_remove(const char *name)
{
    size_t length = strlen(name);

    if (length < 5 || strcmp(name + length - 5, ".part") != 0)
        finding("%.60s would be removed, which is no part", name);
    return remove(name);
}

/* ---- the run under way */

#define MOST_WORDS 24
#define FILES 3
static char words[MOST_WORDS][64], *argv[MOST_WORDS + 1], long_name[5000];
static int argc, obj; /* obj: obj_file is run, and not mesh_file */

static struct {
    char name[32];
    int fd;
    uint8_t *bytes;
    size_t size;
} files[FILES];
#define MOST_BYTES (2 * 34 * 34 * 34 + 64)

static int out_fd, err_fd, full_fd;
static uint64_t runs, guarded_runs, by_status[2][3], meshed, unread, refused[18], quads_printed, failed_allocations, failed_writes, obj_bytes, obj_kept, obj_broken;

/* Where obj_file writes: a folder of the run's own, and in it the file, an old one or none; or a name that it must leave. */
enum place { FREE_NAME, OLD_FILE, FOLDER, NO_FOLDER, PIPE, LINK, LONG_NAME, NO_NAME, PART_THERE, THE_BLOCK, PLACES };
static enum place place;
static char out_name[64], part_name[96], block_name[64];
static const char old_text[] = "what stood there before\n";

void target_describe(int fd)
{
    int i;

    dprintf(fd, "fire: %s", obj ? "obj_file" : "mesh_file");
    for (i = 1; i < argc; i++)
        dprintf(fd, " '%.60s'", argv[i]);
    for (i = 0; i < FILES; i++)
        dprintf(fd, "; %s has %lu bytes", files[i].name, (unsigned long)files[i].size);
    dprintf(fd, "; the allocation that fails: %d; guard pages: %d", fail_at, guarded);
    if (obj)
        dprintf(fd, "; the place: %d; the step that fails: %d", place, broken);
    dprintf(fd, "\n");
}

void target_report(int fd)
{
    int i;

    for (i = 0; i < 2; i++)
        dprintf(fd, "fire: %s: %llu with status 0, %llu with 1, %llu with 2\n", i ? "obj_file" : "mesh_file", (unsigned long long)by_status[i][0], (unsigned long long)by_status[i][1],
                (unsigned long long)by_status[i][2]);
    dprintf(fd, "fire: %llu runs of the host; with guard pages %llu, with an allocation that failed %llu, with an output that could not be written %llu\n", (unsigned long long)runs,
            (unsigned long long)guarded_runs, (unsigned long long)failed_allocations, (unsigned long long)failed_writes);
    dprintf(fd, "fire: obj_file: %llu bytes of OBJ; a name that it must leave %llu, a step of writing that failed %llu\n", (unsigned long long)obj_bytes, (unsigned long long)obj_kept,
            (unsigned long long)obj_broken);
    dprintf(fd, "fire: %llu files meshed with %llu quads, %llu not read; refused", (unsigned long long)meshed, (unsigned long long)quads_printed, (unsigned long long)unread);
    for (i = 1; i < 18; i++)
        if (refused[i] != 0)
            dprintf(fd, " by %d: %llu", i, (unsigned long long)refused[i]);
    dprintf(fd, "\n");
}

/* ---- what it should print */

static char *text;
static size_t text_size, text_room;

static void __attribute__((format(printf, 1, 2))) expect(const char *form, ...)
{
    va_list list;

    if (text_room - text_size < 6000) {
        text_room = 2 * text_room + 65536;
        text = realloc(text, text_room);
        if (text == NULL)
            abort();
    }
    va_start(list, form);
    text_size += (size_t)vsnprintf(text + text_size, text_room - text_size, form, list);
    va_end(list);
}

struct job {
    int unit, quads, boxed;
    uint32_t shape[3], min[3], max[3];
};

/* A decimal number of at most 32 bits. */
static int number_of(const char *word, uint32_t *n)
{
    uint64_t value = 0;

    if (*word == '\0')
        return 0;
    for (; *word != '\0'; word++) {
        if (*word < '0' || *word > '9')
            return 0;
        value = value * 10 + (uint64_t)(*word - '0');
        if (value > UINT32_MAX)
            return 0;
    }
    *n = (uint32_t)value;
    return 1;
}

/* Reads the words as the program's head has them: the place of the first file, or 0 where they are wrong. */
static int read_words(struct job *job)
{
    int i, k;

    memset(job, 0, sizeof *job);
    for (i = 1; i < argc && argv[i][0] == '-' && argv[i][1] == '-'; i++) {
        if (strcmp(argv[i], "--unit") == 0)
            job->unit = 1;
        else if (strcmp(argv[i], "--quads") == 0)
            job->quads = 1;
        else if (strcmp(argv[i], "--box") == 0) {
            if (job->boxed)
                return 0;
            job->boxed = 1;
            for (k = 0; k < 6; k++)
                if (++i >= argc || !number_of(argv[i], k < 3 ? &job->min[k] : &job->max[k - 3]))
                    return 0;
        } else
            return 0;
    }
    for (k = 0; k < 3; k++, i++) {
        if (i >= argc || !number_of(argv[i], &job->shape[k]) || job->shape[k] < 1 || job->shape[k] > 256)
            return 0;
        if (!job->boxed)
            job->max[k] = job->shape[k] - 1;
    }
    return i < argc ? i : 0;
}

/* The same for obj_file: the place of the block's name. */
static int read_obj_words(struct job *job)
{
    int i, first = read_words(job);

    for (i = 1; i < first; i++)
        if (strcmp(argv[i], "--unit") == 0 || strcmp(argv[i], "--quads") == 0)
            return 0;
    return argc - first == 2 ? first : 0;
}

static const int32_t cube[12] = {1, 0, -1, 0, 1, 2, -1, 2, 1, 1, -1, 1};

/* Meshes a file by the second reading: its quads, and how many, or NULL where they are not listed. */
static uint32_t *mesh_of(const struct job *job, const char *name, size_t *capacity, int *asks, uint64_t answer[9], size_t *quads, char *said, size_t said_room)
{
    static uint16_t voxels[MOST_BYTES / 2];
    static uint8_t visited[MOST_BYTES / 2];
    size_t block = (size_t)job->shape[0] * job->shape[1] * job->shape[2], numbers = job->unit ? 3 : 5, room, i, all = 0;
    uint32_t *out;
    int f, k, full = 0;

    for (f = 0; f < FILES && strcmp(name, files[f].name) != 0; f++)
        ;
    if (f == FILES || files[f].size != 2 * block) {
        unread++;
        return NULL;
    }
    for (i = 0; i < block; i++)
        voxels[i] = (uint16_t)(files[f].bytes[2 * i] | files[f].bytes[2 * i + 1] << 8);
    room = 6 * block * numbers;
    out = malloc(room * sizeof *out + 1);
    if (out == NULL)
        abort();
    if (job->unit)
        reading_visible_block_faces(job->shape, job->min, job->max, cube, voxels, block, out, room, answer);
    else
        reading_greedy_quads(job->shape, job->min, job->max, cube, voxels, block, visited, block, out, room, answer);
    for (k = 0; k < 6; k++)
        all += (size_t)answer[2 + k];
    while (answer[0] == 0 && all > *capacity && !full) {
        if (++*asks == fail_at)
            full = 1;
        else
            *capacity *= 2;
    }
    if (full) {
        answer[0] = 9;
        answer[1] = *capacity;
    }
    if (answer[0] != 0) {
        refused[answer[0]]++;
        snprintf(said, said_room, "%s: refused by %llu at %llu: ", name, (unsigned long long)answer[0], (unsigned long long)answer[1]);
        free(out);
        return NULL;
    }
    meshed++;
    *quads = all;
    return out;
}

/* What mesh_file should make of a file; answers how many could not be meshed, 0 or 1, and adds to the text what should be printed. */
static int mesh_again(const struct job *job, const char *name, size_t *capacity, int *asks, char *said, size_t said_room)
{
    static const char *const faces[6] = {"+X", "-X", "+Y", "-Y", "+Z", "-Z"};
    size_t numbers = job->unit ? 3 : 5, i, all, at = 0;
    uint64_t answer[9], count;
    uint32_t *out = mesh_of(job, name, capacity, asks, answer, &all, said, said_room);
    int k;

    if (out == NULL)
        return 1;
    quads_printed += all;
    for (k = 0; k < 6; k++)
        for (count = 0; job->quads && count < answer[2 + k]; count++) {
            expect("%s", faces[k]);
            for (i = 0; i < numbers; i++)
                expect(" %u", out[at++]);
            expect("\n");
        }
    expect("%s: %lu quads:", name, (unsigned long)all);
    for (k = 0; k < 6; k++)
        expect(" %s %llu", faces[k], (unsigned long long)answer[2 + k]);
    expect(", tests %llu\n", (unsigned long long)answer[8]);
    free(out);
    return 0;
}

/* Whether obj_file sees before all else that the name is not to be replaced. */
static int is_left(void)
{
    return place == FOLDER || place == PIPE || place == LINK || place == LONG_NAME || place == THE_BLOCK;
}

/* What obj_file should make of a block: the text that should be written; answers 1 where nothing should. */
static int write_again(const struct job *job, const char *name, char *said, size_t said_room)
{
    size_t capacity = 65536, all, room;
    uint64_t answer[9], written[3];
    uint32_t *out;
    int asks = 4;

    if (is_left() || (fail_at >= 1 && fail_at <= 4))
        return 1;
    out = mesh_of(job, name, &capacity, &asks, answer, &all, said, said_room);
    if (out == NULL)
        return 1;
    room = SPUNMARROW_OBJ_HEAD_BYTES + all * SPUNMARROW_OBJ_MOST_QUAD_BYTES;
    if (room > text_room) {
        text_room = room;
        text = realloc(text, text_room);
        if (text == NULL)
            abort();
    }
    reading_write_obj(cube, answer + 2, out, all * 5, (uint8_t *)text, room, written);
    free(out);
    if (written[0] != 0)
        finding("by the second reading the writer refuses a greedy mesh by %llu", (unsigned long long)written[0]);
    if (fail_at == asks + 1 || fail_at == asks + 2 || broken != NO_STEP || (place != FREE_NAME && place != OLD_FILE))
        return 1;
    quads_printed += all;
    text_size = (size_t)written[2];
    return 0;
}

/* ---- the folder */

static void put(const char *name, const void *bytes, size_t size)
{
    int fd = open(name, O_WRONLY | O_CREAT | O_TRUNC, 0600);

    if (fd < 0 || write(fd, bytes, size) != (ssize_t)size || close(fd) != 0)
        abort();
}

/* A name has exactly these bytes. */
static void has(const char *name, const char *bytes, size_t size)
{
    static char *all;
    int fd = open(name, O_RDONLY);
    struct stat there;

    if (fd < 0 || fstat(fd, &there) != 0)
        finding("%s is not there", name);
    all = realloc(all, size + 1);
    if (all == NULL)
        abort();
    if (!S_ISREG(there.st_mode) || (size_t)there.st_size != size || read(fd, all, size) != (ssize_t)size || memcmp(all, bytes, size) != 0)
        finding("%s has not the bytes that it should have", name);
    close(fd);
}

/* What has to stand under the name before the run: by the place. */
static void prepare_place(int f)
{
    snprintf(out_name, sizeof out_name, "%s/o.obj", folder);
    snprintf(part_name, sizeof part_name, "%s.%lu.part", place == NO_NAME ? "" : out_name, (unsigned long)getpid());
    if (place == OLD_FILE || place == PART_THERE)
        put(out_name, old_text, sizeof old_text - 1);
    if (place == PART_THERE)
        put(part_name, old_text, sizeof old_text - 1);
    if ((place == LINK && symlink("nothing", out_name) != 0) || (place == PIPE && mkfifo(out_name, 0600) != 0))
        abort();
    if (place == THE_BLOCK)
        put(block_name, files[f].bytes, files[f].size);
}

/* Whether a name may be in the folder afterwards. */
static int belongs(const char *name, int status)
{
    if (strcmp(name, "o.obj") == 0)
        return status == 0 || place == OLD_FILE || place == LINK || place == PIPE || place == PART_THERE;
    if (strcmp(name, "block") == 0)
        return place == THE_BLOCK;
    return place == PART_THERE && strcmp(name, part_name + strlen(folder) + 1) == 0;
}

/* What stands there afterwards, and nothing else does; then the folder is empty again. */
static void look_at_place(int status, int f)
{
    struct dirent *entry;
    struct stat there;
    DIR *d;

    if (status == 0)
        has(out_name, text, text_size);
    else if (place == OLD_FILE || place == PART_THERE)
        has(out_name, old_text, sizeof old_text - 1);
    if (place == PART_THERE)
        has(part_name, old_text, sizeof old_text - 1);
    if (place == LINK && (lstat(out_name, &there) != 0 || !S_ISLNK(there.st_mode)))
        finding("a link is replaced");
    if (place == THE_BLOCK)
        has(block_name, (char *)files[f].bytes, files[f].size);
    if (place == PIPE && (lstat(out_name, &there) != 0 || !S_ISFIFO(there.st_mode)))
        finding("a pipe is replaced");
    d = opendir(folder);
    if (d == NULL)
        abort();
    while ((entry = readdir(d)) != NULL)
        if (strcmp(entry->d_name, ".") != 0 && strcmp(entry->d_name, "..") != 0) {
            if (!belongs(entry->d_name, status))
                finding("%s is left in the folder", entry->d_name);
            if (unlinkat(dirfd(d), entry->d_name, 0) != 0)
                abort();
        }
    closedir(d);
}

/* ---- what is drawn */

static const char *const odd_words[] = {"",   "0",  "-1", "+3",          "3x",         " 3",         "3 ",  "0x3", "1e1", "4294967295", "4294967296", "4294967299", "18446744073709551619", "99999999999999999999999999999",
                                        "00", "--", "-",  "--boxed", "--unit", "--quads", "--box", "3.0", "257", "256", "\xD9\xA3", "%s%n%s%n", "000000000000000000000003", "2147483648"};

static void add_word(const char *word)
{
    if (argc < MOST_WORDS) {
        snprintf(words[argc], sizeof words[argc], "%s", word);
        argv[argc] = words[argc];
        argc++;
    }
}

static void add_number(struct bytes *b, uint32_t number)
{
    char word[24];

    if (chance(b, 4)) {
        add_word(odd_words[draw_below(b, sizeof odd_words / sizeof odd_words[0])]);
        return;
    }
    snprintf(word, sizeof word, "%u", number);
    add_word(word);
}

static void draw_file(struct bytes *b, int f, size_t block, int checkered)
{
    uint64_t state = draw_word(b);
    uint32_t empty = chance(b, 64) ? draw_below(b, 257) : 64 + draw_below(b, 129), merges = 1 + draw_below(b, 3), bad = chance(b, 24);
    size_t i, size = 2 * block;

    switch (draw_below(b, 16)) {
    case 0: size = size == 0 ? 0 : size - 1; break;
    case 1: size += 1; break;
    case 2: size = 0; break;
    case 3: size = draw_below(b, 4096); break;
    default: break;
    }
    if (size > MOST_BYTES)
        size = draw_below(b, 4096);
    for (i = 0; i < size; i++) {
        uint64_t r = next_random(&state);
        uint32_t kind = (r & 255) < empty ? 0 : 1 + (r >> 8 & 1);

        files[f].bytes[i] = i % 2 == 0 ? (uint8_t)((r >> 16) % merges) : (uint8_t)(kind << 6);
    }
    if (checkered)
        for (i = 0; 2 * i + 1 < size; i++)
            files[f].bytes[2 * i + 1] = (i % 34 + i / 34 % 34 + i / 34 / 34) % 2 ? 128 : 0;
    if (bad && size > 1)
        files[f].bytes[draw_below(b, 65536) % (size / 2) * 2 + 1] |= 0xC0;
    files[f].size = size;
    if (ftruncate(files[f].fd, 0) != 0 || pwrite(files[f].fd, files[f].bytes, size, 0) != (ssize_t)size)
        abort();
}

/* The name that obj_file is given, and what of writing it fails. */
static void draw_place(struct bytes *b)
{
    uint32_t kind = draw_below(b, 4 * PLACES);
    char name[64];

    place = kind < PLACES ? (enum place)kind : kind % 2 ? OLD_FILE : FREE_NAME;
    broken = chance(b, 64) ? (enum step)(1 + draw_below(b, STEPS - 1)) : NO_STEP;
    snprintf(name, sizeof name, place == NO_FOLDER ? "%s/nowhere/o.obj" : place == FOLDER ? "%s" : place == THE_BLOCK ? "%s/block" : "%s/o.obj", folder);
    if (place == THE_BLOCK) {
        snprintf(block_name, sizeof block_name, "%s", name);
        snprintf(words[argc - 1], sizeof words[argc - 1], "%s", name);
        argv[argc - 1] = words[argc - 1];
    }
    add_word(place == NO_NAME ? "" : name);
    if (place == LONG_NAME)
        argv[argc - 1] = long_name;
}

static void draw_run(struct bytes *b)
{
    static const char *const no_files[] = {"/nowhere/at/all", "/", "", ".", "/dev/null", "-", "%s%s%n"};
    uint32_t shape[3], least, most, i, boxed = draw_below(b, 8), checkered = chance(b, 3), odd = chance(b, 6);
    size_t block = 1;

    argc = 0;
    obj = chance(b, 128);
    checkered = checkered && (!obj || chance(b, 64)); /* many quads are a long text */
    add_word(obj ? "obj_file" : "mesh_file");
    for (i = 0; i < 3; i++)
        shape[i] = checkered ? 34 : chance(b, 8) ? 254 + draw_below(b, 4) : chance(b, 2) ? 0 : 2 + draw_below(b, 6);
    if (obj ? chance(b, 3) : checkered || chance(b, 96))
        add_word("--unit");
    if (!obj && chance(b, 96))
        add_word("--quads");
    if (odd)
        add_word(odd_words[draw_below(b, sizeof odd_words / sizeof odd_words[0])]);
    if (boxed < 3 && !checkered) {
        uint32_t corner[6];

        for (i = 0; i < 3; i++) {
            least = draw_below(b, shape[i] + 1);
            most = draw_below(b, shape[i] + 2);
            corner[i] = boxed == 0 || least < most ? least : most;
            corner[i + 3] = boxed == 0 || least < most ? most : least;
        }
        add_word("--box");
        for (i = 0; i < 6; i++)
            add_number(b, corner[i]);
    }
    for (i = 0; i < 3; i++) {
        add_number(b, shape[i]);
        block *= shape[i];
    }
    for (i = 0; i < FILES; i++)
        files[i].size = 0;
    for (i = obj ? 1 : draw_below(b, 32) == 5 ? 0 : 1 + draw_below(b, FILES); i > 0; i--) {
        if (chance(b, 24)) {
            uint32_t most_k = obj ? 4 : sizeof no_files / sizeof no_files[0], k = draw_below(b, most_k + 1); /* of obj_file none that could be made */

            add_word(k < most_k ? no_files[k] : "");
            if (k == most_k)
                argv[argc - 1] = long_name;
        } else {
            draw_file(b, (int)i - 1, block, (int)checkered);
            add_word(files[i - 1].name);
        }
    }
    if (obj) {
        draw_place(b);
        if (chance(b, 8))
            add_word("one word too many");
    }
    if (chance(b, 8) && !(obj && odd)) /* an odd word more and a word less could make another file the OBJ */
        argc = 1 + (int)draw_below(b, (uint32_t)argc - 1);
    argv[argc] = NULL;
    fail_at = chance(b, 12) ? 1 + (int)draw_below(b, 6) : checkered && chance(b, 96) ? 5 : 0;
}

/* ---- the target */

void target_prepare(void)
{
    const char *own = getenv("FIRE_FOLDER"); /* an empty folder, which fire/run makes and removes */
    int i;

    memset(long_name, 'n', sizeof long_name - 1);
    expect("%s", ""); /* room for the text */
    for (i = 0; i < FILES; i++) {
        files[i].fd = memfd_create("block", 0);
        files[i].bytes = malloc(MOST_BYTES);
        if (files[i].fd < 0 || files[i].bytes == NULL)
            abort();
        snprintf(files[i].name, sizeof files[i].name, "/proc/self/fd/%d", files[i].fd);
    }
    out_fd = memfd_create("out", 0);
    err_fd = memfd_create("err", 0);
    full_fd = open("/dev/full", O_WRONLY);
    if (out_fd < 0 || err_fd < 0 || full_fd < 0 || own == NULL || strlen(own) >= sizeof folder)
        abort();
    strcpy(folder, own);
}

/* What was written to a file, as a string. */
static char *written(int fd, size_t *size)
{
    static char *all[2];
    off_t end = lseek(fd, 0, SEEK_END);
    char **at = &all[fd == err_fd];

    *at = realloc(*at, (size_t)end + 1);
    if (*at == NULL || pread(fd, *at, (size_t)end, 0) != (ssize_t)end)
        abort();
    (*at)[end] = '\0';
    *size = (size_t)end;
    return *at;
}

static int lowest_free(void)
{
    int fd = dup(report_fd);

    close(fd);
    return fd;
}

int LLVMFuzzerTestOneInput(const uint8_t *data, size_t size)
{
    static char said[FILES][128];
    struct bytes b = bytes_of(data, size);
    int status, wanted = 0, first, free_before, full, i, asks = 4, could_start, n = 0;
    size_t capacity = 65536, out_size, err_size;
    const char *out, *err;
    struct job job;

    started(data, size);
    draw_run(&b);
    full = chance(&b, 4);
    guarded = chance(&b, 128);

    /* what should come of it */
    text_size = 0;
    memset(said, 0, sizeof said);
    first = obj ? read_obj_words(&job) : read_words(&job);
    could_start = first == 0 || (obj && is_left()) || fail_at < 1 || fail_at > 4;
    if (first == 0)
        wanted = 2;
    else if (obj)
        wanted = write_again(&job, argv[first], said[0], sizeof said[0]);
    else if (!could_start)
        wanted = 1;
    else
        for (i = first; i < argc; i++)
            if (mesh_again(&job, argv[i], &capacity, &asks, said[n], sizeof said[n])) {
                wanted = 1;
                n += n < FILES - 1;
            }
    if (!obj && full && text_size != 0)
        wanted = 1;
    if (obj)
        prepare_place(0);

    fflush(stdout);
    if (dup2(full ? full_fd : out_fd, 1) < 0 || dup2(err_fd, 2) < 0 || ftruncate(out_fd, 0) != 0 || ftruncate(err_fd, 0) != 0)
        abort();
    lseek(out_fd, 0, SEEK_SET);
    lseek(err_fd, 0, SEEK_SET);
    asked = 0;
    free_before = lowest_free();
    entered();
    status = obj ? obj_file_main(argc, argv) : mesh_file_main(argc, argv);
    left();
    fflush(stdout);
    __fpurge(stdout);
    clearerr(stdout);

    runs++;
    guarded_runs += (uint64_t)guarded;
    if (status < 0 || status > 2 || status != wanted)
        finding("the exit status is %d, and should be %d", status, wanted);
    by_status[obj][status]++;
    failed_allocations += first != 0 && fail_at != 0 && asked >= fail_at;
    failed_writes += !obj && full && text_size != 0;
    if (obj) {
        obj_bytes += text_size;
        obj_kept += first != 0 && is_left();
        obj_broken += first != 0 && broken != NO_STEP;
        look_at_place(status, 0);
        if (place == NO_NAME && access(part_name, F_OK) == 0)
            finding("%s is left", part_name);
        text_size = 0; /* nothing is printed */
    }
    out = written(out_fd, &out_size);
    err = written(err_fd, &err_size);
    if (!full && (out_size != text_size || memcmp(out, text, text_size) != 0))
        finding("what is printed is not the second reading's");
    if (status != 0 && err_size == 0)
        finding("nothing is said on standard error");
    if (status == 2 && strstr(err, obj ? "usage: obj_file" : "usage: mesh_file") == NULL)
        finding("the usage is not said");
    if (status == 0 && strstr(err, "refused") != NULL)
        finding("a refusal is said, and the status is 0");
    for (i = 0; i < FILES; i++)
        if (said[i][0] != '\0' && strstr(err, said[i]) == NULL)
            finding("not said on standard error: %s", said[i]);
    if (!could_start && strstr(err, "no memory") == NULL)
        finding("it is not said that there is no memory");
    if (lowest_free() != free_before)
        finding("a file is left open");
    for (i = 0; i < MOST_BLOCKS; i++)
        if (blocks[i].at != NULL)
            finding("memory is not given back");
    return 0;
}
