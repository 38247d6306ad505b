/* What both targets share: bytes to draw from, and how a finding is told. A target is fire.c (the C interface) or host.c (host/mesh_file.c). */
#ifndef FIRE_COMMON_H
#define FIRE_COMMON_H

#include <stddef.h>
#include <stdint.h>

/* The input that a call is made of. Past its end the bytes come from a generator that the input seeds, so that every input is a whole call. */
struct bytes {
    const uint8_t *at;
    size_t left;
    uint64_t state;
};

struct bytes bytes_of(const uint8_t *data, size_t size);
uint64_t next_random(uint64_t *state);
uint64_t draw_word(struct bytes *b);
uint32_t draw_below(struct bytes *b, uint32_t n); /* n is 1 to 65536 */
int chance(struct bytes *b, uint32_t of_256);

/* The target supplies these. */
extern const char *const target_name;
void target_prepare(void);
void target_describe(int fd); /* the call that is under way, or the last one */
void target_report(int fd);
int LLVMFuzzerTestOneInput(const uint8_t *data, size_t size);

/* A call is watched from `entered` to `left`: one that takes WATCH_SECONDS of processor time is a finding. */
#define WATCH_SECONDS 10
void started(const uint8_t *data, size_t size);
void entered(void);
void left(void);
_Noreturn void finding(const char *what, ...) __attribute__((format(printf, 1, 2)));

extern int report_fd;

#endif
