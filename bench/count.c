/* Counts the instructions that a program executes under the emulator, for bench/run on machines that aren't x86-64: qemu-x86_64 -plugin count.so PROGRAM.
 * At the program's end it writes the count as a line of its own to standard error. The emulator adds up a block of instructions at a time; two runs of one program with the
 * same words give the same count. The header of the emulator's plugin interface isn't needed: what is used of it is declared here. */
#include <inttypes.h>
#include <stddef.h>
#include <stdint.h>
#include <stdio.h>

/* The emulator's interface, version 1. */
typedef uint64_t plugin_id;
struct qemu_plugin_tb;   /* a block of translated instructions */
struct qemu_plugin_insn; /* one of them */
enum inline_operation { ADD_U64 };
typedef void block_translated(plugin_id, struct qemu_plugin_tb *);
typedef void at_exit(plugin_id, void *);
void qemu_plugin_register_vcpu_tb_trans_cb(plugin_id, block_translated *);
size_t qemu_plugin_tb_n_insns(const struct qemu_plugin_tb *);
struct qemu_plugin_insn *qemu_plugin_tb_get_insn(const struct qemu_plugin_tb *, size_t);
void qemu_plugin_register_vcpu_tb_exec_inline(struct qemu_plugin_tb *, enum inline_operation, void *, uint64_t);
void qemu_plugin_register_vcpu_insn_exec_inline(struct qemu_plugin_insn *, enum inline_operation, void *, uint64_t);
void qemu_plugin_register_atexit_cb(plugin_id, at_exit *, void *);

int qemu_plugin_version = 1;

static uint64_t instructions;

/* A block that is translated adds its length each time it runs. Its last instruction adds itself: where that one lies across two pages, the emulator lists it with the block but
 * leaves it to the next one, which begins with it. */
static void translated(plugin_id id, struct qemu_plugin_tb *block)
{
    size_t last = qemu_plugin_tb_n_insns(block) - 1;
    (void)id;
    qemu_plugin_register_vcpu_tb_exec_inline(block, ADD_U64, &instructions, last);
    qemu_plugin_register_vcpu_insn_exec_inline(qemu_plugin_tb_get_insn(block, last), ADD_U64, &instructions, 1);
}

static void ended(plugin_id id, void *nothing)
{
    (void)id;
    (void)nothing;
    fprintf(stderr, "instructions %" PRIu64 "\n", instructions);
}

int qemu_plugin_install(plugin_id id, const void *info, int argc, char **argv)
{
    (void)info;
    (void)argc;
    (void)argv;
    qemu_plugin_register_vcpu_tb_trans_cb(id, translated);
    qemu_plugin_register_atexit_cb(id, ended, NULL);
    return 0;
}
