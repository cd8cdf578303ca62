/* A plugin for qemu-x86_64: each call of count_mark writes the instructions run since the last. */
#include <stdint.h>
#include <stdlib.h>
#include <string.h>
#include <unistd.h>

/* The part of the emulator's plugin interface that is used here (version 1). */
struct qemu_plugin_tb;
struct qemu_plugin_insn;
typedef void on_translation(uint64_t id, struct qemu_plugin_tb *block);
typedef void on_run(unsigned cpu, void *data);
extern void qemu_plugin_register_vcpu_tb_trans_cb(uint64_t id, on_translation *translated);
extern void qemu_plugin_register_vcpu_tb_exec_cb(struct qemu_plugin_tb *block, on_run *run,
                                                 int flags, void *data);
extern size_t qemu_plugin_tb_n_insns(const struct qemu_plugin_tb *block);
extern struct qemu_plugin_insn *qemu_plugin_tb_get_insn(const struct qemu_plugin_tb *block,
                                                        size_t index);
extern const char *qemu_plugin_insn_symbol(const struct qemu_plugin_insn *instruction);
extern uint64_t qemu_plugin_insn_vaddr(const struct qemu_plugin_insn *instruction);

__attribute__((visibility("default"))) int qemu_plugin_version = 1;

enum { COUNTS = 200 }; /* the file number that the counted program reads its counts from */

enum { PAGE = 4096, LONGEST = 15 }; /* bytes of a page, and of the longest instruction */

/* A block's first and last instruction, and how many it was said to have. */
struct block {
    uint64_t first, last, count;
};

static uint64_t count;
static const struct block *before;

/* An instruction that crosses a page is counted in the block that it would end, which leaves it out,
   and again as the first of the next block. */
static void block_runs(unsigned cpu, void *data)
{
    const struct block *block = data;
    (void)cpu;
    if (before != NULL && before->count > 1 && before->last == block->first &&
        block->first % PAGE + LONGEST > PAGE)
        count--;
    count += block->count;
    before = block;
}

static void mark_runs(unsigned cpu, void *data)
{
    (void)cpu, (void)data;
    if (write(COUNTS, &count, sizeof count) != sizeof count)
        _exit(3);
    count = 0;
    before = NULL;
}

static void translated(uint64_t id, struct qemu_plugin_tb *block)
{
    const struct qemu_plugin_insn *first = qemu_plugin_tb_get_insn(block, 0);
    const char *symbol = qemu_plugin_insn_symbol(first);
    struct block *noted = malloc(sizeof *noted);
    (void)id;
    if (noted == NULL)
        _exit(3);
    noted->count = qemu_plugin_tb_n_insns(block);
    noted->first = qemu_plugin_insn_vaddr(first);
    noted->last = qemu_plugin_insn_vaddr(qemu_plugin_tb_get_insn(block, noted->count - 1));
    if (symbol != NULL && strcmp(symbol, "count_mark") == 0)
        qemu_plugin_register_vcpu_tb_exec_cb(block, mark_runs, 0, NULL);
    else
        qemu_plugin_register_vcpu_tb_exec_cb(block, block_runs, 0, noted);
}

__attribute__((visibility("default")))
int qemu_plugin_install(uint64_t id, const void *info, int argc, char **argv)
{
    (void)info, (void)argc, (void)argv;
    qemu_plugin_register_vcpu_tb_trans_cb(id, translated);
    return 0;
}
