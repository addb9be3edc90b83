/* A plugin for qemu-user that counts the instructions a program executes and prints the count on standard
 * error at its end. Where the program makes marks, by a system call that there is not, it prints instead the
 * count between each first and second mark, without the two instructions of a mark; and behind it, tabs between, how
 * often an array was read and written there, if the plugin's arguments name one: `at`, its address, and `octets`.
 * Instructions are counted one by one: the length of a block, which would be quicker, is one too many where an
 * instruction lies across two pages, so that counts would depend on where code is linked. Reads and writes are asked
 * for together and told apart here: asked for reads alone, qemu 7.2 hands over writes. No header of the plugin
 * interface is packaged, so what is used of it is declared here. */
#include <inttypes.h>
#include <stdbool.h>
#include <stddef.h>
#include <stdio.h>
#include <stdlib.h>
#include <string.h>

struct qemu_plugin_tb;
struct qemu_plugin_insn;
enum qemu_plugin_op { QEMU_PLUGIN_INLINE_ADD_U64 };
enum qemu_plugin_cb_flags { QEMU_PLUGIN_CB_NO_REGS };
enum qemu_plugin_mem_rw { QEMU_PLUGIN_MEM_RW = 3 };
void qemu_plugin_register_vcpu_tb_trans_cb(uint64_t id, void (*translated)(uint64_t id, struct qemu_plugin_tb *tb));
size_t qemu_plugin_tb_n_insns(const struct qemu_plugin_tb *tb);
struct qemu_plugin_insn *qemu_plugin_tb_get_insn(const struct qemu_plugin_tb *tb, size_t index);
void qemu_plugin_register_vcpu_insn_exec_inline(struct qemu_plugin_insn *insn, enum qemu_plugin_op op,
                                                void *sum, uint64_t more);
void qemu_plugin_register_vcpu_mem_cb(struct qemu_plugin_insn *insn,
                                      void (*touched)(unsigned cpu, uint32_t info, uint64_t address, void *data),
                                      enum qemu_plugin_cb_flags flags, enum qemu_plugin_mem_rw rw, void *data);
unsigned qemu_plugin_mem_size_shift(uint32_t info);
bool qemu_plugin_mem_is_store(uint32_t info);
void qemu_plugin_register_vcpu_syscall_cb(uint64_t id, void (*called)(uint64_t id, unsigned cpu, int64_t number,
                                                                      uint64_t, uint64_t, uint64_t, uint64_t,
                                                                      uint64_t, uint64_t, uint64_t, uint64_t));
void qemu_plugin_register_atexit_cb(uint64_t id, void (*ended)(uint64_t id, void *data), void *data);

int qemu_plugin_version = 1;
enum { MARK = 5000, MARK_COUNT = 2 };
static uint64_t executed, executed_before, marks;
static uint64_t at, octets, reads, writes; /* the array, and how often it was touched since the last mark */

static void touched(unsigned cpu, uint32_t info, uint64_t address, void *data)
{
    (void)cpu, (void)data;
    if (address >= at + octets || at >= address + (UINT64_C(1) << qemu_plugin_mem_size_shift(info)))
        return;
    if (qemu_plugin_mem_is_store(info))
        writes++;
    else
        reads++;
}

static void translated(uint64_t id, struct qemu_plugin_tb *tb)
{
    (void)id;
    for (size_t i = 0; i < qemu_plugin_tb_n_insns(tb); i++) {
        struct qemu_plugin_insn *insn = qemu_plugin_tb_get_insn(tb, i);
        qemu_plugin_register_vcpu_insn_exec_inline(insn, QEMU_PLUGIN_INLINE_ADD_U64, &executed, 1);
        if (octets > 0)
            qemu_plugin_register_vcpu_mem_cb(insn, touched, QEMU_PLUGIN_CB_NO_REGS, QEMU_PLUGIN_MEM_RW, NULL);
    }
}

static void called(uint64_t id, unsigned cpu, int64_t number, uint64_t a, uint64_t b, uint64_t c, uint64_t d,
                   uint64_t e, uint64_t f, uint64_t g, uint64_t h)
{
    (void)id, (void)cpu, (void)a, (void)b, (void)c, (void)d, (void)e, (void)f, (void)g, (void)h;
    if (number != MARK)
        return;
    if (marks++ % 2 == 1) {
        fprintf(stderr, "%" PRIu64, executed - executed_before - MARK_COUNT);
        if (octets > 0)
            fprintf(stderr, "\t%" PRIu64 "\t%" PRIu64, reads, writes);
        fputc('\n', stderr);
    }
    executed_before = executed;
    reads = writes = 0;
}

static void ended(uint64_t id, void *data)
{
    (void)id, (void)data;
    if (marks == 0)
        fprintf(stderr, "%" PRIu64 "\n", executed);
}

int qemu_plugin_install(uint64_t id, const void *info, int argc, char **argv)
{
    (void)info;
    for (int i = 0; i < argc; i++) {
        if (strncmp(argv[i], "at=", 3) == 0)
            at = strtoull(argv[i] + 3, NULL, 0);
        if (strncmp(argv[i], "octets=", 7) == 0)
            octets = strtoull(argv[i] + 7, NULL, 0);
    }
    qemu_plugin_register_vcpu_tb_trans_cb(id, translated);
    qemu_plugin_register_vcpu_syscall_cb(id, called);
    qemu_plugin_register_atexit_cb(id, ended, NULL);
    return 0;
}
