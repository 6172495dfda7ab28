/* A plugin of qemu, of the interface that Debian's qemu 7.2 has: counts the instructions of a program, and prints their number as
 * its last line on standard error, and before, each time that its function `mark` is called. Only what it needs of qemu-plugin.h, which Debian
 * does not hand out, is declared here. */
#include <inttypes.h>
#include <stddef.h>
#include <stdio.h>
#include <string.h>

struct qemu_plugin_tb;
struct qemu_plugin_insn;
struct qemu_plugin_insn *qemu_plugin_tb_get_insn(const struct qemu_plugin_tb *block, size_t at);
const char *qemu_plugin_insn_symbol(const struct qemu_plugin_insn *one);
size_t qemu_plugin_tb_n_insns(const struct qemu_plugin_tb *block);
void qemu_plugin_register_vcpu_tb_trans_cb(uint64_t plugin, void (*call)(uint64_t plugin, struct qemu_plugin_tb *block));
void qemu_plugin_register_vcpu_tb_exec_cb(struct qemu_plugin_tb *block, void (*call)(unsigned int processor, void *given), int flags, void *given);
void qemu_plugin_register_atexit_cb(uint64_t plugin, void (*call)(uint64_t plugin, void *given), void *given);

int qemu_plugin_version = 1;
static uint64_t instructions;

static void ran(unsigned int processor, void *count)
{
    (void)processor;
    instructions += (uintptr_t)count;
}

static void marked(unsigned int processor, void *given)
{
    (void)processor;
    (void)given;
    fprintf(stderr, "mark %" PRIu64 "\n", instructions);
}

static void translated(uint64_t plugin, struct qemu_plugin_tb *block)
{
    const char *name = qemu_plugin_insn_symbol(qemu_plugin_tb_get_insn(block, 0));
    (void)plugin;
    if (name && strcmp(name, "mark") == 0)
        qemu_plugin_register_vcpu_tb_exec_cb(block, marked, 0, NULL);
    qemu_plugin_register_vcpu_tb_exec_cb(block, ran, 0, (void *)(uintptr_t)qemu_plugin_tb_n_insns(block));
}

static void ended(uint64_t plugin, void *given)
{
    (void)plugin;
    (void)given;
    fprintf(stderr, "instructions %" PRIu64 "\n", instructions);
}

int qemu_plugin_install(uint64_t plugin, const void *info, int words, char **word)
{
    (void)info;
    (void)words;
    (void)word;
    qemu_plugin_register_vcpu_tb_trans_cb(plugin, translated);
    qemu_plugin_register_atexit_cb(plugin, ended, NULL);
    return 0;
}
