/* A plugin for QEMU's user emulation that counts the instructions that a program executes, and writes the count to standard error at its end: what
   bench/run --count uses where the machine is no x86-64. QEMU's header is not packaged; these are the declarations of its plugin interface, version 1. */
#include <stddef.h>
#include <stdint.h>
#include <stdio.h>

typedef uint64_t plugin_id;
struct block;
enum operation { ADD_TO_U64 };

extern size_t qemu_plugin_tb_n_insns(const struct block *);
extern void qemu_plugin_register_vcpu_tb_exec_inline(struct block *, enum operation, void *, uint64_t);
extern void qemu_plugin_register_vcpu_tb_trans_cb(plugin_id, void (*)(plugin_id, struct block *));
extern void qemu_plugin_register_atexit_cb(plugin_id, void (*)(plugin_id, void *), void *);

int qemu_plugin_version = 1;
static uint64_t executed;

/* each block of instructions, when it is translated: at each of its executions its length is added */
static void translated(plugin_id id, struct block *b) {
    (void)id;
    qemu_plugin_register_vcpu_tb_exec_inline(b, ADD_TO_U64, &executed, qemu_plugin_tb_n_insns(b));
}

static void ended(plugin_id id, void *none) {
    (void)id, (void)none;
    fprintf(stderr, "instructions: %llu\n", (unsigned long long)executed);
}

int qemu_plugin_install(plugin_id id, const void *about, int argc, char **argv) {
    (void)about, (void)argc, (void)argv;
    qemu_plugin_register_vcpu_tb_trans_cb(id, translated);
    qemu_plugin_register_atexit_cb(id, ended, NULL);
    return 0;
}
