/* A plugin of QEMU's user mode that counts the pages of 4 KiB that a program touches, of its code and of its data: the
 * memory that is the program's own, without QEMU's. Like bench/insn.c it declares the few functions of QEMU that it calls. */
#include <inttypes.h>
#include <stdbool.h>
#include <stddef.h>
#include <stdint.h>
#include <stdio.h>
#include <stdlib.h>

typedef uint64_t plugin_id;
struct qemu_plugin_tb;
struct qemu_plugin_insn;
void qemu_plugin_register_vcpu_tb_trans_cb(plugin_id id, void (*f)(plugin_id, struct qemu_plugin_tb *));
void qemu_plugin_register_vcpu_mem_cb(struct qemu_plugin_insn *insn, void (*f)(unsigned, uint32_t, uint64_t, void *), int flags, int rw, void *data);
void qemu_plugin_register_atexit_cb(plugin_id id, void (*f)(plugin_id, void *), void *data);
size_t qemu_plugin_tb_n_insns(const struct qemu_plugin_tb *tb);
struct qemu_plugin_insn *qemu_plugin_tb_get_insn(const struct qemu_plugin_tb *tb, size_t i);
uint64_t qemu_plugin_insn_vaddr(const struct qemu_plugin_insn *insn);

enum { NO_FLAGS = 0, READ_AND_WRITE = 3, PLACES = 1 << 20 };

__attribute__((visibility("default"))) int qemu_plugin_version = 1;
static uint64_t seen[PLACES]; /* a page's number at the first free place from its own on; 0 is free */
static uint64_t last, count;

static void touch(uint64_t address) {
    uint64_t page = (address >> 12) + 1;
    uint64_t at = page % PLACES;
    if (page == last)
        return;
    last = page;
    while (seen[at] != 0 && seen[at] != page)
        at = (at + 1) % PLACES;
    if (seen[at] == page)
        return;
    seen[at] = page;
    if (++count == PLACES) {
        fprintf(stderr, "more than %d pages\n", PLACES - 1);
        exit(1);
    }
}

static void accessed(unsigned cpu, uint32_t info, uint64_t address, void *data) {
    (void)cpu;
    (void)info;
    (void)data;
    touch(address);
}

static void translated(plugin_id id, struct qemu_plugin_tb *tb) {
    (void)id;
    for (size_t i = 0; i < qemu_plugin_tb_n_insns(tb); i++) {
        struct qemu_plugin_insn *insn = qemu_plugin_tb_get_insn(tb, i);
        touch(qemu_plugin_insn_vaddr(insn));
        qemu_plugin_register_vcpu_mem_cb(insn, accessed, NO_FLAGS, READ_AND_WRITE, NULL);
    }
}

static void ended(plugin_id id, void *data) {
    (void)id;
    (void)data;
    fprintf(stderr, "pages: %" PRIu64 "\n", count);
}

__attribute__((visibility("default"))) int qemu_plugin_install(plugin_id id, const void *info, int argc, char **argv) {
    (void)info;
    (void)argc;
    (void)argv;
    qemu_plugin_register_vcpu_tb_trans_cb(id, translated);
    qemu_plugin_register_atexit_cb(id, ended, NULL);
    return 0;
}
