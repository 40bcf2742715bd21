/* A plug-in for QEMU's user-mode emulator: every instruction that a program runs and what it loads and
 * stores, on standard error, in the lines of valgrind's lackey. The emulator's functions are declared
 * here, as its plug-in interface version 1 has them, so that no header is needed. */
#include <stdbool.h>
#include <stddef.h>
#include <stdint.h>
#include <stdio.h>

struct qemu_plugin_tb;
struct qemu_plugin_insn;
size_t qemu_plugin_tb_n_insns(const struct qemu_plugin_tb *block);
struct qemu_plugin_insn *qemu_plugin_tb_get_insn(const struct qemu_plugin_tb *block, size_t i);
uint64_t qemu_plugin_insn_vaddr(const struct qemu_plugin_insn *instruction);
size_t qemu_plugin_insn_size(const struct qemu_plugin_insn *instruction);
unsigned qemu_plugin_mem_size_shift(uint32_t access);
bool qemu_plugin_mem_is_store(uint32_t access);
void qemu_plugin_register_vcpu_tb_trans_cb(uint64_t id, void (*translated)(uint64_t, struct qemu_plugin_tb *));
void qemu_plugin_register_vcpu_insn_exec_cb(struct qemu_plugin_insn *instruction, void (*runs)(unsigned, void *), int flags, void *data);
void qemu_plugin_register_vcpu_mem_cb(struct qemu_plugin_insn *instruction, void (*touches)(unsigned, uint32_t, uint64_t, void *), int flags, int rw, void *data);
void qemu_plugin_register_atexit_cb(uint64_t id, void (*ended)(uint64_t, void *), void *data);

__attribute__((visibility("default"))) int qemu_plugin_version = 1;

enum { NO_REGISTERS = 0, LOADS_AND_STORES = 3 };

/* The last access of the instruction at hand: a load and a store of one place are told as one. */
static char kind;
static uint64_t place;
static unsigned size;

static void tell(void) {
    if (kind)
        fprintf(stderr, " %c %llx,%u\n", kind, (unsigned long long)place, size);
    kind = 0;
}

static void runs(unsigned processor, void *data) {
    (void)processor;
    uint64_t both = (uint64_t)(uintptr_t)data;
    tell();
    fprintf(stderr, "I  %llx,%llu\n", (unsigned long long)(both >> 4), (unsigned long long)(both & 15));
}

static void touches(unsigned processor, uint32_t access, uint64_t address, void *data) {
    (void)processor;
    (void)data;
    bool stores = qemu_plugin_mem_is_store(access);
    if (stores && kind == 'L' && place == address) {
        kind = 'M';
        return;
    }
    tell();
    kind = stores ? 'S' : 'L';
    place = address;
    size = 1u << qemu_plugin_mem_size_shift(access);
}

static void translated(uint64_t id, struct qemu_plugin_tb *block) {
    (void)id;
    for (size_t i = 0; i < qemu_plugin_tb_n_insns(block); i++) {
        struct qemu_plugin_insn *instruction = qemu_plugin_tb_get_insn(block, i);
        /* An address has at most 47 bits, and a length 4. */
        uint64_t both = qemu_plugin_insn_vaddr(instruction) << 4 | qemu_plugin_insn_size(instruction);
        qemu_plugin_register_vcpu_insn_exec_cb(instruction, runs, NO_REGISTERS, (void *)(uintptr_t)both);
        qemu_plugin_register_vcpu_mem_cb(instruction, touches, NO_REGISTERS, LOADS_AND_STORES, NULL);
    }
}

static void ended(uint64_t id, void *data) {
    (void)id;
    (void)data;
    tell();
}

__attribute__((visibility("default"))) int qemu_plugin_install(uint64_t id, const void *info, int argc, char **argv) {
    (void)info;
    (void)argc;
    (void)argv;
    qemu_plugin_register_vcpu_tb_trans_cb(id, translated);
    qemu_plugin_register_atexit_cb(id, ended, NULL);
    return 0;
}
