// Counts the instructions that an x86-64 program executes, those of a repeated copy aside: a plugin of Debian's qemu-x86_64, for `bench/run --count`. The emulator's
// header is in no package, so what is used of it is declared here.
#include <stddef.h>
#include <stdint.h>
#include <stdio.h>

struct block;
struct instruction;
typedef void (*on_block)(uint64_t id, struct block *block);
typedef void (*on_end)(uint64_t id, void *unused);
extern void qemu_plugin_register_vcpu_tb_trans_cb(uint64_t id, on_block call);
extern size_t qemu_plugin_tb_n_insns(const struct block *block);
extern struct instruction *qemu_plugin_tb_get_insn(const struct block *block, size_t place);
extern const void *qemu_plugin_insn_data(const struct instruction *instruction);
extern void qemu_plugin_register_vcpu_tb_exec_inline(struct block *block, int add, void *sum, uint64_t more);
extern void qemu_plugin_register_atexit_cb(uint64_t id, on_end call, void *unused);

int qemu_plugin_version = 1;
static uint64_t instructions;

// A string instruction with a prefix that repeats it (rep movsb and the like) is one instruction, but the emulator runs it as a block
// of its own, once for each byte or word.
static int repeats(const struct block *block) {
    const uint8_t *byte = qemu_plugin_insn_data(qemu_plugin_tb_get_insn(block, 0));
    if (qemu_plugin_tb_n_insns(block) != 1 || byte[0] != 0xf3)
        return 0;
    uint8_t code = byte[byte[1] == 0x48 ? 2 : 1];
    return code == 0xa4 || code == 0xa5 || code == 0xaa || code == 0xab;
}

// A block of code is translated once; each time it runs, its length is added.
static void translated(uint64_t id, struct block *block) {
    (void)id;
    if (!repeats(block))
        qemu_plugin_register_vcpu_tb_exec_inline(block, 0, &instructions, qemu_plugin_tb_n_insns(block));
}

static void ended(uint64_t id, void *unused) {
    (void)id;
    (void)unused;
    fprintf(stderr, "%llu\n", (unsigned long long)instructions);
}

int qemu_plugin_install(uint64_t id, const void *about, int count, char **words) {
    (void)about;
    (void)count;
    (void)words;
    qemu_plugin_register_vcpu_tb_trans_cb(id, translated);
    qemu_plugin_register_atexit_cb(id, ended, NULL);
    return 0;
}
