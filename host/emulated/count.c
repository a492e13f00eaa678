/* Counts the instructions that an emulated program runs. A plugin of qemu's user emulation, for host/emulated.sh.
 *
 * At each call of getppid, which asks for nothing that anyone wants, the number of instructions since the last one is printed on standard
 * error: so a program tells by such calls what is to be counted. Debian packages qemu without the header of its plugins; what is used of
 * it is declared here, as version 1 of that interface has it.
 */
#include <stddef.h>
#include <stdint.h>
#include <stdio.h>

typedef uint64_t identity;
struct block;
struct instruction;
typedef void on_block(identity, struct block *);
typedef void on_call(identity, unsigned, int64_t, uint64_t, uint64_t, uint64_t, uint64_t, uint64_t, uint64_t, uint64_t, uint64_t);

enum { ADD = 0 };

size_t qemu_plugin_tb_n_insns(const struct block *);
struct instruction *qemu_plugin_tb_get_insn(const struct block *, size_t);
void qemu_plugin_register_vcpu_tb_trans_cb(identity, on_block *);
void qemu_plugin_register_vcpu_insn_exec_inline(struct instruction *, int, void *, uint64_t);
void qemu_plugin_register_vcpu_syscall_cb(identity, on_call *);

int qemu_plugin_version = 1;

/* getppid, as Linux on x86-64 numbers it. */
static const int64_t mark = 110;
static uint64_t count, before;

static void each_block(identity plugin, struct block *block) {
    size_t length = qemu_plugin_tb_n_insns(block);
    (void)plugin;
    for (size_t i = 0; i < length; i++)
        qemu_plugin_register_vcpu_insn_exec_inline(qemu_plugin_tb_get_insn(block, i), ADD, &count, 1);
}

static void each_call(identity plugin, unsigned processor, int64_t number, uint64_t a, uint64_t b, uint64_t c, uint64_t d, uint64_t e,
                      uint64_t f, uint64_t g, uint64_t h) {
    (void)plugin, (void)processor, (void)a, (void)b, (void)c, (void)d, (void)e, (void)f, (void)g, (void)h;
    if (number != mark)
        return;
    fprintf(stderr, "%llu\n", (unsigned long long)(count - before));
    before = count;
}

int qemu_plugin_install(identity plugin, const void *machine, int words, char **word) {
    (void)machine, (void)words, (void)word;
    qemu_plugin_register_vcpu_tb_trans_cb(plugin, each_block);
    qemu_plugin_register_vcpu_syscall_cb(plugin, each_call);
    return 0;
}
