/* A plugin for qemu that counts the instructions that a program executes: at each system call
 * number 9999, which there is not, it says the first argument and how many there have been so far,
 * in a line of qemu's log (-d plugin -D FILE). A block of instructions is counted when it is entered,
 * a repeated string instruction as often as it is repeated. A system call ends a block.
 * usage: qemu-MACHINE -plugin ./count.so -d plugin -D FILE PROGRAM ...
 *
 * Debian's qemu has plugins, but no header for them. What is declared here is the part of version 1
 * of their interface that is used.
 */
#include <inttypes.h>
#include <stdio.h>

enum { MARK = 9999, ADD_U64 = 0 };

struct qemu_plugin_tb;
struct qemu_plugin_insn;
typedef void translated(uint64_t id, struct qemu_plugin_tb *block);
typedef void called(uint64_t id, unsigned cpu, int64_t number, uint64_t a1, uint64_t a2,
                    uint64_t a3, uint64_t a4, uint64_t a5, uint64_t a6, uint64_t a7, uint64_t a8);

size_t qemu_plugin_tb_n_insns(const struct qemu_plugin_tb *block);
struct qemu_plugin_insn *qemu_plugin_tb_get_insn(const struct qemu_plugin_tb *block, size_t i);
void qemu_plugin_register_vcpu_tb_trans_cb(uint64_t id, translated *then);
void qemu_plugin_register_vcpu_tb_exec_inline(struct qemu_plugin_tb *block, int operation,
                                              void *number, uint64_t more);
void qemu_plugin_register_vcpu_insn_exec_inline(struct qemu_plugin_insn *instruction, int operation,
                                                void *number, uint64_t more);
void qemu_plugin_register_vcpu_syscall_cb(uint64_t id, called *then);
void qemu_plugin_outs(const char *text);

/* What qemu looks for in a plugin. */
int qemu_plugin_version = 1;
int qemu_plugin_install(uint64_t id, const void *machine, int count, char **words);

static uint64_t instructions;

/* The last instruction of a block is counted by itself: where it lies across two pages, qemu takes it
 * back and begins the next block with it, but still has it in the number of this one. */
static void count_block(uint64_t id, struct qemu_plugin_tb *block) {
    size_t last = qemu_plugin_tb_n_insns(block) - 1;
    (void)id;
    qemu_plugin_register_vcpu_tb_exec_inline(block, ADD_U64, &instructions, last);
    qemu_plugin_register_vcpu_insn_exec_inline(qemu_plugin_tb_get_insn(block, last), ADD_U64,
                                               &instructions, 1);
}

static void say(uint64_t id, unsigned cpu, int64_t number, uint64_t a1, uint64_t a2, uint64_t a3,
                uint64_t a4, uint64_t a5, uint64_t a6, uint64_t a7, uint64_t a8) {
    char line[48];
    (void)id, (void)cpu, (void)a2, (void)a3, (void)a4, (void)a5, (void)a6, (void)a7, (void)a8;
    if (number != MARK)
        return;
    snprintf(line, sizeof line, "%" PRIu64 " %" PRIu64 "\n", a1, instructions);
    qemu_plugin_outs(line);
}

int qemu_plugin_install(uint64_t id, const void *machine, int count, char **words) {
    (void)machine, (void)count, (void)words;
    qemu_plugin_register_vcpu_tb_trans_cb(id, count_block);
    qemu_plugin_register_vcpu_syscall_cb(id, say);
    return 0;
}
