/* Counts the instructions of a program under qemu, as a plugin of it. What it
 * uses of qemu's plugin interface is declared here, for Debian has no header. */

#include <inttypes.h>
#include <stddef.h>
#include <stdio.h>

typedef uint64_t Id;
typedef struct qemu_plugin_tb Block;

void qemu_plugin_register_vcpu_tb_trans_cb(Id, void (*)(Id, Block *));
void qemu_plugin_register_atexit_cb(Id, void (*)(Id, void *), void *);
void qemu_plugin_register_vcpu_tb_exec_inline(Block *, int, void *, uint64_t);
size_t qemu_plugin_tb_n_insns(const Block *);

enum { ADD = 0 };

int qemu_plugin_version = 1;

static uint64_t count;

static void translated(Id id, Block *block)
{
    (void)id;
    qemu_plugin_register_vcpu_tb_exec_inline(block, ADD, &count, qemu_plugin_tb_n_insns(block));
}

static void ended(Id id, void *nothing)
{
    (void)id;
    (void)nothing;
    fprintf(stderr, "instructions %" PRIu64 "\n", count);
}

int qemu_plugin_install(Id id, const void *info, int argc, char **argv)
{
    (void)info;
    (void)argc;
    (void)argv;
    qemu_plugin_register_vcpu_tb_trans_cb(id, translated);
    qemu_plugin_register_atexit_cb(id, ended, NULL);
    return 0;
}
