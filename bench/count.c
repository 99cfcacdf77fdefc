/* count.c: a plugin for QEMU's user emulator that writes how many instructions the program executed to the file that out=PATH
 * names. bench/instructions builds and uses it. The prototypes are those of QEMU's plugin interface, version 1. */
#include <inttypes.h>
#include <stdbool.h>
#include <stddef.h>
#include <stdio.h>
#include <string.h>

typedef uint64_t id;
struct tb;
enum { ADD_U64 = 0 };
void qemu_plugin_register_vcpu_tb_trans_cb(id, void (*)(id, struct tb *));
size_t qemu_plugin_tb_n_insns(const struct tb *);
void *qemu_plugin_tb_get_insn(const struct tb *, size_t);
void qemu_plugin_register_vcpu_insn_exec_inline(void *insn, int op, void *at, uint64_t add);
void qemu_plugin_register_atexit_cb(id, void (*)(id, void *), void *);

__attribute__((visibility("default"))) int qemu_plugin_version = 1;

static uint64_t count; /* of one thread; more would race */
static char out[4096];

static void translated(id plugin, struct tb *tb)
{
    (void)plugin;
    for (size_t i = 0; i < qemu_plugin_tb_n_insns(tb); i++)
        qemu_plugin_register_vcpu_insn_exec_inline(qemu_plugin_tb_get_insn(tb, i), ADD_U64, &count, 1);
}

static void ended(id plugin, void *unused)
{
    FILE *file = fopen(out, "w");
    (void)plugin, (void)unused;
    if (file != NULL) {
        fprintf(file, "%" PRIu64 "\n", count);
        fclose(file);
    }
}

__attribute__((visibility("default"))) int qemu_plugin_install(id plugin, const void *info, int argc, char **argv)
{
    (void)info;
    if (argc != 1 || strncmp(argv[0], "out=", 4) != 0 || strlen(argv[0]) - 4 >= sizeof out) {
        fprintf(stderr, "count: wants out=PATH\n");
        return 1;
    }
    strcpy(out, argv[0] + 4);
    qemu_plugin_register_vcpu_tb_trans_cb(plugin, translated);
    qemu_plugin_register_atexit_cb(plugin, ended, NULL);
    return 0;
}
