/* Counts, by function, the instructions that an emulated program runs between two marks, and prints them at the second; speed.c has the
   marks. With the argument whole=on it also prints on standard error, at the program's end, how many it ran in all. A plugin of QEMU's user
   emulator for its interface of version 1, whose part used here is declared by hand, since Debian has no package of it. */
#include <inttypes.h>
#include <stddef.h>
#include <stdint.h>
#include <stdio.h>
#include <stdlib.h>
#include <string.h>

#include "marks.h"

typedef uint64_t qemu_plugin_id_t;
struct qemu_info_t;
struct qemu_plugin_tb;
struct qemu_plugin_insn;
enum qemu_plugin_op { QEMU_PLUGIN_INLINE_ADD_U64 };
enum qemu_plugin_cb_flags { QEMU_PLUGIN_CB_NO_REGS };

void qemu_plugin_register_vcpu_tb_trans_cb(qemu_plugin_id_t id, void (*seen)(qemu_plugin_id_t, struct qemu_plugin_tb *));
void qemu_plugin_register_vcpu_insn_exec_inline(struct qemu_plugin_insn *insn, enum qemu_plugin_op op, void *to, uint64_t added);
void qemu_plugin_register_vcpu_insn_exec_cb(struct qemu_plugin_insn *insn, void (*run)(unsigned, void *), enum qemu_plugin_cb_flags flags,
                                            void *given);
void qemu_plugin_register_atexit_cb(qemu_plugin_id_t id, void (*ended)(qemu_plugin_id_t, void *), void *given);
size_t qemu_plugin_tb_n_insns(const struct qemu_plugin_tb *tb);
struct qemu_plugin_insn *qemu_plugin_tb_get_insn(const struct qemu_plugin_tb *tb, size_t at);
const void *qemu_plugin_insn_data(const struct qemu_plugin_insn *insn);
size_t qemu_plugin_insn_size(const struct qemu_plugin_insn *insn);
const char *qemu_plugin_insn_symbol(const struct qemu_plugin_insn *insn);

#define SHOWN __attribute__((visibility("default")))

SHOWN int qemu_plugin_version = 1;

/* The functions seen, and what was counted of each since the first mark. Code that was translated holds their addresses, so they never move. */
struct function {
    char *name;
    uint64_t count;
    struct function *next;
};

static struct function *functions;

static struct function *find_function(const char *name) {
    for (struct function *f = functions; f != 0; f = f->next)
        if (strcmp(f->name, name) == 0) return f;
    struct function *f = malloc(sizeof *f);
    char *kept = strdup(name);
    if (f == 0 || kept == 0) abort();
    *f = (struct function){kept, 0, functions};
    return functions = f;
}

static void begin(unsigned cpu, void *given) {
    (void)cpu, (void)given;
    for (struct function *f = functions; f != 0; f = f->next) f->count = 0;
}

static void end(unsigned cpu, void *given) {
    (void)cpu, (void)given;
    for (struct function *f = functions; f != 0; f = f->next)
        if (f->count != 0) printf("  %s %" PRIu64 "\n", f->name, f->count);
    fflush(stdout);
}

/* The number of a mark, or 0. */
static uint32_t mark_of(const struct qemu_plugin_insn *insn) {
    const uint8_t *bytes = qemu_plugin_insn_data(insn);
    if (qemu_plugin_insn_size(insn) != 8 || memcmp(bytes, MARK_BYTES, 4) != 0) return 0;
    return bytes[4] | (uint32_t)bytes[5] << 8 | (uint32_t)bytes[6] << 16 | (uint32_t)bytes[7] << 24;
}

static void count(struct qemu_plugin_insn *insn) {
    const char *name = qemu_plugin_insn_symbol(insn);
    struct function *f = find_function(name == 0 || *name == 0 ? "?" : name);
    qemu_plugin_register_vcpu_insn_exec_inline(insn, QEMU_PLUGIN_INLINE_ADD_U64, &f->count, 1);
}

static void see(qemu_plugin_id_t id, struct qemu_plugin_tb *tb) {
    (void)id;
    for (size_t i = 0; i < qemu_plugin_tb_n_insns(tb); i++) {
        struct qemu_plugin_insn *insn = qemu_plugin_tb_get_insn(tb, i);
        switch (mark_of(insn)) {
        case MARK_BEGIN: qemu_plugin_register_vcpu_insn_exec_cb(insn, begin, QEMU_PLUGIN_CB_NO_REGS, 0); break;
        case MARK_END: qemu_plugin_register_vcpu_insn_exec_cb(insn, end, QEMU_PLUGIN_CB_NO_REGS, 0); break;
        default: count(insn);
        }
    }
}

static void ended(qemu_plugin_id_t id, void *given) {
    (void)id, (void)given;
    uint64_t sum = 0;
    for (struct function *f = functions; f != 0; f = f->next) sum += f->count;
    fprintf(stderr, "%" PRIu64 " instructions\n", sum);
}

SHOWN int qemu_plugin_install(qemu_plugin_id_t id, const struct qemu_info_t *info, int arguments, char **given) {
    (void)info;
    qemu_plugin_register_vcpu_tb_trans_cb(id, see);
    if (arguments == 1 && strcmp(given[0], "whole=on") == 0) qemu_plugin_register_atexit_cb(id, ended, 0);
    return 0;
}
