/* A plugin for qemu-user: executed guest instructions, exactly, between marks, as a whole and by symbol.
 * The program makes a mark by dup(-1000000 - tag), which fails and does nothing else; each mark prints what was executed
 * since the one before it. The header of qemu's plugins is not packaged: what is used of it is declared here.
 *
 * usage: qemu-x86_64 -plugin libcount.so[,symbols=FILE][,out=FILE] PROGRAM ..
 *        the symbols as `nm` sorts them by address (nm -n); without marks, the whole run is printed at its end, tag 0 */
#include <inttypes.h>
#include <stdio.h>
#include <stdlib.h>
#include <string.h>

#ifndef PLUGIN_API
#define PLUGIN_API 1
#endif

typedef uint64_t plugin_id;
struct qemu_plugin_tb;
struct qemu_plugin_insn;
extern void qemu_plugin_register_vcpu_tb_trans_cb(plugin_id, void (*)(plugin_id, struct qemu_plugin_tb *));
extern void qemu_plugin_register_vcpu_insn_exec_cb(struct qemu_plugin_insn *, void (*)(unsigned, void *), int flags, void *);
extern void qemu_plugin_register_vcpu_syscall_cb(plugin_id, void (*)(plugin_id, unsigned, int64_t, uint64_t, uint64_t, uint64_t,
                                                                     uint64_t, uint64_t, uint64_t, uint64_t, uint64_t));
extern void qemu_plugin_register_atexit_cb(plugin_id, void (*)(plugin_id, void *), void *);
extern size_t qemu_plugin_tb_n_insns(const struct qemu_plugin_tb *);
extern struct qemu_plugin_insn *qemu_plugin_tb_get_insn(const struct qemu_plugin_tb *, size_t);
extern uint64_t qemu_plugin_insn_vaddr(const struct qemu_plugin_insn *);

__attribute__((visibility("default"))) int qemu_plugin_version = PLUGIN_API;

enum { SYMBOLS = 20000, DUP = 32, MARK = 1000000 };

static struct {
    uint64_t from, count;
    char name[64];
} symbols[SYMBOLS] = {{0, 0, "unnamed"}};
static size_t known = 1;
static FILE *out;

static void executed(unsigned cpu, void *at) {
    (void)cpu;
    ++*(uint64_t *)at;
}

static size_t symbol_of(uint64_t address) {
    size_t low = 0, high = known;
    while (high - low > 1) {
        size_t mid = (low + high) / 2;
        if (symbols[mid].from <= address) low = mid;
        else high = mid;
    }
    return low;
}

static void translated(plugin_id id, struct qemu_plugin_tb *tb) {
    (void)id;
    for (size_t k = 0; k < qemu_plugin_tb_n_insns(tb); k++) {
        struct qemu_plugin_insn *i = qemu_plugin_tb_get_insn(tb, k);
        qemu_plugin_register_vcpu_insn_exec_cb(i, executed, 0, &symbols[symbol_of(qemu_plugin_insn_vaddr(i))].count);
    }
}

static void tell(uint64_t tag) {
    uint64_t sum = 0;
    for (size_t k = 0; k < known; k++) sum += symbols[k].count;
    fprintf(out, "%" PRIu64 " %" PRIu64, tag, sum);
    for (size_t k = 0; k < known; k++) {
        if (symbols[k].count && known > 1) fprintf(out, " %s=%" PRIu64, symbols[k].name, symbols[k].count);
        symbols[k].count = 0;
    }
    fprintf(out, "\n");
    fflush(out);
}

static void syscalled(plugin_id id, unsigned cpu, int64_t number, uint64_t a, uint64_t b, uint64_t c, uint64_t d, uint64_t e,
                      uint64_t f, uint64_t g, uint64_t h) {
    (void)id, (void)cpu, (void)b, (void)c, (void)d, (void)e, (void)f, (void)g, (void)h;
    int32_t tag = -(int32_t)a - MARK;
    if (number == DUP && tag >= 0 && tag < MARK) tell((uint64_t)tag);
}

static void ended(plugin_id id, void *unused) {
    (void)id, (void)unused;
    tell(0);
}

static void read_symbols(const char *path) {
    FILE *f = fopen(path, "r");
    char line[1024], kind, *name;
    uint64_t from;
    int at;
    while (f && known < SYMBOLS && fgets(line, sizeof line, f)) {
        if (sscanf(line, "%" SCNx64 " %c %n", &from, &kind, &at) < 2 || !strchr("tTwWi", kind)) continue;
        name = line + at;
        name[strcspn(name, " \n")] = 0;
        symbols[known].from = from;
        snprintf(symbols[known].name, sizeof symbols[known].name, "%s", name);
        known++;
    }
    if (f) fclose(f);
}

__attribute__((visibility("default"))) int qemu_plugin_install(plugin_id id, const void *info, int argc, char **argv) {
    (void)info;
    out = stderr;
    for (int k = 0; k < argc; k++) {
        if (!strncmp(argv[k], "symbols=", 8)) read_symbols(argv[k] + 8);
        if (!strncmp(argv[k], "out=", 4)) out = fopen(argv[k] + 4, "w");
    }
    if (!out) return 1;
    qemu_plugin_register_vcpu_tb_trans_cb(id, translated);
    qemu_plugin_register_vcpu_syscall_cb(id, syscalled);
    qemu_plugin_register_atexit_cb(id, ended, NULL);
    return 0;
}
