/* A plugin for QEMU's user emulation: counts the instructions and system calls that a program executes and, if
 * asked, the pages of memory it touches.
 *
 *     gcc -O2 -shared -fPIC -DAPI=1 -o count.so count.c
 *     qemu-x86_64 -plugin ./count.so -d plugin PROGRAM...              `instructions: N` and `calls: N` at the end
 *     qemu-x86_64 -plugin ./count.so,pages=on -d plugin PROGRAM...     and `pages: N`, of 4096 bytes, read or written
 *
 * It declares the few parts of the plugin interface that it uses, so no header of QEMU's is needed. API is the version of the
 * interface that QEMU asks for; tried with QEMU 7.2, whose version is 1.
 */
#include <stddef.h>
#include <stdint.h>
#include <stdio.h>
#include <stdlib.h>
#include <string.h>

struct qemu_plugin_tb;
struct qemu_plugin_insn;
typedef void (*trans_cb)(uint64_t id, struct qemu_plugin_tb *tb);
typedef void (*exec_cb)(unsigned cpu, void *data);
typedef void (*mem_cb)(unsigned cpu, uint32_t info, uint64_t address, void *data);
typedef void (*call_cb)(uint64_t id, unsigned cpu, int64_t number, uint64_t a1, uint64_t a2, uint64_t a3, uint64_t a4,
                        uint64_t a5, uint64_t a6, uint64_t a7, uint64_t a8);
typedef void (*exit_cb)(uint64_t id, void *data);
void qemu_plugin_register_vcpu_tb_trans_cb(uint64_t id, trans_cb cb);
void qemu_plugin_register_vcpu_tb_exec_cb(struct qemu_plugin_tb *tb, exec_cb cb, int flags, void *data);
void qemu_plugin_register_vcpu_mem_cb(struct qemu_plugin_insn *insn, mem_cb cb, int flags, int rw, void *data);
void qemu_plugin_register_vcpu_syscall_cb(uint64_t id, call_cb cb);
void qemu_plugin_register_atexit_cb(uint64_t id, exit_cb cb, void *data);
size_t qemu_plugin_tb_n_insns(const struct qemu_plugin_tb *tb);
struct qemu_plugin_insn *qemu_plugin_tb_get_insn(const struct qemu_plugin_tb *tb, size_t index);
void qemu_plugin_outs(const char *text);

#define VISIBLE __attribute__((visibility("default")))
VISIBLE int qemu_plugin_version = API;

enum { READ_AND_WRITE = 3 };

static uint64_t instructions, calls;

/* The pages touched: a table of page numbers with open places, kept at most half full. 0 is an open place. */
static int wanted;
static uint64_t *pages, last;
static size_t touched, places;

static void put(uint64_t *table, size_t size, uint64_t page)
{
    size_t at = (page * 0x9E3779B97F4A7C15u >> 20) & (size - 1);
    while (table[at] != 0 && table[at] != page)
        at = (at + 1) & (size - 1);
    touched += table[at] == 0;
    table[at] = page;
}

static void touch(unsigned cpu, uint32_t info, uint64_t address, void *data)
{
    uint64_t page = address >> 12;
    (void)cpu, (void)info, (void)data;
    if (page == last || page == 0)
        return;
    last = page;
    if (2 * touched >= places) {
        size_t size = places ? 2 * places : 4096;
        uint64_t *table = calloc(size, sizeof *table);
        if (table == NULL)
            abort();
        touched = 0;
        for (size_t k = 0; k < places; k++)
            if (pages[k] != 0)
                put(table, size, pages[k]);
        free(pages);
        pages = table;
        places = size;
    }
    put(pages, places, page);
}

static void executed(unsigned cpu, void *count)
{
    (void)cpu;
    instructions += (uintptr_t)count;
}

static void called(uint64_t id, unsigned cpu, int64_t number, uint64_t a1, uint64_t a2, uint64_t a3, uint64_t a4,
                   uint64_t a5, uint64_t a6, uint64_t a7, uint64_t a8)
{
    (void)id, (void)cpu, (void)number, (void)a1, (void)a2, (void)a3, (void)a4, (void)a5, (void)a6, (void)a7, (void)a8;
    calls++;
}

static void translated(uint64_t id, struct qemu_plugin_tb *tb)
{
    size_t count = qemu_plugin_tb_n_insns(tb);
    (void)id;
    qemu_plugin_register_vcpu_tb_exec_cb(tb, executed, 0, (void *)(uintptr_t)count);
    for (size_t k = 0; wanted && k < count; k++)
        qemu_plugin_register_vcpu_mem_cb(qemu_plugin_tb_get_insn(tb, k), touch, 0, READ_AND_WRITE, NULL);
}

static void ended(uint64_t id, void *data)
{
    char text[96];
    (void)id, (void)data;
    snprintf(text, sizeof text, "instructions: %llu\ncalls: %llu\n", (unsigned long long)instructions,
             (unsigned long long)calls);
    qemu_plugin_outs(text);
    snprintf(text, sizeof text, "pages: %llu\n", (unsigned long long)touched);
    if (wanted)
        qemu_plugin_outs(text);
}

VISIBLE int qemu_plugin_install(uint64_t id, const void *info, int argc, char **argv)
{
    (void)info;
    wanted = argc > 0 && strcmp(argv[0], "pages=on") == 0;
    qemu_plugin_register_vcpu_tb_trans_cb(id, translated);
    qemu_plugin_register_vcpu_syscall_cb(id, called);
    qemu_plugin_register_atexit_cb(id, ended, NULL);
    return 0;
}
