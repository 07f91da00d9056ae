/*
 * Instructions of one function, with all that it calls, where programs for x86-64, aarch64 or riscv64 run under an emulator
 * and callgrind does not: a plugin for qemu-user (bench/count.sh builds and uses it). It counts from the function's first
 * instruction to its return, over all calls, as callgrind does with --toggle-collect, and prints callgrind's line. With
 * each=FILE it writes the count of each call to that file too, a line each.
 *
 * The few declarations of qemu's interface that are used stand here: Debian's package has no header for them.
 */
#include <inttypes.h>
#include <stdbool.h>
#include <stddef.h>
#include <stdint.h>
#include <stdio.h>
#include <string.h>

typedef uint64_t plugin_id;
struct qemu_plugin_tb;
struct qemu_plugin_insn;
struct qemu_info;

void qemu_plugin_register_vcpu_tb_trans_cb(plugin_id id, void (*translated)(plugin_id id, struct qemu_plugin_tb *block));
void qemu_plugin_register_atexit_cb(plugin_id id, void (*end)(plugin_id id, void *data), void *data);
void qemu_plugin_register_vcpu_insn_exec_cb(
    struct qemu_plugin_insn *insn, void (*run)(unsigned cpu, void *data), int flags, void *data);
size_t qemu_plugin_tb_n_insns(const struct qemu_plugin_tb *block);
struct qemu_plugin_insn *qemu_plugin_tb_get_insn(const struct qemu_plugin_tb *block, size_t number);
uint64_t qemu_plugin_insn_vaddr(const struct qemu_plugin_insn *insn);
const char *qemu_plugin_insn_symbol(const struct qemu_plugin_insn *insn);
const void *qemu_plugin_insn_data(const struct qemu_plugin_insn *insn);
size_t qemu_plugin_insn_size(const struct qemu_plugin_insn *insn);

#define SHOWN __attribute__((visibility("default")))
SHOWN int qemu_plugin_version = 1;

static char name[256];
static uint64_t count, entry; /* entry: the function's first instruction, which is met first */
static uint64_t before; /* the count when the call that runs began */
static bool inside;
static FILE *each;

static void any(unsigned cpu, void *data)
{
    (void)cpu, (void)data;
    count += inside;
}

static void enters(unsigned cpu, void *data)
{
    (void)cpu, (void)data;
    before = count;
    inside = true;
    count++;
}

static void returns(unsigned cpu, void *data)
{
    any(cpu, data);
    if (inside && each != NULL)
        fprintf(each, "%" PRIu64 "\n", count - before);
    inside = false;
}

static bool is_return(const struct qemu_plugin_insn *insn)
{
    const uint8_t *bytes = qemu_plugin_insn_data(insn);
    size_t size = qemu_plugin_insn_size(insn);
    static const uint8_t aarch64[] = { 0xc0, 0x03, 0x5f, 0xd6 }, riscv[] = { 0x82, 0x80 };

    return (size == 1 && bytes[0] == 0xc3) || (size == 2 && bytes[0] == 0xf3 && bytes[1] == 0xc3) ||
        (size == sizeof aarch64 && memcmp(bytes, aarch64, size) == 0) || (size == sizeof riscv && memcmp(bytes, riscv, size) == 0);
}

static void translated(plugin_id id, struct qemu_plugin_tb *block)
{
    (void)id;
    for (size_t i = 0, n = qemu_plugin_tb_n_insns(block); i < n; i++) {
        struct qemu_plugin_insn *insn = qemu_plugin_tb_get_insn(block, i);
        const char *symbol = qemu_plugin_insn_symbol(insn);
        bool own = symbol != NULL && strcmp(symbol, name) == 0;
        if (own && entry == 0)
            entry = qemu_plugin_insn_vaddr(insn);
        bool first = own && qemu_plugin_insn_vaddr(insn) == entry;
        qemu_plugin_register_vcpu_insn_exec_cb(insn, first ? enters : own && is_return(insn) ? returns : any, 0, NULL);
    }
}

static void end(plugin_id id, void *data)
{
    (void)id, (void)data;
    fprintf(stderr, "Collected : %" PRIu64 "\n", count);
    if (each != NULL && fclose(each) != 0)
        fprintf(stderr, "the counts of each call could not be written\n");
}

SHOWN int qemu_plugin_install(plugin_id id, const struct qemu_info *info, int argc, char **argv)
{
    (void)info;
    for (int i = 0; i < argc; i++)
        if (strncmp(argv[i], "name=", 5) == 0)
            snprintf(name, sizeof name, "%s", argv[i] + 5);
        else if (strncmp(argv[i], "each=", 5) == 0 && (each = fopen(argv[i] + 5, "w")) == NULL)
            return -1;
    if (name[0] == '\0')
        return -1;
    qemu_plugin_register_vcpu_tb_trans_cb(id, translated);
    qemu_plugin_register_atexit_cb(id, end, NULL);
    return 0;
}
