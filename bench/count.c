/* A plugin of qemu-user that counts the instructions a program executes between its marks, which are writes of no bytes,
   every second one an end, and writes the count as one line when the program ends. The few functions of qemu's that it
   uses are declared here, so that it builds without qemu's headers. */
#include <inttypes.h>
#include <stddef.h>
#include <stdio.h>

#define EXPORT __attribute__((visibility("default")))
#define ADD_U64 0
#define WRITE 1

typedef uint64_t plugin_id;
struct qemu_plugin_tb;
typedef void (*translated)(plugin_id, struct qemu_plugin_tb *);
typedef void (*ended)(plugin_id, void *);
typedef void (*called)(plugin_id, unsigned, int64_t, uint64_t, uint64_t, uint64_t, uint64_t, uint64_t, uint64_t, uint64_t,
                       uint64_t);

size_t qemu_plugin_tb_n_insns(const struct qemu_plugin_tb *);
void qemu_plugin_register_vcpu_tb_trans_cb(plugin_id, translated);
void qemu_plugin_register_vcpu_tb_exec_inline(struct qemu_plugin_tb *, int, void *, uint64_t);
void qemu_plugin_register_vcpu_syscall_cb(plugin_id, called);
void qemu_plugin_register_atexit_cb(plugin_id, ended, void *);

EXPORT int qemu_plugin_version = 1;

static uint64_t executed, begun, counted, marks;

/* Each run of a block adds the number of its instructions. A block ends where the system is called. */
static void block(plugin_id id, struct qemu_plugin_tb *tb)
{
    (void)id;
    qemu_plugin_register_vcpu_tb_exec_inline(tb, ADD_U64, &executed, qemu_plugin_tb_n_insns(tb));
}

static void call(plugin_id id, unsigned cpu, int64_t number, uint64_t fd, uint64_t bytes, uint64_t count, uint64_t a4,
                 uint64_t a5, uint64_t a6, uint64_t a7, uint64_t a8)
{
    (void)id, (void)cpu, (void)fd, (void)bytes, (void)a4, (void)a5, (void)a6, (void)a7, (void)a8;
    if (number != WRITE || count != 0)
        return;
    if (marks++ % 2 == 0)
        begun = executed;
    else
        counted += executed - begun;
}

static void end(plugin_id id, void *unused)
{
    (void)id;
    (void)unused;
    fprintf(stderr, "instructions %" PRIu64 " marks %" PRIu64 "\n", counted, marks);
}

EXPORT int qemu_plugin_install(plugin_id id, const void *info, int argc, char **argv)
{
    (void)info;
    (void)argc;
    (void)argv;
    qemu_plugin_register_vcpu_tb_trans_cb(id, block);
    qemu_plugin_register_vcpu_syscall_cb(id, call);
    qemu_plugin_register_atexit_cb(id, end, NULL);
    return 0;
}
