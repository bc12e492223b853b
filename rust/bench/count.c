/* A plugin of the emulator QEMU that counts the instructions of the program it runs, since times measured there say nothing.

       cc -O2 -shared -fPIC -o count.so count.c
       QEMU_PLUGIN=file=count.so,out=FILE qemu-x86_64 PROGRAM

   Whenever the program yields (sched_yield), the count so far is written to FILE, 8 bytes. The declarations are those of QEMU's plugin
   interface, version 1, which Debian installs no header for; tried with QEMU 7.2. */
#include <fcntl.h>
#include <stdint.h>
#include <string.h>
#include <unistd.h>

#define SHOWN __attribute__((visibility("default")))
#define SCHED_YIELD 24 /* of x86-64 Linux */
#define ADD 0

typedef uint64_t plugin;
struct block;
struct instruction;
typedef void on_block(plugin, struct block *);
typedef void on_call(plugin, unsigned, int64_t, uint64_t, uint64_t, uint64_t, uint64_t, uint64_t, uint64_t, uint64_t, uint64_t);

void qemu_plugin_register_vcpu_tb_trans_cb(plugin, on_block *);
void qemu_plugin_register_vcpu_insn_exec_inline(struct instruction *, int, void *, uint64_t);
void qemu_plugin_register_vcpu_syscall_cb(plugin, on_call *);
size_t qemu_plugin_tb_n_insns(const struct block *);
struct instruction *qemu_plugin_tb_get_insn(const struct block *, size_t);

SHOWN int qemu_plugin_version = 1;
SHOWN int qemu_plugin_install(plugin, const void *, int, char **);

static uint64_t count;
static int out;

/* Each instruction counts where it runs: a block's length has one too many where its last instruction crosses a page's end, since that one
   begins the next block. */
static void add_block(plugin self, struct block *block)
{
    (void)self;
    for (size_t i = 0; i < qemu_plugin_tb_n_insns(block); i++)
        qemu_plugin_register_vcpu_insn_exec_inline(qemu_plugin_tb_get_insn(block, i), ADD, &count, 1);
}

static void write_count(plugin self, unsigned cpu, int64_t number, uint64_t a, uint64_t b, uint64_t c, uint64_t d, uint64_t e, uint64_t f,
                        uint64_t g, uint64_t h)
{
    (void)self, (void)cpu, (void)a, (void)b, (void)c, (void)d, (void)e, (void)f, (void)g, (void)h;
    if (number == SCHED_YIELD && pwrite(out, &count, sizeof count, 0) != sizeof count)
        _exit(3);
}

int qemu_plugin_install(plugin self, const void *info, int words, char **word)
{
    (void)info;
    if (words != 1 || strncmp(word[0], "out=", 4) != 0)
        return -1;
    out = open(word[0] + 4, O_WRONLY | O_CREAT | O_TRUNC, 0600);
    if (out < 0)
        return -1;
    qemu_plugin_register_vcpu_tb_trans_cb(self, add_block);
    qemu_plugin_register_vcpu_syscall_cb(self, write_count);
    return 0;
}
