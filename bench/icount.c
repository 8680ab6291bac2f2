/* qemu plugin (API version 1, qemu 4.2 .. 8.x): counts guest instructions.
   The guest marks a point by syscall(0x5eed, id): the total so far is printed to stderr. A Cortex-M image, which has no system to call, marks one by Thumb's `yield`
   (to within the instructions between two jumps). At the end the total is printed. */
#include <stdint.h>
#include <stddef.h>
#include <stdio.h>
typedef uint64_t qemu_plugin_id_t;
struct qemu_plugin_tb;
struct qemu_plugin_insn;
typedef struct qemu_info_t {
  const char *target_name;
  struct { int min, cur; } version;
  _Bool system_emulation;
} qemu_info_t; /* its first fields */
enum qemu_plugin_op { QEMU_PLUGIN_INLINE_ADD_U64 };
extern void qemu_plugin_register_vcpu_tb_trans_cb(qemu_plugin_id_t, void (*)(qemu_plugin_id_t, struct qemu_plugin_tb *));
extern size_t qemu_plugin_tb_n_insns(const struct qemu_plugin_tb *);
extern void qemu_plugin_register_vcpu_tb_exec_inline(struct qemu_plugin_tb *, enum qemu_plugin_op, void *, uint64_t);
extern void qemu_plugin_register_vcpu_syscall_cb(qemu_plugin_id_t, void (*)(qemu_plugin_id_t, unsigned, int64_t, uint64_t, uint64_t, uint64_t, uint64_t, uint64_t, uint64_t, uint64_t, uint64_t));
__attribute__((visibility("default"))) int qemu_plugin_version = 1;
extern struct qemu_plugin_insn *qemu_plugin_tb_get_insn(const struct qemu_plugin_tb *, size_t);
extern const void *qemu_plugin_insn_data(const struct qemu_plugin_insn *);
extern size_t qemu_plugin_insn_size(const struct qemu_plugin_insn *);
extern void qemu_plugin_register_vcpu_insn_exec_cb(struct qemu_plugin_insn *, void (*)(unsigned, void *), int, void *);
extern void qemu_plugin_register_atexit_cb(qemu_plugin_id_t, void (*)(qemu_plugin_id_t, void *), void *);
static uint64_t total;
static int system_emulated;
static void yielded(unsigned vcpu, void *data) {
  static unsigned marks;
  fprintf(stderr, "mark %u %llu\n", marks++, (unsigned long long)total);
}
static void trans(qemu_plugin_id_t id, struct qemu_plugin_tb *tb) {
  size_t i, n = qemu_plugin_tb_n_insns(tb);
  qemu_plugin_register_vcpu_tb_exec_inline(tb, QEMU_PLUGIN_INLINE_ADD_U64, &total, n);
  for (i = 0; system_emulated && i < n; i++) {
    struct qemu_plugin_insn *insn = qemu_plugin_tb_get_insn(tb, i);
    const uint8_t *bytes = qemu_plugin_insn_data(insn);
    if (qemu_plugin_insn_size(insn) == 2 && bytes[0] == 0x10 && bytes[1] == 0xBF) qemu_plugin_register_vcpu_insn_exec_cb(insn, yielded, 0, NULL);
  }
}
static void ended(qemu_plugin_id_t id, void *data) { fprintf(stderr, "total %llu\n", (unsigned long long)total); }
static void sysc(qemu_plugin_id_t id, unsigned v, int64_t n, uint64_t a1, uint64_t a2, uint64_t a3, uint64_t a4, uint64_t a5, uint64_t a6, uint64_t a7, uint64_t a8) {
  if (n == 0x5eed) fprintf(stderr, "mark %llu %llu\n", (unsigned long long)a1, (unsigned long long)total);
}
__attribute__((visibility("default"))) int qemu_plugin_install(qemu_plugin_id_t id, const qemu_info_t *info, int argc, char **argv) {
  system_emulated = info->system_emulation;
  qemu_plugin_register_vcpu_tb_trans_cb(id, trans);
  qemu_plugin_register_vcpu_syscall_cb(id, sysc);
  qemu_plugin_register_atexit_cb(id, ended, NULL);
  return 0;
}
