/* A plugin of the emulator qemu-x86_64: it counts the instructions that run from the entry of the function oam_tests_counted to
 * its return, with all that it calls, and writes a line with the count for each call of it into the file that the argument
 * `into` names. The function does not call itself, and the program has one thread. */

#include <inttypes.h>
#include <stdbool.h>
#include <stdio.h>
#include <stdlib.h>
#include <string.h>

/* What the plugin uses of qemu's interface, version 1; Debian has no package of its header. */

typedef uint64_t qemu_plugin_id_t;
struct qemu_info;
struct qemu_plugin_tb;
struct qemu_plugin_insn;
enum { QEMU_PLUGIN_CB_NO_REGS };

typedef void (*translated)(qemu_plugin_id_t id, struct qemu_plugin_tb *block);
typedef void (*executed)(unsigned int processor, void *data);

void qemu_plugin_register_vcpu_tb_trans_cb(qemu_plugin_id_t id, translated call);
size_t qemu_plugin_tb_n_insns(const struct qemu_plugin_tb *block);
struct qemu_plugin_insn *qemu_plugin_tb_get_insn(const struct qemu_plugin_tb *block, size_t number);
const void *qemu_plugin_insn_data(const struct qemu_plugin_insn *instruction);
const char *qemu_plugin_insn_symbol(const struct qemu_plugin_insn *instruction);
void qemu_plugin_register_vcpu_insn_exec_cb(struct qemu_plugin_insn *instruction, executed call, int registers, void *data);

#define EXPORTED __attribute__((visibility("default")))
EXPORTED int qemu_plugin_version = 1;

/* Counting. */

static const char counted[] = "oam_tests_counted";
static const unsigned char ret = 0xC3;

static FILE *counts;
static bool inside;
static uint64_t count;

/* An instruction that is not the function's own. */
static void step(unsigned int processor, void *data) {
  (void)processor, (void)data;
  count += inside;
}

/* One of the function's own: it has been entered. */
static void own_step(unsigned int processor, void *data) {
  inside = true;
  step(processor, data);
}

/* Its return. */
static void leave(unsigned int processor, void *data) {
  own_step(processor, data);
  if (fprintf(counts, "%" PRIu64 "\n", count) < 0 || fflush(counts) != 0) {
    perror(counted);
    exit(EXIT_FAILURE);
  }
  inside = false;
  count = 0;
}

static executed call_for(const struct qemu_plugin_insn *instruction) {
  const char *symbol = qemu_plugin_insn_symbol(instruction);
  if (symbol == NULL || strcmp(symbol, counted) != 0) {
    return step;
  }
  return *(const unsigned char *)qemu_plugin_insn_data(instruction) == ret ? leave : own_step;
}

/* A block of instructions is about to be run for the first time. */
static void translate(qemu_plugin_id_t id, struct qemu_plugin_tb *block) {
  (void)id;
  for (size_t number = 0; number < qemu_plugin_tb_n_insns(block); number++) {
    struct qemu_plugin_insn *instruction = qemu_plugin_tb_get_insn(block, number);
    qemu_plugin_register_vcpu_insn_exec_cb(instruction, call_for(instruction), QEMU_PLUGIN_CB_NO_REGS, NULL);
  }
}

EXPORTED int qemu_plugin_install(qemu_plugin_id_t id, const struct qemu_info *info, int argc, char **argv) {
  static const char into[] = "into=";
  (void)info;
  if (argc != 1 || strncmp(argv[0], into, strlen(into)) != 0) {
    fprintf(stderr, "%s: the argument is %sFILE\n", counted, into);
    return -1;
  }
  counts = fopen(argv[0] + strlen(into), "w");
  if (counts == NULL) {
    perror(argv[0]);
    return -1;
  }
  qemu_plugin_register_vcpu_tb_trans_cb(id, translate);
  return 0;
}
