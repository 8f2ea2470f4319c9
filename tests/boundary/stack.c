/* How much stack each entry point touches: a painted stack is lent to one call, and what is no longer painted is counted.
 * What getting onto that stack takes is measured by a call of nothing, and taken off. */
#define _GNU_SOURCE
#include <stdint.h>
#include <stdio.h>
#include <stdlib.h>
#include <string.h>
#include <ucontext.h>

#include "dzyunagor.h"

enum { WORDS = 1 << 15, FACTS = DZY_MOST_FACTS, FILE_MOST = DZY_MOST_BUNDLE };

typedef struct {
  uint8_t bytes[FILE_MOST];
  size_t length;
} file;

static const uint64_t PAINT = 0x5AC3961E8724D1B5u;
static _Alignas(64) uint64_t stack[WORDS];
static ucontext_t here, there;
static file rules, bundle;
static uint8_t marks[FACTS], out[FILE_MOST];
static uint16_t partners[FACTS];
static dzy_record row[FACTS];
static uint32_t refused;
static dzy_counts counts;
static volatile uint64_t seen;

#define SITE rules.bytes, rules.length, bundle.bytes, bundle.length

static void nothing(void) { seen = 0; }

static void mark(void) {
  counts = dzy_mark(SITE, marks, FACTS, partners, FACTS);
  refused = counts.refused.number;
}

static void count(void) { refused = dzy_count(SITE).refused.number; }

static void ask(void) { refused = dzy_ask(SITE, counts.facts - 1).refused.number; }

static void has(void) { refused = dzy_has(SITE, 1, 9).refused.number; }

static void joins(void) { refused = dzy_joins(SITE, 0, 9, 7).refused.number; }

static void write_kept(void) { refused = dzy_write_kept(SITE, out, FILE_MOST).refused.number; }

static void records(void) { refused = dzy_records(SITE, row, FACTS).refused.number; }

static void write_records(void) {
  refused = dzy_write_records(rules.bytes, rules.length, row, counts.facts, out, FILE_MOST).refused.number;
}

static void reader_start(void) { refused = dzy_reader_start(SITE).refused.number; }

static void reader_next(void) {
  dzy_reader reader = {bundle.bytes, bundle.length, 1};
  refused = dzy_reader_next(&reader).refused.number;
}

static void check_rules(void) { refused = dzy_check_rules(rules.bytes, rules.length).refused.number; }

static void check_bundle(void) { refused = dzy_check_bundle(SITE).refused.number; }

static const struct {
  const char *name;
  void (*call)(void);
} calls[] = {{"dzy_mark", mark},       {"dzy_count", count},
             {"dzy_ask", ask},         {"dzy_has", has},
             {"dzy_joins", joins},     {"dzy_write_kept", write_kept},
             {"dzy_records", records}, {"dzy_write_records", write_records},
             {"dzy_reader_start", reader_start}, {"dzy_reader_next", reader_next},
             {"dzy_check_rules", check_rules}, {"dzy_check_bundle", check_bundle}};

/* The bytes from the deepest word that the call changed up to the top of the stack. */
static size_t touched(void (*call)(void)) {
  size_t untouched = 0;
  for (size_t i = 0; i < WORDS; i++) stack[i] = PAINT;
  getcontext(&there);
  there.uc_stack.ss_sp = stack;
  there.uc_stack.ss_size = sizeof stack;
  there.uc_link = &here;
  makecontext(&there, call, 0);
  swapcontext(&here, &there);
  while (untouched < WORDS && stack[untouched] == PAINT) untouched++;
  return sizeof stack - untouched * sizeof *stack;
}

static void put(file *f, uint32_t value) {
  for (; value >= 128; value /= 128) f->bytes[f->length++] = (uint8_t)(value % 128 + 128);
  f->bytes[f->length++] = (uint8_t)value;
}

static void put_all(file *f, const uint32_t *values, size_t length) {
  for (size_t i = 0; i < length; i++) put(f, values[i]);
}

static void worked_site(void) {
  static const uint32_t r[] = {2, 1, 5, 1, 0, 1, 0, 1, 64, 0, 65, 0, 4, 0, 3, 0, 1};
  static const uint32_t f[] = {6, 0, 7, 1, 7, 1, 9, 64, 9, 7, 64, 9, 300, 64, 12, 12};
  rules.length = bundle.length = 0;
  put_all(&rules, r, sizeof r / sizeof *r);
  put_all(&bundle, f, sizeof f / sizeof *f);
}

/* The i-th of 512 rules: inclusions towards lower numbers, exclusions of some ends, and functional roles from 24 on. */
static void put_rule(uint32_t i) {
  uint32_t k = i % 64, form = i / 64;
  uint32_t forms[8][3] = {{0, k, k / 2},       {0, 64 + k, k / 4},      {0, k, k - k % 8},   {1, 60 + k % 4, 56 + k % 4},
                          {2, k % 48, k % 24}, {3, 48 + k % 8, 56 + k % 8}, {1, 48 + k % 8, 120}, {4, 48 + k % 16, 0}};
  put_all(&rules, forms[form], form == 7 ? 2 : 3);
}

/* All limits at once: 64 concepts, 32 roles, 512 rules and 4,096 facts, half of them of roles. */
static void full_site(void) {
  rules.length = bundle.length = 0;
  put_all(&rules, (uint32_t[]){64, 32, 512}, 3);
  for (uint32_t i = 0; i < 512; i++) put_rule(i);
  put(&bundle, FACTS);
  for (uint32_t i = 0; i < FACTS / 2; i++) put_all(&bundle, (uint32_t[]){i / 32, 65000 + 13 * (i % 32)}, 2);
  for (uint32_t i = 0; i < FACTS / 2; i++)
    put_all(&bundle, (uint32_t[]){64 + i / 64, 65000 + 7 * (i % 64), 65000 + 13 * (i * 5 % 41)}, 3);
}

static int measure(const char *site, size_t onto) {
  mark();
  printf("%s: %u facts, %u kept, %u alone, %u disputed\n", site, counts.facts, counts.kept, counts.alone, counts.disputed);
  for (size_t i = 0; i < sizeof calls / sizeof *calls; i++) {
    size_t bytes = touched(calls[i].call);
    if (refused != 0) {
      printf("stack: FAILED: %s refuses the %s by %u\n", calls[i].name, site, refused);
      return 1;
    }
    printf("%s %zu bytes\n", calls[i].name, bytes - onto);
    fflush(stdout);
  }
  return 0;
}

/* Calls once, each on the usual stack: finding a function of the C library for the first time takes stack too. */
static void call_all(void) {
  for (size_t i = 0; i < sizeof calls / sizeof *calls; i++) calls[i].call();
}

int main(void) {
  worked_site();
  call_all();
  size_t onto = touched(nothing);
  if (measure("worked site", onto) != 0) return 1;
  full_site();
  return measure("full site", onto);
}
