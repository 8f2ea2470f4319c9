/* What the C boundary tests share: counted checks, files written in hex and lent on pages that cannot be written, the worked site. */
#ifndef HELD_H
#define HELD_H

#include "lent.h"

#include <stddef.h>

#include "dzyunagor.h"

enum { ROOM = 16, FILE_MOST = 64, NO_ITEM = 65535 };

static const char *const R = "02 01 05 01 00 01 00 01 40 00 41 00 04 00 03 00 01";
static const char *const F = "06 00 07 01 07 01 09 40 09 07 40 09 AC 02 40 0C 0C";

static unsigned long checks, failures;

static inline void hold(const char *what, const char *where, int holds) {
  checks++;
  if (!holds) {
    failures++;
    printf("boundary: FAILED %s: %s\n", what, where);
  }
}

/* Tells the checks of a program; gives its status. */
static inline int told(const char *name) {
  printf("%s: %lu checks, %lu failed\n", name, checks, failures);
  return failures == 0 ? 0 : 1;
}

static const dzy_refusal not_refused = {0, 0, 0, 0};

/* The refusal of the call's own arguments. */
static inline dzy_refusal of_call(uint32_t number, uint64_t at) { return (dzy_refusal){number, 2, at, NO_ITEM}; }

static inline int same_refusal(dzy_refusal a, dzy_refusal b) {
  return a.number == b.number && a.side == b.side && a.place == b.place && a.item == b.item;
}

/* Whether an answer was refused so, and whether it was not refused. */
#define REFUSED(answer, due) same_refusal((answer).refused, due)
#define ACCEPTED(answer) REFUSED(answer, not_refused)

static inline lent lend(size_t length, edge where) {
  lent l = map_room(length);
  place(&l, length, where);
  return l;
}

/* Lends bytes that cannot be written to. */
static inline lent lend_file(const void *bytes, size_t length, edge where) {
  lent l = lend(length, where);
  if (length > 0) memcpy(l.at, bytes, length);
  must(mprotect(l.mapped + l.page, l.inner, PROT_READ) == 0);
  return l;
}

/* A file written in hex. */
typedef struct {
  uint8_t bytes[FILE_MOST];
  size_t length;
} file;

static inline file read_hex(const char *hex) {
  file f = {{0}, 0};
  char *end;
  for (unsigned long byte = strtoul(hex, &end, 16); end != hex; byte = strtoul(hex, &end, 16)) {
    f.bytes[f.length++] = (uint8_t)byte;
    hex = end;
  }
  return f;
}

/* Two lent files. */
typedef struct {
  lent rules, bundle;
} site;

static inline site lend_site(file rules, file bundle, edge where) {
  site s = {lend_file(rules.bytes, rules.length, where), lend_file(bundle.bytes, bundle.length, where)};
  return s;
}

static inline void give_back_site(site *s) {
  give_back(&s->rules);
  give_back(&s->bundle);
}

/* The first arguments of every call that takes both files. */
#define SITE(s) (s)->rules.at, (s)->rules.length, (s)->bundle.at, (s)->bundle.length

/* Lent bytes as a row of records; rooms begin and end at pages, so a row is aligned at either edge. */
static inline dzy_record *row_at(const lent *l) { return (dzy_record *)(void *)l->at; }

static inline int same_record(dzy_record a, dzy_record b) {
  return a.predicate == b.predicate && a.subject == b.subject && a.object == b.object;
}

static inline int same_rows(const dzy_record *a, const dzy_record *b, size_t length) {
  size_t same = 0;
  while (same < length && same_record(a[same], b[same])) same++;
  return same == length;
}

#endif
