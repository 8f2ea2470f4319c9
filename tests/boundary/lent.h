/* Lent memory that ends, or begins, at a page that cannot be touched: a byte read or written past that edge ends the program. */
#ifndef LENT_H
#define LENT_H

#define _DEFAULT_SOURCE
#include <stdint.h>
#include <stdio.h>
#include <stdlib.h>
#include <string.h>
#include <sys/mman.h>
#include <unistd.h>

/* What lent memory, and all about it, holds before anything is written. */
enum { FILL = 0x5A, NEAR = 64 };

/* Which edge of the lent memory lies at a page that cannot be touched. */
typedef enum { AT_END, AT_START } edge;

typedef struct {
  uint8_t *mapped, *at;
  size_t inner, page, length;
} lent;

static inline void must(int holds) {
  if (!holds) {
    perror("lent memory");
    exit(2);
  }
}

/* Room for any length up to the one given, between two pages that cannot be touched. */
static inline lent map_room(size_t most) {
  lent l;
  l.page = (size_t)sysconf(_SC_PAGESIZE);
  l.inner = (most / l.page + 1) * l.page;
  l.length = 0;
  l.mapped = mmap(NULL, l.inner + 2 * l.page, PROT_NONE, MAP_PRIVATE | MAP_ANONYMOUS, -1, 0);
  must(l.mapped != MAP_FAILED);
  must(mprotect(l.mapped + l.page, l.inner, PROT_READ | PROT_WRITE) == 0);
  l.at = l.mapped + l.page;
  memset(l.at, FILL, l.inner);
  return l;
}

/* Moves the lent part to one edge of the room. */
static inline void place(lent *l, size_t length, edge where) {
  must(length <= l->inner);
  l->length = length;
  l->at = l->mapped + l->page + (where == AT_END ? l->inner - length : 0);
}

static inline int all_fill(const uint8_t *from, const uint8_t *to) {
  size_t length = (size_t)(to - from);
  return length == 0 || (*from == FILL && memcmp(from, from + 1, length - 1) == 0);
}

/* Whether all of the room is as it was lent, but for the first bytes of the lent part. */
static inline int untouched_past(const lent *l, size_t written) {
  const uint8_t *start = l->mapped + l->page;
  return all_fill(start, l->at) && all_fill(l->at + written, start + l->inner);
}

/* The same of all but the lent part, looking at the bytes next to it only. */
static inline int untouched_near(const lent *l) {
  const uint8_t *start = l->mapped + l->page, *end = start + l->inner, *past = l->at + l->length;
  const uint8_t *from = l->at - start > NEAR ? l->at - NEAR : start;
  const uint8_t *to = end - past > NEAR ? past + NEAR : end;
  return all_fill(from, l->at) && all_fill(past, to);
}

static inline void give_back(lent *l) { munmap(l->mapped, l->inner + 2 * l->page); }

#endif
