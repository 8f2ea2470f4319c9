/* Marks one bundle with the compiled archive: archive RULES BUNDLE TURNS
 * Prints the best processor time of so many turns in seconds, then a line 'mark partner' for each fact. */
#define _POSIX_C_SOURCE 199309L
#include <stdint.h>
#include <stdio.h>
#include <stdlib.h>
#include <time.h>

#include "dzyunagor.h"

static uint8_t rules[DZY_MOST_BUNDLE], bundle[DZY_MOST_BUNDLE], marks[DZY_MOST_FACTS];
static uint16_t partners[DZY_MOST_FACTS];

static size_t read_file(const char *name, uint8_t *bytes) {
  FILE *f = fopen(name, "rb");
  if (f == NULL) exit(2);
  size_t length = fread(bytes, 1, DZY_MOST_BUNDLE, f);
  fclose(f);
  return length;
}

static double now(void) {
  struct timespec t;
  if (clock_gettime(CLOCK_THREAD_CPUTIME_ID, &t) != 0) exit(2);
  return (double)t.tv_sec + (double)t.tv_nsec * 1e-9;
}

int main(int argc, char **argv) {
  if (argc != 4) return 2;
  size_t rules_length = read_file(argv[1], rules), bundle_length = read_file(argv[2], bundle);
  double best = 1e9;
  dzy_counts counts = {{0, 0, 0, 0}, 0, 0, 0, 0};
  for (int turn = atoi(argv[3]); turn > 0; turn--) {
    double start = now();
    counts = dzy_mark(rules, rules_length, bundle, bundle_length, marks, DZY_MOST_FACTS, partners, DZY_MOST_FACTS);
    double took = now() - start;
    if (took < best) best = took;
  }
  printf("%.9f\n", best);
  for (uint32_t i = 0; i < counts.facts; i++) printf("%d %d\n", marks[i], partners[i]);
  return counts.refused.number == 0 ? 0 : 1;
}
