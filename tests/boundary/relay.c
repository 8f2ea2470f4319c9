/* The relay: calls the library's entry points for a program that cannot link it, on memory guarded on both sides.
 *
 * A request is eight 64-bit numbers: the operation, the lengths of rules and bundle, three arguments, and how
 * many bytes and 16-bit numbers are lent as outputs; then the rules, the bundle and the outputs as they are lent.
 * A row of records is its bytes: handed out, it is the bytes that are lent; to be written, it takes the bundle's place.
 * A reader's next byte is a 64-bit number in the bytes that are lent.
 * The reply is nine 64-bit numbers: the refusal's number, side, place and item, four values, and whether all memory
 * but the lent outputs is as it was; then the outputs. Numbers are little-endian, as x86-64 has them. */
#include "lent.h"

#include "dzyunagor.h"

/* The longest file or output that is relayed. */
enum { MOST = 1 << 18 };

enum {
  OP_MARK,
  OP_COUNT,
  OP_ASK,
  OP_HAS,
  OP_JOINS,
  OP_WRITE_KEPT,
  OP_CHECK_RULES,
  OP_CHECK_BUNDLE,
  OP_RECORDS,
  OP_WRITE_RECORDS,
  OP_READER_START,
  OP_READER_NEXT
};

typedef struct {
  uint64_t op, rules, bundle, a, b, c, bytes, words;
} request;

typedef struct {
  uint64_t number, side, place, item, values[4], intact;
} reply;

_Static_assert(sizeof(request) == 8 * 8 && sizeof(reply) == 9 * 8, "eight numbers, and nine");

/* The memory that is lent, and copies of the files to see that they stay as they are. */
static lent rules, bundle, bytes, words, reader;
static uint8_t rules_copy[MOST], bundle_copy[MOST];

static void read_into(lent *l, uint64_t length, edge where) {
  must(length <= MOST);
  place(l, (size_t)length, where);
  must(fread(l->at, 1, l->length, stdin) == l->length);
}

#define FILES rules.at, rules.length, bundle.at, bundle.length

static void put_refusal(reply *r, dzy_refusal refused) {
  r->number = refused.number;
  r->side = refused.side;
  r->place = refused.place;
  r->item = refused.item;
}

static void put_counts(reply *r, dzy_counts c) {
  put_refusal(r, c.refused);
  r->values[0] = c.facts;
  r->values[1] = c.kept;
  r->values[2] = c.alone;
  r->values[3] = c.disputed;
}

static void put_asked(reply *r, dzy_asked a) {
  put_refusal(r, a.refused);
  r->values[0] = a.mark;
  r->values[1] = a.partner;
}

static void put_answer(reply *r, dzy_answer a) {
  put_refusal(r, a.refused);
  r->values[0] = a.yes;
  r->values[1] = a.fact;
}

static void put_length(reply *r, dzy_length l) {
  put_refusal(r, l.refused);
  r->values[0] = l.length;
}

static void put_start(reply *r, dzy_start s) {
  put_refusal(r, s.refused);
  r->values[0] = s.at;
}

static void put_yield(reply *r, dzy_yield y) {
  put_refusal(r, y.refused);
  r->values[0] = y.found;
  r->values[1] = y.fact.predicate;
  r->values[2] = y.fact.subject;
  r->values[3] = y.fact.object;
}

/* A step of a reader that stands on guarded memory too; it keeps its bundle. */
static void step(reply *r) {
  uint64_t at;
  dzy_reader *lent_reader = (dzy_reader *)(void *)reader.at;
  must(bytes.length == sizeof at);
  memcpy(&at, bytes.at, sizeof at);
  *lent_reader = (dzy_reader){bundle.at, bundle.length, (size_t)at};
  put_yield(r, dzy_reader_next(lent_reader));
  must(lent_reader->bundle == bundle.at && lent_reader->length == bundle.length);
  at = lent_reader->at;
  memcpy(bytes.at, &at, sizeof at);
}

static void call(const request *q, reply *r) {
  uint16_t *partners = (uint16_t *)(void *)words.at;
  dzy_record *row_out = (dzy_record *)(void *)bytes.at, *row_in = (dzy_record *)(void *)bundle.at;
  switch (q->op) {
    case OP_MARK: put_counts(r, dzy_mark(FILES, bytes.at, bytes.length, partners, words.length / 2)); break;
    case OP_COUNT: put_counts(r, dzy_count(FILES)); break;
    case OP_ASK: put_asked(r, dzy_ask(FILES, q->a)); break;
    case OP_HAS: put_answer(r, dzy_has(FILES, q->a, q->b)); break;
    case OP_JOINS: put_answer(r, dzy_joins(FILES, q->a, q->b, q->c)); break;
    case OP_WRITE_KEPT: put_length(r, dzy_write_kept(FILES, bytes.at, bytes.length)); break;
    case OP_CHECK_RULES: put_length(r, dzy_check_rules(rules.at, rules.length)); break;
    case OP_CHECK_BUNDLE: put_length(r, dzy_check_bundle(FILES)); break;
    case OP_RECORDS: put_length(r, dzy_records(FILES, row_out, bytes.length / sizeof *row_out)); break;
    case OP_WRITE_RECORDS:
      put_length(r, dzy_write_records(rules.at, rules.length, row_in, bundle.length / sizeof *row_in, bytes.at, bytes.length));
      break;
    case OP_READER_START: put_start(r, dzy_reader_start(FILES)); break;
    case OP_READER_NEXT: step(r); break;
    default: must(0);
  }
}

/* Whether nothing about the lent parts has changed, nor anything in the files. */
static int intact(void) {
  int around = untouched_near(&rules) && untouched_near(&bundle) && untouched_near(&bytes) && untouched_near(&words) &&
               untouched_near(&reader);
  return around && memcmp(rules.at, rules_copy, rules.length) == 0 && memcmp(bundle.at, bundle_copy, bundle.length) == 0;
}

static void wipe(lent *l) { memset(l->at, FILL, l->length); }

/* One request and its reply; the lent parts lie at the end of their rooms and at the start by turns. */
static void serve(const request *q, edge where) {
  reply r = {0};
  read_into(&rules, q->rules, where);
  read_into(&bundle, q->bundle, where);
  read_into(&bytes, q->bytes, where);
  read_into(&words, 2 * q->words, where);
  place(&reader, sizeof(dzy_reader), where);
  memcpy(rules_copy, rules.at, rules.length);
  memcpy(bundle_copy, bundle.at, bundle.length);
  call(q, &r);
  r.intact = (uint64_t)intact();
  must(fwrite(&r, sizeof r, 1, stdout) == 1);
  must(fwrite(bytes.at, 1, bytes.length, stdout) == bytes.length);
  must(fwrite(words.at, 1, words.length, stdout) == words.length);
  must(fflush(stdout) == 0);
  wipe(&rules);
  wipe(&bundle);
  wipe(&bytes);
  wipe(&words);
  wipe(&reader);
}

int main(void) {
  request q;
  rules = map_room(MOST);
  bundle = map_room(MOST);
  bytes = map_room(MOST);
  words = map_room(MOST);
  reader = map_room(sizeof(dzy_reader));
  for (edge where = AT_END; fread(&q, sizeof q, 1, stdin) == 1; where = where == AT_END ? AT_START : AT_END)
    serve(&q, where);
  return 0;
}
