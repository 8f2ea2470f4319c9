/* The C boundary: the worked site, damaged files and bad arguments through every entry point,
 * on memory that ends, or begins, at a page that cannot be touched. */
#include "held.h"

/* The layout that other languages declare. */
_Static_assert(sizeof(((dzy_counts *)0)->refused) == 24, "a refusal has 24 bytes");
_Static_assert(sizeof(((dzy_counts *)0)->refused.number) == 4, "a refusal's number is 32 bits");
_Static_assert(sizeof(((dzy_counts *)0)->refused.side) == 4, "a refusal's side is 32 bits");
_Static_assert(sizeof(((dzy_counts *)0)->refused.place) == 8, "a refusal's place is 64 bits");
_Static_assert(sizeof(((dzy_counts *)0)->refused.item) == 4, "a refusal's item is 32 bits");
_Static_assert(offsetof(dzy_refusal, place) == 8 && offsetof(dzy_refusal, item) == 16, "a refusal");
_Static_assert(sizeof(dzy_counts) == 40 && offsetof(dzy_counts, disputed) == 36, "counts");
_Static_assert(sizeof(dzy_asked) == 32 && offsetof(dzy_asked, partner) == 28, "one fact");
_Static_assert(sizeof(dzy_answer) == 32 && offsetof(dzy_answer, fact) == 28, "an answer");
_Static_assert(sizeof(dzy_length) == 32 && offsetof(dzy_length, length) == 24, "a length");
_Static_assert(sizeof(dzy_record) == 12 && offsetof(dzy_record, object) == 8, "a record");
_Static_assert(sizeof(dzy_reader) == 24 && offsetof(dzy_reader, at) == 16, "a reader");
_Static_assert(sizeof(dzy_start) == 32 && offsetof(dzy_start, at) == 24, "a start");
_Static_assert(sizeof(dzy_yield) == 40 && offsetof(dzy_yield, fact) == 28, "a yield");
_Static_assert(DZY_UNKNOWN == 5 && DZY_KIND == 11 && DZY_OBJECT == 12 && DZY_NO_ITEM == NO_ITEM, "names");

enum { NO_PARTNER = 65535 };

static int worked_counts(dzy_counts c) {
  return ACCEPTED(c) && c.facts == 6 && c.kept == 1 && c.alone == 1 && c.disputed == 4;
}

static const uint8_t worked_marks[6] = {2, 2, 0, 2, 2, 1};
static const uint16_t worked_partners[6] = {1, 0, NO_PARTNER, 1, 3, NO_PARTNER};

static void check_marks(const site *s, size_t room, edge where) {
  lent marks = lend(room, where), partners = lend(2 * room, where);
  dzy_counts c = dzy_mark(SITE(s), marks.at, room, (uint16_t *)(void *)partners.at, room);
  hold("mark", "counts", worked_counts(c));
  hold("mark", "marks", memcmp(marks.at, worked_marks, sizeof worked_marks) == 0);
  hold("mark", "partners", memcmp(partners.at, worked_partners, sizeof worked_partners) == 0);
  hold("mark", "marks past the count", untouched_past(&marks, sizeof worked_marks));
  hold("mark", "partners past the count", untouched_past(&partners, sizeof worked_partners));
  give_back(&marks);
  give_back(&partners);
}

static void check_marks_refused(const site *s, size_t marks_room, size_t partners_room, edge where, dzy_refusal due,
                                const char *name) {
  lent marks = lend(marks_room, where), partners = lend(2 * partners_room, where);
  dzy_counts c = dzy_mark(SITE(s), marks.at, marks_room, (uint16_t *)(void *)partners.at, partners_room);
  hold("mark", name, REFUSED(c, due));
  hold("mark, counts of a refusal", name, c.facts == 0 && c.kept == 0 && c.alone == 0 && c.disputed == 0);
  hold("mark, nothing written", name, untouched_past(&marks, 0) && untouched_past(&partners, 0));
  give_back(&marks);
  give_back(&partners);
}

static void check_kept(const site *s, size_t room, edge where) {
  static const uint8_t kept[3] = {1, 1, 9};
  lent out = lend(room, where);
  dzy_length l = dzy_write_kept(SITE(s), out.at, room);
  hold("write_kept", "length", ACCEPTED(l) && l.length == sizeof kept);
  hold("write_kept", "bytes", memcmp(out.at, kept, sizeof kept) == 0);
  hold("write_kept", "past the length", untouched_past(&out, sizeof kept));
  give_back(&out);
}

static void check_kept_refused(const site *s, size_t room, edge where, dzy_refusal due, const char *name) {
  lent out = lend(room, where);
  dzy_length l = dzy_write_kept(SITE(s), out.at, room);
  hold("write_kept", name, REFUSED(l, due) && l.length == 0);
  hold("write_kept, nothing written", name, untouched_past(&out, 0));
  give_back(&out);
}

static const dzy_record worked_row[6] = {{0, 7, 0}, {1, 7, 0}, {1, 9, 0}, {64, 9, 7}, {64, 9, 300}, {64, 12, 12}};

static void check_row(const site *s, size_t room, edge where) {
  lent row = lend(room * sizeof(dzy_record), where);
  dzy_length l = dzy_records(SITE(s), row_at(&row), room);
  hold("records", "count", ACCEPTED(l) && l.length == 6);
  hold("records", "row", same_rows(row_at(&row), worked_row, 6));
  hold("records", "slots past the count", untouched_past(&row, sizeof worked_row));
  give_back(&row);
}

static void check_row_refused(const site *s, size_t room, edge where, dzy_refusal due, const char *name) {
  lent row = lend(room * sizeof(dzy_record), where);
  dzy_length l = dzy_records(SITE(s), row_at(&row), room);
  hold("records", name, REFUSED(l, due) && l.length == 0);
  hold("records, nothing written", name, untouched_past(&row, 0));
  give_back(&row);
}

/* The worked row written back: the worked bundle. */
static void check_written(const site *s, size_t room, edge where) {
  lent row = lend_file(worked_row, sizeof worked_row, where), out = lend(room, where);
  dzy_length l = dzy_write_records(s->rules.at, s->rules.length, row_at(&row), 6, out.at, room);
  hold("write_records", "length", ACCEPTED(l) && l.length == s->bundle.length);
  hold("write_records", "bytes", memcmp(out.at, s->bundle.at, s->bundle.length) == 0);
  hold("write_records", "past the length", untouched_past(&out, s->bundle.length));
  give_back(&row);
  give_back(&out);
}

/* A row that is refused, of a concept that is not declared and with every other fault, unless the rules are. */
static void check_written_refused(const site *s, size_t records, size_t room, edge where, dzy_refusal due,
                                  const char *name) {
  static const dzy_record bad[2] = {{UINT32_MAX, UINT32_MAX, UINT32_MAX}, {2, 65536, 1}};
  lent row = lend_file(bad, records * sizeof *bad, where), out = lend(room, where);
  dzy_length l = dzy_write_records(s->rules.at, s->rules.length, row_at(&row), records, out.at, room);
  hold("write_records", name, REFUSED(l, due) && l.length == 0);
  hold("write_records, nothing written", name, untouched_past(&out, 0));
  give_back(&row);
  give_back(&out);
}

/* A reader from the start to the end of the worked bundle. */
static void check_reader(const site *s) {
  dzy_start start = dzy_reader_start(SITE(s));
  hold("reader_start", "F", ACCEPTED(start) && start.at == 1);
  dzy_reader reader = {s->bundle.at, s->bundle.length, (size_t)start.at};
  for (size_t i = 0; i < 6; i++) {
    dzy_yield y = dzy_reader_next(&reader);
    hold("reader_next", "fact", ACCEPTED(y) && y.found == 1 && same_record(y.fact, worked_row[i]));
  }
  hold("reader_next", "place", reader.at == s->bundle.length);
}

static void check_facts(const site *s) {
  for (uint64_t fact = 0; fact < 6; fact++) {
    dzy_asked a = dzy_ask(SITE(s), fact);
    hold("ask", "mark", ACCEPTED(a) && a.mark == worked_marks[fact]);
    hold("ask", "partner", a.partner == worked_partners[fact]);
  }
}

static void check_has(const site *s, uint64_t code, uint64_t thing, uint32_t yes, uint32_t fact) {
  dzy_answer a = dzy_has(SITE(s), code, thing);
  hold("has", "answer", ACCEPTED(a) && a.yes == yes && a.fact == fact);
}

static void check_joins(const site *s, uint64_t code, uint64_t from, uint64_t to, uint32_t yes, uint32_t fact) {
  dzy_answer a = dzy_joins(SITE(s), code, from, to);
  hold("joins", "answer", ACCEPTED(a) && a.yes == yes && a.fact == fact);
}

static void check_answers(const site *s) {
  check_has(s, 64, 9, 1, 2);
  check_has(s, 1, 9, 1, 2);
  check_has(s, 0, 300, 0, 0);
  check_has(s, 0, 7, 0, 0);
  check_has(s, 65, 65535, 0, 0);
  check_joins(s, 0, 9, 7, 0, 0);
  check_joins(s, 1, 7, 9, 0, 0);
}

static void worked_site(edge where) {
  site s = lend_site(read_hex(R), read_hex(F), where);
  dzy_length rules = dzy_check_rules(s.rules.at, s.rules.length);
  hold("check_rules", "R", ACCEPTED(rules) && rules.length == 5);
  dzy_length facts = dzy_check_bundle(SITE(&s));
  hold("check_bundle", "F", ACCEPTED(facts) && facts.length == 6);
  hold("count", "R and F", worked_counts(dzy_count(SITE(&s))));
  for (size_t room = 6; room < ROOM; room++) check_marks(&s, room, where);
  for (size_t room = 3; room < ROOM; room++) check_kept(&s, room, where);
  for (size_t room = 6; room < ROOM; room++) check_row(&s, room, where);
  for (size_t room = 17; room < 17 + ROOM; room++) check_written(&s, room, where);
  check_reader(&s);
  check_facts(&s);
  check_answers(&s);
  give_back_site(&s);
}

static void joined_site(edge where) {
  site s = lend_site(read_hex(R), read_hex("01 40 09 07"), where);
  check_joins(&s, 0, 9, 7, 1, 0);
  check_joins(&s, 1, 7, 9, 1, 0);
  check_joins(&s, 0, 7, 9, 0, 0);
  check_has(&s, 0, 7, 1, 0);
  give_back_site(&s);
}

/* An output that is too short is refused, and nothing is written. */
static void short_rooms(edge where) {
  site s = lend_site(read_hex(R), read_hex(F), where);
  for (size_t room = 0; room < 6; room++) {
    check_marks_refused(&s, room, 6, where, of_call(9, 0), "marks too short");
    check_marks_refused(&s, 6, room, where, of_call(9, 0), "partners too short");
    check_row_refused(&s, room, where, of_call(9, 0), "row too short");
  }
  for (size_t room = 0; room < 3; room++) check_kept_refused(&s, room, where, of_call(9, 0), "out too short");
  give_back_site(&s);
}

static int refused_answer(dzy_answer a, dzy_refusal due) { return REFUSED(a, due) && a.yes == 0 && a.fact == 0; }

static void bad_arguments(edge where) {
  static const uint64_t large[4] = {65536, UINT64_C(1) << 32, UINT64_C(1) << 63, UINT64_MAX};
  site s = lend_site(read_hex(R), read_hex(F), where);
  dzy_asked a = dzy_ask(SITE(&s), 6);
  hold("ask", "one over", REFUSED(a, of_call(10, 0)) && a.mark == 0 && a.partner == 0);
  hold("has", "undeclared concept", refused_answer(dzy_has(SITE(&s), 2, 7), of_call(5, 0)));
  hold("has", "undeclared role", refused_answer(dzy_has(SITE(&s), 66, 7), of_call(5, 0)));
  hold("joins", "undeclared role", refused_answer(dzy_joins(SITE(&s), 2, 7, 7), of_call(5, 0)));
  for (int i = 0; i < 4; i++) {
    a = dzy_ask(SITE(&s), large[i]);
    hold("ask", "large", REFUSED(a, of_call(10, 0)) && a.mark == 0 && a.partner == 0);
    hold("has", "large code", refused_answer(dzy_has(SITE(&s), large[i], large[i]), of_call(5, 0)));
    hold("has", "large thing", refused_answer(dzy_has(SITE(&s), 0, large[i]), of_call(3, 0)));
    hold("joins", "large code", refused_answer(dzy_joins(SITE(&s), large[i], large[i], 0), of_call(5, 0)));
    hold("joins", "large from", refused_answer(dzy_joins(SITE(&s), 0, large[i], 0), of_call(3, 0)));
    hold("joins", "large to", refused_answer(dzy_joins(SITE(&s), 0, 0, large[i]), of_call(3, 0)));
  }
  give_back_site(&s);
}

/* Every entry point on files that are refused; the arguments and rooms are bad too, and come later. */
static void refused_everywhere(file rules, file bundle, dzy_refusal due, const char *name, edge where) {
  site s = lend_site(rules, bundle, where);
  dzy_length l = dzy_check_rules(s.rules.at, s.rules.length);
  hold("check_rules", name, due.side == 0 ? REFUSED(l, due) && l.length == 0 : ACCEPTED(l));
  l = dzy_check_bundle(SITE(&s));
  hold("check_bundle", name, REFUSED(l, due) && l.length == 0);
  dzy_counts c = dzy_count(SITE(&s));
  hold("count", name, REFUSED(c, due));
  hold("count of a refusal", name, c.facts == 0 && c.kept == 0 && c.alone == 0 && c.disputed == 0);
  dzy_asked a = dzy_ask(SITE(&s), UINT64_MAX);
  hold("ask", name, REFUSED(a, due) && a.mark == 0 && a.partner == 0);
  hold("has", name, refused_answer(dzy_has(SITE(&s), 200, UINT64_MAX), due));
  hold("joins", name, refused_answer(dzy_joins(SITE(&s), 200, 0, UINT64_MAX), due));
  check_marks_refused(&s, 0, 0, where, due, name);
  check_marks_refused(&s, ROOM, ROOM, where, due, name);
  check_kept_refused(&s, 0, where, due, name);
  check_kept_refused(&s, ROOM, where, due, name);
  check_row_refused(&s, 0, where, due, name);
  check_row_refused(&s, ROOM, where, due, name);
  if (due.side == 0) {
    check_written_refused(&s, 0, 0, where, due, name);
    check_written_refused(&s, 2, ROOM, where, due, name);
  }
  dzy_start start = dzy_reader_start(SITE(&s));
  hold("reader_start", name, REFUSED(start, due) && start.at == 0);
  give_back_site(&s);
}

typedef struct {
  const char *hex;
  dzy_refusal due;
} damaged;

static const damaged damaged_rules[] = {
    {"", {1, 0, 0, NO_ITEM}},
    {"80", {1, 0, 0, NO_ITEM}},
    {"80 80", {1, 0, 0, NO_ITEM}},
    {"80 80 80", {3, 0, 0, NO_ITEM}},
    {"80 00 00 00", {2, 0, 0, NO_ITEM}},
    {"80 80 04 00", {3, 0, 0, NO_ITEM}},
    {"41 00 00", {4, 0, 0, NO_ITEM}},
    {"00 21 00", {4, 0, 1, NO_ITEM}},
    {"00 00 81 04", {4, 0, 2, NO_ITEM}},
    {"00 00 01 05", {11, 0, 3, 0}},
    {"00 00 01 FF FF 03", {11, 0, 3, 0}},
    {"00 00 01 80 80 04", {3, 0, 3, 0}},
    {"01 01 01 00 01 40", {5, 0, 4, 0}},
    {"01 01 01 02 00 02", {5, 0, 5, 0}},
    {"00 01 02 04 00 02 01 01", {6, 0, 3, 0}},
    {"00 01 02 04 00 02 01 01 00", {7, 0, 8, NO_ITEM}},
    {"00 00 00 00", {7, 0, 3, NO_ITEM}},
    {"01 01 03 00 00 00 05 00 00 04 00", {11, 0, 6, 1}},          /* a kind, of a middle rule */
    {"01 01 03 00 00 00 03 00 00 05 00", {11, 0, 9, 2}},          /* of the last */
    {"01 01 03 00 00 00 03 80 00 00 04 00", {2, 0, 7, 1}},        /* a long form in a middle rule */
    {"01 01 03 00 00 00 03 00 00 04 80 80 04", {3, 0, 10, 2}},    /* a code over in the last */
    {"01 01 03 00 00 00 03 00 02 04 00", {5, 0, 8, 1}},           /* a role in a middle rule */
    {"01 01 03 00 00 00 03 00 00 04 02", {5, 0, 10, 2}},          /* in the last */
    {"00 02 03 02 02 01 04 00 03 00 02", {6, 0, 6, 1}},           /* a middle rule is broken */
    {"00 02 03 02 02 01 03 00 02 04 01", {6, 0, 9, 2}},           /* the last is */
    {"01 01 03 00 00 00 03 00 00 04 00 05", {7, 0, 11, NO_ITEM}}, /* after the last */
};

static const damaged damaged_bundles[] = {
    {"", {1, 1, 0, NO_ITEM}},
    {"80 20", {1, 1, 2, 0}},
    {"81 20", {4, 1, 0, NO_ITEM}},
    {"83 00", {2, 1, 0, NO_ITEM}},
    {"80 80 04", {3, 1, 0, NO_ITEM}},
    {"01 80 00", {2, 1, 1, 0}},
    {"01 00 FF FF 04", {3, 1, 2, 0}},
    {"01 00 FF FF 83", {3, 1, 2, 0}},
    {"01 02 07", {5, 1, 1, 0}},
    {"01 41 07 07", {5, 1, 1, 0}},
    {"00 00", {7, 1, 1, NO_ITEM}},
    {"02 00 07 00 07", {8, 1, 3, 1}},
    {"02 40 07 08 40 07 07", {8, 1, 4, 1}},
    {"03 00 07 40 87 00 08 40 09 08", {2, 1, 4, 1}},            /* a long form in a middle fact */
    {"03 00 07 40 07 08 40 09 80 80 80", {3, 1, 8, 2}},         /* an object over in the last */
    {"03 00 07 02 07 40 09 08", {5, 1, 3, 1}},                  /* a predicate of a middle fact */
    {"03 00 07 40 07 08 41 09 08", {5, 1, 6, 2}},               /* of the last */
    {"03 00 07 00 06 40 09 08", {8, 1, 3, 1}},                  /* a middle fact is not above */
    {"03 00 07 40 07 08 40 07 08", {8, 1, 6, 2}},               /* the last is not */
    {"03 00 07 40 07 08 40 09 08 80", {7, 1, 9, NO_ITEM}},      /* after the last */
};

static void damaged_files(edge where) {
  for (size_t i = 0; i < sizeof damaged_rules / sizeof *damaged_rules; i++) {
    const damaged *d = &damaged_rules[i];
    refused_everywhere(read_hex(d->hex), read_hex("81 20"), d->due, d->hex, where);
  }
  for (size_t i = 0; i < sizeof damaged_bundles / sizeof *damaged_bundles; i++) {
    const damaged *d = &damaged_bundles[i];
    refused_everywhere(read_hex(R), read_hex(d->hex), d->due, d->hex, where);
  }
}

/* Where each rule of R, and each fact of F, begins. */
static const size_t rules_begin[5] = {3, 6, 9, 12, 14}, facts_begin[6] = {1, 3, 5, 7, 10, 14};

/* The item whose bytes a place is among, if it is past the counts. */
static uint32_t item_at(const size_t *begin, uint32_t items, size_t place) {
  uint32_t begun = 0;
  while (begun < items && begin[begun] <= place) begun++;
  return begun == 0 ? NO_ITEM : begun - 1;
}

/* The worked files cut at every byte: refusal 1 at the first byte that is not there, or of the number cut in two. */
static void cut_files(edge where) {
  file rules = read_hex(R), bundle = read_hex(F);
  for (size_t end = 0; end < rules.length; end++) {
    file cut = rules;
    cut.length = end;
    refused_everywhere(cut, bundle, (dzy_refusal){1, 0, end, item_at(rules_begin, 5, end)}, "R cut", where);
  }
  for (size_t end = 0; end < bundle.length; end++) {
    file cut = bundle;
    cut.length = end;
    int in_two = end > 0 && bundle.bytes[end - 1] >= 0x80;
    size_t at = in_two ? end - 1 : end;
    refused_everywhere(rules, cut, (dzy_refusal){1, 1, at, item_at(facts_begin, 6, at)}, "F cut", where);
  }
}

/* A worked file with one byte changed: whatever the answer is, only what it says may be written. */
static void check_changed(file rules, file bundle, edge where) {
  site s = lend_site(rules, bundle, where);
  lent marks = lend(ROOM, where), partners = lend(2 * ROOM, where), out = lend(ROOM, where);
  dzy_counts c = dzy_mark(SITE(&s), marks.at, ROOM, (uint16_t *)(void *)partners.at, ROOM);
  dzy_length l = dzy_write_kept(SITE(&s), out.at, ROOM);
  hold("changed", "marks past the count", c.facts <= ROOM && untouched_past(&marks, c.facts));
  hold("changed", "partners past the count", c.facts <= ROOM && untouched_past(&partners, 2 * (size_t)c.facts));
  hold("changed", "counts", c.kept + c.alone + c.disputed == c.facts);
  hold("changed", "kept past the length", l.length <= ROOM && untouched_past(&out, (size_t)l.length));
  lent row = lend(ROOM * sizeof(dzy_record), where);
  l = dzy_records(SITE(&s), row_at(&row), ROOM);
  hold("changed", "as many records as facts", l.length == c.facts && REFUSED(l, c.refused));
  hold("changed", "slots past the count", untouched_past(&row, (size_t)l.length * sizeof(dzy_record)));
  give_back(&row);
  give_back(&marks);
  give_back(&partners);
  give_back(&out);
  give_back_site(&s);
}

/* Every byte of the worked files, which are equally long, changed to every other. */
static void changed_files(edge where) {
  for (size_t at = 0; at < read_hex(R).length; at++)
    for (unsigned by = 1; by < 256; by++) {
      file rules = read_hex(R), bundle = read_hex(F);
      rules.bytes[at] ^= (uint8_t)by;
      check_changed(rules, read_hex(F), where);
      bundle.bytes[at] ^= (uint8_t)by;
      check_changed(read_hex(R), bundle, where);
    }
}

int main(void) {
  for (edge where = AT_END; where <= AT_START; where++) {
    worked_site(where);
    joined_site(where);
    short_rooms(where);
    bad_arguments(where);
    damaged_files(where);
    cut_files(where);
    changed_files(where);
  }
  return told("boundary");
}
