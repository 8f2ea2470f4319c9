/* The C boundary of rows of records and of the reader, on guarded memory: rooms, limits, every fault of a record, readers in any state.
 * What is due is written by hand, or worked out by the tests' own reading below. */
#include "held.h"

enum { MOST_FACTS = 4096, MOST_BUNDLE = 28674, FACT_MOST = 9, RECORD = sizeof(dzy_record) };

/* The tests' own reading of a number: its refusal's number or 0, its value, and the place after it. */
typedef struct {
  uint32_t number, value;
  size_t next;
} own_number;

static own_number read_number(const uint8_t *bytes, size_t length, size_t at) {
  own_number n = {3, 0, at};
  for (size_t group = 0; group < 3; group++) {
    if (length - at <= group) return (own_number){1, 0, at};
    uint8_t byte = bytes[at + group];
    n.value += (byte & 127u) << (7 * group);
    if (byte < 128) {
      n.number = group > 0 && byte == 0 ? 2 : n.value > 65535 ? 3 : 0;
      n.next = at + group + 1;
      return n;
    }
  }
  return n;
}

/* What is due from a reader at a place, and its place afterwards. */
typedef struct {
  uint32_t number, found;
  uint64_t place;
  dzy_record fact;
  size_t next;
} own_step;

/* The refusal of such a step: on the bundle's side, and of no item. */
static dzy_refusal of_step(const own_step *due) {
  return due->number == 0 ? not_refused : (dzy_refusal){due->number, 1, due->place, NO_ITEM};
}

static own_step read_step(const uint8_t *bytes, size_t length, size_t at) {
  uint32_t values[3] = {0, 0, 0};
  size_t here = at;
  if (at >= length) return (own_step){0, 0, 0, {0, 0, 0}, at};
  for (size_t k = 0; k < (values[0] < 64 ? 2 : 3); k++) {
    own_number n = read_number(bytes, length, here);
    if (n.number != 0) return (own_step){n.number, 0, here, {0, 0, 0}, at};
    values[k] = n.value;
    here = n.next;
  }
  return (own_step){0, 1, 0, {values[0], values[1], values[2]}, here};
}

/* The tests' own writing: a number, and the bundle of a row. */
static size_t put_number(uint8_t *out, uint32_t value) {
  size_t length = 0;
  for (; value >= 128; value /= 128) out[length++] = (uint8_t)(value % 128 + 128);
  out[length++] = (uint8_t)value;
  return length;
}

static size_t put_row(uint8_t *out, const dzy_record *row, size_t records) {
  size_t length = put_number(out, (uint32_t)records);
  for (size_t k = 0; k < records; k++) {
    length += put_number(out + length, row[k].predicate);
    length += put_number(out + length, row[k].subject);
    if (row[k].predicate >= 64) length += put_number(out + length, row[k].object);
  }
  return length;
}

static int is_above(dzy_record a, dzy_record b) {
  if (a.predicate != b.predicate) return a.predicate > b.predicate;
  if (a.subject != b.subject) return a.subject > b.subject;
  return a.object > b.object;
}

/* The refusal that is due for one record of a row, 0 for none. */
static uint32_t fault_of(const dzy_record *row, size_t k, uint32_t concepts, uint32_t roles) {
  dzy_record r = row[k];
  if (r.predicate < 64 ? r.predicate >= concepts : r.predicate - 64 >= roles) return 5;
  if (r.predicate < 64 && r.object != 0) return 12;
  if (r.subject > 65535 || r.object > 65535) return 3;
  return k > 0 && !is_above(r, row[k - 1]) ? 8 : 0;
}

/* Writes a row under some rules into so much room: refused so, and nothing written, or its bundle. */
static void check_write(const lent *rules, const dzy_record *row, size_t records, size_t room, dzy_refusal refused,
                        const char *name, edge where) {
  static uint8_t due[MOST_FACTS * FACT_MOST];
  lent given = lend_file(row, records * RECORD, where), out = lend(room, where);
  dzy_length l = dzy_write_records(rules->at, rules->length, row_at(&given), records, out.at, room);
  size_t written = refused.number == 0 ? put_row(due, row, records) : 0;
  hold("write_records", name, REFUSED(l, refused) && l.length == written);
  hold("write_records, bytes", name, refused.number != 0 || (written <= room && memcmp(out.at, due, written) == 0));
  hold("write_records, past the length", name, untouched_past(&out, written));
  give_back(&given);
  give_back(&out);
}

/* A row without a fault, into rooms too short, exact and longer. */
static void check_write_rooms(const lent *rules, const dzy_record *row, size_t records, size_t length, const char *name,
                              edge where) {
  size_t rooms[5] = {0, length - 1, length, length + 1, length + ROOM};
  for (size_t i = 0; i < 5; i++)
    check_write(rules, row, records, rooms[i], rooms[i] < length ? of_call(9, 0) : not_refused, name, where);
}

/* Hands the facts out into so many slots: refused by 9, and nothing written, or the row. */
static void check_out(const site *s, const dzy_record *due, size_t records, size_t slots, const char *name, edge where) {
  lent row = lend(slots * RECORD, where);
  dzy_length l = dzy_records(SITE(s), row_at(&row), slots);
  size_t written = slots < records ? 0 : records;
  hold("records", name, REFUSED(l, slots < records ? of_call(9, 0) : not_refused));
  hold("records, count", name, l.length == written);
  hold("records, row", name, same_rows(row_at(&row), due, written));
  hold("records, slots past the count", name, untouched_past(&row, written * RECORD));
  give_back(&row);
}

/* One step of a reader that stands on guarded memory itself, laid out by hand: the bundle, its length, the next byte.
 * The same step is taken again where the reader stays. */
static void check_step(const lent *bundle, size_t at, const char *name, edge where) {
  own_step due = read_step(bundle->at, bundle->length, at);
  uint64_t words[3] = {(uint64_t)(uintptr_t)bundle->at, bundle->length, at};
  lent room = lend(sizeof words, where);
  memcpy(room.at, words, sizeof words);
  for (int turn = 0; turn < (due.found == 1 ? 1 : 3); turn++) {
    dzy_yield y = dzy_reader_next((dzy_reader *)(void *)room.at);
    hold("reader, refusal", name, REFUSED(y, of_step(&due)));
    hold("reader, fact", name, y.found == due.found && same_record(y.fact, due.fact));
    words[2] = due.next;
    hold("reader, bundle and place", name, memcmp(room.at, words, sizeof words) == 0);
    hold("reader, about it", name, untouched_past(&room, sizeof words));
  }
  give_back(&room);
}

/* A reader from the start yields the row, is done, and stays done. */
static void check_walk(const site *s, const dzy_record *row, size_t records, uint64_t first, const char *name) {
  dzy_start start = dzy_reader_start(SITE(s));
  hold("reader_start", name, ACCEPTED(start) && start.at == first);
  dzy_reader reader = {s->bundle.at, s->bundle.length, (size_t)start.at};
  size_t same = 0;
  for (size_t k = 0; k < records; k++) {
    dzy_yield y = dzy_reader_next(&reader);
    same += ACCEPTED(y) && y.found == 1 && same_record(y.fact, row[k]);
  }
  hold("reader, facts in order", name, same == records);
  for (int turn = 0; turn < 3; turn++) {
    dzy_yield y = dzy_reader_next(&reader);
    hold("reader, done", name, ACCEPTED(y) && y.found == 0 && same_record(y.fact, (dzy_record){0, 0, 0}));
    hold("reader, at the end", name, reader.at == s->bundle.length && reader.bundle == s->bundle.at);
  }
}

/* A site, and its row written by hand. */
typedef struct {
  const char *rules, *bundle;
  size_t records;
  dzy_record row[6];
} written;

static const written sites[] = {
    {"02 01 05 01 00 01 00 01 40 00 41 00 04 00 03 00 01", "06 00 07 01 07 01 09 40 09 07 40 09 AC 02 40 0C 0C", 6,
     {{0, 7, 0}, {1, 7, 0}, {1, 9, 0}, {64, 9, 7}, {64, 9, 300}, {64, 12, 12}}},
    {"02 01 00", "00", 0, {{0, 0, 0}}},
    {"00 00 00", "00", 0, {{0, 0, 0}}},
    {"01 00 00", "01 00 00", 1, {{0, 0, 0}}},
    {"40 20 00", "05 3E FF FF 03 3F 80 80 01 40 80 01 FF 7F 5E 07 80 01 5F FF FF 03 FF FF 03", 5,
     {{62, 65535, 0}, {63, 16384, 0}, {64, 128, 16383}, {94, 7, 128}, {95, 65535, 65535}}},
    {"02 01 01 01 00 01", "02 00 07 01 07", 2, {{0, 7, 0}, {1, 7, 0}}},
};

/* Each site out, back in, and by the reader. */
static void written_sites(edge where) {
  for (size_t i = 0; i < sizeof sites / sizeof *sites; i++) {
    const written *w = &sites[i];
    site s = lend_site(read_hex(w->rules), read_hex(w->bundle), where);
    for (size_t slots = 0; slots < w->records + 4; slots++) check_out(&s, w->row, w->records, slots, w->bundle, where);
    check_write_rooms(&s.rules, w->row, w->records, s.bundle.length, w->bundle, where);
    check_walk(&s, w->row, w->records, 1, w->bundle);
    give_back_site(&s);
  }
}

/* The longest bundle and the most records: role 31 of things of three bytes. */
static dzy_record long_row[MOST_FACTS + 1];
static uint8_t long_bundle[MOST_BUNDLE + ROOM];

static void fill_long_row(void) {
  for (uint32_t k = 0; k <= MOST_FACTS; k++) long_row[k] = (dzy_record){95, 16384 + k, 65535 - k};
}

static void most_records(edge where) {
  file all = read_hex("40 20 00");
  fill_long_row();
  size_t length = put_row(long_bundle, long_row, MOST_FACTS);
  hold("most records", "the longest bundle", length == MOST_BUNDLE && length == DZY_MOST_BUNDLE);
  site s = {lend_file(all.bytes, all.length, where), lend_file(long_bundle, length, where)};
  for (size_t slots = MOST_FACTS - 1; slots <= MOST_FACTS + 1; slots++)
    check_out(&s, long_row, MOST_FACTS, slots, "most records", where);
  check_write_rooms(&s.rules, long_row, MOST_FACTS, length, "most records", where);
  check_walk(&s, long_row, MOST_FACTS, 2, "most records");
  give_back_site(&s);
}

/* One record too many is refused before anything is looked at but the rules. */
static void too_many_records(edge where) {
  file all = read_hex("40 20 00"), broken = read_hex("41 20 00");
  lent rules = lend_file(all.bytes, all.length, where), bad = lend_file(broken.bytes, broken.length, where);
  for (int with = 0; with < 3; with++) {
    fill_long_row();
    if (with > 0) memset(long_row, with == 1 ? 0 : 0xFF, sizeof long_row);
    check_write(&rules, long_row, MOST_FACTS + 1, 0, of_call(4, 0), "too many records", where);
    check_write(&rules, long_row, MOST_FACTS + 1, MOST_BUNDLE + ROOM, of_call(4, 0), "too many records", where);
    check_write(&bad, long_row, MOST_FACTS + 1, 0, (dzy_refusal){4, 0, 0, NO_ITEM}, "too many records, rules refused", where);
  }
  give_back(&rules);
  give_back(&bad);
}

/* A fault in the first, a middle and the last of the most records. */
static void far_faults(edge where) {
  static const size_t places[5] = {0, 1, 2047, 4094, 4095};
  file all = read_hex("40 20 00");
  lent rules = lend_file(all.bytes, all.length, where);
  for (size_t i = 0; i < 5; i++)
    for (size_t room = 0; room <= MOST_BUNDLE; room += MOST_BUNDLE) {
      fill_long_row();
      long_row[places[i]].predicate = 96;
      check_write(&rules, long_row, MOST_FACTS, room, of_call(5, places[i]), "far, predicate", where);
      long_row[places[i]].predicate = 0;
      check_write(&rules, long_row, MOST_FACTS, room, of_call(12, places[i]), "far, object of a concept", where);
      long_row[places[i]].predicate = 95;
      long_row[places[i]].object = 65536;
      check_write(&rules, long_row, MOST_FACTS, room, of_call(3, places[i]), "far, object", where);
      if (places[i] == 0) continue;
      long_row[places[i]] = long_row[places[i] - 1];
      check_write(&rules, long_row, MOST_FACTS, room, of_call(8, places[i]), "far, order", where);
    }
  give_back(&rules);
}

/* Records with a fault under R, which declares concepts 0 and 1 and role 0; of two faults in one record the first is given. */
typedef struct {
  dzy_record record;
  uint32_t number;
} faulty;

static const faulty faults[] = {
    {{2, 7, 0}, 5},                                  /* a concept not declared */
    {{63, 7, 0}, 5},                                 /* the last concept there can be */
    {{65, 7, 7}, 5},                                 /* a role not declared */
    {{95, 7, 7}, 5},                                 /* the last role there can be */
    {{96, 7, 7}, 5},                                 /* no role */
    {{128, 7, 7}, 5},                                /* of two bytes */
    {{256, 7, 0}, 5},                                /* 0 in 8 bits */
    {{65535, 7, 0}, 5},                              /* the largest number */
    {{65536, 7, 0}, 5},                              /* over it: still 5; 0 in 16 bits */
    {{65537, 9, 0}, 5},                              /* 1 in 16 bits */
    {{0x80000000, 7, 0}, 5},                         /* below 0 if it were signed */
    {{UINT32_MAX, 7, 0}, 5},                         /* the largest in 32 bits */
    {{0, 7, 1}, 12},                                 /* the object of a concept */
    {{1, 9, 65535}, 12},                             /* the same */
    {{1, 9, 65536}, 12},                             /* over: 12 and not 3; 0 in 16 bits */
    {{1, 9, UINT32_MAX}, 12},                        /* the same */
    {{0, 65536, 0}, 3},                              /* a subject over */
    {{1, UINT32_MAX, 0}, 3},                         /* the same */
    {{64, 65536, 7}, 3},                             /* a role's subject over */
    {{64, 65545, 7}, 3},                             /* 9 in 16 bits */
    {{64, UINT32_MAX, 7}, 3},                        /* the same */
    {{64, 9, 65536}, 3},                             /* an object over */
    {{64, 9, 65543}, 3},                             /* 7 in 16 bits */
    {{64, 9, UINT32_MAX}, 3},                        /* the same */
    {{64, UINT32_MAX, UINT32_MAX}, 3},               /* both things over */
    {{2, 65536, 0}, 5},                              /* predicate before subject */
    {{65, 7, 65536}, 5},                             /* predicate before object */
    {{2, 7, 1}, 5},                                  /* predicate before a concept's object */
    {{0, 65536, 1}, 12},                             /* a concept's object before its subject */
    {{UINT32_MAX, UINT32_MAX, UINT32_MAX}, 5},       /* predicate before all */
};

/* Each fault in the first, the middle and the last record, whatever the room. */
static void faulty_records(edge where) {
  file file_r = read_hex(R);
  lent rules = lend_file(file_r.bytes, file_r.length, where);
  for (size_t i = 0; i < sizeof faults / sizeof *faults; i++)
    for (size_t k = 0; k < 3; k++)
      for (size_t room = 0; room <= ROOM; room += ROOM) {
        dzy_record row[3] = {{0, 7, 0}, {1, 9, 0}, {64, 9, 7}};
        row[k] = faults[i].record;
        check_write(&rules, row, 3, room, of_call(faults[i].number, k), "a fault in one record", where);
        check_write(&rules, &row[k], 1, room, of_call(faults[i].number, 0), "a record by itself", where);
      }
  give_back(&rules);
}

/* Rows out of order: which record is not above the one before it; 3, 5 and 12 of that record come first. */
typedef struct {
  dzy_record row[3];
  uint32_t number;
  uint64_t place;
} disordered;

static const disordered disorders[] = {
    {{{0, 7, 0}, {0, 7, 0}, {1, 7, 0}}, 8, 1},            /* equal */
    {{{0, 7, 0}, {1, 7, 0}, {1, 7, 0}}, 8, 2},            /* equal, the last */
    {{{1, 7, 0}, {0, 9, 0}, {1, 9, 0}}, 8, 1},            /* a lower predicate, a higher subject */
    {{{0, 300, 0}, {0, 7, 0}, {1, 7, 0}}, 8, 1},          /* a lower subject */
    {{{0, 65535, 0}, {0, 255, 0}, {1, 7, 0}}, 8, 1},      /* a lower subject of 16 bits */
    {{{64, 9, 7}, {64, 9, 7}, {64, 9, 8}}, 8, 1},         /* equal, of a role */
    {{{64, 9, 300}, {64, 9, 7}, {64, 9, 301}}, 8, 1},     /* a lower object */
    {{{64, 9, 7}, {64, 9, 300}, {64, 8, 65535}}, 8, 2},   /* a lower subject, a higher object */
    {{{64, 0, 0}, {1, 7, 0}, {0, 7, 0}}, 8, 1},           /* the first of two */
    {{{1, 9, 0}, {0, 65536, 0}, {0, 7, 0}}, 3, 1},        /* a subject over, before the order */
    {{{64, 9, 7}, {64, 8, 65536}, {64, 9, 8}}, 3, 1},     /* an object over, before the order */
    {{{1, 9, 0}, {0, 9, 1}, {1, 9, 0}}, 12, 1},           /* a concept's object, before the order */
    {{{64, 9, 7}, {2, 9, 0}, {64, 9, 7}}, 5, 1},          /* a predicate, before the order */
    {{{0, 7, 0}, {0, 7, 0}, {9, 7, 0}}, 8, 1},            /* the order of the second, before the predicate of the third */
    {{{0, 7, 0}, {64, 9, 7}, {UINT32_MAX, 0, 0}}, 5, 2},  /* above, and not declared */
};

static void disordered_rows(edge where) {
  file file_r = read_hex(R);
  lent rules = lend_file(file_r.bytes, file_r.length, where);
  for (size_t i = 0; i < sizeof disorders / sizeof *disorders; i++)
    for (size_t room = 0; room <= ROOM; room += ROOM)
      check_write(&rules, disorders[i].row, 3, room, of_call(disorders[i].number, disorders[i].place), "order", where);
  give_back(&rules);
}

/* Every value of interest in every field of one record of three, under several rule files, against the tests' own judging. */
static void swept_records(edge where) {
  static const char *const files[4] = {"02 01 00", "40 20 00", "00 01 00", "01 00 00"};
  static const uint32_t predicates[11] = {0, 1, 2, 63, 64, 65, 95, 96, 256, 65536, UINT32_MAX};
  static const uint32_t things[7] = {0, 7, 8, 65535, 65536, 65543, UINT32_MAX};
  for (size_t f = 0; f < 4; f++) {
    file hex = read_hex(files[f]);
    lent rules = lend_file(hex.bytes, hex.length, where);
    for (size_t i = 0; i < 11 * 7 * 7 * 3; i++) {
      dzy_record row[3] = {{0, 7, 0}, {64, 7, 7}, {64, 7, 8}};
      row[i % 3] = (dzy_record){predicates[i / 3 % 11], things[i / 33 % 7], things[i / 231]};
      uint32_t number = 0;
      size_t k = 0;
      while (k < 3 && (number = fault_of(row, k, hex.bytes[0], hex.bytes[1])) == 0) k++;
      check_write(&rules, row, 3, 3 * FACT_MOST, number == 0 ? not_refused : of_call(number, k), "swept", where);
    }
    give_back(&rules);
  }
}

/* Places about the edges of numbers and of a bundle; all before its end are tried too. */
static void check_states(const uint8_t *bytes, size_t length, const char *name, edge where) {
  size_t far[9] = {length,     length + 1,        length + 2,        length + 3, (size_t)1 << 31,
                   SIZE_MAX,   SIZE_MAX - 1,      SIZE_MAX - 2,      (size_t)1 << 63};
  lent bundle = lend_file(bytes, length, where);
  for (size_t at = 0; at < length; at++) check_step(&bundle, at, name, where);
  for (size_t i = 0; i < 9; i++) check_step(&bundle, far[i], name, where);
  give_back(&bundle);
}

/* Bundles as they are, refused ones, and bytes of no bundle: what stands at a place is read as it stands. */
static const char *const read_anywhere[] = {
    "", "00", "80", "80 80", "80 80 80", "FF FF 03", "FF FF 04", "40 09 07", "40 09", "3F 09 07", "60 01 02", "FF FF 03 00 00",
    "06 00 07 01 07 01 09 40 09 07 40 09 AC 02 40 0C 0C",
    "05 3E FF FF 03 3F 80 80 01 40 80 01 FF 7F 5E 07 80 01 5F FF FF 03 FF FF 03",
    "02 00 07 00 07", "01 40 09 80 00", "01 40 80 80 04 07", "81 20 00 00 00", "7F 7F 7F 7F 7F 7F 7F", "80 01 80 01 80 01 80 01",
    "80 00 80 00 80 00", "FF FF FF FF FF FF"};

static void any_state(edge where) {
  for (size_t i = 0; i < sizeof read_anywhere / sizeof *read_anywhere; i++) {
    file f = read_hex(read_anywhere[i]);
    check_states(f.bytes, f.length, read_anywhere[i], where);
  }
}

/* Some written out by hand: what a reader of these bytes yields at a place, and where it stands then. */
typedef struct {
  const char *hex;
  size_t at;
  own_step due;
} stood;

static const stood stands[] = {
    {"06 00 07 01 07 01 09 40 09 07 40 09 AC 02 40 0C 0C", 0, {0, 1, 0, {6, 0, 0}, 2}},
    {"06 00 07 01 07 01 09 40 09 07 40 09 AC 02 40 0C 0C", 2, {0, 1, 0, {7, 1, 0}, 4}},
    {"06 00 07 01 07 01 09 40 09 07 40 09 AC 02 40 0C 0C", 10, {0, 1, 0, {64, 9, 300}, 14}},
    {"06 00 07 01 07 01 09 40 09 07 40 09 AC 02 40 0C 0C", 12, {0, 1, 0, {300, 64, 12}, 16}},
    {"06 00 07 01 07 01 09 40 09 07 40 09 AC 02 40 0C 0C", 16, {1, 0, 17, {0, 0, 0}, 16}},
    {"06 00 07 01 07 01 09 40 09 07 40 09 AC 02 40 0C 0C", 17, {0, 0, 0, {0, 0, 0}, 17}},
    {"FF FF 03 05 06", 0, {0, 1, 0, {65535, 5, 6}, 5}},
    {"60 80 01 80 80 01", 0, {0, 1, 0, {96, 128, 16384}, 6}},
    {"3F FF FF 03", 0, {0, 1, 0, {63, 65535, 0}, 4}},
    {"40 80 00 07", 0, {2, 0, 1, {0, 0, 0}, 0}},
    {"40 07 FF FF 04", 0, {3, 0, 2, {0, 0, 0}, 0}},
    {"80 80 80", 0, {3, 0, 0, {0, 0, 0}, 0}},
    {"", 0, {0, 0, 0, {0, 0, 0}, 0}},
    {"", SIZE_MAX, {0, 0, 0, {0, 0, 0}, SIZE_MAX}},
};

static void written_states(edge where) {
  for (size_t i = 0; i < sizeof stands / sizeof *stands; i++) {
    const own_step *due = &stands[i].due;
    file f = read_hex(stands[i].hex);
    lent bundle = lend_file(f.bytes, f.length, where);
    dzy_reader reader = {bundle.at, bundle.length, stands[i].at};
    dzy_yield y = dzy_reader_next(&reader);
    hold("reader by hand", stands[i].hex, REFUSED(y, of_step(due)));
    hold("reader by hand, fact", stands[i].hex, y.found == due->found && same_record(y.fact, due->fact));
    hold("reader by hand, place", stands[i].hex, reader.at == due->next);
    give_back(&bundle);
  }
}

/* Random bytes, those at which something begins or ends favoured. */
static uint64_t dice = 1;

static uint32_t throw_dice(uint32_t below) {
  dice = dice * UINT64_C(6364136223846793005) + UINT64_C(1442695040888963407);
  return (uint32_t)(dice >> 33) % below;
}

static void random_bytes(edge where) {
  static const uint8_t edges[14] = {0, 1, 2, 3, 4, 0x3F, 0x40, 0x41, 0x5F, 0x60, 0x7F, 0x80, 0x83, 0xFF};
  for (int turn = 0; turn < 2000; turn++) {
    uint8_t bytes[12];
    size_t length = throw_dice(sizeof bytes + 1);
    for (size_t i = 0; i < length; i++) bytes[i] = throw_dice(3) == 0 ? (uint8_t)throw_dice(256) : edges[throw_dice(14)];
    check_states(bytes, length, "random bytes", where);
  }
}

/* Every byte of the worked bundle changed to every other: the reader at every place. */
static void changed_bundles(edge where) {
  for (size_t at = 0; at < read_hex(F).length; at++)
    for (unsigned by = 1; by < 256; by++) {
      file f = read_hex(F);
      f.bytes[at] ^= (uint8_t)by;
      lent bundle = lend_file(f.bytes, f.length, where);
      for (size_t from = at < 6 ? 0 : at - 6; from <= at; from++) check_step(&bundle, from, "a changed bundle", where);
      give_back(&bundle);
    }
}

int main(void) {
  for (edge where = AT_END; where <= AT_START; where++) {
    written_sites(where);
    most_records(where);
    too_many_records(where);
    far_faults(where);
    faulty_records(where);
    disordered_rows(where);
    swept_records(where);
    written_states(where);
    any_state(where);
    random_bytes(where);
    changed_bundles(where);
  }
  return told("records");
}
