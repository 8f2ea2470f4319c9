/* Dzyunagor: cleans the facts of a site by its rules. C11 or C++17, Linux on x86-64.
 *
 * Every function takes rule files and bundles as bytes (docs/FORMAT.md). Any bytes and any numbers may be given: what is
 * wrong with them is a refusal. What a caller owes is only this:
 * - Slices are a pointer, then its length in elements. The pointer is valid for that length, and never NULL, also where
 *   the length is 0.
 * - Lent outputs overlap neither each other nor the inputs, and nobody else writes to either during the call.
 * - Alignment is that of the pointer's type, as C gives it: 2 bytes for partners, 4 for records, 8 for a reader.
 * - Stack: 24 KiB are enough for every call (measured: docs/SPEED.md). It does not grow with the input.
 * - Threads: nothing. No function keeps anything: no state, no heap, no files, no locks. All may run at the same time.
 *
 * An answer starts with its refusal (docs/REFUSALS.md). Number 0: not refused.
 * Refused: all other fields are 0, and no lent memory is written.
 * Not refused: what lies past the written part of lent memory stays as it was.
 */
#ifndef DZYUNAGOR_H
#define DZYUNAGOR_H

#include <stddef.h>
#include <stdint.h>

#ifdef __cplusplus
extern "C" {
#endif

/* The version of this interface: a new major one breaks callers, a new minor one adds to it (CHANGES.md). */
#define DZY_VERSION_MAJOR 2
#define DZY_VERSION_MINOR 0
#define DZY_VERSION_PATCH 0
#define DZY_VERSION "2.0.0"

/* The most facts of a bundle: a row of so many marks, partners or records is never too short. */
#define DZY_MOST_FACTS 4096

/* The most bytes of an accepted bundle: an output of so many is never too short for the kept facts, nor for a row's bundle. */
#define DZY_MOST_BUNDLE 28674

/* The largest thing: a device number. */
#define DZY_MOST_THING 65535

/* The partner of a fact that has none. */
#define DZY_NO_PARTNER 65535

/* The item of a refusal in a file's counts or after its last rule or fact, on side 2, or of dzy_reader_next: none. */
#define DZY_NO_ITEM 65535

/* Marks of facts. */
#define DZY_KEPT 0
#define DZY_ALONE 1
#define DZY_DISPUTED 2

/* Sides of refusals. */
#define DZY_RULES 0
#define DZY_BUNDLE 1
#define DZY_CALL 2

/* Numbers of refusals; dzy_refusal_text has what each means. */
#define DZY_CUT 1
#define DZY_LONG 2
#define DZY_OVER 3
#define DZY_TOO_MANY 4
#define DZY_UNKNOWN 5
#define DZY_BROKEN 6
#define DZY_AFTER 7
#define DZY_ORDER 8
#define DZY_ROOM 9
#define DZY_NO_FACT 10
#define DZY_KIND 11
#define DZY_OBJECT 12

/* What a refusal's number means. */
static inline const char *dzy_refusal_text(uint32_t number)
{
    switch (number) {
    case 0: return "not refused";
    case DZY_CUT: return "the bytes end before a number that is due is complete";
    case DZY_LONG: return "a number of more than one byte, the last of them 0";
    case DZY_OVER: return "a third byte with its top bit set, or a value over 65,535";
    case DZY_TOO_MANY: return "a count over its limit";
    case DZY_UNKNOWN: return "a concept or role that is not declared";
    case DZY_BROKEN: return "a functional role on the right of a kind 2 rule";
    case DZY_AFTER: return "bytes after the last item";
    case DZY_ORDER: return "a fact or record not above the one before it";
    case DZY_ROOM: return "a lent output too short";
    case DZY_NO_FACT: return "a fact number not below the count";
    case DZY_KIND: return "a rule kind over 4";
    case DZY_OBJECT: return "a concept record whose object is not 0";
    default: return "no number of a refusal";
    }
}

/* What is wrong, and where; all 0 if nothing is. */
typedef struct dzy_refusal {
    uint32_t number; /* 0, or 1 to 12 */
    uint32_t side;   /* DZY_RULES, DZY_BUNDLE, or DZY_CALL: the call's own arguments */
    uint64_t place;  /* the byte, for sides 0 and 1; for side 2 the number of the record at fault, else 0 */
    uint32_t item;   /* the number of the rule or fact there, from 0, or DZY_NO_ITEM */
} dzy_refusal;

/* How many facts there are, and how many of each mark. The three add up to the facts. */
typedef struct dzy_counts {
    dzy_refusal refused;
    uint32_t facts;
    uint32_t kept;
    uint32_t alone;
    uint32_t disputed;
} dzy_counts;

/* One fact's mark and partner. */
typedef struct dzy_asked {
    dzy_refusal refused;
    uint32_t mark;    /* DZY_KEPT, DZY_ALONE or DZY_DISPUTED */
    uint32_t partner; /* a fact's number, or DZY_NO_PARTNER where the mark is not DZY_DISPUTED */
} dzy_asked;

/* A question's answer. */
typedef struct dzy_answer {
    dzy_refusal refused;
    uint32_t yes;  /* 1 yes, 0 no */
    uint32_t fact; /* for yes the lowest-numbered kept fact that says so; for no 0 */
} dzy_answer;

/* How many bytes, rules, facts or records. */
typedef struct dzy_length {
    dzy_refusal refused;
    uint64_t length;
} dzy_length;

/* A fact as three numbers. */
typedef struct dzy_record {
    uint32_t predicate; /* i for concept i, 64+j for role j */
    uint32_t subject;   /* a thing */
    uint32_t object;    /* a thing; 0 for a concept */
} dzy_record;

/* A reader of facts, one at a time. The caller fills it in: a bundle, and the place where dzy_reader_start says it starts.
 * Any other bytes and any other place may be set too. The bundle is never NULL. */
typedef struct dzy_reader {
    const uint8_t *bundle;
    size_t length; /* of the bundle, in bytes */
    size_t at;     /* the next byte */
} dzy_reader;

/* Where a reader starts. */
typedef struct dzy_start {
    dzy_refusal refused;
    uint64_t at;
} dzy_start;

/* What a reader yields. */
typedef struct dzy_yield {
    dzy_refusal refused;
    uint32_t found;  /* 1 with a fact; 0 and not refused: it is done */
    dzy_record fact; /* all 0 where there is none */
} dzy_yield;

/* Marks every fact. Writes a mark and a partner for each fact, in order; gives the counts.
 * Refuses 9 if either row is shorter than the count of facts. */
dzy_counts dzy_mark(const uint8_t *rules, size_t rules_length, const uint8_t *bundle, size_t bundle_length,
                    uint8_t *marks, size_t marks_length, uint16_t *partners, size_t partners_length);

/* Counts the facts and the marks, and writes nothing. */
dzy_counts dzy_count(const uint8_t *rules, size_t rules_length, const uint8_t *bundle, size_t bundle_length);

/* Gives the mark and the partner of one fact, by its number from 0.
 * Refuses 10 if the number is not below the count of facts. */
dzy_asked dzy_ask(const uint8_t *rules, size_t rules_length, const uint8_t *bundle, size_t bundle_length,
                  uint64_t fact);

/* Asks "B of a": is the thing of the basic concept? The code is i for concept i, 64+q for "has some partner by q".
 * Refuses 5 if the code is not declared, then 3 if the thing is over 65,535. */
dzy_answer dzy_has(const uint8_t *rules, size_t rules_length, const uint8_t *bundle, size_t bundle_length,
                   uint64_t code, uint64_t thing);

/* Asks "q from a to b": does the basic role join the two things? The code is 2j for role j, 2j+1 for its inverse.
 * Refuses 5 if the code is not declared, then 3 if a thing is over 65,535. */
dzy_answer dzy_joins(const uint8_t *rules, size_t rules_length, const uint8_t *bundle, size_t bundle_length,
                     uint64_t code, uint64_t from, uint64_t to);

/* Writes the bundle of the kept facts, from the output's first byte on; gives its length in bytes.
 * Refuses 9 if the output is shorter than that. */
dzy_length dzy_write_kept(const uint8_t *rules, size_t rules_length, const uint8_t *bundle, size_t bundle_length,
                          uint8_t *out, size_t out_length);

/* Hands the facts out as records, in order, from the row's first slot on; gives their count.
 * Refuses 9 if the row is shorter than that. */
dzy_length dzy_records(const uint8_t *rules, size_t rules_length, const uint8_t *bundle, size_t bundle_length,
                       dzy_record *row, size_t row_length);

/* Writes a row of records as a bundle, from the output's first byte on; gives its length in bytes.
 * Refuses 4 if there are more than 4,096. Then, at the first record at fault, in this order: 5 if its predicate is not
 * declared, 12 if it is of a concept and its object is not 0, 3 if its subject, then its object, is over 65,535, 8 if it
 * is not above the one before it. Then 9 if the output is shorter than the bundle. */
dzy_length dzy_write_records(const uint8_t *rules, size_t rules_length, const dzy_record *row, size_t row_length,
                             uint8_t *out, size_t out_length);

/* Judges a rule file, then a bundle under it; gives the place of the bundle's first fact, where a reader starts. */
dzy_start dzy_reader_start(const uint8_t *rules, size_t rules_length, const uint8_t *bundle, size_t bundle_length);

/* Yields the fact whose numbers stand at the reader's next byte, and moves the reader behind it. No predicate is refused;
 * one from 64 on has an object. Refuses 1, 2 or 3 on side 1 at the number at fault; the reader stays where it is.
 * At or past the end it is done, and stays there. Nothing but the reader's place is written. */
dzy_yield dzy_reader_next(dzy_reader *reader);

/* Judges a rule file; gives the number of rules. */
dzy_length dzy_check_rules(const uint8_t *rules, size_t rules_length);

/* Judges a rule file, then a bundle under it; gives the number of facts. */
dzy_length dzy_check_bundle(const uint8_t *rules, size_t rules_length, const uint8_t *bundle, size_t bundle_length);

#ifdef __cplusplus
}
#endif

#endif
