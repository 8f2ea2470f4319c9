/* The header stands alone, may be included twice, and lays its answers out as the library gives them. Compiled, never run. */
#include "dzyunagor.h"
#include "dzyunagor.h"

_Static_assert(sizeof(dzy_refusal) == 24 && offsetof(dzy_refusal, number) == 0 && offsetof(dzy_refusal, side) == 4, "refusal");
_Static_assert(offsetof(dzy_refusal, place) == 8 && offsetof(dzy_refusal, item) == 16, "refusal");
_Static_assert(sizeof(dzy_counts) == 40 && offsetof(dzy_counts, refused) == 0 && offsetof(dzy_counts, facts) == 24, "counts");
_Static_assert(offsetof(dzy_counts, kept) == 28 && offsetof(dzy_counts, alone) == 32 && offsetof(dzy_counts, disputed) == 36, "counts");
_Static_assert(sizeof(dzy_asked) == 32 && offsetof(dzy_asked, mark) == 24 && offsetof(dzy_asked, partner) == 28, "asked");
_Static_assert(sizeof(dzy_answer) == 32 && offsetof(dzy_answer, yes) == 24 && offsetof(dzy_answer, fact) == 28, "answer");
_Static_assert(sizeof(dzy_length) == 32 && offsetof(dzy_length, length) == 24, "length");
_Static_assert(sizeof(dzy_record) == 12 && _Alignof(dzy_record) == 4, "record");
_Static_assert(offsetof(dzy_record, predicate) == 0 && offsetof(dzy_record, subject) == 4 && offsetof(dzy_record, object) == 8, "record");
_Static_assert(sizeof(dzy_reader) == 24 && offsetof(dzy_reader, length) == 8 && offsetof(dzy_reader, at) == 16, "reader");
_Static_assert(sizeof(dzy_start) == 32 && offsetof(dzy_start, refused) == 0 && offsetof(dzy_start, at) == 24, "start");
_Static_assert(sizeof(dzy_yield) == 40 && offsetof(dzy_yield, found) == 24 && offsetof(dzy_yield, fact) == 28, "yield");
_Static_assert(sizeof(size_t) == 8, "lengths are of 64 bits");
