/* The worked site's facts as records: handed out, the dropped ones left out, the others written back; then read one at a time. */
#include <inttypes.h>
#include <stdio.h>
#include <string.h>

#include "dzyunagor.h"

static const uint8_t rules[] = {0x02, 0x01, 0x05, 0x01, 0x00, 0x01, 0x00, 0x01, 0x40,
                                0x00, 0x41, 0x00, 0x04, 0x00, 0x03, 0x00, 0x01};
static const uint8_t bundle[] = {0x06, 0x00, 0x07, 0x01, 0x07, 0x01, 0x09, 0x40, 0x09,
                                 0x07, 0x40, 0x09, 0xAC, 0x02, 0x40, 0x0C, 0x0C};

static dzy_record row[DZY_MOST_FACTS];
static uint8_t marks[DZY_MOST_FACTS], written[DZY_MOST_BUNDLE], kept[DZY_MOST_BUNDLE];
static uint16_t partners[DZY_MOST_FACTS];

static int is_refused(dzy_refusal refused)
{
    if (refused.number != 0)
        printf("refused %" PRIu32 " on side %" PRIu32 " at %" PRIu64 "\n", refused.number, refused.side, refused.place);
    return refused.number != 0;
}

static void print_record(dzy_record r)
{
    printf("%" PRIu32 " %" PRIu32 " %" PRIu32, r.predicate, r.subject, r.object);
}

/* Leaves only the kept records in the row, and gives their count. */
static size_t keep(size_t records)
{
    size_t left = 0;
    for (size_t i = 0; i < records; i++) {
        printf("record %zu: ", i);
        print_record(row[i]);
        puts(marks[i] == DZY_KEPT ? " kept" : " dropped");
        if (marks[i] == DZY_KEPT)
            row[left++] = row[i];
    }
    return left;
}

/* Writes the row's bundle, which is the one that dzy_write_kept writes. */
static int write_back(size_t records)
{
    const dzy_length out = dzy_write_records(rules, sizeof rules, row, records, written, DZY_MOST_BUNDLE);
    const dzy_length due = dzy_write_kept(rules, sizeof rules, bundle, sizeof bundle, kept, DZY_MOST_BUNDLE);
    if (is_refused(out.refused) || is_refused(due.refused))
        return 1;
    printf("written:");
    for (uint64_t i = 0; i < out.length; i++)
        printf(" %02X", written[i]);
    puts("");
    return out.length != due.length || memcmp(written, kept, (size_t)due.length) != 0;
}

/* Reads the bundle's facts one at a time. */
static int read_facts(void)
{
    const dzy_start start = dzy_reader_start(rules, sizeof rules, bundle, sizeof bundle);
    if (is_refused(start.refused))
        return 1;
    dzy_reader reader = {bundle, sizeof bundle, (size_t)start.at};
    for (;;) {
        const size_t at = reader.at;
        const dzy_yield next = dzy_reader_next(&reader);
        if (is_refused(next.refused))
            return 1;
        if (next.found == 0)
            return 0;
        printf("at %zu: ", at);
        print_record(next.fact);
        puts("");
    }
}

int main(void)
{
    const dzy_length out = dzy_records(rules, sizeof rules, bundle, sizeof bundle, row, DZY_MOST_FACTS);
    const dzy_counts counts = dzy_mark(rules, sizeof rules, bundle, sizeof bundle,
                                       marks, DZY_MOST_FACTS, partners, DZY_MOST_FACTS);
    if (is_refused(out.refused) || is_refused(counts.refused))
        return 1;
    if (write_back(keep((size_t)out.length)) != 0) {
        puts("not the bundle of the kept facts");
        return 1;
    }
    return read_facts();
}
