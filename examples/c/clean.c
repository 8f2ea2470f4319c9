/* Cleans the worked site and prints its listing, in the words of the program cleaner. */
#include <inttypes.h>
#include <stdio.h>

#include "dzyunagor.h"

static const uint8_t rules[] = {0x02, 0x01, 0x05, 0x01, 0x00, 0x01, 0x00, 0x01, 0x40,
                                0x00, 0x41, 0x00, 0x04, 0x00, 0x03, 0x00, 0x01};
static const uint8_t bundle[] = {0x06, 0x00, 0x07, 0x01, 0x07, 0x01, 0x09, 0x40, 0x09,
                                 0x07, 0x40, 0x09, 0xAC, 0x02, 0x40, 0x0C, 0x0C};

static uint8_t marks[DZY_MOST_FACTS];
static uint16_t partners[DZY_MOST_FACTS];

int main(void)
{
    const dzy_counts counts = dzy_mark(rules, sizeof rules, bundle, sizeof bundle,
                                       marks, DZY_MOST_FACTS, partners, DZY_MOST_FACTS);
    if (counts.refused.number != 0) {
        printf("refused %" PRIu32 " in %s at %" PRIu64 "\n", counts.refused.number,
               counts.refused.side == DZY_RULES ? "rules" : "bundle", counts.refused.place);
        return 1;
    }
    printf("facts %" PRIu32 " kept %" PRIu32 " alone %" PRIu32 " disputed %" PRIu32 "\n",
           counts.facts, counts.kept, counts.alone, counts.disputed);
    for (uint32_t fact = 0; fact < counts.facts; fact++) {
        if (marks[fact] == DZY_DISPUTED)
            printf("%" PRIu32 " disputed %" PRIu16 "\n", fact, partners[fact]);
        else
            printf("%" PRIu32 " %s\n", fact, marks[fact] == DZY_ALONE ? "alone" : "kept");
    }
    return 0;
}
