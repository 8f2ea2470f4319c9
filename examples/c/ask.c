/* Asks "B of a" of a site's two files: ask RULES BUNDLE CODE THING
 * Prints yes with the fact that says so, no, or the refusal. Status: 0 yes, 1 no, 2 refused, or a file or number not read. */
#include <errno.h>
#include <inttypes.h>
#include <stdio.h>
#include <stdlib.h>

#include "dzyunagor.h"

enum { NO = 1, BAD = 2 };

/* One byte more than any accepted file has: a longer one gets the refusal that its whole bytes get. */
enum { FILE_MOST = DZY_MOST_BUNDLE + 1 };

static uint8_t rules[FILE_MOST], bundle[FILE_MOST];

/* Loads a file's first bytes; gives how many. */
static size_t load(const char *name, uint8_t *bytes)
{
    FILE *file = fopen(name, "rb");
    if (file == NULL) {
        perror(name);
        exit(BAD);
    }
    const size_t length = fread(bytes, 1, FILE_MOST, file);
    if (ferror(file)) {
        perror(name);
        exit(BAD);
    }
    fclose(file);
    return length;
}

static uint64_t number(const char *word)
{
    char *end;
    errno = 0;
    const unsigned long long value = strtoull(word, &end, 10);
    if (*word < '0' || *word > '9' || *end != '\0' || errno != 0) {
        fprintf(stderr, "expected a number, found %s\n", word);
        exit(BAD);
    }
    return value;
}

static void print_refusal(dzy_refusal refused)
{
    static const char *const sides[] = {"rules", "bundle", "call"};
    printf("refused %" PRIu32 " in %s at %" PRIu64, refused.number, sides[refused.side], refused.place);
    if (refused.item != DZY_NO_ITEM)
        printf(" (%s %" PRIu32 ")", refused.side == DZY_RULES ? "rule" : "fact", refused.item);
    printf(": %s\n", dzy_refusal_text(refused.number));
}

int main(int argc, char **argv)
{
    if (argc != 5) {
        fputs("usage: ask RULES BUNDLE CODE THING\n", stderr);
        return BAD;
    }
    const size_t rules_length = load(argv[1], rules), bundle_length = load(argv[2], bundle);
    const dzy_answer answer = dzy_has(rules, rules_length, bundle, bundle_length, number(argv[3]), number(argv[4]));
    if (answer.refused.number != 0) {
        print_refusal(answer.refused);
        return BAD;
    }
    if (answer.yes == 0) {
        puts("no");
        return NO;
    }
    printf("yes, by fact %" PRIu32 "\n", answer.fact);
    return 0;
}
