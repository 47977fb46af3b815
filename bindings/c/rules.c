/* The seven rules of source document 004's figure 3: their build, and what packets get by their two addresses. Then the calls
 * with too little room, with one link too few, with no lists at all and with a damaged list, and every pair of addresses in
 * builds of both kinds. Exits with 1 where an answer is not the one expected. */
#include <stdio.h>
#include <string.h>
#include "hongsamuk.h"

#define LIST(a) (a), sizeof (a) / sizeof *(a)
#define NONE NULL, 0
#define RULES LIST(dest_value), LIST(dest_length), LIST(source_value), LIST(source_length), LIST(action)
#define ROWS LIST(row_hop), LIST(row_length), LIST(row_link), LIST(row_stride)

/* Nodes and elements of all tries, the latter with one level, and how many source tries there are. */
enum { WIDTH = 4, LINKS = 7, ADDRESSES = 16, LEVELS = 1, NODES = 14, DEST_ELEMENTS = 16, ELEMENTS = 44, TRIES = 3 };

/* An action is the number of its filter in the figure. */
static const uint32_t dest_value[] = { 0, 0, 0, 0, 0, 0, 1 };
static const uint8_t dest_length[] = { 1, 1, 1, 1, 3, 3, 4 };
static const uint32_t source_value[] = { 8, 12, 14, 15, 8, 12, 0 };
static const uint8_t source_length[] = { 1, 4, 4, 4, 2, 2, 3 };
static const uint16_t action[] = { 7, 1, 2, 3, 4, 5, 6 };

static uint64_t scratch[NODES * HONGSAMUK_ROW];
static uint16_t row_hop[ELEMENTS];
static uint8_t row_length[ELEMENTS];
static uint32_t row_link[ELEMENTS];
static uint8_t row_stride[ELEMENTS];
static uint32_t list[TRIES * HONGSAMUK_TRIE_ROW];

static int wrong = 0;

static void expect(int holds, const char *what)
{
    if (!holds) {
        printf("WRONG: %s\n", what);
        wrong = 1;
    }
}

static int begins(uint32_t value, unsigned length, uint32_t address)
{
    return value >> (WIDTH - length) == address >> (WIDTH - length);
}

/* The action of the rule that wins, by a scan over the rules; 0 where none matches. */
static unsigned winner(uint32_t dest, uint32_t source)
{
    unsigned best = 0, most = 0;
    for (size_t i = 0; i < sizeof action / sizeof *action; i++) {
        unsigned lengths = dest_length[i] * 64u + source_length[i] + 1;
        if (begins(dest_value[i], dest_length[i], dest) && begins(source_value[i], source_length[i], source) && lengths > most) {
            best = action[i];
            most = lengths;
        }
    }
    return best;
}

static hongsamuk_rule_record build(void)
{
    static const uint32_t rows[] = { 0, 4, 16, 16, 0, 0, 2, 32, 4, 1, 0, 3, 36, 8, 2 };
    hongsamuk_built_rules built = hongsamuk_build_rules_variable(WIDTH, LEVELS, LINKS, RULES, LIST(scratch), ROWS, LIST(list));
    printf("refusal=%u detail=%llu elements=%u of them for destinations=%u\n", (unsigned)built.number,
           (unsigned long long)built.detail, (unsigned)built.record.elements, (unsigned)built.record.dest.elements);
    expect(built.number == 0 && built.detail == 0, "the build");
    expect(built.record.dest.width == WIDTH && built.record.dest.levels == LEVELS, "width and levels of the record");
    expect(built.record.dest.elements == DEST_ELEMENTS && built.record.elements == ELEMENTS, "the elements");
    for (size_t g = 0; g < TRIES; g++) {
        const uint32_t *row = list + g * HONGSAMUK_TRIE_ROW;
        printf("source trie %zu: floor=%u root=%u place=%u elements=%u next=%u\n", g + 1, (unsigned)row[0], (unsigned)row[1],
               (unsigned)row[2], (unsigned)row[3], (unsigned)row[4]);
    }
    expect(memcmp(list, rows, sizeof list) == 0, "the list of tries");
    return built.record;
}

static void judge(hongsamuk_rule_record record)
{
    static const struct { uint32_t dest, source; unsigned action, reads; } packets[] = {
        { 1, 14, 5, 3 }, { 1, 1, 6, 2 }, { 1, 7, 0, 4 }, { 2, 14, 2, 2 }, { 7, 8, 7, 2 }, { 8, 14, 0, 1 },
    };
    for (size_t i = 0; i < sizeof packets / sizeof *packets; i++) {
        hongsamuk_verdict verdict = hongsamuk_classify(record, ROWS, LIST(list), packets[i].dest, packets[i].source);
        printf("destination=%u source=%u action=%u reads=%u\n", (unsigned)packets[i].dest, (unsigned)packets[i].source,
               (unsigned)verdict.action, (unsigned)verdict.reads);
        expect(verdict.number == 0 && verdict.action == packets[i].action && verdict.reads == packets[i].reads, "a verdict");
    }
    expect(hongsamuk_classify(record, ROWS, LIST(list), ADDRESSES, 0).number == 8, "destination 16");
    expect(hongsamuk_classify(record, ROWS, LIST(list), 0, ADDRESSES).number == 8, "source 16");
}

static unsigned as_scanned(hongsamuk_rule_record record)
{
    unsigned same = 0;
    for (uint32_t dest = 0; dest < ADDRESSES; dest++)
        for (uint32_t source = 0; source < ADDRESSES; source++) {
            hongsamuk_verdict verdict = hongsamuk_classify(record, ROWS, LIST(list), dest, source);
            same += verdict.number == 0 && verdict.action == winner(dest, source);
        }
    return same;
}

static void compare(hongsamuk_rule_record record)
{
    unsigned pairs = ADDRESSES * ADDRESSES, variable = as_scanned(record);
    hongsamuk_built_rules fixed = hongsamuk_build_rules_fixed(WIDTH, 3, LINKS, RULES, LIST(scratch), ROWS, LIST(list));
    expect(fixed.number == 0, "the fixed build with three levels");
    unsigned same = as_scanned(fixed.record);
    printf("the rule that wins: %u and %u of %u pairs of addresses\n", variable, same, pairs);
    expect(variable == pairs && same == pairs, "one list of rules, one action");
}

static void give_too_little(void)
{
    hongsamuk_built_rules built = hongsamuk_build_rules_variable(WIDTH, LEVELS, LINKS, RULES, NONE, ROWS, LIST(list));
    expect(built.number == 6 && built.detail == NODES && built.record.dest.width == 0, "no scratch");
    built = hongsamuk_build_rules_variable(WIDTH, LEVELS, LINKS, RULES, LIST(scratch), NONE, NONE, NONE, NONE, LIST(list));
    expect(built.number == 7 && built.detail == ELEMENTS && built.record.elements == 0, "no elements");
    built = hongsamuk_build_rules_variable(WIDTH, LEVELS, LINKS, RULES, LIST(scratch), ROWS, NONE);
    expect(built.number == 7 && built.detail == TRIES && built.record.elements == 0, "no list of tries");
    built = hongsamuk_build_rules_variable(WIDTH, LEVELS, LINKS - 1, RULES, LIST(scratch), ROWS, LIST(list));
    expect(built.number == 4 && built.detail == 0 && built.record.elements == 0, "one link too few: the first rule has action 7");
    built = hongsamuk_build_rules_fixed(WIDTH, LEVELS, LINKS, NONE, NONE, NONE, NONE, NONE, NONE, NONE, NONE, NONE, NONE, NONE);
    expect(built.number == 0 && built.record.dest.width == WIDTH && built.record.elements == 0, "the build of nothing");
    hongsamuk_verdict verdict = hongsamuk_classify(built.record, NONE, NONE, NONE, NONE, NONE, 5, 5);
    expect(verdict.number == 0 && verdict.action == 0 && verdict.reads == 0, "a packet and no rules");
}

static void damage(hongsamuk_rule_record record)
{
    hongsamuk_rule_record other = record;
    other.elements = ELEMENTS + 1;
    expect(hongsamuk_classify(other, ROWS, LIST(list), 7, 8).number == 9, "more elements than there are");
    list[14] = TRIES;
    expect(hongsamuk_classify(record, ROWS, LIST(list), 1, 7).number == 9, "a trie that leads to itself");
    expect(hongsamuk_classify(record, ROWS, LIST(list), 7, 8).number == 0, "another way");
    list[14] = TRIES + 1;
    expect(hongsamuk_classify(record, ROWS, LIST(list), 1, 7).number == 9, "a trie that is not there");
    list[14] = 0;
    list[10] = HONGSAMUK_DISCARD;
    hongsamuk_verdict verdict = hongsamuk_classify(record, ROWS, LIST(list), 1, 7);
    expect(verdict.number == 0 && verdict.action == HONGSAMUK_DISCARD && verdict.reads == 2, "a floor that discards");
    list[14] = 2;
    list[10] = 0;
}

int main(void)
{
    hongsamuk_rule_record record = build();
    judge(record);
    give_too_little();
    damage(record);
    compare(record);
    return wrong;
}
