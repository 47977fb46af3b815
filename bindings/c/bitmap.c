/* The eight-prefix table both ways: as a tree bitmap and in elements, where every address must get the same hop and the same
 * length. Then the calls of the bitmap with too little room, with one link too few, with damaged rows, and with no lists at all.
 * Exits with 1 where an answer is not the one expected. */
#include <stdio.h>
#include <string.h>
#include "hongsamuk.h"

#define LIST(a) (a), sizeof (a) / sizeof *(a)
#define NONE NULL, 0
#define TABLE LIST(value), LIST(length), LIST(hop)
#define NUMBERS LIST(first_child), LIST(first_hop)
#define BITMAP LIST(internal), LIST(external), NUMBERS, LIST(hop_row)
#define ROWS LIST(row_hop), LIST(row_length), LIST(row_link), LIST(row_stride)

/* Nodes of the binary trie; then those of the 1-bit trie, and elements with two levels. */
enum { WIDTH = 7, LINKS = 8, ADDRESSES = 128, NODES = 14, SUPERNODES = 3, HOPS = 8 };
enum { LEVELS = 2, ONE_BIT_NODES = 10, ELEMENTS = 26 };

static const uint32_t value[] = { 0, 64, 68, 80, 96, 96, 96, 96 };
static const uint8_t length[] = { 1, 1, 5, 3, 2, 4, 6, 7 };
static const uint16_t hop[] = { 1, 2, 5, 4, 3, 6, 7, 8 };

static uint64_t node_rows[NODES * HONGSAMUK_NODE_ROW];
static uint16_t internal[SUPERNODES];
static uint16_t external[SUPERNODES];
static uint32_t first_child[SUPERNODES];
static uint32_t first_hop[SUPERNODES];
static uint16_t hop_row[HOPS];

static uint64_t scratch[ONE_BIT_NODES * HONGSAMUK_ROW];
static uint16_t row_hop[ELEMENTS];
static uint8_t row_length[ELEMENTS];
static uint32_t row_link[ELEMENTS];
static uint8_t row_stride[ELEMENTS];

static int wrong = 0;

static void expect(int holds, const char *what)
{
    if (!holds) {
        printf("WRONG: %s\n", what);
        wrong = 1;
    }
}

static hongsamuk_bitmap build(void)
{
    static const uint16_t maps[2][SUPERNODES] = { { 4166, 4, 137 }, { 4352, 0, 0 } };
    static const uint32_t numbers[2][SUPERNODES] = { { 1, 0, 0 }, { 0, 4, 5 } };
    static const uint16_t hops[HOPS] = { 1, 2, 3, 4, 5, 6, 7, 8 };
    hongsamuk_built_bitmap built = hongsamuk_build_bitmap(WIDTH, LINKS, TABLE, LIST(node_rows), BITMAP);
    printf("refusal=%u detail=%llu supernodes=%u hops=%u\n", (unsigned)built.number, (unsigned long long)built.detail,
           (unsigned)built.record.supernodes, (unsigned)built.record.hops);
    expect(built.number == 0 && built.detail == 0, "the build");
    expect(built.record.width == WIDTH && built.record.supernodes == SUPERNODES && built.record.hops == HOPS, "the record");
    for (size_t i = 0; i < SUPERNODES; i++)
        printf("supernode %zu: internal=%u external=%u first child=%u first hop=%u\n", i, (unsigned)internal[i],
               (unsigned)external[i], (unsigned)first_child[i], (unsigned)first_hop[i]);
    expect(memcmp(internal, maps[0], sizeof internal) == 0 && memcmp(external, maps[1], sizeof external) == 0, "the maps");
    expect(memcmp(first_child, numbers[0], sizeof first_child) == 0, "the first children");
    expect(memcmp(first_hop, numbers[1], sizeof first_hop) == 0, "the first hops");
    expect(memcmp(hop_row, hops, sizeof hop_row) == 0, "the hops");
    return built.record;
}

static void look(hongsamuk_bitmap record)
{
    hongsamuk_answer answer = hongsamuk_lookup_bitmap(record, BITMAP, 97);
    printf("address=97 hop=%u length=%u reads=%u\n", (unsigned)answer.hop, (unsigned)answer.length, (unsigned)answer.reads);
    expect(answer.number == 0 && answer.hop == 7 && answer.length == 6 && answer.reads == 2, "address 97");
    expect(hongsamuk_lookup_bitmap(record, BITMAP, ADDRESSES).number == 8, "address 128");
    hongsamuk_built built = hongsamuk_build_variable(WIDTH, LEVELS, LINKS, TABLE, LIST(scratch), ROWS);
    unsigned same = 0;
    for (uint32_t address = 0; address < ADDRESSES; address++) {
        hongsamuk_answer other = hongsamuk_lookup(built.record, ROWS, address);
        answer = hongsamuk_lookup_bitmap(record, BITMAP, address);
        same += answer.number == 0 && other.number == 0 && answer.hop == other.hop && answer.length == other.length;
    }
    printf("the same hop and length as from elements: %u of %u addresses\n", same, (unsigned)ADDRESSES);
    expect(same == ADDRESSES, "one table, one answer");
}

static void give_too_little(void)
{
    hongsamuk_built_bitmap built = hongsamuk_build_bitmap(WIDTH, LINKS, TABLE, NONE, BITMAP);
    expect(built.number == 6 && built.detail == NODES && built.record.width == 0, "no scratch");
    built = hongsamuk_build_bitmap(WIDTH, LINKS, TABLE, LIST(node_rows), NONE, LIST(external), NUMBERS, LIST(hop_row));
    expect(built.number == 7 && built.detail == SUPERNODES && built.record.width == 0, "no internal maps");
    built = hongsamuk_build_bitmap(WIDTH, LINKS, TABLE, LIST(node_rows), LIST(internal), LIST(external), NUMBERS, NONE);
    expect(built.number == 7 && built.detail == HOPS && built.record.width == 0, "no hops");
    built = hongsamuk_build_bitmap(WIDTH, LINKS - 1, TABLE, LIST(node_rows), BITMAP);
    expect(built.number == 4 && built.detail == 7 && built.record.width == 0, "one link too few");
    built = hongsamuk_build_bitmap(WIDTH, LINKS, NONE, NONE, NONE, NONE, NONE, NONE, NONE, NONE, NONE);
    expect(built.number == 0 && built.record.width == WIDTH && built.record.supernodes == 0, "the build of nothing");
    hongsamuk_answer answer = hongsamuk_lookup_bitmap(built.record, NONE, NONE, NONE, NONE, NONE, 5);
    expect(answer.number == 0 && answer.hop == 0 && answer.length == 0 && answer.reads == 0, "the lookup in nothing");
}

static void damage(hongsamuk_bitmap record)
{
    hongsamuk_bitmap other = record;
    other.hops = HOPS + 1;
    expect(hongsamuk_lookup_bitmap(other, BITMAP, 0).number == 9, "more hops than there are");
    first_child[0] = SUPERNODES;
    expect(hongsamuk_lookup_bitmap(record, BITMAP, 97).number == 9, "a child that is not there");
    expect(hongsamuk_lookup_bitmap(record, BITMAP, 0).number == 0, "another path");
    first_child[0] = 1;
    hop_row[6] = 0;
    hongsamuk_answer answer = hongsamuk_lookup_bitmap(record, BITMAP, 97);
    expect(answer.number == 0 && answer.hop == 0 && answer.length == 0 && answer.reads == 2, "a winning hop 0 has no length");
}

int main(void)
{
    hongsamuk_bitmap record = build();
    look(record);
    give_too_little();
    damage(record);
    return wrong;
}
