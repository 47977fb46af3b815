/* The eight-prefix table: builds it with variable strides and two levels, looks addresses up one by one and in a batch, and asks
 * for a zone. Then the build for a gateway with one link too few, a wide route with a corner that is discarded, a route of 32
 * bits with a level for each bit, one level and one entry too many, and the same calls with no lists at all: a null pointer with
 * length 0 is a list. Exits with 1 where an answer is not the one expected. */
#include <stdio.h>
#include "hongsamuk.h"

#define LIST(a) (a), sizeof (a) / sizeof *(a)
#define NONE NULL, 0
#define NO_TABLE NONE, NONE, NONE
#define NO_ROWS NONE, NONE, NONE, NONE
#define TABLE LIST(value), LIST(length), LIST(hop)
#define ROWS LIST(row_hop), LIST(row_length), LIST(row_link), LIST(row_stride)

enum { WIDTH = 7, LEVELS = 2, LINKS = 8, NODES = 10, ELEMENTS = 26, ADDRESSES = 6 };

static const uint32_t value[] = { 0, 64, 68, 80, 96, 96, 96, 96 };
static const uint8_t length[] = { 1, 1, 5, 3, 2, 4, 6, 7 };
static const uint16_t hop[] = { 1, 2, 5, 4, 3, 6, 7, 8 };

static const uint32_t address[ADDRESSES] = { 97, 96, 103, 104, 71, 79 };
static const uint16_t expected[ADDRESSES] = { 7, 8, 6, 3, 5, 2 };
static const uint8_t matched[ADDRESSES] = { 6, 7, 4, 2, 5, 1 };

static uint64_t scratch[NODES * HONGSAMUK_ROW];
static uint16_t row_hop[ELEMENTS];
static uint8_t row_length[ELEMENTS];
static uint32_t row_link[ELEMENTS];
static uint8_t row_stride[ELEMENTS];

static int wrong = 0;

static void expect(int holds, const char *what)
{
    if (!holds) {
        printf("WRONG: %s\n", what);
        wrong = 1;
    }
}

static hongsamuk_record build(void)
{
    hongsamuk_built built = hongsamuk_build_variable(WIDTH, LEVELS, LINKS, TABLE, LIST(scratch), ROWS);
    printf("refusal=%u detail=%llu elements=%u root=%u\n", (unsigned)built.number, (unsigned long long)built.detail,
           (unsigned)built.record.elements, (unsigned)built.record.strides[0]);
    expect(built.number == 0 && built.record.elements == ELEMENTS && built.record.strides[0] == 4, "the build");
    return built.record;
}

static void look(hongsamuk_record record)
{
    for (size_t i = 0; i < ADDRESSES; i++) {
        hongsamuk_answer answer = hongsamuk_lookup(record, ROWS, address[i]);
        printf("address=%u hop=%u length=%u reads=%u\n", (unsigned)address[i], (unsigned)answer.hop, (unsigned)answer.length,
               (unsigned)answer.reads);
        expect(answer.number == 0 && answer.hop == expected[i] && answer.length == matched[i], "a lookup");
    }
    expect(hongsamuk_lookup(record, ROWS, 128).number == 8, "address 128");
    hongsamuk_answer answer =
        hongsamuk_lookup(record, LIST(row_hop), row_length, ELEMENTS - 1, LIST(row_link), LIST(row_stride), 97);
    expect(answer.number == 9 && answer.hop == 0 && answer.length == 0 && answer.reads == 0, "a length list too short");
}

static void look_in_a_batch(hongsamuk_record record)
{
    uint32_t number[ADDRESSES];
    uint16_t best[ADDRESSES];
    uint8_t bits[ADDRESSES];
    uint32_t reads[ADDRESSES];
    size_t answered = hongsamuk_lookup_batch(record, ROWS, LIST(address), LIST(number), LIST(best), LIST(bits), LIST(reads));
    printf("batch of %zu\n", answered);
    expect(answered == ADDRESSES, "the batch's count");
    for (size_t i = 0; i < answered; i++) {
        expect(number[i] == 0 && best[i] == expected[i] && reads[i] >= 1 && reads[i] <= LEVELS, "the batch");
        expect(bits[i] == matched[i], "the batch's lengths");
    }
    answered = hongsamuk_lookup_batch(record, ROWS, LIST(address), LIST(number), LIST(best), bits, 2, LIST(reads));
    expect(answered == 2, "a batch with the fewest places for lengths");
}

static void ask_the_table(void)
{
    hongsamuk_span zone = hongsamuk_zone_span(WIDTH, LINKS, TABLE, 96, 4);
    printf("zone 1100: index=%u count=%u\n", (unsigned)zone.index, (unsigned)zone.count);
    expect(zone.number == 0 && zone.index == 5 && zone.count == 3, "the zone");
    hongsamuk_shared shared = hongsamuk_shared_length(WIDTH, 68, 5, 80, 3);
    expect(shared.number == 0 && shared.bits == 2, "the shared length");
    expect(hongsamuk_check(WIDTH, LINKS, TABLE).number == 0, "the check");
    hongsamuk_chosen chosen = hongsamuk_choose_fixed(WIDTH, 3, LINKS, TABLE, LIST(scratch));
    expect(chosen.number == 0 && chosen.cost == 20 && chosen.strides[0] == 3 && chosen.strides[2] == 2, "the fixed choice");
    chosen = hongsamuk_choose_variable(WIDTH, 3, LINKS, TABLE, scratch, 9 * HONGSAMUK_ROW);
    expect(chosen.number == 6 && chosen.detail == NODES && chosen.cost == 0 && chosen.strides[0] == 0, "too little scratch");
    hongsamuk_built built = hongsamuk_build_fixed(WIDTH, LEVELS, LINKS, TABLE, LIST(scratch), ROWS);
    expect(built.number == 7 && built.detail == 32 && built.record.elements == 0, "too little room");
}

/* The last entry has hop 8. */
static void take_a_link_away(void)
{
    hongsamuk_built built = hongsamuk_build_variable(WIDTH, LEVELS, LINKS - 1, TABLE, LIST(scratch), ROWS);
    printf("links=%u: refusal=%u detail=%llu\n", (unsigned)(LINKS - 1), (unsigned)built.number, (unsigned long long)built.detail);
    expect(built.number == 4 && built.detail == 7 && built.record.elements == 0, "one link too few");
    hongsamuk_checked checked = hongsamuk_check(WIDTH, LINKS - 1, TABLE);
    expect(checked.number == built.number && checked.detail == built.detail, "the check with one link too few");
    expect(hongsamuk_check(WIDTH, HONGSAMUK_LINKS, TABLE).number == 0, "links that are not tested");
    static volatile uint32_t many = 65536 + LINKS - 1;
    expect(hongsamuk_check(WIDTH, many, TABLE).number == 4, "65,543 is cut to 7 at the call");
}

static void discard_a_corner(void)
{
    static const uint32_t values[] = { 8, 10 };
    static const uint8_t lengths[] = { 2, 4 };
    static const uint16_t own[] = { 1, HONGSAMUK_DISCARD };
    hongsamuk_built built = hongsamuk_build_variable(4, LEVELS, 1, LIST(values), LIST(lengths), LIST(own), LIST(scratch), ROWS);
    expect(built.number == 0, "the build of a discard");
    hongsamuk_checked checked = hongsamuk_check(4, 0, LIST(values), LIST(lengths), LIST(own));
    expect(checked.number == 4 && checked.detail == 0, "no link for the wide route");
    expect(hongsamuk_check(4, 0, values + 1, 1, lengths + 1, 1, own + 1, 1).number == 0, "a discard takes no link");
    hongsamuk_answer corner = hongsamuk_lookup(built.record, ROWS, 10);
    hongsamuk_answer beside = hongsamuk_lookup(built.record, ROWS, 11);
    hongsamuk_answer outside = hongsamuk_lookup(built.record, ROWS, 7);
    printf("corner: hop=%u length=%u reads=%u; beside it: hop=%u; outside: hop=%u\n", (unsigned)corner.hop,
           (unsigned)corner.length, (unsigned)corner.reads, (unsigned)beside.hop, (unsigned)outside.hop);
    expect(corner.number == 0 && corner.hop == HONGSAMUK_DISCARD && corner.reads == 2, "the corner is discarded");
    expect(beside.number == 0 && beside.hop == 1, "beside it the wide route goes on");
    expect(outside.number == 0 && outside.hop == 0, "outside there is no route");
    expect(corner.length == 4 && beside.length == 2 && outside.length == 0, "the lengths about the corner");
}

static void go_to_the_limits(void)
{
    static const uint32_t host[] = { 0xc0a80101 };
    static const uint8_t bits[] = { HONGSAMUK_WIDTH };
    static const uint16_t next[] = { 9 };
    static uint64_t words[HONGSAMUK_WIDTH * HONGSAMUK_ROW];
    static uint16_t hops[2 * HONGSAMUK_LEVELS];
    static uint8_t matches[2 * HONGSAMUK_LEVELS];
    static uint32_t blocks[2 * HONGSAMUK_LEVELS];
    static uint8_t strides[2 * HONGSAMUK_LEVELS];
    hongsamuk_built built =
        hongsamuk_build_fixed(HONGSAMUK_WIDTH, HONGSAMUK_LEVELS, HONGSAMUK_LINKS, LIST(host), LIST(bits), LIST(next), LIST(words),
                              LIST(hops), LIST(matches), LIST(blocks), LIST(strides));
    hongsamuk_answer answer = hongsamuk_lookup(built.record, LIST(hops), LIST(matches), LIST(blocks), LIST(strides), host[0]);
    printf("32 levels: elements=%u hop=%u length=%u reads=%u\n", (unsigned)built.record.elements, (unsigned)answer.hop,
           (unsigned)answer.length, (unsigned)answer.reads);
    expect(built.number == 0 && built.record.elements == 2 * HONGSAMUK_LEVELS, "a build with 32 levels");
    for (size_t i = 0; i < HONGSAMUK_LEVELS; i++)
        expect(built.record.strides[i] == 1, "32 strides of 1");
    expect(answer.number == 0 && answer.hop == 9 && answer.reads == HONGSAMUK_LEVELS, "a lookup with 32 reads");
    expect(answer.length == HONGSAMUK_WIDTH, "a match of all 32 bits");
    built.record.levels = HONGSAMUK_LEVELS + 1;
    answer = hongsamuk_lookup(built.record, LIST(hops), LIST(matches), LIST(blocks), LIST(strides), host[0]);
    expect(answer.number == 2 && answer.hop == 0 && answer.length == 0, "a record of 33 levels");
    expect(hongsamuk_choose_fixed(WIDTH, HONGSAMUK_LEVELS + 1, LINKS, NO_TABLE, NONE).number == 2, "33 levels");

    enum { MOST = HONGSAMUK_ENTRIES };
    static uint32_t values[MOST + 1];
    static uint8_t lengths[MOST + 1];
    static uint16_t own[MOST + 1];
    for (uint32_t i = 0; i <= MOST; i++) {
        values[i] = i;
        lengths[i] = HONGSAMUK_WIDTH;
        own[i] = 1;
    }
    expect(hongsamuk_check(HONGSAMUK_WIDTH, 1, values, MOST, lengths, MOST, own, MOST).number == 0, "65,536 entries");
    expect(hongsamuk_check(HONGSAMUK_WIDTH, 1, LIST(values), LIST(lengths), LIST(own)).number == 3, "65,537 entries");
}

static void lend_nothing(void)
{
    expect(hongsamuk_check(WIDTH, LINKS, NO_TABLE).number == 0, "the check of nothing");
    hongsamuk_span zone = hongsamuk_zone_span(WIDTH, LINKS, NO_TABLE, 96, 4);
    expect(zone.number == 0 && zone.index == 0 && zone.count == 0, "the zone of nothing");
    expect(hongsamuk_choose_fixed(WIDTH, LEVELS, LINKS, NO_TABLE, NONE).number == 0, "the fixed choice for nothing");
    expect(hongsamuk_choose_variable(WIDTH, LEVELS, LINKS, NO_TABLE, NONE).number == 0, "the variable choice for nothing");
    hongsamuk_built built = hongsamuk_build_fixed(WIDTH, LEVELS, LINKS, NO_TABLE, NONE, NO_ROWS);
    expect(built.number == 0 && built.record.elements == 0 && built.record.width == WIDTH, "the fixed build of nothing");
    built = hongsamuk_build_variable(WIDTH, LEVELS, LINKS, NO_TABLE, NONE, NO_ROWS);
    expect(built.number == 0 && built.record.elements == 0 && built.record.width == WIDTH, "the variable build of nothing");
    hongsamuk_answer answer = hongsamuk_lookup(built.record, NO_ROWS, 5);
    expect(answer.number == 0 && answer.hop == 0 && answer.length == 0 && answer.reads == 0, "the lookup in nothing");
    built.record.floor = 9;
    answer = hongsamuk_lookup(built.record, NO_ROWS, 5);
    expect(answer.number == 0 && answer.hop == 9 && answer.length == 0 && answer.reads == 0, "a floor alone");
    expect(hongsamuk_lookup_batch(built.record, NO_ROWS, NONE, NONE, NONE, NONE, NONE) == 0, "the batch of nothing");
    expect(hongsamuk_check(WIDTH, LINKS, LIST(value), NONE, NONE).number == 3, "unequal lists");
    built = hongsamuk_build_variable(WIDTH, LEVELS, LINKS, TABLE, NONE, NO_ROWS);
    expect(built.number == 6 && built.detail == NODES, "no scratch");
    built = hongsamuk_build_variable(WIDTH, LEVELS, LINKS, TABLE, LIST(scratch), NO_ROWS);
    expect(built.number == 7 && built.detail == ELEMENTS, "no room");
    built = hongsamuk_build_variable(WIDTH, LEVELS, LINKS, TABLE, LIST(scratch), LIST(row_hop), NONE, LIST(row_link),
                                     LIST(row_stride));
    expect(built.number == 7 && built.detail == ELEMENTS, "no room for lengths");
}

int main(void)
{
    hongsamuk_record record = build();
    look(record);
    look_in_a_batch(record);
    ask_the_table();
    take_a_link_away();
    discard_a_corner();
    go_to_the_limits();
    lend_nothing();
    return wrong;
}
