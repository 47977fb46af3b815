/* Lookup arrays for a gateway, proved: the calls for C.
 *
 * Every call takes any numbers and any lists, damaged ones included, and refuses by number what it cannot take; nothing has to
 * be checked first. `number` in an answer is 0 for accepted, else the refusal:
 *
 *    1  the width is 0 or above 32                                detail 0
 *    2  the level limit is 0 or above 32                          detail 0
 *    3  lists of unequal length, more than 65,536 entries or      detail 0
 *       more than 1,024 rules
 *    4  an entry is no prefix of that width, or has hop 0 or a    detail: its index
 *       hop above `links` that is not 65,535; a rule has such
 *       a destination or source, or such an action
 *    5  an entry or rule does not stand above the one before      detail: its index
 *    6  scratch has too few whole rows for the table's trie,      detail: the rows needed
 *       or for all tries of the rules
 *    7  too little room for elements, or above 16,777,216;        detail: the elements needed;
 *       of a bitmap too little for supernodes, then for hops;     the supernodes or hops needed;
 *       of rules too little for elements, then for the list       the elements or list rows needed
 *    8  the address is not below 2^width, or either of two        detail 0
 *    9  a damaged record, damaged elements, a damaged bitmap      detail 0
 *       or a damaged list of tries
 *   10  a prefix that is asked about is malformed                 detail 0
 *
 * A list is a pointer to its first number and, behind it, how many numbers it has. A pointer may be null where there are none.
 * All lists belong to the caller before, during and after a call; no call keeps a pointer, allocates, or has a state of its
 * own, so calls on different lists may run at the same time. A list that a call writes must not overlap another list of that call.
 *
 * An entry's hop is a link of the gateway, 1 to `links`, or HONGSAMUK_DISCARD. `links` is how many links the gateway has, 0 to
 * 65,535; a larger number would be cut to its last 16 bits at the call. With 0 links only discards are accepted. Where the links
 * are not to be tested, give HONGSAMUK_LINKS: no hop is above it. No record keeps the number, and no lookup or classification
 * tests a hop. (An element's row_link is no link of the gateway: it is the first row of a block.)
 *
 * HONGSAMUK_DISCARD is the hop of a route that discards packets. It is accepted whatever `links` is: an entry like any other, and
 * where it is the longest that begins an address, the answer, with number 0. Test for it before sending: it is no link. Nor is it
 * hop 0, which says that no entry begins the address.
 *
 * With the hop a lookup answers the length of the entry that won: how many bits it has. Over what one accepted build left, length 0
 * beside a hop that is not 0 is that of the entry of length 0; beside hop 0 the length is always 0.
 *
 * Programs that were compiled with a header without row_length or without `links` must be compiled again: the calls have kept
 * their names.
 *
 * A rule is a destination prefix, a source prefix and an action, which is 1 to `links`, or HONGSAMUK_DISCARD, a discard here too.
 * Rules rise by destination value, then destination length, source value and source length. Among the rules that match both
 * addresses the longest destination wins, then the longest source.
 *
 * A table can be laid out in two ways: in elements, as few as a level limit allows, or as a tree bitmap, in supernodes of four
 * levels and hops. Both give every address the same hop and the same length.
 *
 * How long the lists of a build must be: lend it no scratch. Where it is refused by 6, the detail is the number of scratch rows
 * (HONGSAMUK_ROW numbers each) that the table needs: one for each node of its 1-bit trie. A table with no entry, or with none but
 * the entry of length 0, has no nodes: it needs no scratch and no elements. A chooser answers the number of elements.
 * A bitmap's scratch rows have HONGSAMUK_NODE_ROW numbers each, and it needs one for each node of the binary trie: for every start
 * of an entry, the whole entry and length 0 included. It needs as many hops as the table has entries; with these lent, and no
 * supernode, the detail of 7 is the number of supernodes.
 * A build of rules needs a scratch row (HONGSAMUK_ROW numbers) for each node of all its tries, elements, and a row of the list
 * (HONGSAMUK_TRIE_ROW numbers) for each destination. Lend it a row of the list for each rule: then the detail of 7 is the number of
 * elements needed. (Elements are tested before the list; where none are needed, 7 could only be for the list.)
 *
 * A chooser or a build of elements takes some 50,000 bytes of stack, a build of rules some 60,000, every other call little.
 *
 * The layout of the structs, in bytes: where each field begins, then the size. The code behind the calls, this header and the calls
 * for Rust all have these numbers; the asserts at the end of this file hold a compiler of C11 or C++11 to them, and the tests of
 * the calls for Rust hold all three to this table.
 *
 *    hongsamuk_record         width 0, levels 4, elements 8, floor 12, strides 14, size 48
 *    hongsamuk_bitmap         width 0, supernodes 4, hops 8, size 12
 *    hongsamuk_rule_record    dest 0, elements 48, size 52
 *    hongsamuk_checked        number 0, detail 8, size 16
 *    hongsamuk_shared         number 0, bits 4, size 8
 *    hongsamuk_span           number 0, detail 8, index 16, count 20, size 24
 *    hongsamuk_chosen         number 0, detail 8, cost 16, strides 24, size 56
 *    hongsamuk_built          number 0, detail 8, record 16, size 64
 *    hongsamuk_built_bitmap   number 0, detail 8, record 16, size 32
 *    hongsamuk_built_rules    number 0, detail 8, record 16, size 72
 *    hongsamuk_answer         number 0, hop 4, length 6, reads 8, size 12
 *    hongsamuk_verdict        number 0, action 4, reads 8, size 12
 */
#ifndef HONGSAMUK_H
#define HONGSAMUK_H

#include <stddef.h>
#include <stdint.h>

#ifdef __cplusplus
extern "C" {
#endif

enum {
    HONGSAMUK_WIDTH = 32,          /* the most bits of an address */
    HONGSAMUK_LEVELS = 32,         /* the most levels */
    HONGSAMUK_ENTRIES = 65536,     /* the most entries of a table */
    HONGSAMUK_DISCARD = 65535,     /* the hop of a route that discards packets */
    HONGSAMUK_LINKS = 65535,       /* the most links of a gateway; with it no hop is refused but 0 */
    HONGSAMUK_ELEMENTS = 16777216, /* the most elements of a build */
    HONGSAMUK_ROW = 72,            /* numbers in a scratch row of a chooser, or of a build of elements or of rules */
    HONGSAMUK_NODE_ROW = 4,        /* numbers in a scratch row of a build of a bitmap */
    HONGSAMUK_RULES = 1024,        /* the most rules */
    HONGSAMUK_TRIE_ROW = 5,        /* numbers in a row of the list of tries */
    HONGSAMUK_VISITS = 33          /* the most source tries that a classification visits */
};

/* What a build hands back beside its element rows; all of it is lent to each lookup. */
typedef struct hongsamuk_record {
    uint32_t width;
    uint32_t levels;
    uint32_t elements;                   /* E: rows 0 to E - 1 are the build's */
    uint16_t floor;                      /* the hop of the entry of length 0, else 0 */
    uint8_t strides[HONGSAMUK_LEVELS];   /* unused places 0; a variable build fills the first only */
} hongsamuk_record;

/* The same for a tree bitmap. */
typedef struct hongsamuk_bitmap {
    uint32_t width;
    uint32_t supernodes;                 /* rows 0 to supernodes - 1 of the four lists are the build's */
    uint32_t hops;                       /* hop rows 0 to hops - 1 are the build's */
} hongsamuk_bitmap;

/* The same for rules. */
typedef struct hongsamuk_rule_record {
    hongsamuk_record dest;               /* the destination trie's own; its floor and its rows' hops are numbers of source tries */
    uint32_t elements;                   /* the E of all tries: rows 0 to E - 1 are the build's */
} hongsamuk_rule_record;

typedef struct hongsamuk_checked {
    uint32_t number;
    uint64_t detail;
} hongsamuk_checked;

typedef struct hongsamuk_shared {
    uint32_t number;                     /* 0, 1 or 10, whose detail is always 0 */
    uint32_t bits;                       /* refused: 0 */
} hongsamuk_shared;

typedef struct hongsamuk_span {
    uint32_t number;
    uint64_t detail;
    uint32_t index;                      /* refused: 0 */
    uint32_t count;                      /* refused: 0 */
} hongsamuk_span;

typedef struct hongsamuk_chosen {
    uint32_t number;
    uint64_t detail;
    uint64_t cost;                       /* refused: 0 */
    uint8_t strides[HONGSAMUK_LEVELS];   /* refused: all 0 */
} hongsamuk_chosen;

typedef struct hongsamuk_built {
    uint32_t number;
    uint64_t detail;
    hongsamuk_record record;             /* refused: all 0 */
} hongsamuk_built;

typedef struct hongsamuk_built_bitmap {
    uint32_t number;
    uint64_t detail;
    hongsamuk_bitmap record;             /* refused: all 0 */
} hongsamuk_built_bitmap;

typedef struct hongsamuk_built_rules {
    uint32_t number;
    uint64_t detail;
    hongsamuk_rule_record record;        /* refused: all 0 */
} hongsamuk_built_rules;

typedef struct hongsamuk_answer {
    uint32_t number;                     /* 0, 1, 2, 8 or 9, whose detail is always 0 */
    uint16_t hop;                        /* 0: no route, or refused; HONGSAMUK_DISCARD: discard */
    uint8_t length;                      /* bits of the prefix that won; 0: the floor's, no route, or refused */
    uint32_t reads;                      /* blocks, or supernodes, read; refused: 0 */
} hongsamuk_answer;

typedef struct hongsamuk_verdict {
    uint32_t number;                     /* 0, 1, 2, 8 or 9, whose detail is always 0 */
    uint16_t action;                     /* 0: no rule, or refused; HONGSAMUK_DISCARD: discard */
    uint32_t reads;                      /* blocks read in all tries, at most (HONGSAMUK_VISITS + 1) * levels; refused: 0 */
} hongsamuk_verdict;

/* Whether the three lists are a table of that width, for a gateway with so many links: tests 1, 3, 4, 5. No list changes. */
hongsamuk_checked hongsamuk_check(
    uint32_t width, uint16_t links,
    const uint32_t *value, size_t values,
    const uint8_t *length, size_t lengths,
    const uint16_t *hop, size_t hops);

/* How many leading bits two prefixes share: tests 1, then 10. */
hongsamuk_shared hongsamuk_shared_length(uint32_t width, uint32_t a, uint8_t a_bits, uint32_t b, uint8_t b_bits);

/* The first index and the number of the entries that start with a prefix; where there are none, count 0 at the index where the
 * prefix itself would stand: tests 1, 3, 4, 5, 10. No list changes. */
hongsamuk_span hongsamuk_zone_span(
    uint32_t width, uint16_t links,
    const uint32_t *value, size_t values,
    const uint8_t *length, size_t lengths,
    const uint16_t *hop, size_t hops,
    uint32_t prefix, uint8_t bits);

/* The least number of elements of any choice of strides, one a level (fixed) or one a block (variable), with at most `levels`
 * levels, and the strides of a build: tests 1 to 6. Accepted, all of scratch is 0; refused, it is as it was. No other list
 * changes. */
hongsamuk_chosen hongsamuk_choose_fixed(
    uint32_t width, uint32_t levels, uint16_t links,
    const uint32_t *value, size_t values,
    const uint8_t *length, size_t lengths,
    const uint16_t *hop, size_t hops,
    uint64_t *scratch, size_t words);

hongsamuk_chosen hongsamuk_choose_variable(
    uint32_t width, uint32_t levels, uint16_t links,
    const uint32_t *value, size_t values,
    const uint8_t *length, size_t lengths,
    const uint16_t *hop, size_t hops,
    uint64_t *scratch, size_t words);

/* Turns a table into a record and element rows, with the least number of elements E of the kind: tests 1 to 7, where 7 counts the
 * shortest of the four element lists. Accepted, all of scratch is 0, rows 0 to E - 1 of these lists are the build's, and later rows
 * are as they were. Refused by 7, all of scratch is 0 and no element changes; refused by 1 to 6, no list changes. The table's lists
 * never change. An element's row_length is the length of the entry whose hop its row_hop is, 0 where that is 0. */
hongsamuk_built hongsamuk_build_fixed(
    uint32_t width, uint32_t levels, uint16_t links,
    const uint32_t *value, size_t values,
    const uint8_t *length, size_t lengths,
    const uint16_t *hop, size_t hops,
    uint64_t *scratch, size_t words,
    uint16_t *row_hop, size_t row_hops,
    uint8_t *row_length, size_t row_lengths,
    uint32_t *row_link, size_t row_links,
    uint8_t *row_stride, size_t row_strides);

hongsamuk_built hongsamuk_build_variable(
    uint32_t width, uint32_t levels, uint16_t links,
    const uint32_t *value, size_t values,
    const uint8_t *length, size_t lengths,
    const uint16_t *hop, size_t hops,
    uint64_t *scratch, size_t words,
    uint16_t *row_hop, size_t row_hops,
    uint8_t *row_length, size_t row_lengths,
    uint32_t *row_link, size_t row_links,
    uint8_t *row_stride, size_t row_strides);

/* One lookup: tests 1, 2, 8, 9, where 9 counts the shortest of the four element lists. Over a record and element lists that one
 * accepted build left together: the hop and the length of the table's longest prefix that begins the address, a discard's too, or 0
 * and 0 where none does. Over any other: the latest hop that is not 0 of the rows on the address's path with the length of its row,
 * else the floor with length 0, as they are found there. No list changes. */
hongsamuk_answer hongsamuk_lookup(
    hongsamuk_record record,
    const uint16_t *row_hop, size_t row_hops,
    const uint8_t *row_length, size_t row_lengths,
    const uint32_t *row_link, size_t row_links,
    const uint8_t *row_stride, size_t row_strides,
    uint32_t address);

/* Lookups one after the other: answers as many addresses as the shortest of the address list and the four answer lists has, writes
 * number, hop (HONGSAMUK_DISCARD: discard), length and reads of each at its index, keeps the later places of these lists, and returns
 * how many. No other list changes. */
size_t hongsamuk_lookup_batch(
    hongsamuk_record record,
    const uint16_t *row_hop, size_t row_hops,
    const uint8_t *row_length, size_t row_lengths,
    const uint32_t *row_link, size_t row_links,
    const uint8_t *row_stride, size_t row_strides,
    const uint32_t *address, size_t addresses,
    uint32_t *number, size_t numbers,
    uint16_t *hop, size_t hops,
    uint8_t *length, size_t lengths,
    uint32_t *reads, size_t counts);

/* Turns a table into a tree bitmap: tests 1, 3 to 7. There is a supernode for each start of an entry that has 0, 4, 8 .. bits,
 * the whole entry included; they lie breadth first, left to right. Row i of the four lists is supernode i:
 *
 *    internal      which entries end in its four levels: bit 0 for its own bits, bits 1 and 2 for one bit more (0, then 1),
 *                  bits 3 to 6 for two more, from left to right, bits 7 to 14 for three more; bit 15 is 0
 *    external      which children it has, four bits further on: bits 0 to 15, from left to right
 *    first_child   the number of the first of its children, which lie in a row; 0 where external is 0
 *    first_hop     the hop row of the first of its entries, which lie in the order of internal's bits; 0 where internal is 0
 *
 * Accepted, all of scratch is 0, as many rows of the four lists and as many hop rows as the record says are the build's, and later
 * rows are as they were. Refused by 7, all of scratch is 0 and no row changes; refused by 1 to 6, no list changes. The table's
 * lists never change. */
hongsamuk_built_bitmap hongsamuk_build_bitmap(
    uint32_t width, uint16_t links,
    const uint32_t *value, size_t values,
    const uint8_t *length, size_t lengths,
    const uint16_t *hop, size_t hops,
    uint64_t *scratch, size_t words,
    uint16_t *internal, size_t internals,
    uint16_t *external, size_t externals,
    uint32_t *first_child, size_t first_children,
    uint32_t *first_hop, size_t first_hops,
    uint16_t *hop_row, size_t hop_rows);

/* One lookup in a tree bitmap: tests 1, 8, 9; at most width / 4 + 1 reads. Over a record and lists that one accepted build left
 * together: the hop and the length of the table's longest prefix that begins the address, a discard's too, or 0 and 0 where none
 * does. Over any other: the hop and the length of the longest entry that the internal maps on the address's path have, the hop as it is
 * found there, or 0 and 0 where that hop is 0 or there is no such entry. No list changes. */
hongsamuk_answer hongsamuk_lookup_bitmap(
    hongsamuk_bitmap record,
    const uint16_t *internal, size_t internals,
    const uint16_t *external, size_t externals,
    const uint32_t *first_child, size_t first_children,
    const uint32_t *first_hop, size_t first_hops,
    const uint16_t *hop_row, size_t hop_rows,
    uint32_t address);

/* Turns rules into a record, the element rows of all tries and a list of source tries: tests 1 to 7, with rules for entries, where 6
 * counts the nodes and 7 the elements of all tries, in the shortest of the four element lists, and 7 then the whole rows of the list.
 * There is a trie of the destinations, at row 0, and behind it one of the sources of each destination, as the destinations rise; each
 * has the least number of elements of the kind. A row_link counts from the trie's own first row. The source tries are numbered from 1,
 * and row n - 1 of the list is that of number n:
 *
 *    0  floor    the action of the source of length 0, else 0
 *    1  root     the stride of its root block; 0 where it has no elements
 *    2  place    its first row
 *    3  E        how many rows it has
 *    4  next     the number of the trie to visit after it, that of the longest destination which is shorter than its own and begins it;
 *                0 for none
 *
 * Accepted, all of scratch is 0, rows 0 to E - 1 of the element lists and the rows of the list are the build's, and what comes after
 * them is as it was. Refused by 7, all of scratch is 0 and nothing else changes; refused by 1 to 6, no list changes. The rules' lists
 * never change. */
hongsamuk_built_rules hongsamuk_build_rules_fixed(
    uint32_t width, uint32_t levels, uint16_t links,
    const uint32_t *dest_value, size_t dest_values,
    const uint8_t *dest_length, size_t dest_lengths,
    const uint32_t *source_value, size_t source_values,
    const uint8_t *source_length, size_t source_lengths,
    const uint16_t *action, size_t actions,
    uint64_t *scratch, size_t words,
    uint16_t *row_hop, size_t row_hops,
    uint8_t *row_length, size_t row_lengths,
    uint32_t *row_link, size_t row_links,
    uint8_t *row_stride, size_t row_strides,
    uint32_t *list, size_t numbers);

hongsamuk_built_rules hongsamuk_build_rules_variable(
    uint32_t width, uint32_t levels, uint16_t links,
    const uint32_t *dest_value, size_t dest_values,
    const uint8_t *dest_length, size_t dest_lengths,
    const uint32_t *source_value, size_t source_values,
    const uint8_t *source_length, size_t source_lengths,
    const uint16_t *action, size_t actions,
    uint64_t *scratch, size_t words,
    uint16_t *row_hop, size_t row_hops,
    uint8_t *row_length, size_t row_lengths,
    uint32_t *row_link, size_t row_links,
    uint8_t *row_stride, size_t row_strides,
    uint32_t *list, size_t numbers);

/* Judges a packet by its two addresses: tests 1, 2, 8 (either address), 9. The destination is looked up, then the source in the trie
 * that it calls for and in those next to visit, until one matches. Over a record and lists that one accepted build left together: the
 * action of the rule that wins, a discard's too, or 0 where no rule matches. Over any other, damaged ones included, it answers too and
 * never reads outside the lists: by what is found there, and by 9 where damage is met, that is where the E of all tries is above the
 * shortest element list or below the destinations' own, where a lookup in a trie visited would be refused by 9, its rows run past the
 * E of all tries, its row is not in the list, or a source trie after HONGSAMUK_VISITS is called for. The floor of the destination
 * record and row_hop of the destinations' rows are numbers of source tries, not hops: no number of them discards, and a number past
 * the list is damage. No list changes. */
hongsamuk_verdict hongsamuk_classify(
    hongsamuk_rule_record record,
    const uint16_t *row_hop, size_t row_hops,
    const uint8_t *row_length, size_t row_lengths,
    const uint32_t *row_link, size_t row_links,
    const uint8_t *row_stride, size_t row_strides,
    const uint32_t *list, size_t numbers,
    uint32_t dest, uint32_t source);

#ifdef __cplusplus
}
#endif

#if defined(__cplusplus) && __cplusplus >= 201103L
#define HONGSAMUK_HOLDS(test) static_assert(test, #test)
#elif defined(__STDC_VERSION__) && __STDC_VERSION__ >= 201112L
#define HONGSAMUK_HOLDS(test) _Static_assert(test, #test)
#endif

#ifdef HONGSAMUK_HOLDS
#define HONGSAMUK_AT(type, field, place) HONGSAMUK_HOLDS(offsetof(type, field) == (place))
#define HONGSAMUK_SIZE(type, size) HONGSAMUK_HOLDS(sizeof(type) == (size))
HONGSAMUK_AT(hongsamuk_record, width, 0);
HONGSAMUK_AT(hongsamuk_record, levels, 4);
HONGSAMUK_AT(hongsamuk_record, elements, 8);
HONGSAMUK_AT(hongsamuk_record, floor, 12);
HONGSAMUK_AT(hongsamuk_record, strides, 14);
HONGSAMUK_SIZE(hongsamuk_record, 48);
HONGSAMUK_AT(hongsamuk_bitmap, width, 0);
HONGSAMUK_AT(hongsamuk_bitmap, supernodes, 4);
HONGSAMUK_AT(hongsamuk_bitmap, hops, 8);
HONGSAMUK_SIZE(hongsamuk_bitmap, 12);
HONGSAMUK_AT(hongsamuk_rule_record, dest, 0);
HONGSAMUK_AT(hongsamuk_rule_record, elements, 48);
HONGSAMUK_SIZE(hongsamuk_rule_record, 52);
HONGSAMUK_AT(hongsamuk_checked, number, 0);
HONGSAMUK_AT(hongsamuk_checked, detail, 8);
HONGSAMUK_SIZE(hongsamuk_checked, 16);
HONGSAMUK_AT(hongsamuk_shared, number, 0);
HONGSAMUK_AT(hongsamuk_shared, bits, 4);
HONGSAMUK_SIZE(hongsamuk_shared, 8);
HONGSAMUK_AT(hongsamuk_span, number, 0);
HONGSAMUK_AT(hongsamuk_span, detail, 8);
HONGSAMUK_AT(hongsamuk_span, index, 16);
HONGSAMUK_AT(hongsamuk_span, count, 20);
HONGSAMUK_SIZE(hongsamuk_span, 24);
HONGSAMUK_AT(hongsamuk_chosen, number, 0);
HONGSAMUK_AT(hongsamuk_chosen, detail, 8);
HONGSAMUK_AT(hongsamuk_chosen, cost, 16);
HONGSAMUK_AT(hongsamuk_chosen, strides, 24);
HONGSAMUK_SIZE(hongsamuk_chosen, 56);
HONGSAMUK_AT(hongsamuk_built, number, 0);
HONGSAMUK_AT(hongsamuk_built, detail, 8);
HONGSAMUK_AT(hongsamuk_built, record, 16);
HONGSAMUK_SIZE(hongsamuk_built, 64);
HONGSAMUK_AT(hongsamuk_built_bitmap, number, 0);
HONGSAMUK_AT(hongsamuk_built_bitmap, detail, 8);
HONGSAMUK_AT(hongsamuk_built_bitmap, record, 16);
HONGSAMUK_SIZE(hongsamuk_built_bitmap, 32);
HONGSAMUK_AT(hongsamuk_built_rules, number, 0);
HONGSAMUK_AT(hongsamuk_built_rules, detail, 8);
HONGSAMUK_AT(hongsamuk_built_rules, record, 16);
HONGSAMUK_SIZE(hongsamuk_built_rules, 72);
HONGSAMUK_AT(hongsamuk_answer, number, 0);
HONGSAMUK_AT(hongsamuk_answer, hop, 4);
HONGSAMUK_AT(hongsamuk_answer, length, 6);
HONGSAMUK_AT(hongsamuk_answer, reads, 8);
HONGSAMUK_SIZE(hongsamuk_answer, 12);
HONGSAMUK_AT(hongsamuk_verdict, number, 0);
HONGSAMUK_AT(hongsamuk_verdict, action, 4);
HONGSAMUK_AT(hongsamuk_verdict, reads, 8);
HONGSAMUK_SIZE(hongsamuk_verdict, 12);
#undef HONGSAMUK_SIZE
#undef HONGSAMUK_AT
#undef HONGSAMUK_HOLDS
#endif

#endif
