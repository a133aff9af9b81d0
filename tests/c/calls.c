/*
 * Every call of the header once, with an answer worked out by hand (document 01's P3, P5, P7), so that header and library agree on the order
 * of parameters and words; then a short slice and a refusal of each. tools/c-example builds and runs it; it prints the first wrong line.
 */
#include "cresttrestle.h"

#include <stdio.h>
#include <stdlib.h>
#include <string.h>

#define MUST(x)                                                       \
    do {                                                              \
        if (!(x)) {                                                   \
            fprintf(stderr, "calls.c:%d: not so: %s\n", __LINE__, #x); \
            exit(1);                                                  \
        }                                                             \
    } while (0)

#define MARK 0x5555555555555555u
#define ARENA arena, sizeof arena
#define OUT out, CT_OUT_WORDS
#define NONE none, 0

static uint8_t arena[4096], other[256];
static const uint8_t none[1];
static uint64_t out[CT_OUT_WORDS], walk[CT_WALK_WORDS];

/* P7: "a", version (5,0), "xy", then (3,0), "z"; P5 is its first row alone. */
static const uint8_t rows[] = {1, 0, 0, 0, 41, 0, 1, 'a', 0, 0, 0, 0, 0, 0, 0, 5, 0, 0, 0, 0, 0, 0, 0, 2, 'x', 'y',
                               0, 1, 'a', 0, 0, 0, 0, 0, 0, 0, 3, 0, 0, 0, 0, 0, 0, 0, 1, 'z'};
/* "b", one version with a cmd; its value is remote at limit 1. */
static const uint8_t right_rows[] = {1, 0, 0, 0, 21, 0, 1, 'b', 0, 0, 0, 0, 0, 0, 0, 9, 0, 0, 0, 4, 0, 0, 0, 2, 'p', 'q'};
static const uint8_t no_rows[] = {1, 0, 0, 0, 0};
/* an index list: "b" leads to page 70, "d" to page 71 */
static const uint8_t leads[] = {1, 0, 0, 0, 22, 0, 1, 'b', 0, 0, 0, 0, 0, 0, 0, 70, 0, 1, 'd', 0, 0, 0, 0, 0, 0, 0, 71};

static void mark(void) {
    for (int k = 0; k < CT_OUT_WORDS; k++) out[k] = MARK;
}

/* Whether exactly the first n words were written. */
static int wrote(int n) {
    for (int k = n; k < CT_OUT_WORDS; k++)
        if (out[k] != MARK) return 0;
    return n == 0 || out[n - 1] != MARK;
}

static int is(uint64_t at, uint64_t n, const char *text) { return n == strlen(text) && memcmp(arena + at, text, n) == 0; }

static uint64_t u64_at(const uint8_t *p) {
    uint64_t x = 0;
    for (int k = 7; k >= 0; k--) x = x << 8 | p[k];
    return x;
}

int main(void) {
    /* ---- building */
    mark();
    MUST(ct_calc_prefix((const uint8_t *)"ab", 2, (const uint8_t *)"ad", 2, OUT) == 0 && out[0] == 1 && wrote(1));
    mark();
    /* P7 with a hi, which the page's rounding has room for */
    MUST(ct_new_leaf(ARENA, 8, rows, sizeof rows, NONE, (const uint8_t *)"b", 1, 33, 64, 256, 6, 77, 40, 41, OUT) == 0 && wrote(2));
    uint64_t leaf = out[0], next = out[1];
    MUST(leaf == 104 && next == 240);
    /* the box header: group, txid, the larger lsn; the base header: sibling */
    MUST(arena[leaf + 7] == 6 && u64_at(arena + leaf + 16) == 77 && u64_at(arena + leaf + 24) == 41 && u64_at(arena + leaf + 40) == 33);
    MUST(ct_new_leaf(ARENA, next, right_rows, sizeof right_rows, (const uint8_t *)"b", 1, (const uint8_t *)"c", 1, 34, 1, 256, 0, 1, 0, 0, OUT) == 0);
    uint64_t right = out[0];
    next = out[1];
    MUST(ct_new_intl(ARENA, next, leads, sizeof leads, (const uint8_t *)"a", 1, NONE, 35, 7, 78, 43, 42, OUT) == 0);
    uint64_t intl = out[0];
    next = out[1];
    MUST(arena[intl + 7] == 7 && u64_at(arena + intl + 16) == 78 && u64_at(arena + intl + 24) == 43 && u64_at(arena + intl + 40) == 35);
    mark();
    MUST(ct_merge(ARENA, next, leaf, right, 64, 256, 8, 79, 44, 45, OUT) == 0 && wrote(2));
    uint64_t merged = out[0];
    next = out[1];
    MUST(arena[merged + 7] == 8 && u64_at(arena + merged + 16) == 79 && u64_at(arena + merged + 24) == 45 && u64_at(arena + merged + 40) == 34);
    MUST(ct_delta_leaf(other, sizeof other, 8, 64, 9, 46, 47, 80, 3, (const uint8_t *)"a", 1, (const uint8_t *)"new", 3, OUT) == 0);
    uint64_t delta = out[0];
    MUST(other[delta + 7] == 9 && u64_at(other + delta + 16) == 80 && u64_at(other + delta + 24) == 47);
    MUST(ct_delta_index(ARENA, next, 10, 81, 49, 48, (const uint8_t *)"k", 1, 72, OUT) == 0);
    uint64_t index_delta = out[0];
    MUST(arena[index_delta + 7] == 10 && u64_at(arena + index_delta + 16) == 81 && u64_at(arena + index_delta + 24) == 49);

    /* ---- reading a page */
    MUST(ct_check(ARENA, leaf) == 0 && ct_check(ARENA, intl) == 0 && ct_check(ARENA, merged) == 0 && ct_check(ARENA, 8) == CT_BAD_FRAME);
    mark();
    MUST(ct_page(ARENA, right, OUT) == 0 && out[0] == 0 && out[1] == 1 && is(out[2], out[3], "b") && is(out[4], out[5], "c") && out[7] == 0);
    MUST(out[8] == 34 && wrote(9));
    MUST(ct_page(ARENA, intl, OUT) == 0 && out[0] == 1 && out[1] == 2 && is(out[2], out[3], "a") && out[5] == 0 && out[8] == 35);
    mark();
    MUST(ct_history_hints(ARENA, leaf, OUT) == 0 && out[1] == 1 && wrote(2));
    MUST(ct_hint(ARENA, out[0], out[1], 0, OUT) == 0 && out[0] == 8);
    MUST(ct_history_hints(ARENA, right, OUT) == 0 && out[0] == 0 && out[1] == 0);
    mark();
    MUST(ct_remote_hints(ARENA, right, OUT) == 0 && out[1] == 1 && wrote(2));
    uint64_t at = out[0], count = out[1];
    mark();
    MUST(ct_hint(ARENA, at, count, 0, OUT) == 0 && out[0] > right && wrote(1));
    uint64_t remote = out[0];
    MUST(ct_hint(ARENA, at, count, 1, OUT) == 0 && out[0] == 0);

    /* ---- searching */
    mark();
    MUST(ct_search(ARENA, leaf, (const uint8_t *)"a", 1, OUT) == 0 && out[0] == 1 && out[1] == 0 && out[2] == 5 && out[3] == 0 && is(out[4], out[5], "xy"));
    MUST(out[6] == 8 && out[7] == 0 && out[8] == 1 && out[9] == 1);
    MUST(ct_search(ARENA, right, (const uint8_t *)"b", 1, OUT) == 0 && out[2] == 9 && out[3] == 4 && is(out[4], out[5], "pq") && out[8] == 0);
    MUST(ct_search(ARENA, leaf, (const uint8_t *)"b", 1, OUT) == 0 && out[0] == 0 && out[2] == 0 && out[9] == 1);
    mark();
    MUST(ct_as_of(ARENA, leaf, (const uint8_t *)"a", 1, 5, 0, OUT) == 0 && out[0] == 1 && out[1] == 0 && out[2] == 5 && out[3] == 0 && is(out[4], out[5], "xy"));
    MUST(out[6] == 1 && wrote(7));
    MUST(ct_as_of(ARENA, leaf, (const uint8_t *)"a", 1, 4, UINT32_MAX, OUT) == 0 && out[0] == 1 && out[2] == 3 && is(out[4], out[5], "z") && out[6] == 1);
    MUST(ct_as_of(ARENA, merged, (const uint8_t *)"a", 1, 3, 0, OUT) == 0 && out[0] == 1 && out[2] == 3 && is(out[4], out[5], "z"));
    MUST(ct_as_of(ARENA, merged, (const uint8_t *)"b", 1, 9, 4, OUT) == 0 && out[1] == 1 && out[2] == 9 && out[3] == 4 && is(out[4], out[5], "pq"));
    MUST(ct_as_of(ARENA, merged, (const uint8_t *)"b", 1, 9, 3, OUT) == 0 && out[0] == 0 && out[1] == 0 && out[2] == 0 && out[5] == 0 && out[6] == 1);
    MUST(ct_as_of(ARENA, leaf, (const uint8_t *)"a", 1, 2, 7, OUT) == 0 && out[0] == 0 && out[6] == 1);
    MUST(ct_as_of(ARENA, leaf, (const uint8_t *)"b", 1, UINT64_MAX, UINT32_MAX, OUT) == 0 && out[0] == 0);
    mark();
    MUST(ct_lower_bound(ARENA, merged, (const uint8_t *)"b", 1, 9, 4, OUT) == 0 && out[0] == 1 && out[1] == 1 && out[2] >= 1 && wrote(3));
    MUST(ct_lower_bound(ARENA, merged, (const uint8_t *)"b", 1, 9, 3, OUT) == 0 && out[0] == 0 && out[1] == 2);
    mark();
    MUST(ct_floor(ARENA, intl, (const uint8_t *)"c", 1, OUT) == 0 && out[0] == 1 && out[1] == 0 && out[2] == 70 && out[3] == 2 && wrote(4));
    MUST(ct_floor(ARENA, intl, (const uint8_t *)"e", 1, OUT) == 0 && out[1] == 1 && out[2] == 71 && out[3] == 1);

    /* ---- walking */
    MUST(ct_forward(ARENA, merged, 0, 2, walk, CT_WALK_WORDS) == 0);
    mark();
    MUST(ct_step(ARENA, walk, CT_WALK_WORDS, OUT) == 0 && out[0] == 1 && is(out[1], out[2], "a") && out[3] == 5 && out[4] == 0 && is(out[5], out[6], "xy"));
    MUST(out[7] == 0 && out[8] != 0 && out[8] < merged && wrote(9));
    MUST(ct_step(ARENA, walk, CT_WALK_WORDS, OUT) == 0 && out[0] == 1 && is(out[1], out[2], "a") && out[3] == 3 && is(out[5], out[6], "z") && out[8] == 0);
    MUST(ct_step(ARENA, walk, CT_WALK_WORDS, OUT) == 0 && out[0] == 1 && is(out[1], out[2], "b") && out[3] == 9 && out[4] == 4 && is(out[5], out[6], "pq"));
    uint64_t last[CT_WALK_WORDS];
    memcpy(last, walk, sizeof walk);
    MUST(ct_step(ARENA, walk, CT_WALK_WORDS, OUT) == 0 && out[0] == 0 && out[1] == 0 && out[8] == 0 && memcmp(last, walk, sizeof walk) == 0);
    MUST(ct_forward(ARENA, right, 0, 1, walk, CT_WALK_WORDS) == 0);
    MUST(ct_step(ARENA, walk, CT_WALK_WORDS, OUT) == 0 && out[7] == remote);
    MUST(ct_backward(ARENA, merged, 1, 0, walk, CT_WALK_WORDS) == 0);
    MUST(ct_step(ARENA, walk, CT_WALK_WORDS, OUT) == 0 && is(out[1], out[2], "b"));
    MUST(ct_step(ARENA, walk, CT_WALK_WORDS, OUT) == 0 && is(out[1], out[2], "a") && out[3] == 5);
    MUST(ct_backward(ARENA, merged, -1, 0, walk, CT_WALK_WORDS) == 0);
    MUST(ct_step(ARENA, walk, CT_WALK_WORDS, OUT) == 0 && out[0] == 0);
    MUST(ct_forward(ARENA, intl, 1, 2, walk, CT_WALK_WORDS) == 0);
    MUST(ct_step(ARENA, walk, CT_WALK_WORDS, OUT) == 0 && out[0] == 2 && is(out[1], out[2], "d") && out[3] == 71 && out[4] == 0 && out[8] == 0);

    /* ---- many records a call: the same records as by ct_step, for every room */
    static uint64_t one[3][CT_STEP_WORDS], many[1 + 5 * CT_STEP_WORDS];
    MUST(ct_forward(ARENA, merged, 0, 2, walk, CT_WALK_WORDS) == 0);
    for (int k = 0; k < 3; k++) MUST(ct_step(ARENA, walk, CT_WALK_WORDS, one[k], CT_STEP_WORDS) == 0 && one[k][0] == 1);
    for (size_t len = 0; len <= 1 + 5 * CT_STEP_WORDS; len++) {
        size_t room = len < 10 ? 0 : (len - 1) / CT_STEP_WORDS, told = 0;
        MUST(ct_forward(ARENA, merged, 0, 2, walk, CT_WALK_WORDS) == 0);
        do {
            memset(many, 0x55, sizeof many);
            memcpy(last, walk, sizeof walk);
            MUST(ct_steps(ARENA, walk, CT_WALK_WORDS, many, len) == 0);
            size_t n = room < 3 - told ? room : 3 - told;
            MUST(len == 0 || many[0] == n);
            MUST(memcmp(many + 1, one[told], n * sizeof one[0]) == 0);
            for (size_t k = len == 0 ? 0 : 1 + n * CT_STEP_WORDS; k < 1 + 5 * CT_STEP_WORDS; k++) MUST(many[k] == MARK);
            MUST((memcmp(last, walk, sizeof walk) == 0) == (n == 0));
            told += n;
            if (n == 0) break;
        } while (1);
        MUST(told == (room == 0 ? 0u : 3u));
    }
    MUST(ct_forward(ARENA, intl, 0, 2, walk, CT_WALK_WORDS) == 0 && ct_steps(ARENA, walk, CT_WALK_WORDS, many, 28) == 0 && many[0] == 2);
    MUST(many[1] == 2 && is(many[2], many[3], "b") && many[4] == 70 && many[10] == 2 && is(many[11], many[12], "d") && many[13] == 71 && many[18] == 0);
    /* the second key's slot is bad: its two versions before it are told, then the refusal changes nothing */
    static uint8_t broken[sizeof arena];
    memcpy(broken, arena, sizeof arena);
    memset(broken + merged + 32 + 40 + 4, 0xFF, 4);
    MUST(ct_forward(broken, sizeof broken, merged, 0, 2, walk, CT_WALK_WORDS) == 0);
    MUST(ct_steps(broken, sizeof broken, walk, CT_WALK_WORDS, many, 37) == 0 && many[0] == 2 && memcmp(many + 1, one, 2 * sizeof one[0]) == 0);
    memset(many, 0x55, sizeof many);
    memcpy(last, walk, sizeof walk);
    MUST(ct_steps(broken, sizeof broken, walk, CT_WALK_WORDS, many, 37) == CT_BAD_FRAME && memcmp(last, walk, sizeof walk) == 0);
    for (int k = 0; k < 1 + 5 * CT_STEP_WORDS; k++) MUST(many[k] == MARK);

    /* ---- deltas */
    mark();
    MUST(ct_delta_key(other, sizeof other, delta, OUT) == 0 && out[1] == 1 && other[out[0]] == 'a' && out[2] == 80 && out[3] == 3 && wrote(4));
    mark();
    MUST(ct_delta_val(other, sizeof other, delta, OUT) == 0 && out[1] == 3 && memcmp(other + out[0], "new", 3) == 0 && wrote(2));
    mark();
    MUST(ct_delta_index_key(ARENA, index_delta, OUT) == 0 && is(out[0], out[1], "k") && wrote(2));
    mark();
    MUST(ct_delta_child(ARENA, index_delta, OUT) == 0 && out[0] == 72 && wrote(1));
    mark();
    MUST(ct_overlay(ARENA, leaf, other, sizeof other, delta, (const uint8_t *)"a", 1, OUT) == 0 && out[0] == 1 && memcmp(other + out[1], "new", 3) == 0);
    MUST(out[2] == 3 && wrote(3));
    MUST(ct_overlay(ARENA, merged, other, sizeof other, delta, (const uint8_t *)"b", 1, OUT) == 0 && out[0] == 2 && is(out[1], out[2], "pq"));
    MUST(ct_overlay(ARENA, leaf, other, sizeof other, delta, (const uint8_t *)"c", 1, OUT) == 0 && out[0] == 0 && out[2] == 0);

    /* ---- a slice with fewer words takes the first ones only */
    mark();
    MUST(ct_search(ARENA, leaf, (const uint8_t *)"a", 1, out, 3) == 0 && out[2] == 5 && wrote(3));
    mark();
    MUST(ct_floor(ARENA, intl, (const uint8_t *)"c", 1, out, 0) == 0 && wrote(0));

    /* ---- a key without the page's prefix is not there, and no key is read: "b" above the prefix "a", the empty key below it */
    MUST(ct_new_leaf(ARENA, next, rows, sizeof rows, (const uint8_t *)"a", 1, (const uint8_t *)"ab", 2, 0, 64, 256, 0, 0, 0, 0, OUT) == 0);
    uint64_t prefixed = out[0];
    MUST(ct_search(ARENA, prefixed, (const uint8_t *)"b", 1, OUT) == 0 && out[0] == 0 && out[9] == 0);
    MUST(ct_as_of(ARENA, prefixed, (const uint8_t *)"b", 1, 9, 0, OUT) == 0 && out[0] == 0 && out[6] == 0);
    MUST(ct_lower_bound(ARENA, prefixed, (const uint8_t *)"b", 1, 9, 0, OUT) == 0 && out[0] == 0 && out[1] == 1 && out[2] == 0);
    MUST(ct_lower_bound(ARENA, prefixed, NONE, 9, 0, OUT) == 0 && out[0] == 1 && out[1] == 0 && out[2] == 0);

    /* ---- a key that is lo stays, one that is hi is outside: the check says so, and a merge; a search finds it all the same */
    MUST(ct_new_leaf(ARENA, next, no_rows, sizeof no_rows, NONE, NONE, 0, 64, 256, 0, 0, 0, 0, OUT) == 0);
    uint64_t apart = out[0];
    next = out[1];
    MUST(ct_page(ARENA, leaf, OUT) == 0 && is(out[4], out[5], "b"));
    uint64_t hi_at = out[4];
    arena[hi_at] = 'a';
    MUST(ct_check(ARENA, leaf) == CT_BAD_FRAME && ct_merge(ARENA, next, leaf, right, 64, 256, 0, 0, 0, 0, OUT) == CT_BAD_FRAME);
    MUST(ct_search(ARENA, leaf, (const uint8_t *)"a", 1, OUT) == 0 && out[0] == 1 && out[2] == 5);
    arena[hi_at] = 'b';
    MUST(ct_check(ARENA, leaf) == 0 && ct_check(ARENA, right) == 0);

    /* ---- a refusal changes nothing, and the first number of the list wins */
    static uint8_t before[sizeof arena];
    memcpy(before, arena, sizeof arena);
    memcpy(last, walk, sizeof walk);
    mark();
    MUST(ct_new_leaf(ARENA, 7, rows, sizeof rows, NONE, NONE, 0, 0, 256, 0, 0, 0, 0, OUT) == CT_BAD_LIMIT);
    MUST(ct_new_leaf(ARENA, 7, rows, 3, NONE, NONE, 0, 64, 256, 0, 0, 0, 0, OUT) == CT_BAD_ARENA);
    MUST(ct_new_leaf(ARENA, next, rows, 3, NONE, NONE, 0, 64, 256, 0, 0, 0, 0, OUT) == CT_BAD_LIST);
    MUST(ct_new_leaf(ARENA, next, rows, sizeof rows, (const uint8_t *)"b", 1, (const uint8_t *)"b", 1, 0, 64, 256, 0, 0, 0, 0, OUT) == CT_WRONG_PREFIX);
    MUST(ct_new_leaf(ARENA, next, rows, sizeof rows, (const uint8_t *)"b", 1, NONE, 0, 64, 256, 0, 0, 0, 0, OUT) == CT_OUTSIDE);
    MUST(ct_new_leaf(ARENA, next, rows, sizeof rows, NONE, (const uint8_t *)"a", 1, 0, 64, 256, 0, 0, 0, 0, OUT) == CT_OUTSIDE);
    MUST(ct_new_leaf(ARENA, next, no_rows, sizeof no_rows, (const uint8_t *)"b", 1, (const uint8_t *)"b", 1, 0, 64, 256, 0, 0, 0, 0, OUT) == CT_OUTSIDE);
    MUST(ct_new_leaf(arena, next, next, rows, sizeof rows, (const uint8_t *)"b", 1, NONE, 0, 64, 256, 0, 0, 0, 0, OUT) == CT_OUTSIDE);
    MUST(ct_new_leaf(arena, next, next, rows, sizeof rows, NONE, NONE, 0, 64, 256, 0, 0, 0, 0, OUT) == CT_NO_ROOM);
    MUST(ct_new_intl(ARENA, next, leads, sizeof leads, (const uint8_t *)"b", 1, (const uint8_t *)"d", 1, 0, 0, 0, 0, 0, OUT) == CT_OUTSIDE);
    MUST(ct_new_intl(ARENA, next, leads, sizeof leads, (const uint8_t *)"c", 1, NONE, 0, 0, 0, 0, 0, OUT) == CT_OUTSIDE);
    MUST(ct_new_intl(ARENA, 7, leads, sizeof leads, NONE, NONE, 0, 0, 0, 0, 0, OUT) == CT_BAD_ARENA);
    MUST(ct_merge(ARENA, next, leaf, intl, 64, 256, 0, 0, 0, 0, OUT) == CT_MIXED_KINDS);
    MUST(ct_merge(ARENA, next, right, leaf, 64, 256, 0, 0, 0, 0, OUT) == CT_OUT_OF_ORDER);
    MUST(ct_merge(ARENA, next, right, apart, 64, 256, 0, 0, 0, 0, OUT) == CT_OUTSIDE && ct_merge(ARENA, next, apart, apart, 64, 256, 0, 0, 0, 0, OUT) == CT_OUTSIDE);
    MUST(ct_delta_leaf(ARENA, next, 0, 0, 0, 0, 0, 0, NONE, NONE, OUT) == CT_BAD_LIMIT);
    MUST(ct_delta_index(ARENA, 9, 0, 0, 0, 0, NONE, 0, OUT) == CT_BAD_ARENA);
    MUST(ct_page(ARENA, 8, OUT) == CT_BAD_FRAME && ct_history_hints(ARENA, intl, OUT) == CT_BAD_FRAME && ct_remote_hints(ARENA, intl, OUT) == CT_BAD_FRAME);
    MUST(ct_search(ARENA, intl, (const uint8_t *)"b", 1, OUT) == CT_BAD_FRAME && ct_floor(ARENA, leaf, (const uint8_t *)"b", 1, OUT) == CT_BAD_FRAME);
    MUST(ct_as_of(ARENA, intl, (const uint8_t *)"b", 1, 9, 0, OUT) == CT_BAD_FRAME && ct_lower_bound(ARENA, 12, (const uint8_t *)"b", 1, 0, 0, OUT) == CT_BAD_FRAME);
    MUST(ct_forward(ARENA, leaf, 0, 2, walk, CT_WALK_WORDS) == CT_BAD_FRAME && ct_backward(ARENA, intl, 0, 0, walk, CT_WALK_WORDS) == CT_BAD_FRAME);
    MUST(ct_delta_key(ARENA, leaf, OUT) == CT_BAD_FRAME && ct_delta_val(ARENA, leaf, OUT) == CT_BAD_FRAME);
    MUST(ct_delta_index_key(ARENA, leaf, OUT) == CT_BAD_FRAME && ct_delta_child(ARENA, leaf, OUT) == CT_BAD_FRAME);
    MUST(ct_overlay(ARENA, leaf, other, sizeof other, leaf, (const uint8_t *)"a", 1, OUT) == CT_BAD_FRAME);
    MUST(wrote(0) && memcmp(before, arena, sizeof arena) == 0 && memcmp(last, walk, sizeof walk) == 0);

    /* ---- any words are some walk: a step on them ends, and reads only the arena */
    uint64_t x = 20261115;
    for (int k = 0; k < 100000; k++) {
        for (int j = 0; j < CT_WALK_WORDS; j++) {
            x = x * 6364136223846793005u + 1442695040888963407u;
            walk[j] = (x >> 33) % (j % 3 == 0 ? 300 : 7) - (k % 50 == 0);
        }
        uint32_t no = k % 2 == 0 ? ct_step(ARENA, walk, (size_t)(k % (CT_WALK_WORDS + 1)), OUT)
                                 : ct_steps(ARENA, walk, (size_t)(k % (CT_WALK_WORDS + 1)), many, (size_t)(k % 47));
        MUST(no == 0 || no == CT_BAD_FRAME);
    }
    printf("calls: 24 calls, their words, short slices, refusals and made-up walks are as the header says\n");
    return 0;
}
