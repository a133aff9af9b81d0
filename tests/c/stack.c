/*
 * How much stack the calls take: each call runs on a painted stack of its own, and the lowest byte that is no longer paint tells how deep
 * it went, less what an empty call takes there. Prints bytes per call, the most over all its runs; fails where a lookup (search, as of,
 * lower bound, floor, step, steps) takes over LOOKUP_LIMIT bytes, and where an answer is wrong, since a refusal measures nothing.
 */
#include "cresttrestle.h"

#include <stdio.h>
#include <stdlib.h>
#include <string.h>
#include <ucontext.h>

#define LOOKUP_LIMIT 2048
#define KEYS 60
#define PAINT 0xA5

static uint8_t stack[1 << 16];
static ucontext_t here, there;

static uint8_t arena[1 << 18], buffer[4096], list[1 << 16], other[1 << 16];
static const uint8_t none[1];
static uint64_t out[CT_OUT_WORDS], walk[CT_WALK_WORDS];
#define MANY (1 + 7 * CT_STEP_WORDS)
static uint64_t many[MANY];
static size_t list_len, other_len;
static uint64_t next, leaf, right, intl, delta, old_walk;
static uint8_t key[16];
static size_t key_len;
/* the boundaries of the leaf to be built: its side's letter and the next, so that neighbours meet */
static uint8_t lo[1], hi[1];
static uint32_t answer;

/* The bytes of stack that one run of a function takes. */
static size_t depth(void (*run)(void)) {
    memset(stack, PAINT, sizeof stack);
    getcontext(&there);
    there.uc_stack.ss_sp = stack;
    there.uc_stack.ss_size = sizeof stack;
    there.uc_link = &here;
    makecontext(&there, run, 0);
    swapcontext(&here, &there);
    size_t k = 0;
    while (k < sizeof stack && stack[k] == PAINT) k++;
    if (k == 0) {
        fprintf(stderr, "stack: a call takes more than %zu bytes\n", sizeof stack);
        exit(1);
    }
    return sizeof stack - k;
}

static uint32_t __attribute__((noinline)) nothing(uint64_t *o, size_t n) { return o != out || n != CT_OUT_WORDS; }

#define ARENA arena, sizeof arena
#define OUT out, CT_OUT_WORDS
#define WALK walk, CT_WALK_WORDS

static void run_nothing(void) { answer = nothing(OUT); }
static void run_search(void) { answer = ct_search(ARENA, leaf, key, key_len, OUT); }
static uint64_t as_of;
static void run_as_of(void) { answer = ct_as_of(ARENA, leaf, key, key_len, as_of, 0, OUT); }
static void run_lower_bound(void) { answer = ct_lower_bound(ARENA, leaf, key, key_len, UINT64_MAX, UINT32_MAX, OUT); }
static void run_floor(void) { answer = ct_floor(ARENA, intl, key, key_len, OUT); }
static void run_step(void) { answer = ct_step(ARENA, WALK, OUT); }
static void run_steps(void) { answer = ct_steps(ARENA, WALK, many, MANY); }
static void run_forward(void) { answer = ct_forward(ARENA, old_walk, 0, KEYS, WALK); }
static void run_backward(void) { answer = ct_backward(ARENA, leaf, KEYS - 1, 0, WALK); }
static void run_overlay(void) { answer = ct_overlay(ARENA, leaf, buffer, sizeof buffer, delta, key, key_len, OUT); }
static void run_check(void) { answer = ct_check(ARENA, leaf); }
static void run_new_leaf(void) {
    answer = ct_new_leaf(ARENA, next, list, list_len, lo, 1, hi, 1, 0, 16, 256, 0, 1, 0, 0, OUT);
}
static void run_new_intl(void) { answer = ct_new_intl(ARENA, next, other, other_len, none, 0, none, 0, 0, 0, 1, 0, 0, OUT); }
static void run_merge(void) { answer = ct_merge(ARENA, next, leaf, right, 64, 256, 0, 1, 0, 0, OUT); }
static void run_delta_leaf(void) { answer = ct_delta_leaf(buffer, sizeof buffer, 8, 16, 0, 0, 0, 9, 0, key, key_len, list, 40, OUT); }

/* ---- input */

static size_t number(uint8_t *l, size_t at, uint64_t x, int n) {
    while (n-- > 0) l[at++] = (uint8_t)(x >> (8 * n));
    return at;
}

static void name(char side, int k) { key_len = (size_t)sprintf((char *)key, "%c%04d", side, k); }

/* Keys of a side, each in three versions, values of 3, 10 and 40 bytes: with limit 16 the last stand in remote frames. */
static void records(char side) {
    static const int sizes[3] = {10, 40, 3};
    list_len = 5;
    lo[0] = (uint8_t)side;
    hi[0] = (uint8_t)(side + 1);
    for (int k = 0; k < KEYS; k++) {
        name(side, 2 * k);
        for (int v = 0; v < 3; v++) {
            list_len = number(list, list_len, key_len, 2);
            memcpy(list + list_len, key, key_len);
            list_len = number(list, list_len + key_len, (uint64_t)(3 - v), 8);
            list_len = number(list, list_len, 0, 4);
            list_len = number(list, list_len, (uint64_t)sizes[(k + v) % 3], 4);
            memset(list + list_len, 'a' + v, (size_t)sizes[(k + v) % 3]);
            list_len += (size_t)sizes[(k + v) % 3];
        }
    }
    list[0] = 1;
    number(list, 1, list_len - 5, 4);
}

static void index_list(void) {
    other_len = 5;
    for (int k = 0; k < KEYS; k++) {
        name('a', 2 * k);
        other_len = number(other, other_len, key_len, 2);
        memcpy(other + other_len, key, key_len);
        other_len = number(other, other_len + key_len, (uint64_t)(100 + k), 8);
    }
    other[0] = 1;
    number(other, 1, other_len - 5, 4);
}

/* ---- measuring */

static size_t empty, most;
static int bad;

static void must(int right_answer, const char *what) {
    if (!right_answer) {
        fprintf(stderr, "stack: %s: wrong answer (number %u)\n", what, answer);
        bad = 1;
    }
}

static void run(void (*f)(void)) {
    size_t n = depth(f);
    n = n > empty ? n - empty : 0;
    if (n > most) most = n;
}

static void tell(const char *what, int is_lookup) {
    int over = is_lookup && most > LOOKUP_LIMIT;
    printf("%-16s %6zu%s\n", what, most, over ? "  over the limit" : "");
    bad |= over;
    most = 0;
}

/* One page, built from the list at hand. */
static uint64_t make(void (*f)(void), const char *what) {
    run(f);
    must(answer == 0, what);
    next = out[1];
    return out[0];
}

static void walk_on(uint64_t kind, int records_in_all) {
    int n = 0;
    do {
        run(run_step);
        n++;
    } while (answer == 0 && out[0] == kind);
    must(answer == 0 && out[0] == 0 && n == records_in_all + 1, "ct_step");
}

/* The same by seven records a call. */
static void walk_by_seven(int records_in_all) {
    uint64_t n = 0;
    do {
        run(run_steps);
        n += many[0];
    } while (answer == 0 && many[0] != 0);
    must(answer == 0 && n == (uint64_t)records_in_all, "ct_steps");
}

int main(void) {
    empty = depth(run_nothing);
    next = 8;
    records('a');
    leaf = make(run_new_leaf, "ct_new_leaf");
    records('b');
    right = make(run_new_leaf, "ct_new_leaf");
    size_t new_leaf = most;
    most = 0;
    index_list();
    intl = make(run_new_intl, "ct_new_intl");
    size_t new_intl = most;
    most = 0;

    printf("bytes of stack, most of all runs (limit of a lookup: %d)\n", LOOKUP_LIMIT);
    for (int k = 0; k < 2 * KEYS; k++) {
        name('a', k);
        run(run_search);
        must(answer == 0 && out[0] == (uint64_t)(k % 2 == 0), "ct_search");
    }
    tell("ct_search", 1);
    /* head, both older versions, none; among them values in remote frames */
    for (int k = 0; k < 2 * KEYS; k++) {
        name('a', k);
        for (as_of = 0; as_of < 5; as_of++) {
            run(run_as_of);
            uint64_t ver = k % 2 == 1 ? 0 : as_of < 3 ? as_of : 3;
            must(answer == 0 && out[0] == (uint64_t)(ver != 0) && out[2] == ver, "ct_as_of");
        }
    }
    tell("ct_as_of", 1);
    for (int k = 0; k < 2 * KEYS; k++) {
        name('a', k);
        run(run_lower_bound);
        must(answer == 0 && out[1] == (uint64_t)(k + 1) / 2, "ct_lower_bound");
    }
    tell("ct_lower_bound", 1);
    for (int k = 0; k < 2 * KEYS; k++) {
        name('a', k);
        run(run_floor);
        must(answer == 0 && out[2] == (uint64_t)(100 + k / 2), "ct_floor");
    }
    tell("ct_floor", 1);

    old_walk = leaf;
    run(run_forward);
    run(run_backward);
    size_t begin = most;
    most = 0;
    run_forward();
    walk_on(1, 3 * KEYS);
    run_backward();
    walk_on(1, 3 * KEYS);
    old_walk = intl;
    run_forward();
    walk_on(2, KEYS);
    tell("ct_step", 1);
    run_forward();
    walk_by_seven(KEYS);
    run_backward();
    walk_by_seven(3 * KEYS);
    old_walk = leaf;
    run_forward();
    walk_by_seven(3 * KEYS);
    tell("ct_steps", 1);
    most = begin;
    tell("ct_forward", 0);

    name('a', 4);
    run(run_delta_leaf);
    must(answer == 0, "ct_delta_leaf");
    delta = out[0];
    tell("ct_delta_leaf", 0);
    for (int k = 0; k < 2 * KEYS; k++) {
        name('a', k);
        run(run_overlay);
        must(answer == 0 && out[0] == (k == 4 ? 1u : k % 2 == 0 ? 2u : 0u), "ct_overlay");
    }
    tell("ct_overlay", 0);
    run(run_check);
    must(answer == 0, "ct_check");
    tell("ct_check", 0);
    most = new_leaf;
    tell("ct_new_leaf", 0);
    most = new_intl;
    tell("ct_new_intl", 0);
    make(run_merge, "ct_merge");
    tell("ct_merge", 0);
    return bad;
}
