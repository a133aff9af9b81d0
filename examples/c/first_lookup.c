/*
 * A first lookup: builds a leaf of three rows in an arena on the stack, looks one up, also as it was at an older version, walks the page, and
 * prints what it finds.
 * tools/c-example builds and runs it. The exit status is 0 where every answer is the expected one.
 */
#include "cresttrestle.h"

#include <stdio.h>
#include <string.h>

/* Appends a number of n bytes, big-endian, as the record list wants it. */
static size_t put_number(uint8_t *list, size_t at, uint64_t x, int n) {
    while (n-- > 0) list[at++] = (uint8_t)(x >> (8 * n));
    return at;
}

/* Appends a row: key length, key, txid, cmd, value length, value. */
static size_t put_row(uint8_t *list, size_t at, const char *key, uint64_t txid, uint32_t cmd, const char *value) {
    at = put_number(list, at, strlen(key), 2);
    memcpy(list + at, key, strlen(key));
    at = put_number(list, at + strlen(key), txid, 8);
    at = put_number(list, at, cmd, 4);
    at = put_number(list, at, strlen(value), 4);
    memcpy(list + at, value, strlen(value));
    return at + strlen(value);
}

static int wrong(const char *what, uint32_t number) {
    fprintf(stderr, "first_lookup: %s: answer %u is not the expected one\n", what, number);
    return 1;
}

int main(void) {
    static const uint8_t none[1] = {0};
    uint8_t arena[1024] = {0};
    uint8_t list[256];
    uint64_t out[CT_OUT_WORDS], walk[CT_WALK_WORDS];

    /* The record list: version byte 1, the count of the bytes behind it, the rows in the order of their keys, a key's newest first. */
    size_t end = put_row(list, 5, "apple", 7, 0, "red");
    end = put_row(list, end, "pear", 9, 0, "green");
    end = put_row(list, end, "pear", 5, 0, "white");
    list[0] = 1;
    put_number(list, 1, end - 5, 4);

    /* A leaf without boundaries (lo and hi are empty), values below 64 bytes inline, from address 8 of the new arena on. */
    uint32_t no = ct_new_leaf(arena, sizeof arena, 8, list, end, none, 0, none, 0, 0, 64, CT_HIST_PAGE_BUDGET, 0, 0, 0, 0, out, CT_OUT_WORDS);
    if (no != CT_OK) return wrong("ct_new_leaf", no);
    uint64_t page = out[0], next = out[1];
    printf("page %llu, next free address %llu\n", (unsigned long long)page, (unsigned long long)next);

    no = ct_search(arena, sizeof arena, page, (const uint8_t *)"pear", 4, out, CT_OUT_WORDS);
    if (no != CT_OK || out[0] != 1 || out[2] != 9) return wrong("ct_search", no);
    if (out[5] != 5 || memcmp(arena + out[4], "green", 5) != 0) return wrong("the value of pear", no);
    printf("pear is %.*s, written by transaction %llu\n", (int)out[5], (const char *)arena + out[4], (unsigned long long)out[2]);

    /* The same when transaction 8 was the last: its newest row that is no newer than all of transaction 8. */
    no = ct_as_of(arena, sizeof arena, page, (const uint8_t *)"pear", 4, 8, UINT32_MAX, out, CT_OUT_WORDS);
    if (no != CT_OK || out[0] != 1 || out[2] != 5) return wrong("ct_as_of", no);
    if (out[5] != 5 || memcmp(arena + out[4], "white", 5) != 0) return wrong("the old value of pear", no);
    printf("as of transaction 8 it is %.*s, written by transaction %llu\n", (int)out[5], (const char *)arena + out[4], (unsigned long long)out[2]);

    no = ct_search(arena, sizeof arena, page, (const uint8_t *)"plum", 4, out, CT_OUT_WORDS);
    if (no != CT_OK || out[0] != 0) return wrong("ct_search of a key that is not there", no);
    printf("plum is not there\n");

    no = ct_forward(arena, sizeof arena, page, 0, 2, walk, CT_WALK_WORDS);
    if (no != CT_OK) return wrong("ct_forward", no);
    int rows = 0;
    while ((no = ct_step(arena, sizeof arena, walk, CT_WALK_WORDS, out, CT_OUT_WORDS)) == CT_OK && out[0] == 1) {
        printf("row %.*s = %.*s\n", (int)out[2], (const char *)arena + out[1], (int)out[6], (const char *)arena + out[5]);
        rows++;
    }
    if (no != CT_OK || rows != 3) return wrong("ct_step", no);

    /* An address with no page is refused, and no word of out is changed. */
    out[0] = 77;
    no = ct_search(arena, sizeof arena, page + 8, (const uint8_t *)"pear", 4, out, CT_OUT_WORDS);
    if (no != CT_BAD_FRAME || out[0] != 77) return wrong("ct_search at a wrong address", no);
    printf("a wrong address is refused with %u\n", no);

    /* With a lower boundary of "b" the page would have to answer for apple, which is its left neighbour's: refused, and nothing is written. */
    no = ct_new_leaf(arena, sizeof arena, next, list, end, (const uint8_t *)"b", 1, none, 0, 0, 64, CT_HIST_PAGE_BUDGET, 0, 0, 0, 0, out, CT_OUT_WORDS);
    if (no != CT_OUTSIDE || out[0] != 77) return wrong("ct_new_leaf of a key below lo", no);
    printf("a key below the page's lower boundary is refused with %u\n", no);
    return 0;
}
