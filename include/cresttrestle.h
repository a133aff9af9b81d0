/*
 * Cresttrestle: pages of versioned rows, built, merged, searched and walked in an arena that the caller lends.
 *
 * Every call ends on every input, reads only what it is lent, and returns 0 or a number of refusal, the first in the list of enum ct_refusal
 * that applies. A refusal changes nothing: no byte of an arena, no word of `out` or `walk`. Nothing is allocated, kept or freed; calls on
 * different arenas may run at the same time.
 *
 * Slices are a pointer and a length; a slice of length 0 may have any pointer that is not NULL. Answers go into a lent slice of words
 * (`out`), in the order given at each call. A slice with fewer words takes the first ones only, words behind the answer stay as they are.
 * Parts of an arena come back as a place: the index of the first byte and the number of bytes.
 *
 * An arena's address is a multiple of 8, at least 8; 0 is none. `next` is the arena's next free address: a new arena begins with 8, and
 * each build, merge or delta hands back the next one in out[1]. What lies below `next` never changes.
 */
#ifndef CRESTTRESTLE_H
#define CRESTTRESTLE_H

#include <stddef.h>
#include <stdint.h>

#ifdef __cplusplus
extern "C" {
#endif

/* Why a call is refused, in the order in which it is judged: 10 comes before 8 and 9. */
enum ct_refusal {
    CT_OK = 0,
    CT_BAD_LIMIT = 1,    /* inline limit not 1..65,536; budget not 256..131,072; lo or hi over 4,096 */
    CT_BAD_ARENA = 2,    /* next below 8, not a multiple of 8, or above the arena's length */
    CT_BAD_LIST = 3,     /* list not in the house form, key over 4,096, value over 65,536 */
    CT_BAD_FRAME = 4,    /* no frame at the address, bytes not as laid out, a position outside the page */
    CT_MIXED_KINDS = 5,  /* merging a leaf with an index page */
    CT_OUT_OF_ORDER = 6, /* an entry not above the one before */
    CT_WRONG_PREFIX = 7, /* building or merging: a key does not begin with the page's prefix */
    CT_OUTSIDE = 10,     /* building or merging: a key below lo or not below hi, or lo not below hi;
                            merging: the left page has no hi, or it is not the right page's lo */
    CT_TOO_BIG = 8,      /* over 65,535 entries, or size plus hint room over 16,777,216 */
    CT_NO_ROOM = 9       /* next plus all frames exceeds the arena */
};

/* The budget of a history page that a caller without an opinion passes; and the Rust's (mace's), for whoever wants its pages. Any budget of
 * 256..131,072 will do. */
#define CT_HIST_PAGE_BUDGET 32768
#define CT_RUST_HIST_PAGE_BUDGET 131072

/* Words of a walk, the most words that any call but ct_steps writes to `out`, and the words of a record: ct_steps writes one word and these
 * for each record. */
#define CT_WALK_WORDS 18
#define CT_OUT_WORDS 10
#define CT_STEP_WORDS 9

/* ---- building: the arena is written from `next` on, only where 0 is returned ---- */

/* calc_prefix: how many leading bytes lo and hi share; 0 where hi is empty, that is, none.
 * out: [0] the count */
uint32_t ct_calc_prefix(const uint8_t *lo, size_t lo_len, const uint8_t *hi, size_t hi_len, uint64_t *out, size_t out_len);

/* new_leaf: a leaf page of a record list (version byte 1, u32 big-endian byte count, then entries of key length u16, key, txid u64, cmd u32,
 * value length u32, value, all big-endian), keys rising, the newest version of a key first. An empty hi is none. lo is below hi, and each key
 * is lo or above it, and below hi. Refused with 1, 2, 3, 6, 7, 10, 8, 9.
 * out: [0] the page's address, [1] the new next free address */
uint32_t ct_new_leaf(uint8_t *arena, size_t arena_len, uint64_t next, const uint8_t *list, size_t list_len, const uint8_t *lo,
                     size_t lo_len, const uint8_t *hi, size_t hi_len, uint64_t sibling, uint64_t limit, uint64_t budget, uint8_t group,
                     uint64_t txid, uint64_t lsn, uint64_t checkpoint, uint64_t *out, size_t out_len);

/* new_intl: an index page of an index list (the same header, then entries of key length u16, key, page id u64), boundaries and keys as for a
 * leaf. Refused with 1, 2, 3, 6, 7, 10, 8, 9.
 * out: [0] the page's address, [1] the new next free address */
uint32_t ct_new_intl(uint8_t *arena, size_t arena_len, uint64_t next, const uint8_t *list, size_t list_len, const uint8_t *lo,
                     size_t lo_len, const uint8_t *hi, size_t hi_len, uint64_t sibling, uint8_t group, uint64_t txid, uint64_t lsn,
                     uint64_t checkpoint, uint64_t *out, size_t out_len);

/* merge: the left page's records, then the right's, as one new page; lo of the left, hi and sibling of the right. The two are neighbours: the
 * left has a hi, and it is the right's lo. Refused with 1, 2, 4, 5, 6, 7, 10, 8, 9. It begins with the check of both, and
 * reads each old version behind each head: its time is by the sums that ct_check's is by.
 * out: [0] the page's address, [1] the new next free address */
uint32_t ct_merge(uint8_t *arena, size_t arena_len, uint64_t next, uint64_t left, uint64_t right, uint64_t limit, uint64_t budget,
                  uint8_t group, uint64_t txid, uint64_t lsn, uint64_t checkpoint, uint64_t *out, size_t out_len);

/* from_key_val: a leaf delta, one row with its version (txid, cmd). Refused with 1, 2, 3, 9.
 * out: [0] the delta's address, [1] the new next free address */
uint32_t ct_delta_leaf(uint8_t *arena, size_t arena_len, uint64_t next, uint64_t limit, uint8_t group, uint64_t lsn, uint64_t checkpoint,
                       uint64_t txid, uint32_t cmd, const uint8_t *key, size_t key_len, const uint8_t *value, size_t value_len,
                       uint64_t *out, size_t out_len);

/* from_key_index: an index delta, a key and the page that it leads to. Refused with 2, 3, 9.
 * out: [0] the delta's address, [1] the new next free address */
uint32_t ct_delta_index(uint8_t *arena, size_t arena_len, uint64_t next, uint8_t group, uint64_t txid, uint64_t lsn, uint64_t checkpoint,
                        const uint8_t *key, size_t key_len, uint64_t page, uint64_t *out, size_t out_len);

/* ---- reading a page ---- */

/* Whether the leaf or index page at an address is sound: 0, or 4. A page with a key outside its boundaries, or with a lo that is not below its
 * hi, is not sound; no other call that reads asks for this.
 * Time: by the page's bytes, by the sum of its heads' counts of old versions, and by all records of a history page each time that a head or a
 * link leads to another history page than the last. On a page that this library built the last two are its old versions, twice. On a page made by
 * hand they can be far more than its bytes: n heads that share one chain of n old versions take n * n (docs/BENCH.md, "slow to check"). */
uint32_t ct_check(const uint8_t *arena, size_t arena_len, uint64_t addr);

/* The page's kind, boundaries and neighbour. An empty hi is none.
 * out: [0] 0 leaf, 1 index, [1] number of keys, [2] [3] lo, [4] [5] hi, [6] [7] prefix (each index, bytes), [8] sibling's page id, 0 none */
uint32_t ct_page(const uint8_t *arena, size_t arena_len, uint64_t addr, uint64_t *out, size_t out_len);

/* The addresses of a leaf's history pages, and of the remote frames of its values.
 * out: [0] index of the first address, [1] how many; both 0 where there are none */
uint32_t ct_history_hints(const uint8_t *arena, size_t arena_len, uint64_t addr, uint64_t *out, size_t out_len);
uint32_t ct_remote_hints(const uint8_t *arena, size_t arena_len, uint64_t addr, uint64_t *out, size_t out_len);

/* Address k of hints read by one of the two calls above (at, count: their words).
 * out: [0] the address, 0 behind the last and outside the arena */
uint32_t ct_hint(const uint8_t *arena, size_t arena_len, uint64_t at, uint64_t count, uint64_t k, uint64_t *out, size_t out_len);

/* ---- searching: `reads` is the number of keys read. Any key may be asked for: one that does not begin with the page's prefix is not there,
 * and no key is read. These calls are refused with CT_BAD_FRAME alone ---- */

/* search_ver_val_by_raw: the newest row of a key in a leaf.
 * out: [0] 1 found, 0 none, [1] slot, [2] txid, [3] cmd, [4] [5] the value (index, bytes),
 *      [6] [7] [8] its history's page, slot and count (0 without), [9] reads. None: all 0 but reads */
uint32_t ct_search(const uint8_t *arena, size_t arena_len, uint64_t addr, const uint8_t *key, size_t key_len, uint64_t *out, size_t out_len);

/* The row of a key in a leaf as of a version (txid, cmd): the newest that is no newer, from the page or from the key's history; none where all
 * are newer or the key is absent. For all that transaction n and the ones before it wrote, ask with txid n and cmd 2^32 - 1.
 * out: [0] 1 found, 0 none, [1] slot of the key, [2] txid, [3] cmd of the row itself, [4] [5] its value (index, bytes),
 *      [6] reads, the versions passed over not counted. None: all 0 but reads */
uint32_t ct_as_of(const uint8_t *arena, size_t arena_len, uint64_t addr, const uint8_t *key, size_t key_len, uint64_t txid, uint32_t cmd,
                  uint64_t *out, size_t out_len);

/* lower_bound: the first position whose key and version do not come before the probe's; a key's newer version comes first, so
 * txid 2^64 - 1 and cmd 2^32 - 1 stand before every version of the key.
 * out: [0] 1 at a key, 0 past the end, [1] position, [2] reads */
uint32_t ct_lower_bound(const uint8_t *arena, size_t arena_len, uint64_t addr, const uint8_t *key, size_t key_len, uint64_t txid,
                        uint32_t cmd, uint64_t *out, size_t out_len);

/* floor_pid_by_raw: the greatest key not above in an index page, slot 0 below the first.
 * out: [0] 1 found, 0 for a page without keys, [1] slot, [2] page id, [3] reads */
uint32_t ct_floor(const uint8_t *arena, size_t arena_len, uint64_t addr, const uint8_t *key, size_t key_len, uint64_t *out, size_t out_len);

/* ---- walking: a walk is CT_WALK_WORDS words of the caller's, to be handed back unchanged; words that a shorter slice lacks count as 0 ---- */

/* Positions begin to end, end not included, of a leaf or index page.  walk: the walk */
uint32_t ct_forward(const uint8_t *arena, size_t arena_len, uint64_t addr, uint64_t begin, uint64_t end, uint64_t *walk, size_t walk_len);

/* Positions start down to end, both included, of a leaf.  walk: the walk */
uint32_t ct_backward(const uint8_t *arena, size_t arena_len, uint64_t addr, int64_t start, int64_t end, uint64_t *walk, size_t walk_len);

/* The next record; for many use ct_steps. Each key's newest row, then its older ones, newest first. The walk moves on, unless it is at its
 * end or refused.
 * out: [0] 0 end, 1 a row of a leaf, 2 a key of an index page
 *      a row: [1] [2] key without the page's prefix, [3] txid, [4] cmd, [5] [6] the value, [7] its remote frame or 0,
 *             [8] the history page entered by this step or 0
 *      a key: [1] [2] key without the page's prefix, [3] page id, the rest 0;  end: all 0.  Nine words in each case */
uint32_t ct_step(const uint8_t *arena, size_t arena_len, uint64_t *walk, size_t walk_len, uint64_t *out, size_t out_len);

/* The next records, as many as `out` has room for: at most (out_len - 1) / 9. The call ends at the walk's end, at the room's end, or before
 * a step that would be refused; that refusal is the answer of the next call, whose first step it is. The walk moves on behind the last
 * record told; without one it stays. So with room for a record, [0] is 0 only at the walk's end.
 * out: [0] how many records, [1] .. nine words of each, as ct_step has them, one record behind the other */
uint32_t ct_steps(const uint8_t *arena, size_t arena_len, uint64_t *walk, size_t walk_len, uint64_t *out, size_t out_len);

/* ---- deltas ---- */

/* key: a leaf delta's key and version.       out: [0] [1] key (index, bytes), [2] txid, [3] cmd */
uint32_t ct_delta_key(const uint8_t *arena, size_t arena_len, uint64_t addr, uint64_t *out, size_t out_len);
/* val: a leaf delta's value.                 out: [0] [1] value (index, bytes) */
uint32_t ct_delta_val(const uint8_t *arena, size_t arena_len, uint64_t addr, uint64_t *out, size_t out_len);
/* An index delta's key.                      out: [0] [1] key (index, bytes) */
uint32_t ct_delta_index_key(const uint8_t *arena, size_t arena_len, uint64_t addr, uint64_t *out, size_t out_len);
/* index: the page that an index delta names. out: [0] page id */
uint32_t ct_delta_child(const uint8_t *arena, size_t arena_len, uint64_t addr, uint64_t *out, size_t out_len);

/* The row of a key where a leaf delta in a buffer of its own lies over a leaf page: the delta's where its key is the probe and it is no
 * older than the page's newest, else the page's.
 * out: [0] 0 none, 1 in the delta's buffer, 2 in the arena, [1] [2] the value there (index, bytes) */
uint32_t ct_overlay(const uint8_t *arena, size_t arena_len, uint64_t addr, const uint8_t *buffer, size_t buffer_len, uint64_t delta,
                    const uint8_t *key, size_t key_len, uint64_t *out, size_t out_len);

#ifdef __cplusplus
}
#endif
#endif
