//! The raw C interface: the declarations of include/cresttrestle.h, which says what each call does and what its words hold. This is the one
//! place in Rust that declares it, under the header's names; tests/header.rs holds the two against each other.

pub const CT_OK: u32 = 0;
pub const CT_BAD_LIMIT: u32 = 1;
pub const CT_BAD_ARENA: u32 = 2;
pub const CT_BAD_LIST: u32 = 3;
pub const CT_BAD_FRAME: u32 = 4;
pub const CT_MIXED_KINDS: u32 = 5;
pub const CT_OUT_OF_ORDER: u32 = 6;
pub const CT_WRONG_PREFIX: u32 = 7;
pub const CT_OUTSIDE: u32 = 10;
pub const CT_TOO_BIG: u32 = 8;
pub const CT_NO_ROOM: u32 = 9;

pub const CT_HIST_PAGE_BUDGET: u64 = 32_768;
pub const CT_RUST_HIST_PAGE_BUDGET: u64 = 131_072;

pub const CT_WALK_WORDS: usize = 18;
pub const CT_OUT_WORDS: usize = 10;
pub const CT_STEP_WORDS: usize = 9;

unsafe extern "C" {
    pub fn ct_calc_prefix(
        lo: *const u8,
        lo_len: usize,
        hi: *const u8,
        hi_len: usize,
        out: *mut u64,
        out_len: usize,
    ) -> u32;
    pub fn ct_new_leaf(
        arena: *mut u8,
        arena_len: usize,
        next: u64,
        list: *const u8,
        list_len: usize,
        lo: *const u8,
        lo_len: usize,
        hi: *const u8,
        hi_len: usize,
        sibling: u64,
        limit: u64,
        budget: u64,
        group: u8,
        txid: u64,
        lsn: u64,
        checkpoint: u64,
        out: *mut u64,
        out_len: usize,
    ) -> u32;
    pub fn ct_new_intl(
        arena: *mut u8,
        arena_len: usize,
        next: u64,
        list: *const u8,
        list_len: usize,
        lo: *const u8,
        lo_len: usize,
        hi: *const u8,
        hi_len: usize,
        sibling: u64,
        group: u8,
        txid: u64,
        lsn: u64,
        checkpoint: u64,
        out: *mut u64,
        out_len: usize,
    ) -> u32;
    pub fn ct_merge(
        arena: *mut u8,
        arena_len: usize,
        next: u64,
        left: u64,
        right: u64,
        limit: u64,
        budget: u64,
        group: u8,
        txid: u64,
        lsn: u64,
        checkpoint: u64,
        out: *mut u64,
        out_len: usize,
    ) -> u32;
    pub fn ct_delta_leaf(
        arena: *mut u8,
        arena_len: usize,
        next: u64,
        limit: u64,
        group: u8,
        lsn: u64,
        checkpoint: u64,
        txid: u64,
        cmd: u32,
        key: *const u8,
        key_len: usize,
        value: *const u8,
        value_len: usize,
        out: *mut u64,
        out_len: usize,
    ) -> u32;
    pub fn ct_delta_index(
        arena: *mut u8,
        arena_len: usize,
        next: u64,
        group: u8,
        txid: u64,
        lsn: u64,
        checkpoint: u64,
        key: *const u8,
        key_len: usize,
        page: u64,
        out: *mut u64,
        out_len: usize,
    ) -> u32;
    pub fn ct_check(arena: *const u8, arena_len: usize, addr: u64) -> u32;
    pub fn ct_page(
        arena: *const u8,
        arena_len: usize,
        addr: u64,
        out: *mut u64,
        out_len: usize,
    ) -> u32;
    pub fn ct_history_hints(
        arena: *const u8,
        arena_len: usize,
        addr: u64,
        out: *mut u64,
        out_len: usize,
    ) -> u32;
    pub fn ct_remote_hints(
        arena: *const u8,
        arena_len: usize,
        addr: u64,
        out: *mut u64,
        out_len: usize,
    ) -> u32;
    pub fn ct_hint(
        arena: *const u8,
        arena_len: usize,
        at: u64,
        count: u64,
        k: u64,
        out: *mut u64,
        out_len: usize,
    ) -> u32;
    pub fn ct_search(
        arena: *const u8,
        arena_len: usize,
        addr: u64,
        key: *const u8,
        key_len: usize,
        out: *mut u64,
        out_len: usize,
    ) -> u32;
    pub fn ct_as_of(
        arena: *const u8,
        arena_len: usize,
        addr: u64,
        key: *const u8,
        key_len: usize,
        txid: u64,
        cmd: u32,
        out: *mut u64,
        out_len: usize,
    ) -> u32;
    pub fn ct_lower_bound(
        arena: *const u8,
        arena_len: usize,
        addr: u64,
        key: *const u8,
        key_len: usize,
        txid: u64,
        cmd: u32,
        out: *mut u64,
        out_len: usize,
    ) -> u32;
    pub fn ct_floor(
        arena: *const u8,
        arena_len: usize,
        addr: u64,
        key: *const u8,
        key_len: usize,
        out: *mut u64,
        out_len: usize,
    ) -> u32;
    pub fn ct_forward(
        arena: *const u8,
        arena_len: usize,
        addr: u64,
        begin: u64,
        end: u64,
        walk: *mut u64,
        walk_len: usize,
    ) -> u32;
    pub fn ct_backward(
        arena: *const u8,
        arena_len: usize,
        addr: u64,
        start: i64,
        end: i64,
        walk: *mut u64,
        walk_len: usize,
    ) -> u32;
    pub fn ct_step(
        arena: *const u8,
        arena_len: usize,
        walk: *mut u64,
        walk_len: usize,
        out: *mut u64,
        out_len: usize,
    ) -> u32;
    pub fn ct_steps(
        arena: *const u8,
        arena_len: usize,
        walk: *mut u64,
        walk_len: usize,
        out: *mut u64,
        out_len: usize,
    ) -> u32;
    pub fn ct_delta_key(
        arena: *const u8,
        arena_len: usize,
        addr: u64,
        out: *mut u64,
        out_len: usize,
    ) -> u32;
    pub fn ct_delta_val(
        arena: *const u8,
        arena_len: usize,
        addr: u64,
        out: *mut u64,
        out_len: usize,
    ) -> u32;
    pub fn ct_delta_index_key(
        arena: *const u8,
        arena_len: usize,
        addr: u64,
        out: *mut u64,
        out_len: usize,
    ) -> u32;
    pub fn ct_delta_child(
        arena: *const u8,
        arena_len: usize,
        addr: u64,
        out: *mut u64,
        out_len: usize,
    ) -> u32;
    pub fn ct_overlay(
        arena: *const u8,
        arena_len: usize,
        addr: u64,
        buffer: *const u8,
        buffer_len: usize,
        delta: u64,
        key: *const u8,
        key_len: usize,
        out: *mut u64,
        out_len: usize,
    ) -> u32;
}
