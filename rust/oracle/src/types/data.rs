//! Stand-in for upstream's data.rs with document 01's layouts: versions, keys, values.
//! `cmp_raw_bytes` is upstream's own (MIT, see NOTICE), since order 12 times it; the rest is ours.

use std::cmp::Ordering;

use crate::hot_true;
use crate::must_exist;
use crate::types::traits::{ICodec, IDecode, IKey, IKeyCodec, ILoader};
use crate::utils::{ADDR_LEN, NULL_ADDR, varint::Varint32};

/// Upstream's comparison of raw keys, word by word; equal to `[u8]::cmp`.
#[inline(always)]
pub(crate) fn cmp_raw_bytes(a: &[u8], b: &[u8]) -> Ordering {
    let n = a.len().min(b.len());
    let mut off = 0usize;
    while off + 8 <= n {
        // big-endian numeric order equals byte order: load little-endian, swap
        let wa = u64::from_le_bytes(a[off..off + 8].try_into().unwrap()).swap_bytes();
        let wb = u64::from_le_bytes(b[off..off + 8].try_into().unwrap()).swap_bytes();
        match wa.cmp(&wb) {
            Ordering::Equal => off += 8,
            ord => return ord,
        }
    }
    match a[off..n].cmp(&b[off..n]) {
        Ordering::Equal => a.len().cmp(&b.len()),
        ord => ord,
    }
}

/// Upstream's decoders hand out parts that outlive the slice they were given:
/// everything lies in one arena, which outlives every reader.
#[inline(always)]
fn lent<'a>(s: &[u8]) -> &'a [u8] {
    // SAFETY: the bytes belong to an arena or a list that the caller keeps alive.
    unsafe { std::slice::from_raw_parts(s.as_ptr(), s.len()) }
}

/// "Version, 12: txid u64, cmd u32."
#[derive(Default, PartialEq, Eq, Clone, Copy, Debug)]
pub struct Ver {
    pub txid: u64,
    pub cmd: u32,
}

impl Ver {
    pub fn new(txid: u64, cmd: u32) -> Self {
        Self { txid, cmd }
    }

    pub(crate) fn len() -> usize {
        12
    }
}

/// "At equal keys the newer version comes first": newer is less.
impl Ord for Ver {
    fn cmp(&self, other: &Self) -> Ordering {
        (other.txid, other.cmd).cmp(&(self.txid, self.cmd))
    }
}

impl PartialOrd for Ver {
    fn partial_cmp(&self, other: &Self) -> Option<Ordering> {
        Some(self.cmp(other))
    }
}

impl IKey for Ver {
    fn txid(&self) -> u64 {
        self.txid
    }
}

impl IKeyCodec for Ver {
    fn remove_prefix(&self, _prefix_len: usize) -> Self {
        *self
    }
}

impl ICodec for Ver {
    fn packed_size(&self) -> usize {
        Self::len()
    }

    fn encode_to(&self, to: &mut [u8]) {
        to[..8].copy_from_slice(&self.txid.to_le_bytes());
        to[8..].copy_from_slice(&self.cmd.to_le_bytes());
    }
}

impl IDecode for Ver {
    #[inline(always)]
    fn decode_from(raw: &[u8]) -> Self {
        Self {
            txid: u64::from_le_bytes(raw[..8].try_into().unwrap()),
            cmd: u32::from_le_bytes(raw[8..12].try_into().unwrap()),
        }
    }
}

/// "Leaf key: LEB128 length of the rest, version, key without the page's prefix."
#[derive(Default, PartialEq, Eq, Clone, Copy, Debug)]
pub struct Key<'a> {
    pub raw: &'a [u8],
    pub ver: Ver,
}

impl<'a> Key<'a> {
    pub fn new(raw: &'a [u8], ver: Ver) -> Self {
        Self { raw, ver }
    }
}

impl Ord for Key<'_> {
    fn cmp(&self, other: &Self) -> Ordering {
        cmp_raw_bytes(self.raw, other.raw).then_with(|| self.ver.cmp(&other.ver))
    }
}

impl PartialOrd for Key<'_> {
    fn partial_cmp(&self, other: &Self) -> Option<Ordering> {
        Some(self.cmp(other))
    }
}

impl IKey for Key<'_> {
    fn txid(&self) -> u64 {
        self.ver.txid
    }
}

impl IKeyCodec for Key<'_> {
    fn remove_prefix(&self, prefix_len: usize) -> Self {
        Self { raw: &self.raw[prefix_len..], ver: self.ver }
    }
}

impl ICodec for Key<'_> {
    fn packed_size(&self) -> usize {
        LeafSeg::new(&[], self.raw, self.ver).packed_size()
    }

    fn encode_to(&self, to: &mut [u8]) {
        LeafSeg::new(&[], self.raw, self.ver).encode_to(to);
    }
}

impl IDecode for Key<'_> {
    #[inline(always)]
    fn decode_from(data: &[u8]) -> Self {
        let (len, n) = must_exist!(Varint32::decode(data), "invalid leaf key");
        let (ver, raw) = data[n..n + len as usize].split_at(Ver::len());
        Self { raw: lent(raw), ver: Ver::decode_from(ver) }
    }
}

/// "Index key: length, key."
#[derive(Default, PartialEq, Eq, Clone, Copy, Debug)]
pub struct IntlKey<'a> {
    pub raw: &'a [u8],
}

impl<'a> IntlKey<'a> {
    pub fn new(raw: &'a [u8]) -> Self {
        Self { raw }
    }
}

impl Ord for IntlKey<'_> {
    fn cmp(&self, other: &Self) -> Ordering {
        cmp_raw_bytes(self.raw, other.raw)
    }
}

impl PartialOrd for IntlKey<'_> {
    fn partial_cmp(&self, other: &Self) -> Option<Ordering> {
        Some(self.cmp(other))
    }
}

impl IKey for IntlKey<'_> {
    fn txid(&self) -> u64 {
        unimplemented!("an index key has no version")
    }
}

impl IKeyCodec for IntlKey<'_> {
    fn remove_prefix(&self, prefix_len: usize) -> Self {
        Self { raw: &self.raw[prefix_len..] }
    }
}

impl ICodec for IntlKey<'_> {
    fn packed_size(&self) -> usize {
        IntlSeg::new(&[], self.raw).packed_size()
    }

    fn encode_to(&self, to: &mut [u8]) {
        IntlSeg::new(&[], self.raw).encode_to(to);
    }
}

impl IDecode for IntlKey<'_> {
    #[inline(always)]
    fn decode_from(src: &[u8]) -> Self {
        let (len, n) = must_exist!(Varint32::decode(src), "invalid internal key");
        Self { raw: lent(&src[n..n + len as usize]) }
    }
}

/// A key in two parts with `prefix_len` bytes dropped from the front of both together.
fn drop_front<'a>(prefix: &'a [u8], base: &'a [u8], prefix_len: usize) -> (&'a [u8], &'a [u8]) {
    hot_true!(prefix.len() + base.len() >= prefix_len);
    if prefix_len >= prefix.len() {
        (&[], &base[prefix_len - prefix.len()..])
    } else {
        (&prefix[prefix_len..], base)
    }
}

/// An index key on its way into a page: the old page's prefix and the rest.
#[derive(Clone, Copy)]
pub(crate) struct IntlSeg<'a> {
    prefix: &'a [u8],
    base: &'a [u8],
}

impl<'a> IntlSeg<'a> {
    pub(crate) fn new(prefix: &'a [u8], base: &'a [u8]) -> Self {
        Self { prefix, base }
    }

    fn len(&self) -> usize {
        self.prefix.len() + self.base.len()
    }
}

impl ICodec for IntlSeg<'_> {
    fn packed_size(&self) -> usize {
        Varint32::size(self.len()) + self.len()
    }

    fn encode_to(&self, to: &mut [u8]) {
        hot_true!(eq to.len(), self.packed_size());
        let (len, data) = to.split_at_mut(Varint32::size(self.len()));
        Varint32::encode(len, self.len() as u32);
        let (p, b) = data.split_at_mut(self.prefix.len());
        p.copy_from_slice(self.prefix);
        b.copy_from_slice(self.base);
    }
}

impl IDecode for IntlSeg<'_> {
    fn decode_from(_raw: &[u8]) -> Self {
        unimplemented!("a segment is only written")
    }
}

impl IKeyCodec for IntlSeg<'_> {
    fn remove_prefix(&self, prefix_len: usize) -> Self {
        let (prefix, base) = drop_front(self.prefix, self.base, prefix_len);
        Self { prefix, base }
    }
}

/// A leaf key on its way into a page: the old page's prefix, the rest, the version.
#[derive(Clone, Copy)]
pub(crate) struct LeafSeg<'a> {
    prefix: &'a [u8],
    base: &'a [u8],
    pub(crate) ver: Ver,
}

impl<'a> LeafSeg<'a> {
    pub(crate) fn new(prefix: &'a [u8], base: &'a [u8], ver: Ver) -> Self {
        Self { prefix, base, ver }
    }

    #[cfg_attr(not(feature = "extra_check"), allow(dead_code))]
    pub(crate) fn cmp(&self, other: &Self) -> Ordering {
        self.raw_cmp(other).then_with(|| self.ver.cmp(&other.ver))
    }

    /// Whole keys, wherever each is cut in two.
    pub(crate) fn raw_cmp(&self, other: &Self) -> Ordering {
        let mine = self.prefix.iter().chain(self.base);
        mine.cmp(other.prefix.iter().chain(other.base))
    }

    fn len(&self) -> usize {
        Ver::len() + self.prefix.len() + self.base.len()
    }
}

impl ICodec for LeafSeg<'_> {
    fn packed_size(&self) -> usize {
        Varint32::size(self.len()) + self.len()
    }

    /// Upstream sizes the length field from the whole field, which is wrong at 127:
    /// see tests/upstream_data.rs.
    fn encode_to(&self, to: &mut [u8]) {
        hot_true!(eq to.len(), self.packed_size());
        let (len, data) = to.split_at_mut(Varint32::size(self.len()));
        Varint32::encode(len, self.len() as u32);
        let (ver, key) = data.split_at_mut(Ver::len());
        self.ver.encode_to(ver);
        let (p, b) = key.split_at_mut(self.prefix.len());
        p.copy_from_slice(self.prefix);
        b.copy_from_slice(self.base);
    }
}

impl IDecode for LeafSeg<'_> {
    fn decode_from(_raw: &[u8]) -> Self {
        unimplemented!("a segment is only written")
    }
}

impl IKeyCodec for LeafSeg<'_> {
    fn remove_prefix(&self, prefix_len: usize) -> Self {
        let (prefix, base) = drop_front(self.prefix, self.base, prefix_len);
        Self { prefix, base, ver: self.ver }
    }
}

/// "Index key ... its value is a page id u64."
#[derive(Clone, Copy, PartialEq, Eq, Debug, Default)]
pub struct Index {
    pub pid: u64,
}

impl Index {
    pub fn new(pid: u64) -> Self {
        Self { pid }
    }
}

impl ICodec for Index {
    fn packed_size(&self) -> usize {
        8
    }

    fn encode_to(&self, to: &mut [u8]) {
        to.copy_from_slice(&self.pid.to_le_bytes());
    }
}

impl IDecode for Index {
    fn decode_from(raw: &[u8]) -> Self {
        Self { pid: u64::from_le_bytes(raw[..8].try_into().unwrap()) }
    }
}

/// The bytes of a value. Upstream's group id and tombstones have no place in document 01.
#[derive(Clone, Copy)]
pub(crate) struct Record {
    data: &'static [u8],
}

impl Record {
    pub(crate) fn new(data: &[u8]) -> Self {
        Self { data: lent(data) }
    }

    pub(crate) fn data(&self) -> &'static [u8] {
        self.data
    }

    pub(crate) fn packed_size(&self) -> usize {
        self.data.len()
    }

    pub(crate) fn encode_to(&self, to: &mut [u8]) {
        to.copy_from_slice(self.data);
    }
}

/// "with history (heads only), address u64, slot u16, count u32".
#[derive(Clone, Copy, Debug, PartialEq, Eq)]
pub(crate) struct HistRef {
    pub(crate) page_addr: u64,
    pub(crate) slot: u16,
    pub(crate) count: u32,
}

impl HistRef {
    pub(crate) const fn new(page_addr: u64, slot: u16, count: u32) -> Self {
        Self { page_addr, slot, count }
    }
}

/// "Value: flag u8 (1 has history, 2 is remote, 3 both, 0 neither); with history, address u64,
/// slot u16, count u32; then size u32; then the bytes, or a remote address u64."
#[derive(Clone, Copy)]
pub struct Val<'a> {
    data: &'a [u8],
}

impl<'a> Val<'a> {
    const HIST_BIT: u8 = 1;
    const REMOTE_BIT: u8 = 2;
    const FLAG_LEN: usize = 1;
    const HIST_LEN: usize = 8 + 2 + 4;
    const SIZE_LEN: usize = 4;

    pub(crate) fn from_raw(data: &'a [u8]) -> Self {
        Self { data }
    }

    fn has_hist(&self) -> bool {
        self.data[0] & Self::HIST_BIT != 0
    }

    pub(crate) fn is_remote(&self) -> bool {
        self.data[0] & Self::REMOTE_BIT != 0
    }

    fn size_offset(&self) -> usize {
        Self::FLAG_LEN + if self.has_hist() { Self::HIST_LEN } else { 0 }
    }

    pub(crate) fn data_size(&self) -> usize {
        let off = self.size_offset();
        u32::from_le_bytes(self.data[off..off + 4].try_into().unwrap()) as usize
    }

    pub(crate) fn get_hist(&self) -> Option<HistRef> {
        self.has_hist().then(|| {
            HistRef::new(
                u64::from_le_bytes(self.data[1..9].try_into().unwrap()),
                u16::from_le_bytes(self.data[9..11].try_into().unwrap()),
                u32::from_le_bytes(self.data[11..15].try_into().unwrap()),
            )
        })
    }

    pub(crate) fn get_remote(&self) -> u64 {
        if !self.is_remote() {
            return NULL_ADDR;
        }
        let off = self.size_offset() + Self::SIZE_LEN;
        u64::from_le_bytes(self.data[off..off + ADDR_LEN].try_into().unwrap())
    }

    /// The value's bytes, wherever they stand.
    pub(crate) fn get_record<L: ILoader>(&self, l: &L) -> Record {
        let len = self.data_size();
        if self.is_remote() {
            Record::new(&l.load_blob(self.get_remote()).view().as_remote().raw()[..len])
        } else {
            let off = self.size_offset() + Self::SIZE_LEN;
            Record::new(&self.data[off..off + len])
        }
    }

    pub(crate) fn calc_size(has_hist: bool, limit: usize, val_size: usize) -> usize {
        Self::FLAG_LEN
            + if has_hist { Self::HIST_LEN } else { 0 }
            + Self::SIZE_LEN
            + if val_size < limit { val_size } else { ADDR_LEN }
    }

    /// Flag, history and size; hands back where the bytes or the address go.
    fn encode_front(dst: &mut [u8], remote: u8, hist: Option<HistRef>, size: usize) -> &mut [u8] {
        dst[0] = remote;
        let mut off = Self::FLAG_LEN;
        if let Some(hist) = hist {
            dst[0] |= Self::HIST_BIT;
            dst[1..9].copy_from_slice(&hist.page_addr.to_le_bytes());
            dst[9..11].copy_from_slice(&hist.slot.to_le_bytes());
            dst[11..15].copy_from_slice(&hist.count.to_le_bytes());
            off += Self::HIST_LEN;
        }
        dst[off..off + 4].copy_from_slice(&(size as u32).to_le_bytes());
        &mut dst[off + Self::SIZE_LEN..]
    }

    pub(crate) fn encode_inline(dst: &mut [u8], hist: Option<HistRef>, v: &Record) {
        v.encode_to(Self::encode_front(dst, 0, hist, v.packed_size()));
    }

    pub(crate) fn encode_remote(dst: &mut [u8], hist: Option<HistRef>, remote: u64, v: &Record) {
        hot_true!(ne remote, NULL_ADDR);
        Self::encode_front(dst, Self::REMOTE_BIT, hist, v.packed_size())
            .copy_from_slice(&remote.to_le_bytes());
    }
}

impl IDecode for Val<'_> {
    #[inline(always)]
    fn decode_from(raw: &[u8]) -> Self {
        Self::from_raw(lent(raw))
    }
}
