//! The list that each leaf was made from, and what is picked from it: order 1's row and demand 3's range, without any page.

use oracle::answer::Found;
use oracle::sample::Row;

/// The lists of the leaves of one arena, as long as nothing but builds behind each other has written to it.
#[derive(Default)]
pub struct Lists {
    leaves: Vec<(u64, Vec<Row>)>,
    /// Where the frames written so far end.
    end: u64,
}

impl Lists {
    /// The arena was damaged or cut: no page need be what it was.
    pub fn forget(&mut self) {
        self.leaves.clear();
    }

    /// Frames were written from `from` up to `to`, over older ones where it is not behind them.
    pub fn wrote(&mut self, from: u64, to: u64) {
        if from < self.end {
            self.forget();
        }
        self.end = self.end.max(to);
    }

    pub fn leaf(&mut self, addr: u64, rows: Vec<Row>) {
        self.leaves.push((addr, rows));
    }

    fn of(&self, addr: u64) -> Option<&[Row]> {
        self.leaves.iter().rev().find(|(a, _)| *a == addr).map(|(_, rows)| &rows[..])
    }

    /// Two lists one behind the other, where both are known.
    pub fn both(&self, left: u64, right: u64) -> Option<Vec<Row>> {
        Some([self.of(left)?, self.of(right)?].concat())
    }

    /// "exactly the input list's records in that range": those from one key on and below another.
    pub fn between(&self, addr: u64, from: Option<&[u8]>, to: Option<&[u8]>) -> Option<Vec<&Row>> {
        let inside = |row: &&Row| {
            from.is_none_or(|from| &row.key[..] >= from) && to.is_none_or(|to| &row.key[..] < to)
        };
        Some(self.of(addr)?.iter().filter(inside).collect())
    }

    /// "the first record of that key in the list whose version is not newer", with the number of keys before it; nothing where the
    /// page's list is not known.
    pub fn pick(&self, addr: u64, key: &[u8], txid: u64, cmd: u32) -> Option<Option<Found<'_>>> {
        let rows = self.of(addr)?;
        let row = rows.iter().find(|r| r.key == key && (r.txid, r.cmd) <= (txid, cmd));
        Some(row.map(|r| {
            let pos = rows.chunk_by(|a, b| a.key == b.key).take_while(|c| c[0].key != key).count();
            Found { pos, txid: r.txid, cmd: r.cmd, value: &r.value }
        }))
    }
}
