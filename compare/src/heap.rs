//! A heap as the set of its live blocks. All figures are 64 bits wide, so that
//! no sum or product can wrap.

use std::collections::BTreeMap;

use crate::refusal::{Answer, Refusal};

pub const GRANULE: u64 = 16;
pub const OWNERS: usize = 8;
pub const MOST_SCRIPT_BYTES: u64 = 65_536;
const MOST_ROWS: u64 = 512;
const MOST_ALIGNMENT: u64 = 4_096;
const MOST_QUOTA_GRANULES: u64 = 65_536;
const MOST_QUOTA_BLOCKS: u64 = 256;

#[derive(Clone, Copy, Debug, Default, PartialEq, Eq)]
pub struct Quota {
    pub granules: u64,
    pub blocks: u64,
}

impl Quota {
    fn in_range(self) -> bool {
        self.granules <= MOST_QUOTA_GRANULES && self.blocks <= MOST_QUOTA_BLOCKS
    }
}

pub type Quotas = [Quota; OWNERS];

/// A live block, or a free run with owner 0 and nothing requested.
/// Start and length are in granules.
#[derive(Clone, Copy, Debug, PartialEq, Eq)]
pub struct Row {
    pub start: u64,
    pub length: u64,
    pub owner: u64,
    pub requested: u64,
}

impl Row {
    pub fn end(&self) -> u64 {
        self.start + self.length
    }

    pub fn is_free(&self) -> bool {
        self.owner == 0
    }

    fn free_run(start: u64, end: u64) -> Row {
        Row {
            start,
            length: end - start,
            owner: 0,
            requested: 0,
        }
    }
}

/// Granules that `size` bytes need.
pub fn granules(size: u64) -> u64 {
    size.div_ceil(GRANULE)
}

#[derive(Clone, Debug)]
pub struct Heap {
    arena: u64,
    most_rows: u64,
    quotas: Quotas,
    live: BTreeMap<u64, Row>,
    peak: u64,
}

impl Heap {
    pub fn make(bytes: u64, rows: u64, quotas: Quotas) -> Result<Heap, Refusal> {
        if bytes == 0 || !bytes.is_multiple_of(GRANULE) || bytes > MOST_SCRIPT_BYTES {
            return Err(Refusal::Arena);
        }
        if !(1..=MOST_ROWS).contains(&rows) {
            return Err(Refusal::Table);
        }
        if !quotas.iter().all(|quota| quota.in_range()) {
            return Err(Refusal::QuotaRange);
        }
        Ok(Heap {
            arena: bytes / GRANULE,
            most_rows: rows,
            quotas,
            live: BTreeMap::new(),
            peak: 0,
        })
    }

    /// Answers the offset of the new block.
    pub fn alloc(&mut self, owner: u64, size: u64, alignment: u64) -> Answer {
        let quota = self.quota(owner)?;
        if size == 0 {
            return Err(Refusal::SizeZero);
        }
        if !alignment.is_power_of_two() || !(GRANULE..=MOST_ALIGNMENT).contains(&alignment) {
            return Err(Refusal::Alignment);
        }
        let (length, held) = (granules(size), self.held(owner));
        if held.blocks >= quota.blocks {
            return Err(Refusal::BlockQuota);
        }
        if held.granules + length > quota.granules {
            return Err(Refusal::GranuleQuota);
        }
        let start = self.lowest_start(length, alignment)?;
        self.insert(Row {
            start,
            length,
            owner,
            requested: size,
        })
    }

    /// Answers the bytes that became free.
    pub fn free(&mut self, owner: u64, offset: u64) -> Answer {
        self.quota(owner)?;
        let block = self.block_at(offset)?;
        if block.owner != owner {
            return Err(Refusal::OtherOwner);
        }
        self.live.remove(&block.start);
        Ok(block.length * GRANULE)
    }

    /// The quota that the making gave an owner.
    pub fn quota(&self, owner: u64) -> Result<Quota, Refusal> {
        let index = owner_index(owner)?;
        Ok(self.quotas[index])
    }

    /// What an owner's live blocks come to.
    pub fn held(&self, owner: u64) -> Quota {
        let own = self.live.values().filter(|block| block.owner == owner);
        own.fold(Quota::default(), |held, block| Quota {
            granules: held.granules + block.length,
            blocks: held.blocks + 1,
        })
    }

    /// Live blocks and the longest free runs between them, in address order.
    pub fn rows(&self) -> Vec<Row> {
        let mut rows = Vec::new();
        let mut end = 0;
        for block in self.live.values() {
            if end < block.start {
                rows.push(Row::free_run(end, block.start));
            }
            rows.push(*block);
            end = block.end();
        }
        if end < self.arena {
            rows.push(Row::free_run(end, self.arena));
        }
        rows
    }

    pub fn live(&self) -> impl Iterator<Item = &Row> {
        self.live.values()
    }

    pub fn arena(&self) -> u64 {
        self.arena
    }

    fn used(&self) -> u64 {
        self.live.values().map(|block| block.length).sum()
    }

    /// The live block whose first byte is at `offset`.
    fn block_at(&self, offset: u64) -> Result<Row, Refusal> {
        if offset >= self.arena * GRANULE {
            return Err(Refusal::PastEnd);
        }
        if !offset.is_multiple_of(GRANULE) {
            return Err(Refusal::NotAligned);
        }
        let granule = offset / GRANULE;
        let block = self.block_with(granule).ok_or(Refusal::FreeMemory)?;
        if block.start != granule {
            return Err(Refusal::InsideBlock);
        }
        Ok(block)
    }

    fn block_with(&self, granule: u64) -> Option<Row> {
        let mut blocks = self.live.values();
        let block = blocks.find(|b| (b.start..b.end()).contains(&granule));
        block.copied()
    }

    /// Tries every start from 0 up.
    fn lowest_start(&self, length: u64, alignment: u64) -> Answer {
        let last = self.arena.checked_sub(length).ok_or(Refusal::NoStart)?;
        (0..=last)
            .filter(|start| (start * GRANULE).is_multiple_of(alignment))
            .find(|&start| self.is_clear(start, start + length))
            .ok_or(Refusal::NoStart)
    }

    /// Whether no live block has a granule from `start` to before `end`. Live
    /// blocks do not overlap, so of those that begin before `end` the last one
    /// reaches furthest.
    fn is_clear(&self, start: u64, end: u64) -> bool {
        self.end_before(end) <= start
    }

    /// The furthest end of the live blocks that begin before `granule`.
    fn end_before(&self, granule: u64) -> u64 {
        let before = self.live.range(..granule).next_back();
        before.map_or(0, |(_, block)| block.end())
    }

    /// The start of the first live block from `granule` on, or the arena's end.
    fn start_from(&self, granule: u64) -> u64 {
        let after = self.live.range(granule..).next();
        after.map_or(self.arena, |(&start, _)| start)
    }

    /// Puts a block in a clear place if the table has the rows for it.
    fn insert(&mut self, block: Row) -> Answer {
        let gap = u64::from(self.end_before(block.start) < block.start);
        let rest = u64::from(block.end() < self.start_from(block.end()));
        if self.rows().len() as u64 + gap + rest > self.most_rows {
            return Err(Refusal::NoRow);
        }
        self.live.insert(block.start, block);
        self.peak = self.peak.max(self.used());
        Ok(block.start * GRANULE)
    }

    /// The `seg` lines and the `sum` line.
    pub fn closing(&self) -> String {
        let rows = self.rows();
        let mut text: String = rows.iter().map(seg_line).collect();
        let free_rows = rows.iter().filter(|row| row.is_free());
        let longest = free_rows.map(|row| row.length).max().unwrap_or(0);
        text.push_str(&format!(
            "sum {} {} {} {}\n",
            self.used() * GRANULE,
            (self.arena - self.used()) * GRANULE,
            self.peak * GRANULE,
            longest * GRANULE
        ));
        text
    }
}

fn seg_line(row: &Row) -> String {
    format!(
        "seg {} {} {} {}\n",
        row.start * GRANULE,
        row.length * GRANULE,
        row.owner,
        row.requested
    )
}

pub fn owner_index(owner: u64) -> Result<usize, Refusal> {
    if (1..=OWNERS as u64).contains(&owner) {
        Ok(owner as usize - 1)
    } else {
        Err(Refusal::Owner)
    }
}
