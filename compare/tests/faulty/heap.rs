//! A heap as its table: start, length, owner and bytes requested of each row.

use super::{Answer, Fault};

/// Granules and blocks of each owner.
pub type Limits = [[u32; 2]; 8];
type Row = [u32; 4];

pub struct Heap {
    fault: Fault,
    rows: Vec<Row>,
    most_rows: u32,
    pub limits: Limits,
    arena: u32,
    used: u32,
    peak: u32,
    /// Starts of blocks that were freed.
    freed: Vec<u32>,
}

impl Heap {
    pub fn new(fault: Fault, arena: u32, most_rows: u32, limits: Limits) -> Heap {
        Heap {
            fault,
            rows: vec![[0, arena, 0, 0]],
            most_rows,
            limits,
            arena,
            used: 0,
            peak: 0,
            freed: Vec::new(),
        }
    }

    pub fn alloc(&mut self, owner: u32, size: u32, alignment: u32) -> Answer {
        if owner == 0 || owner > 8 {
            return Err(2);
        }
        if size == 0 {
            return Err(3);
        }
        if !self.alignment_allowed(alignment) {
            return Err(4);
        }
        let length = match self.fault {
            Fault::AddsFifteen => size.wrapping_add(15) / 16,
            _ => size.div_ceil(16),
        };
        self.refuse_quota(owner, length)?;
        match self.place(length, alignment / 16) {
            Some((at, start)) => self.cut(at, [start, length, owner, size]),
            None => self.no_place(length),
        }
    }

    fn alignment_allowed(&self, alignment: u32) -> bool {
        let most = match self.fault {
            Fault::AlignmentBelow4096 => 4095,
            _ => 4096,
        };
        let right_kind = match self.fault {
            Fault::AlignmentOfAnyGranules => alignment.is_multiple_of(16),
            _ => alignment.is_power_of_two(),
        };
        right_kind && (16..=most).contains(&alignment)
    }

    fn refuse_quota(&self, owner: u32, length: u32) -> Result<(), u8> {
        let own = self.rows.iter().filter(|row| row[2] == owner);
        let (granules, blocks) = own.fold((0, 0), |(g, b), row| (g + row[1], b + 1));
        let [most_granules, most_blocks] = self.limits[owner as usize - 1];
        let too_many = match self.fault {
            Fault::BlocksAboveQuota => blocks > most_blocks,
            _ => blocks >= most_blocks,
        };
        let too_long = match self.fault {
            Fault::GranulesBelowQuota => granules + length >= most_granules,
            _ => granules + length > most_granules,
        };
        match (too_many, too_long) {
            (true, true) if self.fault == Fault::GranulesBeforeBlocks => Err(6),
            (true, _) => Err(5),
            (_, true) => Err(6),
            _ => Ok(()),
        }
    }

    /// The row and the start in it.
    fn place(&self, length: u32, step: u32) -> Option<(usize, u32)> {
        let holes = (0..self.rows.len()).filter(|&at| self.rows[at][2] == 0);
        let start = |at: usize| Some((at, self.start_in(at, length, step)?));
        match self.fault {
            Fault::FirstHoleThenAlign => {
                let mut long_enough = holes.filter(|&at| self.rows[at][1] >= length);
                long_enough.next().and_then(start)
            }
            Fault::ShortestHole => holes.filter_map(start).min_by_key(|p| self.rows[p.0][1]),
            Fault::LaterStartAfterNoRow => {
                let fits = |p: &(usize, u32)| self.new_rows(p.0, p.1, length).is_ok();
                let mut places = holes.clone().filter_map(start);
                places.find(fits).or(holes.filter_map(start).next())
            }
            _ => holes.filter_map(start).next(),
        }
    }

    fn start_in(&self, at: usize, length: u32, step: u32) -> Option<u32> {
        let [hole, hole_length, ..] = self.rows[at];
        let start = hole.next_multiple_of(step);
        let end = hole + hole_length;
        let exact_refused = match self.fault {
            Fault::MoreThanForAtLeast => true,
            Fault::MoreThanInLastHole => end == self.arena,
            _ => false,
        };
        let fits = start + length + u32::from(exact_refused) <= end;
        fits.then_some(start)
    }

    fn no_place(&self, length: u32) -> Answer {
        let taken_for_place =
            self.fault == Fault::FreeTotalForPlace && self.arena - self.used >= length;
        let hole = self.rows.iter().find(|row| row[2] == 0);
        match hole {
            Some(row) if taken_for_place => Ok(row[0] * 16),
            _ => Err(7),
        }
    }

    /// The gap before and the rest after, if the table has rows for them.
    fn new_rows(&self, at: usize, start: u32, length: u32) -> Result<[u32; 2], u8> {
        let [hole, hole_length, ..] = self.rows[at];
        let gap = start - hole;
        let rest = hole_length - gap - length;
        let more = match self.fault {
            Fault::RowsForEveryCut => 1 + u32::from(gap > 0),
            _ => u32::from(gap > 0) + u32::from(rest > 0),
        };
        match self.rows.len() as u32 + more > self.most_rows {
            true => Err(8),
            false => Ok([gap, rest]),
        }
    }

    fn cut(&mut self, at: usize, mut block: Row) -> Answer {
        let [start, length, ..] = block;
        let [gap, rest] = self.new_rows(at, start, length)?;
        if self.fault == Fault::RoundsRequested {
            block[3] = length * 16;
        }
        let before = [start - gap, gap, 0, 0];
        let after = [start + length, rest, 0, 0];
        let pieces = [before, block, after].into_iter().filter(|row| row[1] > 0);
        self.rows.splice(at..=at, pieces);
        self.used += length;
        self.peak = self.peak.max(self.used);
        Ok(start * 16)
    }

    pub fn free(&mut self, owner: u32, offset: u32) -> Answer {
        let offset = match self.fault {
            Fault::RoundsOffsetDown => offset / 16 * 16,
            Fault::OffsetInSixteenBits => offset % (1 << 16),
            _ => offset,
        };
        let mut order = self.order_of_free().iter().copied();
        if let Some(number) = order.find(|&number| self.refuses_free(number, owner, offset)) {
            return Err(self.told(number));
        }
        let at = self.row_with(offset / 16);
        let [start, length, ..] = self.rows[at];
        self.release(at);
        self.freed.push(start);
        self.used -= length;
        if self.fault == Fault::PeakFalls {
            self.peak = self.used;
        }
        Ok(length * 16)
    }

    /// The numbers of a free in the order in which they are looked at.
    fn order_of_free(&self) -> &'static [u8] {
        match self.fault {
            Fault::OffsetBeforeOwner => &[15, 16, 17, 9, 2, 10],
            Fault::AlignmentBeforeEnd => &[2, 16, 15, 17, 9, 10],
            Fault::FreeBeforeAlignment => &[2, 15, 17, 16, 9, 10],
            Fault::InsideBeforeAlignment => &[2, 15, 9, 16, 17, 10],
            Fault::HolderBeforeAlignment => &[2, 15, 10, 16, 17, 9],
            Fault::HolderBeforeInside => &[2, 15, 16, 17, 10, 9],
            Fault::FreesFromInside => &[2, 15, 16, 17, 10],
            _ => &[2, 15, 16, 17, 9, 10],
        }
    }

    fn refuses_free(&self, number: u8, owner: u32, offset: u32) -> bool {
        let granule = offset / 16;
        let row = self.rows.get(self.row_with(granule));
        // Past the end is as free as a hole.
        let row = row.copied().unwrap_or_default();
        match number {
            2 => owner == 0 || owner > 8,
            15 => self.past_end(offset),
            16 => !self.aligned(offset),
            17 => self.in_free_memory(granule, row),
            9 => row[2] > 0 && self.after_first(granule, row[0]),
            _ => row[2] > 0 && row[2] != owner,
        }
    }

    /// The rows cover the arena in address order, so the first that ends after
    /// a granule has it.
    fn row_with(&self, granule: u32) -> usize {
        let more = |row: &Row| match self.fault {
            Fault::NextGranuleInside => u32::from(row[2] > 0),
            _ => 0,
        };
        self.rows
            .partition_point(|row| row[0] + row[1] + more(row) <= granule)
    }

    fn past_end(&self, offset: u32) -> bool {
        let end = self.arena * 16;
        match self.fault {
            Fault::PastEndByMoreThan => offset > end,
            Fault::LastGranulePastEnd => offset >= end - 16,
            _ => offset >= end,
        }
    }

    fn aligned(&self, offset: u32) -> bool {
        offset.is_multiple_of(match self.fault {
            Fault::AlignedToEight => 8,
            _ => 16,
        })
    }

    fn in_free_memory(&self, granule: u32, [start, length, holder, _]: Row) -> bool {
        let seems_free = match self.fault {
            Fault::LastGranuleFree => length > 1 && granule + 1 == start + length,
            Fault::FreedStaysFree => granule > start && self.freed.contains(&granule),
            _ => false,
        };
        holder == 0 || seems_free
    }

    fn after_first(&self, granule: u32, start: u32) -> bool {
        match self.fault {
            Fault::FirstGranuleInside => granule >= start,
            Fault::SecondGranuleFrees => granule > start + 1,
            _ => granule > start,
        }
    }

    fn told(&self, number: u8) -> u8 {
        match (self.fault, number) {
            (Fault::OtherOwnerUnknown, 10) => 9,
            (Fault::BadOffsetsAlike, 15..=17) => 9,
            _ => number,
        }
    }

    fn release(&mut self, at: usize) {
        self.rows[at][2..].fill(0);
        if self.fault != Fault::JoinsBeforeOnly {
            self.join_to_previous(at + 1);
        }
        if self.fault != Fault::JoinsAfterOnly {
            self.join_to_previous(at);
        }
    }

    fn join_to_previous(&mut self, at: usize) {
        let both = at > 0 && at < self.rows.len();
        if both && self.rows[at - 1][2] == 0 && self.rows[at][2] == 0 {
            self.rows[at - 1][1] += self.rows[at][1];
            self.rows.remove(at);
        }
    }

    pub fn listing(&self) -> String {
        let mut text = String::new();
        for [start, length, owner, requested] in &self.rows {
            let (start, length) = (start * 16, length * 16);
            text += &format!("seg {start} {length} {owner} {requested}\n");
        }
        let free = self.rows.iter().filter(|row| row[2] == 0);
        let longest = 16 * free.map(|row| row[1]).max().unwrap_or(0);
        let [used, free, peak] = [self.used, self.arena - self.used, self.peak].map(|g| g * 16);
        text + &format!("sum {used} {free} {peak} {longest}\n")
    }
}
