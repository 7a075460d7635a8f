//! Writes a script line by line. The reference runs along, so that requests
//! can aim at blocks, holes and quotas as they stand.

use super::damage;
use super::frees::aimed_free;
use super::numbers;
use super::plan::{Plan, QuotaStyle};
use crate::heap::{Heap, Row, GRANULE, MOST_SCRIPT_BYTES};
use crate::random::Random;
use crate::reference::Machine;
use crate::refusal::{Answer, Refusal};
use crate::text::{self, LONGEST_LINE};

/// Programs are likely to read their input in blocks of this many bytes.
const INPUT_BLOCK: usize = 4_096;

pub struct Writer<'a> {
    random: &'a mut Random,
    plan: Plan,
    machine: Machine,
    bytes: Vec<u8>,
    freed: Vec<Row>,
}

impl<'a> Writer<'a> {
    pub fn new(random: &'a mut Random, plan: Plan) -> Writer<'a> {
        Writer {
            random,
            plan,
            machine: Machine::default(),
            bytes: Vec::new(),
            freed: Vec::new(),
        }
    }

    pub fn write(mut self) -> Vec<u8> {
        if self.random.percent(95) {
            self.open(self.plan.owners);
        }
        for _ in 0..self.plan.lines {
            self.step();
        }
        self.close();
        self.bytes
    }

    /// Quotas, and a heap made with them.
    fn open(&mut self, owners: u64) {
        for owner in 1..=owners {
            let line = self.quota_line(owner);
            self.push(&line);
        }
        let line = self.make_line();
        self.push(&line);
    }

    fn step(&mut self) {
        let mut line = self.request_line();
        if self.random.percent(self.plan.percent.damaged) {
            damage::damage(self.random, &mut line);
        }
        if self.random.percent(self.plan.percent.long) {
            line = damage::long_line(self.random, &line);
        }
        if self.random.percent(self.plan.percent.straddling) {
            let ahead = self.random.index(line.len().min(LONGEST_LINE + 1) + 2);
            self.fill(ahead);
        }
        let refused_quotas = self.push(&line) == Some(Err(Refusal::QuotaRange));
        if refused_quotas && self.random.percent(70) {
            self.open(8);
        }
    }

    /// Ends the script, where lines straddle at the very end of an input block.
    fn close(&mut self) {
        if self.plan.percent.straddling > 0 {
            let line = self.request_line();
            let ahead = line.len() + self.random.index(3);
            self.fill(ahead);
            self.push(&line);
        }
        match self.random.below(20) {
            0..=5 => drop(self.bytes.pop()),
            6 => self.bytes.push(b'\n'),
            _ => {}
        }
    }

    /// Appends a line and answers it; damage may have made several of it.
    fn push(&mut self, line: &[u8]) -> Option<Answer> {
        let at = self.bytes.len();
        self.bytes.extend_from_slice(line);
        self.bytes.push(b'\n');
        let lines = text::lines(&self.bytes[at..]);
        lines.map(|line| self.machine.answer(line)).last()
    }

    /// Fills up with lines so that the next one begins `ahead` bytes before
    /// the end of an input block.
    fn fill(&mut self, ahead: usize) {
        let by_requests = self.random.percent(50);
        let mut gap = INPUT_BLOCK - (self.bytes.len() + ahead) % INPUT_BLOCK;
        while by_requests && gap > 2 * LONGEST_LINE {
            let before = self.bytes.len();
            let line = self.request_line();
            self.push(&line);
            gap -= self.bytes.len() - before;
        }
        self.push(&vec![b'x'; gap - 1]);
    }

    fn request_line(&mut self) -> Vec<u8> {
        let percent = self.plan.percent;
        let (make, free) = match self.machine.heap() {
            None => (20, percent.free),
            Some(heap) if heap.live().next().is_none() => (percent.make, 10),
            Some(_) => (percent.make, percent.free),
        };
        if self.random.percent(percent.quota) {
            let owner = self.random.range(1, 8);
            return match self.random.percent(30) {
                true => self.edge_quota_line(owner),
                false => self.quota_line(owner),
            };
        }
        if self.random.percent(make) {
            return self.make_line();
        }
        match self.random.percent(free) {
            true => self.free_line(),
            false => self.alloc_line(),
        }
    }

    fn line(&mut self, word: &str, numbers: &[u64]) -> Vec<u8> {
        let mut line = String::from(word);
        for &number in numbers {
            line.push(' ');
            line.push_str(&match self.random.percent(self.plan.percent.hostile) {
                true => numbers::hostile(self.random, number),
                false => numbers::plain(self.random, number),
            });
        }
        line.into_bytes()
    }

    fn quota_line(&mut self, owner: u64) -> Vec<u8> {
        let (granules, blocks) = match self.plan.quotas {
            QuotaStyle::Ample => (65_536, 256),
            QuotaStyle::Tight => (self.random.range(0, 16), self.random.range(0, 5)),
            QuotaStyle::Fitting => (
                self.random.range(1, self.plan.granules),
                self.random.range(1, 20),
            ),
        };
        self.line("limit", &[owner, granules, blocks])
    }

    fn edge_quota_line(&mut self, owner: u64) -> Vec<u8> {
        let granules = self.random.pick(&[0, 65_535, 65_536, 65_537]);
        let blocks = self.random.pick(&[0, 255, 256, 257]);
        self.line("limit", &[owner, granules, blocks])
    }

    /// The plan's heap, another one, or one that is refused.
    fn make_line(&mut self) -> Vec<u8> {
        let (bytes, rows) = (self.plan.granules * GRANULE, self.plan.rows);
        let (bytes, rows) = match self.random.below(20) {
            0 => (bytes + self.random.range(1, 15), rows),
            1 => (MOST_SCRIPT_BYTES + GRANULE * self.random.below(3), rows),
            2 => (bytes, self.random.pick(&[0, 1, 512, 513, (1 << 30) + rows])),
            3 => (GRANULE * self.random.range(0, 4), self.random.range(0, 4)),
            4 => (
                self.random.pick(&[0, 1, 15, 24]),
                self.random.pick(&[0, 513]),
            ),
            _ => (bytes, rows),
        };
        self.line("make", &[bytes, rows])
    }

    fn alloc_line(&mut self) -> Vec<u8> {
        let owner = match self.random.percent(92) {
            true => self.random.range(1, self.plan.owners),
            false => self.random.range(1, 8),
        };
        let size = self.size(owner);
        let alignment = match self.random.percent(self.plan.percent.aligned) {
            true => self.alignment(),
            false => GRANULE,
        };
        self.line("ask", &[owner, size, alignment])
    }

    /// Powers of two, most of them below the arena's length.
    fn alignment(&mut self) -> u64 {
        let most = (self.plan.granules.ilog2() as u64).clamp(1, 8);
        match self.random.below(20) {
            0 => GRANULE << self.random.range(0, 8),
            1 => self.random.pick(&[8, 24, 48, 8_192]),
            _ => GRANULE << self.random.range(1, most),
        }
    }

    fn size(&mut self, owner: u64) -> u64 {
        let aimed = self.random.percent(self.plan.percent.aimed);
        let granules = match self.machine.heap() {
            Some(heap) if aimed => aimed_granules(self.random, heap, owner),
            _ => self.random.range(1, self.plan.block),
        };
        let short = match self.random.percent(50) {
            true => self.random.below(GRANULE),
            false => 0,
        };
        (granules * GRANULE).saturating_sub(short)
    }

    fn free_line(&mut self) -> Vec<u8> {
        let (owner, offset) = match self.machine.heap() {
            Some(heap) => aimed_free(self.random, heap, &mut self.freed),
            None => (1, 0),
        };
        self.line("back", &[owner, offset])
    }
}

/// A length that fills a hole or a quota, or misses it by one.
fn aimed_granules(random: &mut Random, heap: &Heap, owner: u64) -> u64 {
    let rows = heap.rows();
    let holes = rows.iter().filter(|row| row.is_free());
    let holes: Vec<u64> = holes.map(|row| row.length).collect();
    let longest = holes.iter().copied().max().unwrap_or(1);
    let quota = heap.quota(owner).unwrap_or_default();
    let left = quota.granules.saturating_sub(heap.held(owner).granules);
    match random.below(12) {
        0..=4 if !holes.is_empty() => random.pick(&holes) + random.pick(&[0, 0, 1]),
        5 => longest,
        6 => longest + 1,
        7..=8 => left,
        9 => left + 1,
        _ => random.range(1, heap.arena()),
    }
}
