//! The reference: answers a script by the set of live blocks alone.

use crate::heap::{owner_index, Heap, Quota, Quotas};
use crate::refusal::{Answer, Refusal};
use crate::tally::Tally;
use crate::text::{self, Request};

/// What a script's lines work on: the quotas for the next making, and the heap
/// of the last making that was granted.
#[derive(Clone, Debug, Default)]
pub struct Machine {
    next_quotas: Quotas,
    heap: Option<Heap>,
}

impl Machine {
    /// Answers one line, given without its newline.
    pub fn answer(&mut self, line: &[u8]) -> Answer {
        match text::read(line).ok_or(Refusal::Unreadable)? {
            Request::SetQuota {
                owner,
                granules,
                blocks,
            } => self.set_quota(owner.into(), granules.into(), blocks.into()),
            Request::Make { bytes, rows } => self.make(bytes.into(), rows.into()),
            Request::Alloc {
                owner,
                size,
                alignment,
            } => self
                .valid_heap()?
                .alloc(owner.into(), size.into(), alignment.into()),
            Request::Free { owner, offset } => self.valid_heap()?.free(owner.into(), offset.into()),
        }
    }

    pub fn heap(&self) -> Option<&Heap> {
        self.heap.as_ref()
    }

    fn valid_heap(&mut self) -> Result<&mut Heap, Refusal> {
        self.heap.as_mut().ok_or(Refusal::InvalidHeap)
    }

    /// Any figures will do here: the making looks at their range.
    fn set_quota(&mut self, owner: u64, granules: u64, blocks: u64) -> Answer {
        self.next_quotas[owner_index(owner)?] = Quota { granules, blocks };
        Ok(granules)
    }

    fn make(&mut self, bytes: u64, rows: u64) -> Answer {
        self.heap = Some(Heap::make(bytes, rows, self.next_quotas)?);
        Ok(bytes)
    }
}

/// What a right program writes for a script, with its answers counted.
pub struct Expected {
    pub output: Vec<u8>,
    pub tally: Tally,
}

pub fn run(script: &[u8]) -> Expected {
    let mut machine = Machine::default();
    let mut tally = Tally::of_script(script);
    let mut output = String::new();
    for line in text::lines(script) {
        let answer = machine.answer(line);
        tally.count(answer);
        output.push_str(&match answer {
            Ok(value) => format!("ok {value}\n"),
            Err(refusal) => format!("no {}\n", refusal.number()),
        });
    }
    if let Some(heap) = machine.heap() {
        output.push_str(&heap.closing());
    }
    Expected {
        output: output.into_bytes(),
        tally,
    }
}
