//! A second script machine, over a table of rows. It can be told to err in one
//! way; without a fault it has to agree with the reference.

mod heap;
mod text;

use std::io;

use compare::generate::Script;
use compare::run::{Outcome, Runner};
use heap::{Heap, Limits};

macro_rules! faults {
    ($($(#[$meta:meta])* $name:ident,)*) => {
        #[derive(Clone, Copy, Debug, PartialEq, Eq)]
        pub enum Fault {
            Nothing,
            $($(#[$meta])* $name,)*
        }

        pub const FAULTS: &[Fault] = &[$(Fault::$name,)*];
    };
}

faults! {
    // The place of a block
    FirstHoleThenAlign,
    MoreThanForAtLeast,
    MoreThanInLastHole,
    ShortestHole,
    FreeTotalForPlace,
    // The rows
    RowsForEveryCut,
    LaterStartAfterNoRow,
    JoinsAfterOnly,
    JoinsBeforeOnly,
    // Figures
    AddsFifteen,
    PeakFalls,
    RoundsRequested,
    // Who may do what
    GranulesBeforeBlocks,
    BlocksAboveQuota,
    GranulesBelowQuota,
    AlignmentBelow4096,
    AlignmentOfAnyGranules,
    OtherOwnerUnknown,
    OffsetBeforeOwner,
    HolderBeforeAlignment,
    HolderBeforeInside,
    // Where a free may point
    BadOffsetsAlike,
    PastEndByMoreThan,
    LastGranulePastEnd,
    OffsetInSixteenBits,
    AlignmentBeforeEnd,
    RoundsOffsetDown,
    AlignedToEight,
    FreeBeforeAlignment,
    InsideBeforeAlignment,
    FreedStaysFree,
    NextGranuleInside,
    LastGranuleFree,
    FirstGranuleInside,
    SecondGranuleFrees,
    FreesFromInside,
    // Making
    QuotaAtOnce,
    QuotasForgotten,
    QuotaOf257Blocks,
    LastOwnerUnchecked,
    RefusedMakeDropsHeap,
    TableBeforeArena,
    RowsWrap,
    LargeArena,
    // Lines
    LosesLastLine,
    LineAfterLastNewline,
    SkipsEmptyLines,
    SplitsLongLines,
    LengthInAByte,
    ForgetsAtBlockEnd,
    // Fields
    StopsAtNul,
    DropsCarriageReturn,
    TabsAreSpaces,
    SpacesInARow,
    AnyCase,
    FieldsToSpare,
    LeadingZeroRefused,
    ElevenDigits,
    NumbersWrap,
    PlusSign,
}

pub struct Faulty(pub Fault);

impl Runner for Faulty {
    fn run(&self, script: &Script, _most: usize) -> io::Result<Outcome> {
        Ok(Outcome {
            output: output(self.0, &script.bytes),
            fault: None,
        })
    }
}

pub type Answer = Result<u32, u8>;

struct Machine {
    fault: Fault,
    limits: Limits,
    heap: Option<Heap>,
}

pub fn output(fault: Fault, script: &[u8]) -> Vec<u8> {
    let mut machine = Machine {
        fault,
        limits: Limits::default(),
        heap: None,
    };
    let mut output = String::new();
    for line in text::lines(fault, script) {
        output.push_str(&match machine.answer(&line) {
            Ok(value) => format!("ok {value}\n"),
            Err(number) => format!("no {number}\n"),
        });
    }
    if let Some(heap) = &machine.heap {
        output.push_str(&heap.listing());
    }
    output.into_bytes()
}

impl Machine {
    fn answer(&mut self, line: &[u8]) -> Answer {
        let (word, numbers) = text::read(self.fault, line).ok_or(14)?;
        match (word.as_str(), numbers.as_slice()) {
            ("limit", &[owner, granules, blocks]) => self.limit(owner, [granules, blocks]),
            ("make", &[bytes, rows]) => self.make(bytes, rows),
            ("ask", &[owner, size, alignment]) => {
                let heap = self.heap.as_mut().ok_or(1)?;
                heap.alloc(owner, size, alignment)
            }
            ("back", &[owner, offset]) => self.heap.as_mut().ok_or(1)?.free(owner, offset),
            _ => Err(14),
        }
    }

    fn limit(&mut self, owner: u32, limit: [u32; 2]) -> Answer {
        if owner == 0 || owner > 8 {
            return Err(2);
        }
        self.limits[owner as usize - 1] = limit;
        if self.fault == Fault::QuotaAtOnce {
            let heap = self.heap.as_mut();
            heap.into_iter().for_each(|heap| heap.limits = self.limits);
        }
        Ok(limit[0])
    }

    fn make(&mut self, bytes: u32, rows: u32) -> Answer {
        let refused = self.refuse_make(bytes, rows);
        if refused.is_ok() {
            self.heap = Some(Heap::new(self.fault, bytes / 16, rows, self.limits));
        } else if self.fault == Fault::RefusedMakeDropsHeap {
            self.heap = None;
        }
        if self.fault == Fault::QuotasForgotten {
            self.limits = Limits::default();
        }
        refused.map(|()| bytes)
    }

    fn refuse_make(&self, bytes: u32, rows: u32) -> Result<(), u8> {
        let most_bytes = match self.fault {
            Fault::LargeArena => 1 << 20,
            _ => 1 << 16,
        };
        let words = match self.fault {
            Fault::RowsWrap => u64::from(rows.wrapping_mul(4)),
            _ => 4 * u64::from(rows),
        };
        let bad_arena = !(16..=most_bytes).contains(&bytes) || !bytes.is_multiple_of(16);
        let bad_table = !(4..=2048).contains(&words);
        match (bad_arena, bad_table) {
            (true, true) if self.fault == Fault::TableBeforeArena => Err(12),
            (true, _) => Err(11),
            (_, true) => Err(12),
            _ => self.refuse_limits(),
        }
    }

    fn refuse_limits(&self) -> Result<(), u8> {
        let most_blocks = match self.fault {
            Fault::QuotaOf257Blocks => 257,
            _ => 256,
        };
        let checked = match self.fault {
            Fault::LastOwnerUnchecked => &self.limits[..7],
            _ => &self.limits[..],
        };
        let bad = |limit: &[u32; 2]| limit[0] > 65536 || limit[1] > most_blocks;
        match checked.iter().any(bad) {
            true => Err(13),
            false => Ok(()),
        }
    }
}
