//! What the default scripts cover, by the reference alone.

use std::collections::BTreeSet;

use compare::check::{DEFAULT_SCRIPTS, DEFAULT_SEED};
use compare::generate::script;
use compare::heap::{Heap, Row};
use compare::reference::{run, Machine};
use compare::refusal::Refusal;
use compare::report::agreement;
use compare::tally::{Tally, ENOUGH_SCRIPTS};
use compare::text::{lines, read, Request};

fn default_scripts() -> impl Iterator<Item = Vec<u8>> {
    (0..DEFAULT_SCRIPTS).map(|number| script(DEFAULT_SEED, number).bytes)
}

fn some(what: &str, covered: impl Fn(&[u8]) -> bool) {
    assert!(default_scripts().any(|script| covered(&script)), "{what}");
}

#[test]
fn every_refusal_occurs() {
    let mut total = Tally::default();
    default_scripts().for_each(|script| total.add(&run(&script).tally));
    assert_eq!(total.scripts, DEFAULT_SCRIPTS);
    for refusal in Refusal::EXPECTED {
        assert!(total.refused(refusal) > 50, "{refusal:?}");
    }
    assert_eq!(total.missing(), []);
}

#[test]
fn the_expected_refusals_are_all_from_1_on() {
    let numbers: Vec<u8> = Refusal::EXPECTED.iter().map(|r| r.number()).collect();
    let all: Vec<u8> = (1..=Refusal::EXPECTED.len() as u8).collect();
    assert_eq!(numbers, all);
    assert!(all.len() >= 17);
}

#[test]
fn a_refusal_that_never_occurs_is_missed() {
    let mut total = Tally::default();
    for refusal in Refusal::EXPECTED {
        if refusal != Refusal::NoRow {
            total.count(Err(refusal));
        }
    }
    total.scripts = ENOUGH_SCRIPTS - 1;
    assert_eq!(total.missing(), []);
    total.scripts = ENOUGH_SCRIPTS;
    assert_eq!(total.missing(), [Refusal::NoRow]);
}

#[test]
fn every_refusal_has_its_count_in_the_report() {
    let mut total = Tally::default();
    for refusal in Refusal::EXPECTED {
        total.count(Err(refusal));
    }
    let text = agreement(&total, 5);
    let counts = "no 1:1 2:1 3:1 4:1 5:1 6:1 7:1 8:1 9:1 10:1 11:1 12:1 13:1 14:1 15:1 16:1 17:1";
    assert!(text.ends_with(counts), "{text}");
}

#[test]
fn a_script_depends_on_seed_and_number_alone() {
    assert_eq!(script(5, 17), script(5, 17));
    assert_ne!(script(5, 17), script(5, 18));
    assert_ne!(script(5, 17), script(6, 17));
}

#[test]
fn odd_inputs() {
    some("empty", |script| script.is_empty());
    some("newlines only", |s| {
        s.len() > 1 && s.iter().all(|&b| b == b'\n')
    });
    some("no last newline", |s| s.len() > 100 && !s.ends_with(b"\n"));
    some("an empty last line", |s| {
        s.len() > 100 && s.ends_with(b"\n\n")
    });
    for byte in [0, b'\t', b'\r', 0xFF] {
        some("a stray byte", |script| script.contains(&byte));
    }
}

#[test]
fn long_lines_with_a_line_after_them() {
    let has = |length: usize| {
        move |script: &[u8]| {
            let all: Vec<&[u8]> = lines(script).collect();
            all.windows(2).any(|pair| pair[0].len() == length)
        }
    };
    for length in [79, 80, 81, 82, 4_095, 4_096, 4_097, 65_536] {
        some(&format!("a line of {length}"), has(length));
    }
}

#[test]
fn lines_about_the_end_of_an_input_block() {
    for at in 4_094..=4_097 {
        some("newline there", |script| script.get(at) == Some(&b'\n'));
        some("end of input there", |script| {
            script.len() >= at && (script.len() - at) % 4_096 == 0
        });
    }
    some("a readable line across", |script| {
        let mut at = 0;
        let granted = |line| Machine::default().answer(line).is_ok();
        lines(script).any(|line| {
            let start = at;
            at += line.len() + 1;
            start < 4_096 && 4_096 < start + line.len() && granted(line)
        })
    });
}

/// The table's most rows and a quota's most blocks are really used up.
#[test]
fn full_tables_and_quotas() {
    let meets = |refusal, blocks: usize| {
        move |script: &[u8]| {
            let mut machine = Machine::default();
            lines(script).any(|line| {
                let answer = machine.answer(line);
                let heap = machine.heap();
                answer == Err(refusal) && heap.is_some_and(|h| h.live().count() >= blocks)
            })
        }
    };
    some("no row among many", meets(Refusal::NoRow, 400));
    some("no block left of many", meets(Refusal::BlockQuota, 256));
}

/// A free and what it points at.
struct Free {
    owner: u64,
    offset: u64,
    end: u64,
    /// None from the arena's end on.
    row: Option<Row>,
    /// The offset was freed before, in the same heap.
    again: bool,
}

impl Free {
    fn new(heap: &Heap, freed: &BTreeSet<u32>, owner: u32, offset: u32) -> Free {
        let granule = u64::from(offset / 16);
        let mut rows = heap.rows().into_iter();
        Free {
            owner: owner.into(),
            offset: offset.into(),
            end: heap.arena() * 16,
            row: rows.find(|row| (row.start..row.end()).contains(&granule)),
            again: freed.contains(&offset),
        }
    }

    fn aligned(&self) -> bool {
        self.offset.is_multiple_of(16)
    }

    fn in_hole(&self) -> bool {
        self.row.is_some_and(|row| row.is_free())
    }

    /// The granule of a live block, counted from its first.
    fn in_block(&self) -> Option<u64> {
        let block = self.row.filter(|row| !row.is_free())?;
        Some(self.offset / 16 - block.start)
    }

    fn own(&self) -> bool {
        self.row.is_some_and(|row| row.owner == self.owner)
    }

    fn last_granule(&self) -> bool {
        self.row
            .is_some_and(|row| row.end() == self.offset / 16 + 1)
    }
}

/// Every free in a script that finds a heap and names an owner; without these
/// nothing looks at its offset.
fn frees(script: &[u8]) -> Vec<Free> {
    let mut machine = Machine::default();
    let mut freed = BTreeSet::new();
    let mut frees = Vec::new();
    for line in lines(script) {
        let request = read(line);
        if let (Some(Request::Free { owner, offset }), Some(heap)) = (request, machine.heap()) {
            frees.push(Free::new(heap, &freed, owner, offset));
        }
        match (request, machine.answer(line)) {
            (Some(Request::Free { offset, .. }), Ok(_)) => drop(freed.insert(offset)),
            (Some(Request::Make { .. }), Ok(_)) => freed.clear(),
            _ => {}
        }
    }
    frees.retain(|free| (1..=8).contains(&free.owner));
    frees
}

type Kind = fn(&Free) -> bool;

/// Both sides of every edge between two refusals of a free.
const KINDS: [(&str, Kind); 20] = [
    ("the last granule", |f| f.offset + 16 == f.end),
    ("the last byte", |f| f.offset + 1 == f.end),
    ("the end", |f| f.offset == f.end),
    ("the byte after the end", |f| f.offset == f.end + 1),
    ("the granule after the end", |f| f.offset == f.end + 16),
    ("far past the end", |f| f.offset > f.end + 65_536),
    ("unaligned in a hole", |f| !f.aligned() && f.in_hole()),
    ("unaligned in a first granule", |f| {
        !f.aligned() && f.in_block() == Some(0)
    }),
    ("unaligned after it", |f| {
        !f.aligned() && f.in_block() > Some(0)
    }),
    ("unaligned in another's", |f| {
        !f.aligned() && f.in_block().is_some() && !f.own()
    }),
    ("in a hole", |f| f.aligned() && f.in_hole()),
    ("a second granule", |f| {
        f.aligned() && f.in_block() == Some(1) && f.own()
    }),
    ("another's second granule", |f| {
        f.aligned() && f.in_block() == Some(1) && !f.own()
    }),
    ("a later last granule", |f| {
        f.aligned() && f.in_block() > Some(1) && f.last_granule()
    }),
    ("another's block", |f| {
        f.aligned() && f.in_block() == Some(0) && !f.own()
    }),
    ("again while free", |f| f.again && f.in_hole()),
    ("again, lent to another", |f| {
        f.again && f.in_block() == Some(0) && !f.own()
    }),
    ("again, lent to the same", |f| {
        f.again && f.in_block() == Some(0) && f.own()
    }),
    ("again, inside own", |f| {
        f.again && f.in_block() > Some(0) && f.own()
    }),
    ("again, inside another's", |f| {
        f.again && f.in_block() > Some(0) && !f.own()
    }),
];

#[test]
fn frees_at_every_edge() {
    let frees: Vec<Free> = default_scripts().flat_map(|s| frees(&s)).collect();
    for (name, of_kind) in KINDS {
        let times = frees.iter().filter(|free| of_kind(free)).count();
        assert!(times > 100, "{name}: {times}");
    }
}
