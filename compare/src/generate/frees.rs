//! What a free names: mostly a live block and its owner, else mostly a place that
//! the heap refuses, on both sides of where one refusal gives way to another.

use crate::heap::{Heap, Row, GRANULE};
use crate::random::Random;

/// Frees remembered for a second try.
const REMEMBERED: usize = 8;

/// Owner and offset.
pub fn aimed_free(random: &mut Random, heap: &Heap, freed: &mut Vec<Row>) -> (u64, u64) {
    let live: Vec<Row> = heap.live().copied().collect();
    if live.is_empty() || random.percent(35) {
        return stray_free(random, heap, freed);
    }
    let block = random.pick(&live);
    freed.truncate(REMEMBERED - 1);
    freed.insert(0, block);
    (block.owner, first_byte(block))
}

/// Owner and offset that seldom free anything. The owner is often that of the
/// place or of another row, so that often nothing but the offset is wrong.
fn stray_free(random: &mut Random, heap: &Heap, freed: &[Row]) -> (u64, u64) {
    let rows = heap.rows();
    let (row, offset) = match random.below(20) {
        0..=2 => (random.pick(&rows), first_byte(a_block(random, &rows))),
        3..=6 => after_first(random, &rows),
        7..=9 => in_a_hole(random, &rows),
        10..=13 => (random.pick(&rows), about_the_end(random, heap)),
        14 => far_off(random, &rows),
        15 => (random.pick(&rows), GRANULE * random.below(heap.arena())),
        _ => once_more(random, if freed.is_empty() { &rows } else { freed }),
    };
    let owner = match row.is_free() || random.percent(30) {
        true => random.range(1, 8),
        false => row.owner,
    };
    (owner, offset + odd_bytes(random))
}

/// One of the rows of a kind, or of all if there is none of the kind.
fn one_of(random: &mut Random, rows: &[Row], of_kind: fn(&Row) -> bool) -> Row {
    let some: Vec<Row> = rows.iter().copied().filter(of_kind).collect();
    random.pick(if some.is_empty() { rows } else { &some })
}

fn a_block(random: &mut Random, rows: &[Row]) -> Row {
    one_of(random, rows, |row| !row.is_free())
}

fn first_byte(row: Row) -> u64 {
    row.start * GRANULE
}

/// Where a block began, whatever is there now.
fn once_more(random: &mut Random, freed: &[Row]) -> (Row, u64) {
    let block = random.pick(freed);
    (block, first_byte(block))
}

/// A later granule of a live block: the second, the last or one between.
fn after_first(random: &mut Random, rows: &[Row]) -> (Row, u64) {
    let block = one_of(random, rows, |row| !row.is_free() && row.length > 1);
    let granule = random.pick(&[1, block.length / 2, block.length - 1]);
    (block, (block.start + granule) * GRANULE)
}

/// A hole's first granule, its last or one between.
fn in_a_hole(random: &mut Random, rows: &[Row]) -> (Row, u64) {
    let hole = one_of(random, rows, Row::is_free);
    let granule = random.pick(&[0, hole.length / 2, hole.length - 1]);
    (hole, (hole.start + granule) * GRANULE)
}

/// The arena's last granule and last byte, its end, and what comes after.
fn about_the_end(random: &mut Random, heap: &Heap) -> u64 {
    let last = (heap.arena() - 1) * GRANULE;
    last + random.pick(&[0, 15, 16, 16, 17, 31, 32])
}

/// Where a narrow word would take the offset for that of a row.
fn far_off(random: &mut Random, rows: &[Row]) -> (Row, u64) {
    let row = random.pick(rows);
    (row, first_byte(row) + (1 << random.range(12, 31)))
}

/// Now and then, what makes an offset no multiple of a granule.
fn odd_bytes(random: &mut Random) -> u64 {
    match random.below(8) {
        0 => random.range(1, GRANULE - 1),
        1 => random.pick(&[1, 8, 15]),
        _ => 0,
    }
}
