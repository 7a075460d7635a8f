//! The reference against the papers' example, edges and easy mistakes. Strokes
//! stand for newlines.

use compare::heap::granules;
use compare::reference::run;

fn expect(script: &str, output: &str) {
    let written = run(script.replace('/', "\n").as_bytes()).output;
    let written = String::from_utf8(written).unwrap();
    assert_eq!(written.trim_end().replace('\n', "/"), output, "{script}");
}

/// Runs `script` on a heap of owners 1 and 2 with ample quotas and leaves out
/// the answers to that beginning.
fn expect_on(make: &str, script: &str, output: &str) {
    let opening = format!("limit 1 65536 256/limit 2 65536 256/{make}");
    let bytes = make.split(' ').nth(1).unwrap();
    let opened = format!("ok 65536/ok 65536/ok {bytes}");
    expect(
        &format!("{opening}/{script}"),
        &format!("{opened}/{output}"),
    );
}

#[test]
fn the_example_to_the_letter() {
    let script = "limit 1 5 2/limit 2 3 2/make 128 8/ask 1 40 16/ask 2 16 32/ask 1 17 16\
                  /ask 1 1 16/back 2 0/back 1 0/ask 2 33 16/ask 2 32 64/ask 1 48 16";
    let output = "\
ok 5
ok 3
ok 128
ok 0
ok 64
ok 80
no 5
no 10
ok 48
no 6
ok 0
no 7
seg 0 32 2 32
seg 32 32 0 0
seg 64 16 2 16
seg 80 32 1 17
seg 112 16 0 0
sum 80 48 96 32
";
    for ending in ["", "\n"] {
        let script = script.replace('/', "\n") + ending;
        let written = run(script.as_bytes()).output;
        assert_eq!(String::from_utf8(written).unwrap(), output);
    }
}

#[test]
fn sizes_round_up_to_granules() {
    let needed = [1, 16, 17, 4_294_967_295].map(granules);
    assert_eq!(needed, [1, 1, 2, 268_435_456]);
    expect_on(
        "make 65536 512",
        "ask 1 4294967295 16/ask 1 4294967281 16/ask 1 1048577 16/ask 1 1048576 16",
        "no 6/no 6/no 6/no 7/seg 0 65536 0 0/sum 0 65536 0 65536",
    );
}

#[test]
fn alignments() {
    expect_on(
        "make 16384 8",
        "ask 1 1 16/ask 1 1 4096/ask 1 1 4096/ask 1 1 8/ask 1 1 24/ask 1 1 8192/ask 1 1 0",
        "ok 0/ok 4096/ok 8192/no 4/no 4/no 4/no 4\
         /seg 0 16 1 1/seg 16 4080 0 0/seg 4096 16 1 1/seg 4112 4080 0 0\
         /seg 8192 16 1 1/seg 8208 8176 0 0/sum 48 16336 48 8176",
    );
}

#[test]
fn arenas_and_tables() {
    expect("make 16 1", "ok 16/seg 0 16 0 0/sum 0 16 0 16");
    expect(
        "make 65536 512",
        "ok 65536/seg 0 65536 0 0/sum 0 65536 0 65536",
    );
    expect(
        "make 0 1/make 24 1/make 65552 1/make 1048576 1",
        "no 11/no 11/no 11/no 11",
    );
    expect(
        "make 16 0/make 16 513/make 16 1073741825",
        "no 12/no 12/no 12",
    );
    expect("make 0 0", "no 11");
}

#[test]
fn quotas_are_looked_at_by_make() {
    expect(
        "limit 1 65536 256/make 16 1",
        "ok 65536/ok 16/seg 0 16 0 0/sum 0 16 0 16",
    );
    expect("limit 8 65537 1/make 16 1", "ok 65537/no 13");
    expect("limit 3 4294967295 1/make 16 1", "ok 4294967295/no 13");
    expect(
        "limit 8 1 257/make 16 0/make 17 0/make 16 1",
        "ok 1/no 12/no 11/no 13",
    );
    expect(
        "limit 0 1 1/limit 9 1 1/limit 257 65537 257",
        "no 2/no 2/no 2",
    );
}

#[test]
fn a_quota_takes_effect_at_the_next_make_and_stays() {
    expect(
        "make 32 4/limit 1 1 1/ask 1 1 16/make 32 4/limit 1 0 0/ask 1 1 16/back 1 0\
         /limit 1 1 1/make 16 1/make 32 4/ask 1 16 16",
        "ok 32/ok 1/no 5/ok 32/ok 0/ok 0/ok 16\
         /ok 1/ok 16/ok 32/ok 0/seg 0 16 1 16/seg 16 16 0 0/sum 16 16 16 16",
    );
}

#[test]
fn a_refused_make_keeps_the_heap() {
    expect_on(
        "make 32 4",
        "ask 1 1 16/make 8 1/make 16 0/limit 5 65537 0/make 16 1/back 1 0",
        "ok 0/no 11/no 12/ok 65537/no 13/ok 16/seg 0 32 0 0/sum 0 32 16 32",
    );
}

#[test]
fn before_any_make_there_is_no_heap() {
    expect(
        "ask 9 0 3/back 0 1/make 8 1/ask 1 1 16/back 1 0/back 1 1/back 1 4294967280",
        "no 1/no 1/no 11/no 1/no 1/no 1/no 1",
    );
}

#[test]
fn filling_the_arena_exactly() {
    expect_on(
        "make 64 8",
        "ask 1 64 16",
        "ok 0/seg 0 64 1 64/sum 64 0 64 0",
    );
    expect_on(
        "make 64 8",
        "ask 1 65 16",
        "no 7/seg 0 64 0 0/sum 0 64 0 64",
    );
}

#[test]
fn one_row_serves_only_the_whole_arena() {
    expect_on(
        "make 64 1",
        "ask 1 64 16",
        "ok 0/seg 0 64 1 64/sum 64 0 64 0",
    );
    expect_on(
        "make 64 1",
        "ask 1 48 16",
        "no 8/seg 0 64 0 0/sum 0 64 0 64",
    );
}

#[test]
fn a_hole_used_up_whole_needs_no_row() {
    expect_on(
        "make 64 3",
        "ask 1 16 16/ask 1 16 16/back 1 0/ask 1 1 16/ask 1 16 16/ask 1 32 16",
        "ok 0/ok 16/ok 16/ok 0/no 8/ok 32\
         /seg 0 16 1 1/seg 16 16 1 16/seg 32 32 1 32/sum 64 0 64 0",
    );
}

#[test]
fn a_free_between_two_holes_leaves_one_row_of_three() {
    expect_on(
        "make 64 8",
        "ask 1 16 16/ask 1 16 16/ask 1 16 16/back 1 0/back 1 32/back 1 16",
        "ok 0/ok 16/ok 32/ok 16/ok 16/ok 16/seg 0 64 0 0/sum 0 64 48 64",
    );
}

#[test]
fn a_later_hole_serves_an_alignment() {
    expect_on(
        "make 128 16",
        "ask 1 16 16/ask 1 32 16/ask 1 16 64/back 1 16/ask 1 32 32/ask 1 16 32",
        "ok 0/ok 16/ok 64/ok 32/ok 32/ok 96\
         /seg 0 16 1 16/seg 16 16 0 0/seg 32 32 1 32/seg 64 16 1 16/seg 80 16 0 0\
         /seg 96 16 1 16/seg 112 16 0 0/sum 80 48 80 16",
    );
}

#[test]
fn a_free_total_is_no_place() {
    expect_on(
        "make 64 8",
        "ask 1 16 16/ask 1 16 16/ask 1 16 16/back 1 0/back 1 32/ask 1 48 16/ask 1 33 16",
        "ok 0/ok 16/ok 32/ok 16/ok 16/no 7/no 7\
         /seg 0 16 0 0/seg 16 16 1 16/seg 32 32 0 0/sum 16 48 48 32",
    );
}

/// The hole at 0 is one granule too long for the rows; the one at 64 would fit.
#[test]
fn after_8_no_later_start_is_tried() {
    expect_on(
        "make 96 5",
        "ask 1 32 16/ask 1 32 16/ask 1 16 16/ask 1 16 16/back 1 0/back 1 64/ask 1 16 16",
        "ok 0/ok 32/ok 64/ok 80/ok 32/ok 16/ok 0\
         /seg 0 16 1 16/seg 16 16 0 0/seg 32 32 1 32/seg 64 16 0 0/seg 80 16 1 16\
         /sum 64 32 96 16",
    );
    expect_on(
        "make 96 4",
        "ask 1 32 16/ask 1 32 16/ask 1 16 16/ask 1 16 16/back 1 0/back 1 64/ask 1 16 16",
        "ok 0/ok 32/ok 64/ok 80/ok 32/ok 16/no 8\
         /seg 0 32 0 0/seg 32 32 1 32/seg 64 16 0 0/seg 80 16 1 16/sum 48 48 96 32",
    );
}

/// The place is free, another owner's, and the same owner's again.
#[test]
fn a_second_free() {
    expect_on(
        "make 16 1",
        "ask 1 1 16/back 1 0/back 1 0/ask 2 1 16/back 1 0/back 2 0/ask 1 2 16/back 1 0",
        "ok 0/ok 16/no 17/ok 0/no 10/ok 16/ok 0/ok 16/seg 0 16 0 0/sum 0 16 16 16",
    );
}

/// The place is in the middle of a hole, then in a block, and free again.
#[test]
fn a_second_free_where_a_block_was_lent_over() {
    expect_on(
        "make 64 8",
        "ask 1 16 16/ask 1 16 16/back 1 16/back 1 0/back 1 16\
         /ask 2 32 16/back 1 16/back 2 16/back 1 0/back 2 0/back 1 16",
        "ok 0/ok 16/ok 16/ok 16/no 17\
         /ok 0/no 9/no 9/no 10/ok 32/no 17/seg 0 64 0 0/sum 0 64 32 64",
    );
}

/// Only what is live now counts, not what a heap before it had lent.
#[test]
fn a_free_after_another_make() {
    expect_on(
        "make 64 8",
        "ask 1 16 16/ask 1 16 16/make 32 8/back 1 0/back 1 16/back 1 32",
        "ok 0/ok 16/ok 32/no 17/no 17/no 15/seg 0 32 0 0/sum 0 32 0 32",
    );
}

#[test]
fn only_the_first_byte_frees() {
    expect_on(
        "make 64 4",
        "ask 1 32 32/back 1 1/back 1 15/back 1 16/back 1 32/back 1 4294967295/back 1 65536",
        "ok 0/no 16/no 16/no 9/no 17/no 15/no 15/seg 0 32 1 32/seg 32 32 0 0/sum 32 32 32 32",
    );
}

/// A heap of 128 bytes: 0 to 31 and 80 to 95 are owner 1's, 32 to 63 owner 2's,
/// the rest is free.
const LENT: [&str; 3] = [
    "ask 1 32 16/ask 2 32 16/ask 1 16 16/ask 1 16 16/back 1 64",
    "ok 0/ok 32/ok 64/ok 80/ok 16",
    "seg 0 32 1 32/seg 32 32 2 32/seg 64 16 0 0/seg 80 16 1 16/seg 96 32 0 0/sum 80 48 96 32",
];

/// Each of the owners is refused each of the offsets, and the heap stays.
fn expect_refused(owners: &[u32], offsets: &[u32], number: u32) {
    let [opening, opened, closing] = LENT;
    for owner in owners {
        for offset in offsets {
            expect_on(
                "make 128 8",
                &format!("{opening}/back {owner} {offset}"),
                &format!("{opened}/no {number}/{closing}"),
            );
        }
    }
}

#[test]
fn a_free_from_the_arenas_end_on() {
    expect_refused(&[1, 2, 8], &[112], 17);
    expect_refused(&[1, 2, 8], &[113, 127], 16);
    expect_refused(&[1, 2, 8], &[128, 129, 143, 144, 145], 15);
    // In fewer bits these are offsets of live blocks.
    expect_refused(&[1, 2], &[65_536, 65_568, 2_147_483_648, 2_147_483_680], 15);
    expect_refused(&[1, 2], &[4_294_967_280, 4_294_967_295], 15);
}

#[test]
fn the_end_of_the_least_the_largest_and_a_full_arena() {
    expect_on(
        "make 16 1",
        "back 1 0/back 1 15/back 1 16/back 1 17",
        "no 17/no 16/no 15/no 15/seg 0 16 0 0/sum 0 16 0 16",
    );
    expect_on(
        "make 65536 1",
        "back 1 65520/back 1 65535/back 1 65536/back 1 65537",
        "no 17/no 16/no 15/no 15/seg 0 65536 0 0/sum 0 65536 0 65536",
    );
    expect_on(
        "make 64 1",
        "ask 1 64 16/back 1 16/back 1 32/back 1 48/back 1 63/back 1 64/back 1 65/back 1 0",
        "ok 0/no 9/no 9/no 9/no 16/no 15/no 15/ok 64/seg 0 64 0 0/sum 0 64 64 64",
    );
}

#[test]
fn a_free_that_is_no_multiple_of_16() {
    let in_blocks = [1, 8, 15, 17, 24, 31, 33, 47, 49, 63, 81, 95];
    expect_refused(&[1, 2, 8], &in_blocks, 16);
    let in_holes = [65, 72, 79, 97, 111];
    expect_refused(&[1, 2, 8], &in_holes, 16);
}

#[test]
fn a_free_in_free_memory() {
    expect_refused(&[1, 2, 8], &[64, 96, 112], 17);
}

#[test]
fn a_free_after_a_blocks_first_granule() {
    expect_refused(&[1, 2, 8], &[16, 48], 9);
}

#[test]
fn a_free_of_another_owners_block() {
    expect_refused(&[2, 8], &[0, 80], 10);
    expect_refused(&[1, 8], &[32], 10);
}

/// The granule after a block is the first of the next one.
#[test]
fn a_free_by_the_owner() {
    let [opening, opened, _] = LENT;
    expect_on(
        "make 128 8",
        &format!("{opening}/back 2 32/back 1 0/back 1 80"),
        &format!("{opened}/ok 32/ok 32/ok 16/seg 0 128 0 0/sum 0 128 96 128"),
    );
}

/// A wrong owner number is told first, whatever the offset.
#[test]
fn a_free_by_no_owner() {
    let offsets = [0, 1, 16, 17, 32, 64, 65, 127, 128, 129, 4_294_967_295];
    expect_refused(&[0, 9, 4_294_967_295], &offsets, 2);
}

#[test]
fn the_order_of_refusals() {
    let refused = |script, answer: &str| {
        let closing = "seg 0 64 0 0/sum 0 64 0 64";
        expect_on("make 64 1", script, &format!("{answer}/{closing}"));
    };
    refused("ask 0 0 0", "no 2");
    refused("ask 9 0 0", "no 2");
    refused("ask 3 0 0", "no 3");
    refused("ask 3 1 0", "no 4");
    refused("ask 3 65 16", "no 5");
    refused("ask 1 1048577 16", "no 6");
    refused("ask 1 65 16", "no 7");
    refused("ask 1 48 4096", "no 8");
    refused("back 0 1", "no 2");
    refused("back 9 0", "no 2");
    refused("back 1 65", "no 15");
    refused("back 1 63", "no 16");
    refused("back 1 0", "no 17");
}

#[test]
fn peak_stays_and_starts_anew_with_a_make() {
    expect_on(
        "make 64 8",
        "ask 1 48 16/back 1 0/ask 1 16 16",
        "ok 0/ok 48/ok 0/seg 0 16 1 16/seg 16 48 0 0/sum 16 48 48 48",
    );
    expect_on(
        "make 64 8",
        "ask 1 48 16/make 64 8",
        "ok 0/ok 64/seg 0 64 0 0/sum 0 64 0 64",
    );
}
