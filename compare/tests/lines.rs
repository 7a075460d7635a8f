//! Which lines can be read, and where lines end.

use compare::reference::run;
use compare::text::{read, Request};

fn answers(script: &[u8]) -> String {
    let written = String::from_utf8(run(script).output).unwrap();
    written.trim_end().replace('\n', "/")
}

#[test]
fn the_last_newline_may_be_missing() {
    assert_eq!(answers(b""), "");
    assert_eq!(answers(b"\n"), "no 14");
    assert_eq!(answers(b"\n\n"), "no 14/no 14");
    assert_eq!(answers(b"limit 1 2 3"), "ok 2");
    assert_eq!(answers(b"limit 1 2 3\n"), "ok 2");
    assert_eq!(answers(b"limit 1 2 3\n\n"), "ok 2/no 14");
    assert_eq!(answers(b"limit 1 2 3\n\nlimit 1 4 3"), "ok 2/no 14/ok 4");
}

#[test]
fn the_four_requests() {
    let alloc = Request::Alloc {
        owner: 1,
        size: 2,
        alignment: 3,
    };
    let quota = Request::SetQuota {
        owner: 1,
        granules: 2,
        blocks: 3,
    };
    let make = Request::Make { bytes: 1, rows: 2 };
    let free = Request::Free {
        owner: 1,
        offset: 2,
    };
    assert_eq!(read(b"ask 1 2 3"), Some(alloc));
    assert_eq!(read(b"limit 1 2 3"), Some(quota));
    assert_eq!(read(b"make 1 2"), Some(make));
    assert_eq!(read(b"back 1 2"), Some(free));
}

#[test]
fn numbers() {
    for good in ["0", "0000000000", "0000000001", "4294967295"] {
        assert!(
            read(format!("make {good} 1").as_bytes()).is_some(),
            "{good}"
        );
    }
    let bad = [
        "",
        "00000000001",
        "4294967296",
        "9999999999",
        "10000000000",
        "+1",
        "-1",
        "1a",
        "0x1",
        "1.0",
    ];
    for bad in bad {
        assert_eq!(read(format!("make {bad} 1").as_bytes()), None, "{bad}");
        assert_eq!(read(format!("make 1 {bad}").as_bytes()), None, "{bad}");
    }
    assert_eq!(read(b"make 0000000016 01"), read(b"make 16 1"));
    assert_eq!(answers(b"limit 1 0000000007 1"), "ok 7");
}

#[test]
fn lines_that_cannot_be_read() {
    let bad: [&[u8]; 22] = [
        b"",
        b" ",
        b"make",
        b"make 1",
        b"make 1 2 3",
        b"ask 1 2",
        b"ask 1 2 3 4",
        b"limit 1 2",
        b"back 1",
        b"back 1 2 3",
        b" make 1 2",
        b"make 1 2 ",
        b"make  1 2",
        b"make 1  2",
        b"make\t1 2",
        b"make 1 2\r",
        b"make 1 2\0",
        b"\0make 1 2",
        b"make 1 2\xFF",
        b"make 1\xA02",
        b"MAKE 1 2",
        b"mak 1 2",
    ];
    for line in bad {
        assert_eq!(read(line), None, "{line:?}");
    }
}

#[test]
fn a_long_line_is_one_line() {
    for length in [79, 80, 81, 82, 4_095, 4_096, 4_097, 65_537] {
        for filler in [b' ', b'0', b'x'] {
            let mut script = b"make 16 1".to_vec();
            script.resize(length, filler);
            script.extend(b"\nlimit 1 7 1");
            assert_eq!(answers(&script), "no 14/ok 7", "{length}");
        }
    }
}
