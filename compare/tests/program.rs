//! Programs are run to their end, whatever they do with input and output.

use std::process::{Command, Output};
use std::time::{Duration, Instant};

use compare::generate::Script;
use compare::report::quoted;
use compare::run::{Outcome, Program, Runner};

const MUCH: usize = 1 << 20;

fn program(path: &str, arguments: &[&str]) -> Program {
    Program {
        arguments: arguments.iter().map(|text| text.to_string()).collect(),
        ..Program::new(path.into())
    }
}

fn run(program: Program, script: &[u8]) -> Outcome {
    let script = Script {
        bytes: script.to_vec(),
        paused: false,
    };
    program.run(&script, MUCH).unwrap()
}

fn run_for_2_seconds(shell_line: &str) -> Outcome {
    let program = Program {
        time_limit: Duration::from_secs(2),
        ..program("sh", &["-c", shell_line])
    };
    run(program, b"")
}

fn compare(arguments: &[&str]) -> Output {
    let mut command = Command::new(env!("CARGO_BIN_EXE_compare"));
    command.args(arguments).output().unwrap()
}

#[test]
fn large_pipes_do_not_block() {
    let bytes = b"0123456789abcde\n".repeat(MUCH / 16);
    for paused in [false, true] {
        let bytes = bytes.clone();
        let script = Script { bytes, paused };
        let outcome = program("cat", &[]).run(&script, MUCH).unwrap();
        assert!(outcome.output == script.bytes, "bytes are lost");
        assert_eq!(outcome.fault, None);
    }
}

#[test]
fn an_exit_status_other_than_0_is_a_fault() {
    let script = b"x".repeat(MUCH);
    assert_eq!(run(program("true", &[]), &script).fault, None);
    let fault = run(program("false", &[]), &script).fault;
    assert_eq!(fault.as_deref(), Some("exit status: 1"));
    let fault = run(program("sh", &["-c", "kill -9 $$"]), b"").fault;
    assert!(fault.unwrap().contains("signal: 9"));
}

#[test]
fn endless_programs_are_stopped() {
    let begun = Instant::now();
    let writes = run(program("yes", &[]), b"");
    assert_eq!(writes.output.len(), MUCH + 1);
    assert_eq!(writes.fault.unwrap(), "stopped: it wrote too much");
    let sleeps = run_for_2_seconds("echo ok; exec sleep 60");
    assert_eq!(sleeps.output, b"ok\n");
    assert_eq!(sleeps.fault.unwrap(), "stopped: it did not end in time");
    let closes = run_for_2_seconds("exec >&-; exec sleep 60");
    assert!(closes.fault.unwrap().contains("closed its output"));
    assert!(begun.elapsed() < Duration::from_secs(20));
}

#[test]
fn a_quoted_script_can_be_pasted_into_printf() {
    let mut all: Vec<u8> = b"-%d\\n '$HOME` \n".to_vec();
    all.extend(0..=255);
    all.extend(b"\x001\n7");
    let line = format!("printf {}", quoted(&all));
    for shell in ["sh", "bash"] {
        let outcome = run(program(shell, &["-c", &line]), b"");
        assert_eq!(outcome.output, all, "{shell}");
    }
}

#[test]
fn a_wrong_program_is_reported() {
    let output = compare(&["cat", "20", "1"]);
    let text = String::from_utf8(output.stdout).unwrap();
    assert_eq!(output.status.code(), Some(1), "{text}");
    assert!(text.contains("of seed 1"), "{text}");
    assert!(text.contains("printf '"), "{text}");
    assert!(text.lines().count() <= 8, "{text}");
}

#[test]
fn an_exit_status_alone_makes_a_difference() {
    let output = compare(&["false", "20"]);
    let text = String::from_utf8(output.stdout).unwrap();
    assert_eq!(output.status.code(), Some(1));
    assert!(
        text.contains("printf '' | false\nprogram, exit status: 1:"),
        "{text}"
    );
}

#[test]
fn what_cannot_be_run() {
    for arguments in [
        &[] as &[&str],
        &["cat", "0"],
        &["cat", "x"],
        &["cat", "-1"],
        &["cat", "1", "1", "1"],
        &["/no/such/program"],
    ] {
        let output = compare(arguments);
        assert_eq!(output.status.code(), Some(2), "{arguments:?}");
        assert!(!output.stderr.is_empty(), "{arguments:?}");
    }
}
