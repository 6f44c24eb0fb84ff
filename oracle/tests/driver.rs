//! The driver fails where it would pass without comparing what it was asked to compare.

use std::process::Command;

/// Its exit status, and what it says. Where cargo runs programs by another, as tests/x86-64 sets it, so does this.
fn driver(words: &str) -> (Option<i32>, String) {
    let runner = std::env::var("CARGO_TARGET_X86_64_UNKNOWN_LINUX_GNU_RUNNER").unwrap_or("env".into());
    let program = env!("CARGO_BIN_EXE_differential");
    let run = Command::new(runner).arg(program).args(words.split(' ')).output().unwrap();
    (run.status.code(), String::from_utf8([run.stdout, run.stderr].concat()).unwrap())
}

#[test]
fn a_name_of_no_step() {
    assert_eq!(driver("--steps spans,box --inputs 10").0, Some(0));
    let (status, said) = driver("--steps spans,boxes --inputs 10");
    assert_eq!(status, Some(2), "{said}");
    assert!(said.contains("no such step: boxes"), "{said}");
}

/// Of the two steps one has small inputs.
#[test]
fn a_step_without_an_answer() {
    assert_eq!(driver("--steps set-new --no-random --no-faults").0, Some(0));
    let (status, said) = driver("--steps set-new,spans --no-random --no-faults");
    assert_eq!(status, Some(1), "{said}");
    assert!(said.contains("the run fails: spans: no answer was compared"), "{said}");
    assert!(!said.contains("set-new: no answer"), "{said}");
}

/// Of so few inputs none is the lay of a colour that is not there.
#[test]
fn a_refusal_that_never_arose() {
    assert_eq!(driver("--no-small --inputs 20").0, Some(0));
    let (status, said) = driver("--no-small --inputs 1");
    assert_eq!(status, Some(1), "{said}");
    assert!(said.contains("the run fails: refusal 7 never arose"), "{said}");
    assert!(!said.contains("refusal 1 never arose"), "{said}");
    // some steps alone cannot have all, nor inputs without faults
    assert_eq!(driver("--steps spans --inputs 10").0, Some(0));
    assert_eq!(driver("--no-small --no-faults --inputs 1").0, Some(0));
}
