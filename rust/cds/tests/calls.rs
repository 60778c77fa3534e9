//! Tests of the calls in Rust, with CDS_LIB if the library is elsewhere.

use cds::{Failed, Why, call, run};

const SCRIPT: &[u8] = b"house 1 00000000000a\nroot 1\n";
const ANSWERS: &[u8] = b"1 ok\n2 ok\n";

fn failed(why: Why, text: &[u8]) -> Result<Vec<u8>, Failed> {
    Err(Failed { why, text: text.to_vec() })
}

#[test]
fn answers() {
    assert_eq!(run("run", SCRIPT), Ok(ANSWERS.to_vec()));
    assert_eq!(run("  check ", SCRIPT), Ok(b"ok 2 2\n".to_vec()));
    assert_eq!(run("run", b""), Ok(Vec::new()));
}

#[test]
fn no_form() {
    for words in ["", "walk", "run run", "audit", "audit 0", "clerk 1001", "run\0", "grüße"] {
        assert_eq!(run(words, SCRIPT), failed(Why::Usage, b""), "{words:?}");
    }
}

#[test]
fn faults() {
    let script = [SCRIPT, b"\x07\n"].concat();
    let text = [ANSWERS, b"3 fault NotAscii 1\n"].concat();
    assert_eq!(run("run", &script), failed(Why::BadInput, &text));
}

#[test]
fn room() {
    for room in 0..=ANSWERS.len() + 2 {
        let mut out = vec![0xAA; room];
        let wanted = if room < ANSWERS.len() { 5 } else { 0 };
        assert_eq!(call("run", SCRIPT, &mut out), (wanted, ANSWERS.len()));
        let said = room.min(ANSWERS.len());
        assert_eq!(out[..said], ANSWERS[..said]);
        assert!(out[said..].iter().all(|octet| *octet == 0xAA));
    }
}

#[test]
fn more_than_the_first_room() {
    let script = [SCRIPT, &b"root 1\n".repeat(20_000)].concat();
    let text = run("run", &script).unwrap();
    assert!(text.len() > 65536);
    assert_eq!(text.split(|octet| *octet == b'\n').count(), 20_003);
}

#[test]
fn seventeen_million() {
    assert_eq!(run("audit 1", &vec![0; 17 << 20]), failed(Why::BadInput, b"1 fault TooLong 16777217\n"));
}

#[test]
fn threads() {
    let text = run("load 50", b"").unwrap();
    let threads: Vec<_> = (0..8).map(|_| std::thread::spawn(|| run("load 50", b""))).collect();
    for it in threads {
        assert_eq!(it.join().unwrap().as_deref(), Ok(text.as_slice()));
    }
}

#[test]
fn failures_are_said() {
    let failed = run("run", b"x\n").unwrap_err();
    assert!(failed.to_string().starts_with("BadInput, and last: \"1 fault"), "{failed}");
}
