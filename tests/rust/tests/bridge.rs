//! How the program ends in which the library is called.

use second::lent::GUARD;
use second::process::bridge;
use std::io::Write;
use std::process::Stdio;

/// Gives it an input: its exit code, how many bytes it wrote, and its message.
fn ended(input: &[u8]) -> (Option<i32>, usize, String) {
    let mut child = bridge().stderr(Stdio::piped()).spawn().unwrap();
    // It may end before it has read all.
    let _ = child.stdin.take().unwrap().write_all(input);
    let output = child.wait_with_output().unwrap();
    let message = String::from_utf8(output.stderr).unwrap();
    (output.status.code(), output.stdout.len(), message)
}

/// A call with areas of zeros, of these lengths.
fn call(name: u8, lengths: &[u32]) -> Vec<u8> {
    let mut bytes = [&[name][..], &[0; 12]].concat();
    bytes.extend(lengths.iter().flat_map(|len| len.to_be_bytes()));
    let areas: usize = lengths.iter().map(|len| *len as usize + 2 * GUARD).sum();
    bytes.resize(bytes.len() + areas, 0);
    bytes
}

fn refused(message: &str, written: usize) -> (Option<i32>, usize, String) {
    (Some(1), written, format!("bridge: {message}\n"))
}

/// The lengths of a call for last files, and of what comes back: two parts, and the areas.
const LAST: [u32; 3] = [3, 5, 2];
const REPLY: usize = 2 * 17 + 10 + 6 * GUARD;

#[test]
fn an_end_between_calls() {
    let one = call(b'l', &LAST);
    for calls in 0..3 {
        let expected = (Some(0), calls * REPLY, String::new());
        assert_eq!(ended(&one.repeat(calls)), expected);
    }
    let ask = call(b'a', &[0; 6]);
    assert_eq!(ended(&ask), (Some(0), 8 + 12 * GUARD, String::new()));
}

#[test]
fn an_end_inside_a_call() {
    let one = call(b'l', &LAST);
    for len in [1, 2, 12, 13, 16, 24, 25, 26, 200, one.len() - 1] {
        let expected = refused("the input ends inside a call", 0);
        assert_eq!(ended(&one[..len]), expected, "{len} bytes");
    }
    let expected = refused("the input ends inside a call", REPLY);
    assert_eq!(ended(&[&one[..], b"l"].concat()), expected);
}

#[test]
fn no_such_call() {
    for name in [0, b'A', b'b', b'\n', 255] {
        assert_eq!(ended(&[name]), refused("there is no such call", 0));
    }
    let half = call(b'r', &[0, 0, 0, 0, 24]);
    assert_eq!(ended(&half), refused("the steps are no whole records", 0));
}
