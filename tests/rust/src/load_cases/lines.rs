//! Refusals 7 to 9: the form of lines, types and lengths, the order.

use super::{lines, Cases, EVERY, SMALL};

/// Refusal 7: the form of a line.
pub(super) fn form_of_lines(c: &mut Cases) {
    let digits_162 = format!("20{}", "2f".repeat(80));
    let digits_161 = &digits_162[..161];
    // Every fault in the first line.
    for bad in [
        "", "0", "010", "01g1", "01 1", " 0101", "0101 ", "0101\r", "0x01", "01\x001", "0A01",
    ] {
        c.line(&SMALL, 1, bad, 7, 1);
    }
    c.line(&SMALL, 1, &digits_162, 7, 1);
    c.line(&SMALL, 1, digits_161, 7, 1);
    c.line(&SMALL, 1, &"00".repeat(1000), 7, 1);
    // Every fault in the last line.
    for bad in [
        "",
        "7",
        "7f000",
        "7f00g5",
        "7F0005",
        "7f 005",
        "7f0005\r",
        "\u{ff10}\u{ff11}",
    ] {
        c.line(&SMALL, 6, bad, 7, 6);
    }
    c.line(&SMALL, 6, &digits_162, 7, 6);
    c.line(&SMALL, 2, "102D00000000", 7, 2);
    c.line(&SMALL, 3, digits_161, 7, 3);
    c.line(&SMALL, 3, &digits_162, 7, 3);
    // 160 digits are a good line: the path is too long, and before its place it is out of order.
    c.line(&SMALL, 3, &digits_162[..160], 10, 3);
    c.line(&SMALL, 1, &digits_162[..160], 9, 1);
    c.after(&SMALL, 6, &[&digits_162[..160]], 9, 7);
    c.after(&SMALL, 6, &[&digits_162], 7, 7);
    // An empty line is 7 also where any line is out of order.
    c.after(&SMALL, 6, &[""], 7, 7);
    c.after(&SMALL, 6, &["7f0005", ""], 9, 7);
    c.add("only LF", b"\n".to_vec(), 7, 1);
    let crlf: Vec<u8> = SMALL
        .iter()
        .flat_map(|l| format!("{l}\r\n").into_bytes())
        .collect();
    c.add("CR LF in every line", crlf, 7, 1);
    let mut open = lines(&SMALL);
    open.pop();
    c.add("no LF at the end", open, 7, 6);
    c.add("one line without LF", b"0101".to_vec(), 7, 1);
    c.add("one digit", b"0".to_vec(), 7, 1);
    let mut more = lines(&SMALL);
    more.extend_from_slice(b"7f");
    c.add("after 7f a line without LF", more, 7, 7);
    c.add("byte 80", vec![0x80, b'\n'], 7, 1);
    c.add("byte 00 alone", vec![0], 7, 1);
}

/// Refusal 8: types and lengths.
pub(super) fn types_and_lengths(c: &mut Cases) {
    for bad in [
        "00", "02", "0201", "01", "010100", "ff", "60", "80", "11", "44", "7e0000",
    ] {
        c.line(&SMALL, 1, bad, 8, 1);
    }
    for bad in ["7f", "7f05", "7f000005", "80", "7e0005", "8f0005"] {
        c.line(&SMALL, 6, bad, 8, 6);
    }
    // Each type one byte short and one byte long.
    let bad = [
        (3, ["1075000000", "10750000000100"]),
        (8, ["3000", "30000300"]),
        (9, ["4000000001", "40000000010100"]),
        (10, ["4100", "41000100"]),
        (11, ["420003e8", "42000003e800"]),
        (12, ["43000064", "430000006400"]),
        (14, ["7f0d", "7f00000d"]),
    ];
    for (line, forms) in bad {
        for new in forms {
            c.line(&EVERY, line, new, 8, line as u32);
        }
    }
    c.line(&EVERY, 6, "20", 8, 6);
    c.after(&SMALL, 6, &["00"], 8, 7);
    c.after(&SMALL, 6, &["7f"], 8, 7);
    c.after(&SMALL, 5, &["44"], 8, 6);
}

/// A frame of each type that stands between the first and the last.
const BETWEEN: [&str; 7] = [
    "102d00000000",
    "202f",
    "300000",
    "400000000101",
    "410001",
    "4200000001",
    "4300000001",
];

/// Refusal 9: the order.
pub(super) fn order(c: &mut Cases) {
    for bad in BETWEEN.into_iter().chain(["7f0000"]) {
        c.line(&SMALL, 1, bad, 9, 1);
        c.add("one frame out of order", lines(&[bad]), 9, 1);
    }
    let ends = ["7f0005", "7f0006"];
    for bad in ["0101"].into_iter().chain(BETWEEN).chain(ends) {
        c.after(&SMALL, 6, &[bad], 9, 7);
    }
    c.after(&SMALL, 1, &["0101"], 9, 2);
    c.after(&SMALL, 3, &["0101"], 9, 4);
    c.after(&SMALL, 5, &["0101"], 9, 6);
    c.after(&EVERY, 6, &["107500000002"], 9, 7);
    c.after(&EVERY, 8, &["107500000002"], 9, 9);
    c.after(&EVERY, 9, &["107500000002"], 9, 10);
    c.after(&EVERY, 12, &["107500000002"], 9, 13);
    c.after(&EVERY, 8, &["202f622f"], 9, 9);
    c.after(&EVERY, 9, &["202f622f"], 9, 10);
    c.after(&EVERY, 10, &["202f622f"], 9, 11);
    c.after(&EVERY, 9, &["300103"], 9, 10);
    c.after(&EVERY, 10, &["300103"], 9, 11);
    c.after(&EVERY, 12, &["300103"], 9, 13);
    for kept in [5, 7, 8] {
        for bad in ["410001", "42000003e8", "4300000064"] {
            c.after(&EVERY, kept, &[bad], 9, kept as u32 + 1);
        }
    }
    c.after(&EVERY, 11, &["410101"], 9, 12);
    c.after(&EVERY, 12, &["410101"], 9, 13);
    c.after(&EVERY, 12, &["42000003e9"], 9, 13);
    // Out of order is lower than a bad field, a second, a wrong count.
    c.after(&SMALL, 3, &["0102"], 9, 4);
    c.after(&SMALL, 3, &["102d00000001"], 9, 4);
    c.after(&SMALL, 6, &["7f0000"], 9, 7);
}
