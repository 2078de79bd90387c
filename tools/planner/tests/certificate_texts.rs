//! The text of a certificate: how it reads, and each kind of mistake with its line.

use tool::certificate::verify::verify;
use tool::certificate::{read::read, written, Certificate};

const BENCH: [u8; 18] = [1, 1, 1, 1, 5, 1, 0, 5, 0x0f, 0, 0, 0, 5, 0, 2, 0, 1, 2];

const TEXT: &str = "planner certificate 1
# That 'ratio P Q' is the least: P / Q is the least cost over reward of all cycles of the sheet that earn.
# sheet: its bytes. nodes: the number of each node, and its potential.
# stem, cycle: the codes of the steps of a walk from the start, and of a cycle at its end that has the ratio.
# Codes 0 to 31 take the edge of that number, 32 waits for a unit, 33 moves on to the next region.
sheet 18
  01010101050100050f000000050002000102
ratio 3 1
nodes 7
  0 0  # location 0, clocks at 0
  4 1  # location 0, clocks at 1
  5 0  # location 0, clocks at 0
  16 1  # location 0, clocks at 1
  20 2  # location 0, clocks at 2
  21 1  # location 0, clocks at 1
  32 2  # location 0, clocks at 2
stem 0
cycle 4
  33 32 33 0
";

fn certificate_of(sheet: &[u8]) -> Certificate {
    let mut planner = planner::Planner::new();
    Certificate::of(sheet, &planner.plan(sheet).expect("a plan"))
}

fn bench() -> Certificate {
    certificate_of(&BENCH)
}

#[test]
fn it_reads_like_this() {
    assert_eq!(written(&bench()), TEXT);
    assert_eq!(read(TEXT), Ok(bench()));
}

/// The version is the edition of the sheet; that of edition 2 has other node numbers.
#[test]
fn bench_of_edition_2_reads_like_this() {
    let certificate = certificate_of(&[&[2], &BENCH[1..]].concat());
    let numbers = [("4 1 ", "8 1 "), ("5 0 ", "9 0 "), ("16 1 ", "64 1 "), ("20 2 ", "72 2 "), ("21 1 ", "73 1 "), ("32 2 ", "128 2 ")];
    let lines = numbers.map(|(first, second)| (format!("\n  {first}"), format!("\n  {second}")));
    let text = TEXT.replace("certificate 1", "certificate 2").replace("  0101", "  0201");
    let text = lines.iter().fold(text, |text, (first, second)| text.replace(first, second));
    assert_eq!(written(&certificate), text);
    assert_eq!(read(&text), Ok(certificate));
}

/// In either edition a number of 64 bits is read, and the rules tell that it is no node's, also where its low 32 bits are one.
#[test]
fn numbers_of_64_bits_are_read_and_refused() {
    for (edition, node) in [(1, 20), (2, 72)] {
        let sheet = [&[edition], &BENCH[1..]].concat();
        let text = written(&certificate_of(&sheet)).replace("nodes 7", "nodes 8");
        for number in [(1 << 32) + node, u64::MAX] {
            let other = read(&text.replace("\nstem", &format!("\n  {number} 2\nstem"))).expect("a certificate");
            assert_eq!(other.nodes[7], number);
            let broken = verify(&sheet, &other).expect_err("no node");
            assert_eq!((broken.rule, broken.what), ("nodes-of-sheet", format!("{number} is not the number of a node of the sheet")));
        }
    }
}

/// Bytes that name no edition go with either version: the rules tell that they are another sheet, and no sheet.
#[test]
fn a_sheet_of_no_edition_is_read_and_refused() {
    let empty = ("sheet 18\n  01010101050100050f000000050002000102", "sheet 0");
    for version in ["certificate 1", "certificate 2"] {
        for ((part, other), refusal) in [(("  0101", "  0301"), 3), (("  0101", "  0001"), 3), (empty, 2)] {
            let certificate = read(&TEXT.replace("certificate 1", version).replace(part, other)).expect("a certificate");
            assert_eq!(verify(&BENCH, &certificate).map_err(|broken| broken.rule), Err("same-sheet"));
            assert_eq!(verify(&certificate.sheet, &certificate).map_err(|broken| broken.rule), Err("checked-sheet"));
            assert_eq!(planner::check(&certificate.sheet).map_err(|told| told.number()), Err(refusal));
        }
    }
}

#[test]
fn comments_spaces_and_lines_are_free() {
    let bare: String = TEXT.lines().map(|line| format!("{}\n", line.split('#').next().unwrap_or("").trim())).collect();
    assert_eq!(read(&bare), Ok(bench()));
    let other = TEXT.replace("01010101", "0101\r\n\n# two and two\n\t01 01").replace("33 32", "33\n32").replace('\n', "\r\n");
    assert_eq!(read(&other), Ok(bench()));
    assert_eq!(read(TEXT.trim_end()), Ok(bench()));
}

/// What is replaced in the text, by what, and the mistake's line, what is wrong and the beginning of what was expected.
const MISTAKES: [(&str, &str, usize, &str, &str); 39] = [
    ("planner certificate 1", "clocks x", 1, "this is no certificate", "'planner certificate 1' on the first line"),
    ("planner certificate 1", "planner certificate", 1, "this is no certificate", "'planner certificate 1'"),
    ("planner certificate 1", "\nplanner certificate 1", 2, "the format is named late", "'planner certificate 1'"),
    ("certificate 1", "certificate 2", 1, "certificate version 2 of a sheet of edition 1", "version 1"),
    ("  0101", "  0201", 1, "certificate version 1 of a sheet of edition 2", "version 2"),
    ("certificate 1", "certificate 3", 1, "certificate version 3", "version 1 or 2"),
    ("certificate 1", "certificate 257", 1, "certificate version 257", "version 1 or 2"),
    ("certificate 1", "certificate one", 1, "found 'one'", "version 1 or 2"),
    ("certificate 1\n", "certificate 1 1\n", 1, "this is no certificate", "'planner certificate 1'"),
    ("sheet 18", "sheets 18", 6, "found 'sheets'", "a line like: sheet 7"),
    ("sheet 18", "sheet", 6, "found the end", "a line like: sheet 7"),
    ("sheet 18", "sheet 18 18", 6, "found '18'", "a line like: sheet 7"),
    ("sheet 18", "sheet -1", 6, "found '-1'", "a line like: sheet 7"),
    ("sheet 18", "sheet 17", 7, "18 entries of the sheet", "17, as counted"),
    ("sheet 18", "sheet 19", 8, "found 'ratio'", "bytes, each two of the digits 0 to 9 and a to f: 19 of the sheet, of which 18"),
    ("sheet 18", "sheet 4294967296", 6, "found '4294967296'", "a line like: sheet 7"),
    ("50f0", "50F0", 7, "found '01010101050100050F000000...'", "bytes, each two of the digits"),
    ("000102", "00010", 7, "found '01010101050100050f000000...'", "bytes"),
    ("000102", "0001\u{e9}", 7, "found '01010101050100050f000000...'", "bytes"),
    ("ratio 3 1", "ratio 3", 8, "found the end", "a line like: ratio 3 1, with whole numbers of 64 bits"),
    ("ratio 3 1", "ratio 3 1 1", 8, "found '1'", "a line like: ratio 3 1"),
    ("ratio 3 1", "ratio 9223372036854775808 1", 8, "found '9223372036854775808'", "a line like: ratio 3 1"),
    ("ratio 3 1", "ratio 3 +1", 8, "found '+1'", "a line like: ratio 3 1"),
    ("ratio 3 1\n", "", 8, "found 'nodes'", "a line like: ratio 3 1"),
    ("nodes 7", "nodes 6", 16, "found '32'", "a line like: stem 7"),
    ("nodes 7", "nodes 8", 17, "found 'stem'", "the number of a node, 0 to 18446744073709551615, and its potential"),
    ("  4 1 ", "  4 ", 11, "found the end", "the number of a node, 0 to 18446744073709551615, and its potential"),
    ("  4 1 ", "  4 1 1 ", 11, "found '1'", "the number of a node"),
    ("  4 1 ", "  04 1 ", 11, "found '04'", "the number of a node"),
    ("  4 1 ", "  18446744073709551616 1 ", 11, "found '18446744073709551616'", "the number of a node"),
    ("  4 1 ", "  -4 1 ", 11, "found '-4'", "the number of a node"),
    ("  4 1 ", "  4 -9223372036854775809 ", 11, "found '-9223372036854775809'", "the number of a node"),
    ("  4 1 ", "  4 -0 ", 11, "found '-0'", "the number of a node"),
    ("stem 0", "stem 1", 18, "found 'cycle'", "codes, each 0 to 65535: 1 of the stem, of which 0 are read"),
    ("cycle 4", "cycle 3", 19, "4 entries of the cycle", "3, as counted"),
    ("cycle 4", "cycle 5", 19, "found the end", "codes, each 0 to 65535: 5 of the cycle, of which 4 are read"),
    ("33 32 33 0", "33 32 33 65536", 19, "found '65536'", "codes, each 0 to 65535"),
    ("33 32 33 0", "33 32 33 0\n33", 20, "found '33'", "nothing after the cycle"),
    ("33 32 33 0\n", "\u{1b}[2J\n", 19, "found '\\u{1b}[2J'", "codes, each 0 to 65535"),
];

#[test]
fn each_mistake_is_told_with_its_line() {
    for (part, other, line, what, expected) in MISTAKES {
        assert!(TEXT.contains(part), "no {part}");
        let mistake = read(&TEXT.replacen(part, other, 1)).expect_err(other);
        assert_eq!((mistake.line, mistake.fault.what.as_str()), (line, what), "{other}");
        assert!(mistake.fault.expected.starts_with(expected), "{other}: {mistake:?}");
    }
    assert_eq!(read("").expect_err("no text").line, 1);
    assert_eq!(read("\n\n# nothing\n").expect_err("no text").line, 1);
}

#[test]
fn a_huge_count_takes_no_room() {
    for (part, other) in [("sheet 18", "sheet 4294967295"), ("nodes 7", "nodes 4294967295"), ("cycle 4", "cycle 4294967295")] {
        assert!(read(&TEXT.replace(part, other)).is_err());
    }
}

#[test]
fn a_text_that_is_cut_off_is_told() {
    let end = TEXT.trim_end().len();
    for cut in (0..end).filter(|cut| TEXT.is_char_boundary(*cut)) {
        let mistake = read(&TEXT[..cut]).expect_err("a part");
        assert!(mistake.line <= TEXT[..cut].lines().count().max(1), "cut at {cut}: {mistake:?}");
    }
}

/// A damaged text is told, or is another certificate, of which a rule is told; or the damage says nothing.
#[test]
fn a_damaged_text_is_told_or_refused() {
    let (mut mistakes, mut broken) = (0, 0);
    for at in 0..TEXT.len() {
        for byte in [b'0', b'7', b' ', b'#', b'\n', b'-', b'z'] {
            let mut bytes = TEXT.as_bytes().to_vec();
            bytes[at] = byte;
            match read(std::str::from_utf8(&bytes).expect("a text")) {
                Err(_) => mistakes += 1,
                Ok(other) if other == bench() => {}
                Ok(other) => broken += usize::from(verify(&BENCH, &other).is_err()),
            }
        }
    }
    assert!(mistakes > 500 && broken > 100, "{mistakes} mistakes, {broken} broken");
}

#[test]
fn a_certificate_of_another_count_of_potentials_is_not_read_back() {
    let (mut fewer, mut more) = (bench(), bench());
    fewer.potentials.pop();
    more.potentials.push(0);
    assert_eq!(read(&written(&fewer)).map_err(|mistake| mistake.line), Err(16));
    assert_eq!(read(&written(&more)).map_err(|mistake| mistake.line), Err(17));
}
