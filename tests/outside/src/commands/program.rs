//! The printing program: what it writes for every frozen plan, fed at once and in parts.

use crate::commands::arguments::Arguments;
use crate::commands::cases::{rows, Row};
use crate::hexadecimal;
use crate::judges::verdict::{same, Verdict};
use crate::reading::sheet::LONGEST_SHEET;
use std::io::Write;
use std::process::{Command, Output, Stdio};
use std::time::Duration;

/// Runs the program on the parts of a sheet, with a pause between two parts.
fn output(program: &str, parts: &[&[u8]], pause: Duration) -> Verdict<Output> {
    let mut child = Command::new(program)
        .stdin(Stdio::piped())
        .stdout(Stdio::piped())
        .stderr(Stdio::piped())
        .spawn()
        .map_err(|error| format!("{program}: {error}"))?;
    let mut input = child.stdin.take().expect("the input is a pipe");
    for (place, part) in parts.iter().enumerate() {
        if place > 0 {
            std::thread::sleep(pause);
        }
        // A program that has read enough may close its input before the end.
        if input.write_all(part).and_then(|()| input.flush()).is_err() {
            break;
        }
    }
    drop(input);
    child.wait_with_output().map_err(|error| format!("{program}: {error}"))
}

fn judge(program: &str, parts: &[&[u8]], pause: u64, expected: &str) -> Verdict<()> {
    let output = output(program, parts, Duration::from_millis(pause))?;
    let lines = format!("{}\n", expected.replace('|', "\n"));
    same("printed", String::from_utf8_lossy(&output.stdout).as_ref(), lines.as_str())?;
    same("printed to standard error", String::from_utf8_lossy(&output.stderr).as_ref(), "")?;
    same("ended by a signal", output.status.code().is_none(), false)
}

/// Byte by byte at the ends, and in three parts.
fn judge_slowly(program: &str, row: &Row) -> Verdict<()> {
    let sheet = &row.sheet[..];
    let third = sheet.len() / 3;
    let parts = [&sheet[..third], &sheet[third..2 * third], &sheet[2 * third..]];
    judge(program, &parts, 30, &row.columns[1])?;
    let (start, rest) = sheet.split_at(sheet.len().min(6));
    let mut parts: Vec<&[u8]> = start.chunks(1).collect();
    parts.push(rest);
    judge(program, &parts, 10, &row.columns[1])
}

/// An accepted sheet with bytes behind it: up to the length of the longest sheet they are left over,
/// and from there on they make it too long.
fn judge_long_inputs(program: &str, row: &Row) -> Verdict<usize> {
    let left_over = [581, 655, LONGEST_SHEET].map(|length| (length, "refused 10"));
    let too_long = [LONGEST_SHEET + 1, LONGEST_SHEET + 2, 1024, 4096, 65_536, 65_537, 1_000_000];
    let too_long = too_long.map(|length| (length, "refused 2"));
    let mut fed = 0;
    for (length, refused) in left_over.into_iter().chain(too_long) {
        let mut long = row.sheet.clone();
        long.resize(length, 0);
        let (start, end) = long.split_at(580);
        for parts in [&[&long[..]][..], &[start, end]] {
            judge(program, parts, 30, refused).map_err(|m| format!("{length} bytes: {m}"))?;
            fed += 1;
        }
    }
    Ok(fed)
}

pub fn run(arguments: &Arguments) -> Verdict<()> {
    let (program, folder) = match &arguments.words[..] {
        [program, folder] => (program, folder),
        _ => return Err("program needs the program and the folder of the frozen cases".into()),
    };
    let rows = rows(folder, "plan.tsv", 6)?;
    let mut slow = 0;
    for (place, row) in rows.iter().enumerate() {
        let named = |m| format!("{}: {m}\nsheet {}", row.place, hexadecimal::write(&row.sheet));
        judge(program, &[&row.sheet], 0, &row.columns[1]).map_err(named)?;
        if place % 40 == 0 {
            judge_slowly(program, row).map_err(named)?;
            slow += 2;
        }
    }
    let long = judge_long_inputs(program, &rows[0])?;
    println!("the printing program");
    println!("  {:>9}  frozen plans printed as on file", rows.len());
    println!("  {slow:>9}  of them again, through a slow pipe in parts");
    println!("  {long:>9}  sheets with bytes behind them refused");
    Ok(())
}
