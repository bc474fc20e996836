//! Commands of the program over the library, for tools/test: `replay`, `follow` and `show TABLE` of standard input, `gen NUMBER COUNT`, `check` of
//! two files; `session`, a replay line by line, but for a last line that is cut off; `trial`, the same with each line tried before; and
//! `shown TABLE`, the table of a session that has taken the same lines.
use std::env::args;
use std::fs::read;
use std::io::{Read, Write, stdin, stdout};
use std::process::ExitCode;
use switchbr::{Fault, Session, Table, check, follow, generate, replay, show};

fn input() -> Vec<u8> {
    let mut all = Vec::new();
    stdin().read_to_end(&mut all).expect("input is read");
    all
}

fn is_end(line: &[u8]) -> bool {
    line.split(|byte| *byte == b' ').filter(|word| !word.is_empty()).eq([b"end"])
}

/// What a line has behind it, where it is `capture LENGTH`.
fn section_behind(line: &[u8]) -> usize {
    let words: Vec<_> = line.split(|byte| *byte == b' ').filter(|word| !word.is_empty()).collect();
    match words[..] {
        [b"capture", length] => std::str::from_utf8(length).ok().and_then(|digits| digits.parse().ok()).unwrap_or(0),
        _ => 0,
    }
}

fn table(word: &str) -> Table {
    match word {
        "fdb" => Table::Fdb,
        "vlan" => Table::Vlan,
        _ => Table::Mdb,
    }
}

/// The table of a session that has taken all lines up to the end or the first bad one.
fn shown(table: Table, mut rest: &[u8]) -> Result<String, Fault> {
    let mut session = Session::open()?;
    while !rest.is_empty() {
        let feed = rest.iter().position(|byte| *byte == b'\n');
        let line = &rest[..feed.unwrap_or(rest.len())];
        rest = &rest[line.len() + usize::from(feed.is_some())..];
        let length = section_behind(line);
        if feed.is_none() && !is_end(line) || session.line(line).is_err() || length > rest.len() {
            break;
        }
        if length > 0 && session.section(&rest[..length]).is_err() {
            break;
        }
        rest = &rest[length..];
    }
    session.show(table)
}

/// Writes what is told, and answers the status.
fn step_by_step(mut rest: &[u8], is_trial: bool) -> Result<u8, Fault> {
    let mut session = Session::open()?;
    if rest.is_empty() {
        println!("transcript 1");
    }
    while !rest.is_empty() {
        let feed = rest.iter().position(|byte| *byte == b'\n');
        let line = &rest[..feed.unwrap_or(rest.len())];
        if feed.is_none() && line.len() <= 20_000 && !is_end(line) {
            return Ok(3);
        }
        let tried = is_trial.then(|| session.try_line(line));
        let told = session.line(line);
        assert!(tried.is_none_or(|tried| tried.err().map(|fault| fault.to_string()) == told.clone().err().map(|fault| fault.to_string())));
        match told {
            Err(Fault::Closed) => return Ok(0),
            told => print!("{}", told?),
        }
        rest = &rest[line.len() + usize::from(feed.is_some())..];
        let length = section_behind(line);
        if length > rest.len() {
            return Ok(3);
        }
        if length > 0 {
            print!("{}", session.section(&rest[..length])?);
            rest = &rest[length..];
        }
    }
    Ok(if session.line(b"") == Err(Fault::Closed) { 0 } else { 3 })
}

fn main() -> ExitCode {
    let words: Vec<String> = args().skip(1).collect();
    let words: Vec<&str> = words.iter().map(String::as_str).collect();
    let told = match words[..] {
        ["replay"] => replay(&input()),
        ["follow"] => follow(&input()),
        ["show", word] => show(table(word), &input()),
        ["shown", word] => shown(table(word), &input()),
        ["gen", number, count] => generate(number.parse().expect("a number"), count.parse().expect("a count")),
        ["check", scenario, transcript] => {
            let files = read(scenario).and_then(|one| Ok((one, read(transcript)?))).expect("both are read");
            check(&files.0, &files.1).map(|line| line.map_or(String::new(), |line| format!("{line}\n")))
        }
        ["session" | "trial"] => match step_by_step(&input(), words[0] == "trial") {
            Ok(status) => return ExitCode::from(status),
            Err(fault) => Err(fault),
        },
        _ => return ExitCode::from(2),
    };
    let (status, text) = match told {
        Ok(text) => (if words[0] == "check" && !text.is_empty() { 1 } else { 0 }, text),
        Err(Fault::BadLine { line, text }) => (3, if text.is_empty() { format!("{line}\n") } else { text }),
        Err(Fault::TooLong) => (7, String::new()),
        Err(Fault::NoMemory) => (6, String::new()),
        Err(fault) => panic!("{fault}"),
    };
    stdout().write_all(text.as_bytes()).expect("output is written");
    ExitCode::from(status)
}
