//! The reference of the program `calls` (docs/CALLS.md): a book and a list of
//! calls on standard input, one answer a line on standard output.
//!
//! All four rolls mean the same, but for the lever, so one station does for
//! them all.

mod station;

use station::{Answer, Book, Macro, Station};
use std::io::{Read, Write};

/// The bytes of line 1; none if it is no row of pairs.
fn book_bytes(line: &[u8]) -> Option<Vec<u8>> {
    let digit = |c: u8| (c as char).to_digit(16).map(|d| d as u8);
    let mut bytes = Vec::new();
    let mut at = 0;
    while at < line.len() {
        if line[at] == b' ' {
            at += 1;
            continue;
        }
        // Both digits of a pair stand side by side: a space may part pairs,
        // but not the digits of one.
        let high = digit(line[at])?;
        let low = digit(*line.get(at + 1)?)?;
        bytes.push(high * 16 + low);
        at += 2;
    }
    Some(bytes)
}

fn number(word: &[u8], most: u64) -> Option<u64> {
    if word.is_empty() || word.len() > 10 || !word.iter().all(|c| c.is_ascii_digit()) {
        return None;
    }
    let value = word.iter().fold(0u64, |n, &c| n * 10 + (c - b'0') as u64);
    if value <= most { Some(value) } else { None }
}

enum Call {
    Macro(Macro),
    Tick,
    Coil(u8),
}

/// A call and the length of its sheet; none if the line is no call.
fn parse(line: &[u8]) -> Option<(usize, Call)> {
    // Words that are parted by anything but one space leave an empty word,
    // which is neither a number nor a name.
    let mut words: Vec<&[u8]> = line.split(|&c| c == b' ').collect();
    let mut sheet = 100;
    if words[0].first().map_or(false, |c| c.is_ascii_digit()) {
        sheet = number(words[0], 200)? as usize;
        words.remove(0);
    }
    let name: &[u8] = words.first()?;
    let fields = &words[1..];
    let count = match name {
        b"gfact" | b"exit" | b"tick" => 0,
        b"rleas" | b"abort" | b"delay" | b"susp" | b"rsum" | b"stime" | b"coil" => 1,
        b"queue" | b"ctime" | b"chap" | b"sfact" | b"cwake" => 2,
        b"timer" | b"wake" => 4,
        _ => return None,
    };
    if fields.len() != count {
        return None;
    }
    let small = |i: usize| number(fields[i], 255).map(|n| n as u8);
    let large = |i: usize| number(fields[i], 4_294_967_295).map(|n| n as u32);
    let call = match name {
        b"rleas" => Macro::Rleas { task: small(0)? },
        b"queue" => Macro::Queue { task: small(0)?, factor: small(1)? },
        b"abort" => Macro::Abort { task: small(0)? },
        b"delay" => Macro::Delay { t: large(0)? },
        b"timer" => {
            Macro::Timer { task: small(0)?, t: large(1)?, cycle: large(2)?, factor: small(3)? }
        }
        b"ctime" => Macro::Ctime { task: small(0)?, factor: small(1)? },
        b"chap" => Macro::Chap { task: small(0)?, level: small(1)? },
        b"sfact" => Macro::Sfact { task: small(0)?, factor: small(1)? },
        b"gfact" => Macro::Gfact,
        b"susp" => Macro::Susp { task: small(0)? },
        b"rsum" => Macro::Rsum { task: small(0)? },
        b"wake" => {
            Macro::Wake { task: small(0)?, factor: small(1)?, second: large(2)?, cycle: large(3)? }
        }
        b"cwake" => Macro::Cwake { task: small(0)?, factor: small(1)? },
        b"stime" => Macro::Stime { second: large(0)? },
        b"exit" => Macro::Exit,
        b"coil" => return Some((sheet, Call::Coil(small(0)?))),
        _ => return Some((sheet, Call::Tick)),
    };
    Some((sheet, Call::Macro(call)))
}

fn run(input: &[u8], lever: bool, out: &mut impl Write) -> std::io::Result<()> {
    let mut lines: Vec<&[u8]> = input.split(|&c| c == b'\n').collect();
    // LF ends a line: what stands behind the last one is a line only if there
    // is something.
    if lines.len() > 1 && lines[lines.len() - 1].is_empty() {
        lines.pop();
    }
    let bytes = match book_bytes(lines[0]) {
        Some(bytes) => bytes,
        None => return writeln!(out, "line 1: not a book in hexadecimal"),
    };
    let book = match Book::read(&bytes) {
        Ok(book) => book,
        Err(fault) => return writeln!(out, "book {} {}", fault.number, fault.place),
    };
    let mut station = Station::power_up(&book, lever);
    for (index, line) in lines.iter().enumerate().skip(1) {
        let Answer { code, factor, events } = match parse(line) {
            None => {
                writeln!(out, "line {}: not a call", index + 1)?;
                continue;
            }
            Some((sheet, Call::Macro(m))) => station.issue(sheet, m),
            Some((sheet, Call::Tick)) => station.tick(sheet),
            Some((sheet, Call::Coil(task))) => station.coil(sheet, task),
        };
        write!(out, "{} {}", code, factor)?;
        for (word, task) in events {
            write!(out, " {} {}", word.text(), task)?;
        }
        writeln!(out)?;
    }
    writeln!(out, "left {}", station.stop())
}

fn main() {
    let roll = std::env::args().nth(1).unwrap_or_default();
    let lever = match roll.as_str() {
        "packed" | "stamped" => false,
        "lever-packed" | "lever-stamped" => true,
        _ => {
            eprintln!("usage: calls packed|stamped|lever-packed|lever-stamped");
            std::process::exit(2);
        }
    };
    let mut input = Vec::new();
    let _ = std::io::stdin().lock().read_to_end(&mut input);
    let mut out = std::io::BufWriter::with_capacity(1 << 16, std::io::stdout().lock());
    let _ = run(&input, lever, &mut out);
    let _ = out.flush();
}
