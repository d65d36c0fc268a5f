//! The reference runner: a task book on standard input, its listing on
//! standard output (docs/RUNNER.md).
//!
//! With the argument `--codes` it also writes to standard error, for each row
//! carried out, the letter and the code answered (for a jump 1 where it was
//! taken and 0 where not). The listing itself never shows codes, and
//! `tools/compare` has to know them to choose books that cover all of them.

mod station;

use station::{Book, Event, Macro, Row, Station, Word};
use std::io::{Read, Write};

fn the_macro(row: Row) -> Macro {
    let Row { task, x, t, cycle, .. } = row;
    match row.letter {
        b'R' => Macro::Rleas { task },
        b'Q' => Macro::Queue { task, factor: x },
        b'A' => Macro::Abort { task },
        b'D' => Macro::Delay { t },
        b'T' => Macro::Timer { task, t, cycle, factor: x },
        b'C' => Macro::Ctime { task, factor: x },
        b'P' => Macro::Chap { task, level: x },
        b'S' => Macro::Sfact { task, factor: x },
        b'G' => Macro::Gfact,
        b'H' => Macro::Susp { task },
        b'U' => Macro::Rsum { task },
        b'W' => Macro::Wake { task, factor: x, second: t, cycle },
        b'K' => Macro::Cwake { task, factor: x },
        b'M' => Macro::Stime { second: t },
        b'X' => Macro::Exit,
        _ => unreachable!("the book has been checked, and a jump is no macro"),
    }
}

/// How far a task is: the number of its next row, and its register.
#[derive(Clone, Copy)]
struct Progress {
    row: u32,
    register: u8,
}

const BEGUN: Progress = Progress { row: 0, register: 0 };

/// Writes the events of a call and lets the tasks whose starts finished begin
/// again.
fn tell(out: &mut impl Write, step: u32, events: &[Event], tasks: &mut [Progress]) -> std::io::Result<()> {
    for &(word, task) in events {
        writeln!(out, "{} {} {}", step, word.text(), task)?;
        if matches!(word, Word::Ended | Word::Cut) {
            tasks[task as usize] = BEGUN;
        }
    }
    Ok(())
}

fn run(bytes: &[u8], codes: bool, out: &mut impl Write, log: &mut impl Write) -> std::io::Result<()> {
    let book = match Book::read(bytes) {
        Ok(book) => book,
        Err(fault) => return writeln!(out, "book {} {}", fault.number, fault.place),
    };
    let mut station = Station::power_up(&book, true);
    let mut tasks = vec![BEGUN; 256];
    writeln!(out, "0 accepted 1\n0 runs 1")?;

    for step in 1..=book.steps {
        let issuer = station.processor();
        if issuer != 0 {
            let own = tasks[issuer as usize];
            match book.row(issuer, own.row) {
                Some(row) if row.letter == b'J' => {
                    let taken = row.x == 255 || own.register == row.x;
                    tasks[issuer as usize].row = if taken { row.t } else { own.row + 1 };
                    if codes {
                        writeln!(log, "J {}", taken as u8)?;
                    }
                }
                found => {
                    let m = found.map_or(Macro::Exit, the_macro);
                    let answer = station.issue(100, m);
                    let own = &mut tasks[issuer as usize];
                    // Where there was no row the task has exited, and goes
                    // back to row 0 below; its row may be 2^32 - 1, from
                    // which there is no way up.
                    if found.is_some() {
                        own.row += 1;
                    }
                    if matches!(m, Macro::Gfact) {
                        own.register = answer.factor;
                    }
                    // After the row went up: a task that ended or cut itself
                    // stands at row 0, not 1.
                    tell(out, step, &answer.events, &mut tasks)?;
                    if codes {
                        let letter = found.map_or('-', |row| row.letter as char);
                        writeln!(log, "{} {}", letter, answer.code)?;
                    }
                }
            }
        }
        let answer = station.tick(100);
        tell(out, step, &answer.events, &mut tasks)?;
    }
    writeln!(out, "left {}", station.stop())
}

fn main() {
    let codes = std::env::args().nth(1).as_deref() == Some("--codes");
    let mut bytes = Vec::new();
    // One byte more than a book may have is enough to know that it is too
    // long. What cannot be read counts as not there.
    let _ = std::io::stdin().lock().take(65536).read_to_end(&mut bytes);
    let mut out = std::io::BufWriter::with_capacity(1 << 16, std::io::stdout().lock());
    let mut log = std::io::BufWriter::new(std::io::stderr().lock());
    // The status is always 0, also where nobody reads the listing to its end.
    let _ = run(&bytes, codes, &mut out, &mut log);
    let _ = out.flush();
    let _ = log.flush();
}
