//! The reference station: the book, the rules and the calls of docs/RULES.md
//! and docs/BOOK.md, in the plainest form that says the same thing.
//!
//! It exists to be compared with the proved station, so it is built another
//! way on purpose: starts, timers and wakes stand in lists that grow and
//! shrink, in order of acceptance, and nothing has a fixed place or a stamp of
//! its age. An error that both have would have to be made twice.

// Each program uses a part of this module only.
#![allow(dead_code)]

use std::collections::BTreeSet;

// ---------------------------------------------------------------- the book

/// A fault of a book: its number and its byte place.
#[derive(Clone, Copy, PartialEq, Eq, Debug)]
pub struct Fault {
    pub number: u8,
    pub place: usize,
}

/// One instruction row.
#[derive(Clone, Copy, Debug)]
pub struct Row {
    pub letter: u8,
    pub task: u8,
    pub x: u8,
    pub t: u32,
    pub cycle: u32,
}

#[derive(Clone, Copy)]
struct TaskRow {
    number: u8,
    level: u8,
    first: usize,
    length: usize,
}

/// A book without faults.
pub struct Book {
    pub steps: u32,
    tasks: Vec<TaskRow>,
    rows: Vec<Row>,
}

const LETTERS: &[u8] = b"RQADTCPSGHUWKMXJ";

fn be16(bytes: &[u8], at: usize) -> usize {
    bytes[at] as usize * 256 + bytes[at + 1] as usize
}

fn be32(bytes: &[u8], at: usize) -> u32 {
    (be16(bytes, at) * 65536 + be16(bytes, at + 2)) as u32
}

/// Of the faults of one group, the one that is told: the lowest place, and at
/// one place the lowest number.
fn told(faults: Vec<Fault>) -> Option<Fault> {
    faults.into_iter().min_by_key(|f| (f.place, f.number))
}

/// All faults of one group are gathered and then ordered. A checker that stops
/// at the first would have to be written in the order of the places; this one
/// has the order in one line (`told`).
pub fn check(bytes: &[u8]) -> Option<Fault> {
    let size = bytes.len();
    if size < 12 || size > 65535 {
        return Some(Fault { number: 21, place: 0 });
    }

    let task_count = be16(bytes, 0);
    let task_from = be16(bytes, 2);
    let task_to = task_from + 6 * task_count;
    let row_count = be16(bytes, 4);
    let row_from = be16(bytes, 6);
    let row_to = row_from + 12 * row_count;
    let steps = be32(bytes, 8);

    let mut header = Vec::new();
    if task_count < 1 || task_count > 127 {
        header.push(Fault { number: 22, place: 0 });
    }
    if row_count > 4096 {
        header.push(Fault { number: 22, place: 4 });
    }
    if steps > 1_000_000 {
        header.push(Fault { number: 22, place: 8 });
    }
    if task_from < 12 || task_to > size {
        header.push(Fault { number: 23, place: 2 });
    }
    if row_from < 12 || row_to > size {
        header.push(Fault { number: 23, place: 6 });
    }
    // An empty section has no byte that could be shared, wherever it lies.
    let both = task_count > 0 && row_count > 0;
    if both && task_from < row_to && row_from < task_to {
        header.push(Fault { number: 23, place: 6 });
    }
    if !header.is_empty() {
        return told(header);
    }

    // From here on both sections lie within the book.
    let mut rows = Vec::new();
    let mut numbers: Vec<u8> = Vec::new();
    for i in 0..task_count {
        let at = task_from + 6 * i;
        let number = bytes[at];
        let bad_number = number < 1 || number > 127 || numbers.contains(&number);
        let bad_level = bytes[at + 1] > 4;
        let bad_script = be16(bytes, at + 2) + be16(bytes, at + 4) > row_count;
        if bad_number || bad_level || bad_script {
            rows.push(Fault { number: 24, place: at });
        }
        // A faulty row uses its number too.
        numbers.push(number);
    }
    if !numbers.contains(&1) {
        rows.push(Fault { number: 25, place: task_from });
    }
    for i in 0..row_count {
        let at = row_from + 12 * i;
        if !LETTERS.contains(&bytes[at]) || bytes[at + 3] != 0 {
            rows.push(Fault { number: 26, place: at });
        }
    }
    told(rows)
}

impl Book {
    pub fn read(bytes: &[u8]) -> Result<Book, Fault> {
        if let Some(fault) = check(bytes) {
            return Err(fault);
        }
        let (task_count, task_from) = (be16(bytes, 0), be16(bytes, 2));
        let (row_count, row_from) = (be16(bytes, 4), be16(bytes, 6));
        let tasks = (0..task_count).map(|i| task_from + 6 * i).map(|at| TaskRow {
            number: bytes[at],
            level: bytes[at + 1],
            first: be16(bytes, at + 2),
            length: be16(bytes, at + 4),
        });
        let rows = (0..row_count).map(|i| row_from + 12 * i).map(|at| Row {
            letter: bytes[at],
            task: bytes[at + 1],
            x: bytes[at + 2],
            t: be32(bytes, at + 4),
            cycle: be32(bytes, at + 8),
        });
        Ok(Book { steps: be32(bytes, 8), tasks: tasks.collect(), rows: rows.collect() })
    }

    /// Row `index` of the script of a task; none beyond the script.
    pub fn row(&self, task: u8, index: u32) -> Option<Row> {
        let task = self.tasks.iter().find(|r| r.number == task)?;
        let index = index as usize;
        if index < task.length { Some(self.rows[task.first + index]) } else { None }
    }
}

// ------------------------------------------------------------- the station

#[derive(Clone, Copy, PartialEq, Eq, Debug)]
pub enum Word {
    Accepted,
    Missed,
    Ended,
    Cut,
    Wakened,
    Runs,
}

impl Word {
    pub fn text(self) -> &'static str {
        match self {
            Word::Accepted => "accepted",
            Word::Missed => "missed",
            Word::Ended => "ended",
            Word::Cut => "cut",
            Word::Wakened => "wakened",
            Word::Runs => "runs",
        }
    }
}

pub type Event = (Word, u8);

/// What a call answers: the code, the factor beside it, and the events told.
pub struct Answer {
    pub code: u8,
    pub factor: u8,
    pub events: Vec<Event>,
}

impl Answer {
    fn refused(code: u8) -> Answer {
        Answer { code, factor: 0, events: Vec::new() }
    }
}

#[derive(Clone, Copy, Debug)]
pub enum Macro {
    Rleas { task: u8 },
    Queue { task: u8, factor: u8 },
    Abort { task: u8 },
    Delay { t: u32 },
    Timer { task: u8, t: u32, cycle: u32, factor: u8 },
    Ctime { task: u8, factor: u8 },
    Chap { task: u8, level: u8 },
    Sfact { task: u8, factor: u8 },
    Gfact,
    Susp { task: u8 },
    Rsum { task: u8 },
    Wake { task: u8, factor: u8, second: u32, cycle: u32 },
    Cwake { task: u8, factor: u8 },
    Stime { second: u32 },
    Exit,
}

/// A registered task. Its level is kept once, here, and not with each start:
/// chap moves all starts of a task together, so they never differ.
struct Task {
    written: u8,
    level: u8,
    released: bool,
    held: bool,
    factors: BTreeSet<u8>,
}

struct Start {
    task: u8,
    asleep: bool,
}

enum Kind {
    Delay,
    Timer { cycle: u32, factor: u8 },
}

/// An entry of the timer table; `left` beats are missing until it is due.
struct Timer {
    task: u8,
    left: u32,
    kind: Kind,
}

enum Phase {
    /// has not fired yet: waits for its second
    Waiting,
    /// has fired: so many beats are missing until it fires again
    Counting(u32),
    /// has fired for the only time
    Spent,
}

struct Wake {
    task: u8,
    factor: u8,
    second: u32,
    cycle: u32,
    phase: Phase,
}

const DAY: u32 = 86_400_000;
const TIMERS: usize = 64;
const WAKES: usize = 32;
const SHEET: usize = 100;

pub struct Station {
    lever: bool,
    /// by number; none where the task is not registered
    tasks: Vec<Option<Task>>,
    /// unfinished starts, oldest first
    starts: Vec<Start>,
    timers: Vec<Timer>,
    wakes: Vec<Wake>,
    clock: u32,
}

impl Station {
    /// The two events of power-up are fixed and are told by the caller.
    pub fn power_up(book: &Book, lever: bool) -> Station {
        let mut tasks: Vec<Option<Task>> = (0..256).map(|_| None).collect();
        for row in &book.tasks {
            tasks[row.number as usize] = Some(Task {
                written: row.level,
                level: row.level,
                released: row.number == 1,
                held: false,
                factors: BTreeSet::new(),
            });
        }
        Station {
            lever,
            tasks,
            starts: vec![Start { task: 1, asleep: false }],
            timers: Vec::new(),
            wakes: Vec::new(),
            clock: 0,
        }
    }

    pub fn stop(self) -> usize {
        self.starts.len()
    }

    /// The task with the processor; 0 means idle.
    pub fn processor(&self) -> u8 {
        let mut seen: u128 = 0;
        let mut best: Option<(u8, u8)> = None;
        for start in &self.starts {
            // Only the oldest start of a task stands for it: where that one
            // sleeps, the one behind it does not run.
            let mark = 1u128 << start.task;
            if seen & mark != 0 {
                continue;
            }
            seen |= mark;
            let task = self.task(start.task);
            if start.asleep || task.held {
                continue;
            }
            // Strictly better only: among equals the older one was seen first.
            if best.map_or(true, |(level, _)| task.level < level) {
                best = Some((task.level, start.task));
            }
        }
        best.map_or(0, |(_, task)| task)
    }

    fn registered(&self, task: u8) -> bool {
        self.tasks[task as usize].is_some()
    }

    fn task(&self, task: u8) -> &Task {
        self.tasks[task as usize].as_ref().unwrap()
    }

    fn task_mut(&mut self, task: u8) -> &mut Task {
        self.tasks[task as usize].as_mut().unwrap()
    }

    fn standing(&self, task: u8) -> usize {
        self.starts.iter().filter(|s| s.task == task).count()
    }

    fn current(&mut self, task: u8) -> &mut Start {
        self.starts.iter_mut().find(|s| s.task == task).unwrap()
    }

    fn accept(&mut self, task: u8, factor: Option<u8>, events: &mut Vec<Event>) {
        self.starts.push(Start { task, asleep: false });
        if let Some(factor) = factor {
            self.task_mut(task).factors.insert(factor);
        }
        events.push((Word::Accepted, task));
    }

    /// A timer or a wake asks for a start. Unlike a queue it tells `missed`
    /// for a dormant task too.
    fn fire(&mut self, task: u8, factor: u8, events: &mut Vec<Event>) {
        if self.task(task).released && self.standing(task) < 2 {
            self.accept(task, Some(factor), events);
        } else {
            events.push((Word::Missed, task));
        }
    }

    fn abort(&mut self, task: u8, events: &mut Vec<Event>) {
        if !self.registered(task) {
            return;
        }
        for _ in 0..self.standing(task) {
            events.push((Word::Cut, task));
        }
        self.starts.retain(|s| s.task != task);
        // Its delay goes; the timers set for it stay.
        self.timers.retain(|e| e.task != task || matches!(e.kind, Kind::Timer { .. }));
        let task = self.task_mut(task);
        task.factors.clear();
        task.held = false;
        task.level = task.written;
        task.released = false;
    }

    /// Tells `runs` where it is due. `before` is the processor's task at the
    /// beginning of the call.
    fn settle(&self, before: u8, events: &mut Vec<Event>) {
        let now = self.processor();
        // A call ends or cuts a start of the task that had the processor only
        // by ending or cutting the very start that had it: exit ends the
        // current one, and abort cuts them all.
        let finished = before != 0
            && events.iter().any(|&(w, t)| t == before && matches!(w, Word::Ended | Word::Cut));
        if now != before || finished {
            events.push((Word::Runs, now));
        }
    }

    fn in_range(m: Macro) -> bool {
        let task_ok = |task: u8| (1..=128).contains(&task);
        let factor_ok = |factor: u8| factor <= 16;
        match m {
            Macro::Rleas { task }
            | Macro::Abort { task }
            | Macro::Susp { task }
            | Macro::Rsum { task } => task_ok(task),
            Macro::Queue { task, factor }
            | Macro::Ctime { task, factor }
            | Macro::Sfact { task, factor }
            | Macro::Cwake { task, factor } => task_ok(task) && factor_ok(factor),
            Macro::Chap { task, level } => task_ok(task) && level <= 4,
            Macro::Delay { t } => (1..=86_400_000).contains(&t),
            Macro::Timer { task, t, cycle, factor } => {
                task_ok(task)
                    && (1..=86_400_000).contains(&t)
                    && cycle <= 86_400_000
                    && factor_ok(factor)
            }
            Macro::Wake { task, factor, second, cycle } => {
                task_ok(task) && factor_ok(factor) && second <= 86_399 && cycle <= 86_400
            }
            Macro::Stime { second } => second <= 86_399,
            Macro::Gfact | Macro::Exit => true,
        }
    }

    /// The rows of the table of causes below 12, in its order: 4, 5, 2, 3, 1.
    /// 0 means that the macro is to be obeyed.
    fn cause(&self, m: Macro) -> u8 {
        let needs_registered = match m {
            Macro::Rleas { task }
            | Macro::Queue { task, .. }
            | Macro::Timer { task, .. }
            | Macro::Chap { task, .. }
            | Macro::Sfact { task, .. }
            | Macro::Susp { task }
            | Macro::Rsum { task }
            | Macro::Wake { task, .. } => Some(task),
            _ => None,
        };
        if let Some(task) = needs_registered {
            if !self.registered(task) {
                return 4;
            }
        }
        if matches!(m, Macro::Susp { .. } | Macro::Rsum { .. }) && !self.lever {
            return 5;
        }
        let needs_released = match m {
            Macro::Queue { task, .. }
            | Macro::Chap { task, .. }
            | Macro::Sfact { task, .. }
            | Macro::Susp { task }
            | Macro::Rsum { task } => Some(task),
            _ => None,
        };
        if let Some(task) = needs_released {
            if !self.task(task).released {
                return 2;
            }
        }
        match m {
            Macro::Susp { task } if self.task(task).held => return 3,
            Macro::Rsum { task } if !self.task(task).held => return 3,
            _ => {}
        }
        let useless = match m {
            Macro::Queue { task, .. } => self.standing(task) >= 2,
            Macro::Delay { .. } | Macro::Timer { .. } => self.timers.len() >= TIMERS,
            Macro::Wake { .. } => self.wakes.len() >= WAKES,
            Macro::Rleas { task } => self.task(task).released,
            Macro::Sfact { task, factor } => self.task(task).factors.contains(&factor),
            Macro::Ctime { task, factor } => !self.timers.iter().any(|e| e.matches(task, factor)),
            Macro::Cwake { task, factor } => {
                !self.wakes.iter().any(|w| w.task == task && w.factor == factor)
            }
            _ => false,
        };
        if useless { 1 } else { 0 }
    }

    /// A macro, issued by the task with the processor.
    pub fn issue(&mut self, sheet: usize, m: Macro) -> Answer {
        if sheet < SHEET {
            return Answer::refused(10);
        }
        let issuer = self.processor();
        if issuer == 0 {
            return Answer::refused(11);
        }
        let mut events = Vec::new();
        if !Station::in_range(m) {
            self.abort(issuer, &mut events);
            self.settle(issuer, &mut events);
            return Answer { code: 12, factor: 0, events };
        }
        let code = self.cause(m);
        if code != 0 {
            if let Macro::Queue { task, .. } = m {
                if code == 1 {
                    events.push((Word::Missed, task));
                }
            }
            return Answer { code, factor: 0, events };
        }
        let mut answered = 0;
        match m {
            Macro::Rleas { task } => self.task_mut(task).released = true,
            Macro::Queue { task, factor } => self.accept(task, Some(factor), &mut events),
            Macro::Abort { task } => self.abort(task, &mut events),
            Macro::Delay { t } => {
                self.current(issuer).asleep = true;
                self.timers.push(Timer { task: issuer, left: t, kind: Kind::Delay });
            }
            Macro::Timer { task, t, cycle, factor } => {
                self.timers.push(Timer { task, left: t, kind: Kind::Timer { cycle, factor } });
            }
            Macro::Ctime { task, factor } => self.timers.retain(|e| !e.matches(task, factor)),
            Macro::Chap { task, level } => self.task_mut(task).level = level,
            Macro::Sfact { task, factor } => {
                self.task_mut(task).factors.insert(factor);
            }
            Macro::Gfact => answered = self.task_mut(issuer).factors.pop_first().unwrap_or(0),
            Macro::Susp { task } => self.task_mut(task).held = true,
            Macro::Rsum { task } => self.task_mut(task).held = false,
            Macro::Wake { task, factor, second, cycle } => {
                self.wakes.push(Wake { task, factor, second, cycle, phase: Phase::Waiting });
            }
            Macro::Cwake { task, factor } => {
                self.wakes.retain(|w| !(w.task == task && w.factor == factor));
            }
            Macro::Stime { second } => self.clock = second * 1000,
            Macro::Exit => {
                let at = self.starts.iter().position(|s| s.task == issuer).unwrap();
                self.starts.remove(at);
                events.push((Word::Ended, issuer));
            }
        }
        self.settle(issuer, &mut events);
        Answer { code: 0, factor: answered, events }
    }

    pub fn coil(&mut self, sheet: usize, task: u8) -> Answer {
        if sheet < SHEET {
            return Answer::refused(10);
        }
        if task < 1 || task > 128 {
            return Answer::refused(13);
        }
        if !self.registered(task) {
            return Answer::refused(4);
        }
        if !self.task(task).released {
            return Answer::refused(2);
        }
        if self.standing(task) >= 2 {
            return Answer { code: 1, factor: 0, events: vec![(Word::Missed, task)] };
        }
        let before = self.processor();
        let mut events = Vec::new();
        self.accept(task, None, &mut events);
        self.settle(before, &mut events);
        Answer { code: 0, factor: 0, events }
    }

    pub fn tick(&mut self, sheet: usize) -> Answer {
        if sheet < SHEET {
            return Answer::refused(10);
        }
        let before = self.processor();
        let mut events = Vec::new();
        self.clock = (self.clock + 1) % DAY;
        self.beat_timers(&mut events);
        if self.clock % 1000 == 0 {
            self.beat_wakes(self.clock / 1000, &mut events);
        }
        self.settle(before, &mut events);
        Answer { code: 0, factor: 0, events }
    }

    fn beat_timers(&mut self, events: &mut Vec<Event>) {
        // The list is taken out while it is gone through; what fires touches
        // starts and factors only, never the list.
        let mut timers = std::mem::take(&mut self.timers);
        timers.retain_mut(|e| {
            e.left -= 1;
            if e.left > 0 {
                return true;
            }
            match e.kind {
                Kind::Delay => {
                    self.current(e.task).asleep = false;
                    events.push((Word::Wakened, e.task));
                    false
                }
                Kind::Timer { cycle, factor } => {
                    self.fire(e.task, factor, events);
                    e.left = cycle;
                    cycle > 0
                }
            }
        });
        self.timers = timers;
    }

    fn beat_wakes(&mut self, second: u32, events: &mut Vec<Event>) {
        let mut wakes = std::mem::take(&mut self.wakes);
        for w in &mut wakes {
            let fires = match w.phase {
                Phase::Waiting => w.second == second,
                Phase::Counting(left) => {
                    w.phase = Phase::Counting(left - 1);
                    left == 1
                }
                Phase::Spent => false,
            };
            if fires {
                w.phase = if w.cycle > 0 { Phase::Counting(w.cycle) } else { Phase::Spent };
                self.fire(w.task, w.factor, events);
            }
        }
        self.wakes = wakes;
    }
}

impl Timer {
    /// A delay has no factor, so a cancel never matches it.
    fn matches(&self, task: u8, factor: u8) -> bool {
        match self.kind {
            Kind::Delay => false,
            Kind::Timer { factor: own, .. } => self.task == task && own == factor,
        }
    }
}
