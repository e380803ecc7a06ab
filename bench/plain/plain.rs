//! The same machine without proofs, to compare costs with: it reads a script from standard input, runs it turn by turn in the
//! same order, and prints the same answers. It keeps no journal. It trusts its input: a text that is no script ends it.
use std::collections::{HashMap, VecDeque};
use std::io::{Read, Write};

const PIN: u64 = 1024;
const WORDS: usize = 512;

#[derive(Clone, Copy, PartialEq)]
enum Birth {
    Unborn,
    Growing,
    Born,
    Failed,
}

#[derive(Clone, Copy, PartialEq)]
struct Entry {
    frame: usize,
    writable: bool,
}

#[derive(Clone, Copy)]
struct Page {
    write: bool,
    entry: Option<Entry>,
}

/// A process: its mapped pages in order.
struct Process {
    pages: VecDeque<(u64, Page)>,
    birth: Birth,
    has_pinned: bool,
    /// Raised where a fork begins, and where it ends: odd while it runs.
    sequence: u64,
    structure: Option<usize>,
    table: Option<usize>,
}

impl Process {
    fn find(&self, page: u64) -> Option<usize> {
        self.pages.binary_search_by_key(&page, |row| row.0).ok()
    }

    fn page(&mut self, page: u64) -> Option<&mut Page> {
        let at = self.find(page)?;
        Some(&mut self.pages[at].1)
    }
}

/// The frames: counts, marks, words, and which are free.
struct Frames {
    movable: usize,
    counts: Vec<u64>,
    marks: Vec<bool>,
    words: Vec<u64>,
    free: Vec<u64>,
}

impl Frames {
    fn new(movable: usize, normal: usize) -> Frames {
        let many = movable + normal;
        let mut free = vec![0; many / 64 + 1];
        for f in 0..many {
            free[f / 64] |= 1 << (f % 64);
        }
        Frames { movable, counts: vec![0; many], marks: vec![false; many], words: vec![0; many * WORDS], free }
    }

    /// The lowest free frame, of both zones or of one.
    fn take(&mut self, zone: Option<Zone>) -> Option<usize> {
        let (first, end) = match zone {
            None => (0, self.counts.len()),
            Some(Zone::Movable) => (0, self.movable),
            Some(Zone::Normal) => (self.movable, self.counts.len()),
        };
        let mut f = first;
        let f = loop {
            let rest = self.free.get(f / 64)? >> (f % 64);
            if rest != 0 {
                break f + rest.trailing_zeros() as usize;
            }
            f = (f / 64 + 1) * 64;
        };
        if f >= end {
            return None;
        }
        self.free[f / 64] &= !(1 << (f % 64));
        self.counts[f] = 1;
        self.marks[f] = false;
        self.words[f * WORDS..(f + 1) * WORDS].fill(0);
        Some(f)
    }

    fn put(&mut self, f: usize, by: u64) {
        self.counts[f] -= by;
        if self.counts[f] == 0 {
            self.marks[f] = false;
            self.free[f / 64] |= 1 << (f % 64);
        }
    }

    fn copy(&mut self, from: usize, to: usize) {
        self.words.copy_within(from * WORDS..(from + 1) * WORDS, to * WORDS);
    }
}

#[derive(Clone, Copy, PartialEq)]
enum Zone {
    Movable,
    Normal,
}

/// The parts of a transfer, each by where it begins and how many words it has: those from the first on that have words.
type Parts = [(u64, u64); 8];

/// Which word of the pin is the k-th of the parts.
fn word_at(parts: &Parts, mut k: u64) -> u64 {
    for (index, n) in parts {
        if k < *n {
            return index + k;
        }
        k -= n;
    }
    unreachable!("the parts have more words than k")
}

#[derive(Clone, Copy)]
enum Op {
    Map { page: u64, n: u64, write: bool },
    Unmap { page: u64, n: u64, keep: bool },
    Protect { page: u64, n: u64, write: bool },
    Load { page: u64, word: usize },
    Store { page: u64, word: usize, value: u64 },
    Pin { handle: usize, page: u64, n: u64, write: bool, long: bool, fast: bool },
    Unpin { handle: usize },
    Give { handle: usize, to: usize },
    Take { handle: usize },
    Get { handle: usize, page: u64 },
    Put { handle: usize },
    Move { process: usize, page: u64, zone: Zone },
    Transfer { handle: usize, outward: bool, slot: u64, parts: Parts, n: u64 },
    Mirror { slot: usize, process: usize, page: u64 },
    Look { slot: usize, word: usize },
    Fork { child: usize },
    Exit,
}

enum Handle {
    Unmade,
    Held(usize, Vec<usize>, bool),
    Given(usize, Vec<usize>, bool),
    Got(usize, usize),
    Gone,
}

#[derive(Clone, Copy)]
enum Job {
    Idle,
    From(u64),
    Share(u64),
    Copy(u64, usize, Option<usize>),
    Count(Entry),
    Place(Entry, u64),
    /// A pin's walk, and the sequence that it has read.
    Walk(Step, u64),
    /// A pin whose walk is over.
    Slow,
}

/// Where a walk without locks stands.
#[derive(Clone, Copy)]
enum Step {
    Entered,
    Ready,
    Read(Entry),
    Grabbed(Entry),
    Rechecked(Entry),
    Differed(usize),
    Refused,
    Stopped,
    Dropping,
}

/// What a filled mirror slot is of, and the frame that it has without a reference.
struct Mirrored {
    process: usize,
    page: u64,
    frame: usize,
}

struct Actor<'s> {
    name: &'s str,
    process: Option<usize>,
    store: Vec<u64>,
    ops: Vec<Op>,
    done: usize,
    far: u64,
    job: Job,
    taken: Vec<usize>,
    moved: Vec<u64>,
}

enum Named {
    Process(usize),
    Actor(usize),
    Handle(usize),
    Slot(usize),
}

enum Wait {
    Lock,
    Handle(usize),
    Process(usize),
}

struct Machine<'s> {
    frames: Frames,
    processes: Vec<Process>,
    process_names: Vec<&'s str>,
    actors: Vec<Actor<'s>>,
    handles: Vec<Handle>,
    handle_names: Vec<&'s str>,
    slots: Vec<Option<Mirrored>>,
    turns: Vec<u8>,
    out: Vec<u8>,
}

/// Whether a page has another frame after a fault.
#[derive(PartialEq)]
enum Fault {
    Kept,
    Broken,
}

/// Empties the slots of these pages.
fn invalidate(slots: &mut [Option<Mirrored>], p: usize, page: u64, n: u64) {
    for slot in slots {
        if slot.as_ref().is_some_and(|it| it.process == p && (page..page + n).contains(&it.page)) {
            *slot = None;
        }
    }
}

/// What a fault that leaves the page as the access wants it does to its frame; `None` says that it needs a frame, of this zone or of
/// both, and finds none.
fn ready(frames: &mut Frames, page: &mut Page, write: bool, pinned: bool, zone: Option<Zone>) -> Option<Fault> {
    let entry = match page.entry {
        Some(entry) => entry,
        None => {
            let frame = frames.take(zone)?;
            frames.marks[frame] = true;
            Entry { frame, writable: false }
        }
    };
    page.entry = Some(entry);
    if (write && entry.writable) || (!write && (!pinned || frames.marks[entry.frame])) {
        return Some(Fault::Kept);
    }
    let mut frame = entry.frame;
    let mut fault = Fault::Kept;
    if !frames.marks[frame] {
        if frames.counts[frame] == 1 {
            frames.marks[frame] = true;
        } else {
            let copy = frames.take(zone)?;
            frames.copy(frame, copy);
            frames.marks[copy] = true;
            frames.put(frame, 1);
            frame = copy;
            fault = Fault::Broken;
        }
    }
    page.entry = Some(Entry { frame, writable: write });
    Some(fault)
}

/// Moves the page of this entry to a frame of the zone; `None` where none is free.
fn relocate(frames: &mut Frames, page: &mut Page, entry: Entry, zone: Zone) -> Option<()> {
    let to = frames.take(Some(zone))?;
    frames.copy(entry.frame, to);
    frames.marks[to] = frames.marks[entry.frame];
    frames.put(entry.frame, 1);
    page.entry = Some(Entry { frame: to, ..entry });
    Some(())
}

impl<'s> Machine<'s> {
    fn read(text: &'s str) -> Machine<'s> {
        let mut names: HashMap<&str, Named> = HashMap::new();
        let mut machine = Machine {
            frames: Frames::new(0, 0),
            processes: Vec::new(),
            process_names: Vec::new(),
            actors: Vec::new(),
            handles: Vec::new(),
            handle_names: Vec::new(),
            slots: Vec::new(),
            turns: Vec::new(),
            out: Vec::new(),
        };
        for line in text.lines() {
            if line.is_empty() || line.starts_with('#') {
                continue;
            }
            let mut words = line.split(' ');
            match words.next().unwrap() {
                "gup" | "seed" => {}
                "frames" => {
                    let movable = number(words.next()) as usize;
                    machine.frames = Frames::new(movable, number(words.next()) as usize);
                }
                kind @ ("process" | "child") => {
                    let name = words.next().unwrap();
                    names.insert(name, Named::Process(machine.processes.len()));
                    machine.process_names.push(name);
                    let birth = if kind == "process" { Birth::Born } else { Birth::Unborn };
                    machine.processes.push(Process { pages: VecDeque::with_capacity(1024), birth, has_pinned: false, sequence: 0, structure: None, table: None });
                }
                kind @ ("thread" | "device" | "mover") => {
                    let name = words.next().unwrap();
                    names.insert(name, Named::Actor(machine.actors.len()));
                    let (process, store) = match kind {
                        "thread" => (Some(process(&names, words.next().unwrap())), Vec::new()),
                        "device" => (None, vec![0; number(words.next()) as usize]),
                        _ => (None, Vec::new()),
                    };
                    machine.actors.push(Actor { name, process, store, ops: Vec::new(), done: 0, far: 0, job: Job::Idle, taken: Vec::new(), moved: Vec::new() });
                }
                "on" => {
                    let a = actor(&names, words.next().unwrap());
                    let op = machine.operation(&mut names, &mut words);
                    machine.actors[a].ops.push(op);
                }
                "turns" => {
                    for word in words {
                        let (name, times) = word.split_once('*').map_or((word, 1), |(name, times)| (name, times.parse().unwrap()));
                        let a = actor(&names, name) as u8;
                        machine.turns.resize(machine.turns.len() + times, a);
                    }
                }
                "random" => {
                    let mut x = number(words.next());
                    for _ in 0..number(words.next()) {
                        x = x.wrapping_mul(6364136223846793005).wrapping_add(1442695040888963407);
                        machine.turns.push(((x >> 33) % machine.actors.len() as u64) as u8);
                    }
                }
                other => panic!("no line: {other}"),
            }
        }
        machine
    }

    fn operation(&mut self, names: &mut HashMap<&'s str, Named>, words: &mut std::str::Split<'s, char>) -> Op {
        match words.next().unwrap() {
            "map" => Op::Map { page: number(words.next()), n: number(words.next()), write: words.next() == Some("rw") },
            "unmap" => Op::Unmap { page: number(words.next()), n: number(words.next()), keep: false },
            "discard" => Op::Unmap { page: number(words.next()), n: number(words.next()), keep: true },
            "protect" => Op::Protect { page: number(words.next()), n: number(words.next()), write: words.next() == Some("rw") },
            "load" => {
                let (page, word) = address(words.next());
                Op::Load { page, word }
            }
            "store" => {
                let (page, word) = address(words.next());
                Op::Store { page, word, value: number(words.next()) }
            }
            kind @ ("pin" | "pinfast") => {
                let name = words.next().unwrap();
                let handle = self.handles.len();
                names.insert(name, Named::Handle(handle));
                self.handles.push(Handle::Unmade);
                self.handle_names.push(name);
                Op::Pin {
                    handle,
                    page: number(words.next()),
                    n: number(words.next()),
                    write: words.next() == Some("write"),
                    long: words.next() == Some("long"),
                    fast: kind == "pinfast",
                }
            }
            "unpin" => Op::Unpin { handle: handle(names, words.next().unwrap()) },
            "give" => Op::Give { handle: handle(names, words.next().unwrap()), to: actor(names, words.next().unwrap()) },
            "take" => Op::Take { handle: handle(names, words.next().unwrap()) },
            "get" => {
                let name = words.next().unwrap();
                let handle = self.handles.len();
                names.insert(name, Named::Handle(handle));
                self.handles.push(Handle::Unmade);
                self.handle_names.push(name);
                Op::Get { handle, page: number(words.next()) }
            }
            "put" => Op::Put { handle: handle(names, words.next().unwrap()) },
            "move" => {
                let process = process(names, words.next().unwrap());
                let page = number(words.next());
                Op::Move { process, page, zone: if words.next() == Some("normal") { Zone::Normal } else { Zone::Movable } }
            }
            "mirror" => {
                let name = words.next().unwrap();
                if !names.contains_key(name) {
                    names.insert(name, Named::Slot(self.slots.len()));
                    self.slots.push(None);
                }
                let process = process(names, words.next().unwrap());
                Op::Mirror { slot: slot(names, name), process, page: number(words.next()) }
            }
            "look" => Op::Look { slot: slot(names, words.next().unwrap()), word: number(words.next()) as usize },
            way @ ("out" | "in") => {
                let handle = handle(names, words.next().unwrap());
                let (index, slot, n) = (number(words.next()), number(words.next()), number(words.next()));
                let mut parts = [(0, 0); 8];
                parts[0] = (index, n);
                Op::Transfer { handle, outward: way == "out", slot, parts, n }
            }
            way @ ("outv" | "inv") => {
                let handle = handle(names, words.next().unwrap());
                let slot = number(words.next());
                let mut parts = [(0, 0); 8];
                for (part, word) in parts.iter_mut().zip(words) {
                    let (index, n) = word.split_once(':').unwrap();
                    *part = (index.parse().unwrap(), n.parse().unwrap());
                }
                Op::Transfer { handle, outward: way == "outv", slot, parts, n: parts.iter().map(|part| part.1).sum() }
            }
            "fork" => Op::Fork { child: process(names, words.next().unwrap()) },
            "exit" => Op::Exit,
            other => panic!("no operation: {other}"),
        }
    }

    /// The process that the operation is of, or names.
    fn concerned(&self, a: usize, op: &Op) -> Option<usize> {
        match op {
            Op::Move { process, .. } | Op::Mirror { process, .. } => Some(*process),
            _ => self.actors[a].process,
        }
    }

    /// What the actor waits for before a turn of the operation.
    fn waits(&self, a: usize, op: &Op) -> Option<Wait> {
        let Some(p) = self.concerned(a, op) else {
            return self.waits_for_pin(a, op);
        };
        let process = &self.processes[p];
        match process.birth {
            Birth::Unborn | Birth::Growing => return Some(Wait::Process(p)),
            Birth::Failed => return None,
            Birth::Born => {}
        }
        let held = |lock: Option<usize>| lock.is_some_and(|holder| holder != a);
        if !held(process.structure) && !held(process.table) {
            return self.waits_for_pin(a, op);
        }
        let entry = |page: u64| process.find(page).and_then(|at| process.pages[at].1.entry);
        let needed = match op {
            Op::Load { page, .. } => entry(*page).is_none(),
            Op::Store { page, .. } => !entry(*page).is_some_and(|entry| entry.writable),
            Op::Move { .. } => held(process.table),
            Op::Fork { .. } => match self.actors[a].job {
                Job::Idle => true,
                Job::From(from) => held(process.table) && process.pages.back().is_some_and(|row| row.0 >= from),
                _ => false,
            },
            Op::Pin { fast, .. } => match self.actors[a].job {
                Job::Idle => !fast,
                Job::Walk(..) => false,
                _ => true,
            },
            Op::Put { .. } | Op::Unpin { .. } | Op::Give { .. } | Op::Take { .. } | Op::Transfer { .. } => return self.waits_for_pin(a, op),
            _ => true,
        };
        needed.then_some(Wait::Lock)
    }

    fn waits_for_pin(&self, a: usize, op: &Op) -> Option<Wait> {
        match op {
            Op::Take { handle } if !matches!(self.handles[*handle], Handle::Given(to, _, _) if to == a) => Some(Wait::Handle(*handle)),
            _ => None,
        }
    }

    /// Takes the actor's turn, if it can.
    fn turn(&mut self, a: usize) -> bool {
        let actor = &self.actors[a];
        let Some(op) = actor.ops.get(actor.done).copied() else {
            return false;
        };
        if self.waits(a, &op).is_some() {
            return false;
        }
        if self.concerned(a, &op).is_some_and(|p| self.processes[p].birth == Birth::Failed) {
            if let Op::Fork { child } = op {
                self.processes[child].birth = Birth::Failed;
            }
            self.answer(a, "unborn");
            return true;
        }
        match op {
            Op::Map { page, n, write } => self.map(a, page, n, write),
            Op::Unmap { page, n, keep } => self.take_down(a, page, n, keep),
            Op::Protect { page, n, write } => self.protect(a, page, n, write),
            Op::Load { page, word } => self.access(a, page, word, None),
            Op::Store { page, word, value } => self.access(a, page, word, Some(value)),
            Op::Pin { handle, page, n, write, long, fast } => self.pin(a, handle, page, n, write, long, fast),
            Op::Unpin { handle } => self.unpin(a, handle),
            Op::Give { handle, to } => self.give(a, handle, to),
            Op::Take { handle } => {
                if let Handle::Given(_, frames, write) = &mut self.handles[handle] {
                    self.handles[handle] = Handle::Held(a, std::mem::take(frames), *write);
                }
                self.answer(a, "ok");
            }
            Op::Get { handle, page } => self.get(a, handle, page),
            Op::Put { handle } => self.put(a, handle),
            Op::Move { process, page, zone } => self.migrate(a, process, page, zone),
            Op::Transfer { handle, outward, slot, parts, n } => self.transfer(a, handle, outward, slot, &parts, n),
            Op::Mirror { slot, process, page } => self.mirror(a, slot, process, page),
            Op::Look { slot, word } => self.look(a, slot, word),
            Op::Fork { child } => self.fork(a, child),
            Op::Exit => self.exit(a),
        }
        true
    }

    fn answer(&mut self, a: usize, text: &str) {
        let actor = &mut self.actors[a];
        actor.done += 1;
        actor.far = 0;
        actor.job = Job::Idle;
        let _ = writeln!(self.out, "{} {} {}", actor.name, actor.done, text);
    }

    fn own(&self, a: usize) -> usize {
        self.actors[a].process.unwrap()
    }

    fn map(&mut self, a: usize, page: u64, n: u64, write: bool) {
        let p = self.own(a);
        let pages = &mut self.processes[p].pages;
        let at = pages.partition_point(|row| row.0 < page);
        if pages.get(at).is_some_and(|row| row.0 < page + n) {
            return self.answer(a, "overlap");
        }
        if pages.len() as u64 + n > 1024 {
            return self.answer(a, "full");
        }
        let mut rest = pages.split_off(at);
        pages.extend((page..page + n).map(|page| (page, Page { write, entry: None })));
        pages.append(&mut rest);
        self.answer(a, "ok");
    }

    fn lose(frames: &mut Frames, entry: Option<Entry>) {
        if let Some(entry) = entry {
            frames.put(entry.frame, 1);
        }
    }

    fn take_down(&mut self, a: usize, page: u64, n: u64, keep: bool) {
        let p = self.own(a);
        let far = self.actors[a].far;
        if let Some(at) = self.processes[p].find(page + far) {
            let pages = &mut self.processes[p].pages;
            invalidate(&mut self.slots, p, page + far, 1);
            Self::lose(&mut self.frames, pages[at].1.entry);
            if keep {
                pages[at].1.entry = None;
            } else {
                pages.remove(at);
            }
        }
        self.actors[a].far = far + 1;
        if far + 1 == n {
            self.answer(a, "ok");
        }
    }

    fn protect(&mut self, a: usize, page: u64, n: u64, write: bool) {
        let p = self.own(a);
        let process = &mut self.processes[p];
        let Some(at) = process.find(page) else {
            return self.answer(a, "missing");
        };
        let end = at + n as usize;
        if process.pages.get(end - 1).is_none_or(|row| row.0 != page + n - 1) {
            return self.answer(a, "missing");
        }
        invalidate(&mut self.slots, p, page, n);
        for row in process.pages.range_mut(at..end) {
            row.1.write = write;
            if let Some(entry) = &mut row.1.entry {
                entry.writable &= write;
            }
        }
        self.answer(a, "ok");
    }

    fn access(&mut self, a: usize, page: u64, word: usize, value: Option<u64>) {
        let p = self.own(a);
        let Some(row) = self.processes[p].page(page) else {
            return self.answer(a, "missing");
        };
        let write = value.is_some();
        if !row.entry.is_some_and(|entry| entry.writable || !write) {
            if write && !row.write {
                return self.answer(a, "forbidden");
            }
            match ready(&mut self.frames, row, write, false, None) {
                None => return self.answer(a, "noframe"),
                Some(Fault::Broken) => invalidate(&mut self.slots, p, page, 1),
                Some(Fault::Kept) => {}
            }
        }
        let place = row.entry.unwrap().frame * WORDS + word;
        match value {
            Some(value) => {
                self.frames.words[place] = value;
                self.answer(a, "ok");
            }
            None => {
                let text = format!("ok {}", self.frames.words[place]);
                self.answer(a, &text);
            }
        }
    }

    /// A page of a pin: it is made ready and pinned, or refused, or, where it is to be kept for long and its frame is movable, cleared.
    fn pin(&mut self, a: usize, handle: usize, page: u64, n: u64, write: bool, long: bool, fast: bool) {
        let p = self.own(a);
        let process = &mut self.processes[p];
        process.has_pinned = true;
        match self.actors[a].job {
            Job::Idle if fast => {
                self.actors[a].job = Job::Walk(Step::Entered, 0);
                return;
            }
            Job::Walk(step, seen) => return self.walk(a, step, seen, handle, page, n, write, long),
            _ => {}
        }
        let at = page + self.actors[a].taken.len() as u64;
        let zone = long.then_some(Zone::Normal);
        let refused = match self.actors[a].job {
            Job::Count(entry) => {
                self.actors[a].job = Job::Place(entry, self.frames.counts[entry.frame]);
                return;
            }
            Job::Place(entry, count) => {
                self.actors[a].job = Job::Slow;
                process.table = None;
                let row = process.page(at).unwrap();
                row.entry = Some(entry);
                match count {
                    1 => match relocate(&mut self.frames, row, entry, Zone::Normal) {
                        Some(()) => None,
                        None => Some("noframe".to_string()),
                    },
                    count => Some(format!("unmovable {count}")),
                }
            }
            _ => match process.page(at) {
                None => Some("missing".to_string()),
                Some(row) if write && !row.write => Some("forbidden".to_string()),
                Some(row) => match ready(&mut self.frames, row, write, true, zone) {
                    None => Some("noframe".to_string()),
                    Some(_) if long && row.entry.unwrap().frame < self.frames.movable => {
                        invalidate(&mut self.slots, p, at, 1);
                        self.actors[a].job = Job::Count(row.entry.take().unwrap());
                        process.table = Some(a);
                        return;
                    }
                    Some(fault) => {
                        if fault == Fault::Broken {
                            invalidate(&mut self.slots, p, at, 1);
                        }
                        None
                    }
                },
            },
        };
        if refused.is_none() {
            let frame = process.page(at).unwrap().entry.unwrap().frame;
            self.frames.counts[frame] += PIN;
            self.actors[a].taken.push(frame);
        }
        let got = self.actors[a].taken.len() as u64;
        if refused.is_none() && got < n {
            return;
        }
        let taken = std::mem::take(&mut self.actors[a].taken);
        if !taken.is_empty() {
            self.handles[handle] = Handle::Held(a, taken, write);
        }
        let text = match refused {
            None => format!("ok {n}"),
            Some(cause) if got == 0 => cause,
            Some(cause) => format!("ok {got} of {n} {cause}"),
        };
        self.answer(a, &text);
    }

    /// A step of a pin's walk.
    fn walk(&mut self, a: usize, step: Step, seen: u64, handle: usize, page: u64, n: u64, write: bool, long: bool) {
        let process = &self.processes[self.actors[a].process.unwrap()];
        let frames = &mut self.frames;
        let taken = &mut self.actors[a].taken;
        let at = page + taken.len() as u64;
        let entry = process.find(at).and_then(|at| process.pages[at].1.entry);
        let same = process.sequence == seen;
        let next = match step {
            Step::Entered => {
                let now = process.sequence;
                self.actors[a].job = if now % 2 == 1 { Job::Slow } else { Job::Walk(Step::Ready, now) };
                return;
            }
            Step::Ready if taken.len() as u64 == n && same => {
                self.handles[handle] = Handle::Held(a, std::mem::take(taken), write);
                return self.answer(a, &format!("ok {n}"));
            }
            Step::Ready if taken.len() as u64 == n => Step::Dropping,
            Step::Ready => match entry {
                Some(entry) if (entry.writable || !write) && !(long && entry.frame < frames.movable) => Step::Read(entry),
                _ => Step::Stopped,
            },
            Step::Read(read) if frames.counts[read.frame] == 0 => Step::Stopped,
            Step::Read(read) => {
                frames.counts[read.frame] += PIN;
                Step::Grabbed(read)
            }
            Step::Grabbed(read) if entry == Some(read) => {
                taken.push(read.frame);
                Step::Rechecked(read)
            }
            Step::Grabbed(read) => Step::Differed(read.frame),
            Step::Rechecked(read) if read.writable || frames.marks[read.frame] => Step::Ready,
            Step::Rechecked(_) => Step::Refused,
            Step::Differed(frame) => {
                frames.put(frame, PIN);
                Step::Stopped
            }
            Step::Refused => {
                frames.put(taken.pop().unwrap(), PIN);
                Step::Stopped
            }
            Step::Stopped if same || taken.is_empty() => {
                self.actors[a].job = Job::Slow;
                return;
            }
            Step::Stopped => Step::Dropping,
            Step::Dropping => {
                frames.put(taken.remove(0), PIN);
                if taken.is_empty() {
                    self.actors[a].job = Job::Slow;
                    return;
                }
                Step::Dropping
            }
        };
        self.actors[a].job = Job::Walk(next, seen);
    }

    fn unpin(&mut self, a: usize, handle: usize) {
        let Handle::Held(by, frames, _) = &mut self.handles[handle] else {
            return self.answer(a, "notheld");
        };
        if *by != a {
            return self.answer(a, "notheld");
        }
        let frame = frames.pop().unwrap();
        let over = frames.is_empty();
        self.frames.put(frame, PIN);
        if over {
            self.handles[handle] = Handle::Gone;
            self.answer(a, "ok");
        }
    }

    fn give(&mut self, a: usize, handle: usize, to: usize) {
        match &mut self.handles[handle] {
            Handle::Held(by, frames, write) if *by == a => {
                self.handles[handle] = Handle::Given(to, std::mem::take(frames), *write);
                self.answer(a, "ok");
            }
            _ => self.answer(a, "notheld"),
        }
    }

    fn get(&mut self, a: usize, handle: usize, page: u64) {
        let p = self.own(a);
        let Some(row) = self.processes[p].page(page) else {
            return self.answer(a, "missing");
        };
        if ready(&mut self.frames, row, false, false, None).is_none() {
            return self.answer(a, "noframe");
        }
        let frame = row.entry.unwrap().frame;
        self.frames.counts[frame] += 1;
        self.handles[handle] = Handle::Got(a, frame);
        self.answer(a, "ok");
    }

    fn put(&mut self, a: usize, handle: usize) {
        match self.handles[handle] {
            Handle::Got(by, frame) if by == a => {
                self.frames.put(frame, 1);
                self.handles[handle] = Handle::Gone;
                self.answer(a, "ok");
            }
            _ => self.answer(a, "notheld"),
        }
    }

    /// A move of the page: its entry is cleared, its frame counted, and another takes its place, or the entry is put back.
    fn migrate(&mut self, a: usize, p: usize, page: u64, zone: Zone) {
        let process = &mut self.processes[p];
        let job = self.actors[a].job;
        let Some(row) = process.page(page) else {
            return self.answer(a, "missing");
        };
        match job {
            Job::Count(entry) => self.actors[a].job = Job::Place(entry, self.frames.counts[entry.frame]),
            Job::Place(entry, count) => {
                row.entry = Some(entry);
                let moved = if count == 1 { relocate(&mut self.frames, row, entry, zone) } else { None };
                process.table = None;
                match moved {
                    Some(()) => self.answer(a, "ok"),
                    None if count == 1 => self.answer(a, "noframe"),
                    None => self.answer(a, &format!("busy {count}")),
                }
            }
            _ => match row.entry.take() {
                None => self.answer(a, "untouched"),
                Some(entry) => {
                    invalidate(&mut self.slots, p, page, 1);
                    process.table = Some(a);
                    self.actors[a].job = Job::Count(entry);
                }
            },
        }
    }

    fn mirror(&mut self, a: usize, slot: usize, p: usize, page: u64) {
        let Some(row) = self.processes[p].page(page) else {
            return self.answer(a, "missing");
        };
        if ready(&mut self.frames, row, false, false, None).is_none() {
            return self.answer(a, "noframe");
        }
        self.slots[slot] = Some(Mirrored { process: p, page, frame: row.entry.unwrap().frame });
        self.answer(a, "ok");
    }

    fn look(&mut self, a: usize, slot: usize, word: usize) {
        let text = match &self.slots[slot] {
            Some(it) => format!("ok {}", self.frames.words[it.frame * WORDS + word]),
            None => "stale".to_string(),
        };
        self.answer(a, &text);
    }

    fn transfer(&mut self, a: usize, handle: usize, outward: bool, slot: u64, parts: &Parts, n: u64) {
        let (frames, may_write) = match &self.handles[handle] {
            Handle::Held(by, frames, write) if *by == a => (frames, *write),
            _ => return self.answer(a, "notheld"),
        };
        let actor = &mut self.actors[a];
        if !outward && !may_write {
            return self.answer(a, "forbidden");
        }
        let within = || parts.iter().all(|(index, n)| *n == 0 || index + n <= (frames.len() * WORDS) as u64);
        if actor.far == 0 && (!within() || slot + n > actor.store.len() as u64) {
            return self.answer(a, "range");
        }
        let word = word_at(parts, actor.far) as usize;
        let place = frames[word / WORDS] * WORDS + word % WORDS;
        let at = (slot + actor.far) as usize;
        let value = if outward { self.frames.words[place] } else { actor.store[at] };
        if outward {
            actor.store[at] = value;
        } else {
            self.frames.words[place] = value;
        }
        actor.moved.push(value);
        actor.far += 1;
        if actor.far == n {
            let mut text = String::from("ok");
            for value in actor.moved.drain(..) {
                text.push(' ');
                text.push_str(&value.to_string());
            }
            self.answer(a, &text);
        }
    }

    fn fork(&mut self, a: usize, c: usize) {
        let p = self.own(a);
        let [parent, child] = self.processes.get_disjoint_mut([p, c]).unwrap();
        let frames = &mut self.frames;
        let actor = &mut self.actors[a];
        match actor.job {
            Job::Idle => {
                child.pages.extend(parent.pages.iter().map(|row| (row.0, Page { write: row.1.write, entry: None })));
                child.birth = Birth::Growing;
                parent.structure = Some(a);
                parent.sequence += 1;
                actor.job = Job::From(0);
            }
            Job::From(from) => {
                let at = parent.pages.partition_point(|row| row.0 < from);
                let Some((page, row)) = parent.pages.get(at) else {
                    child.birth = Birth::Born;
                    parent.structure = None;
                    parent.sequence += 1;
                    return self.answer(a, "ok");
                };
                actor.job = match row.entry {
                    None => Job::From(page + 1),
                    Some(entry) => {
                        parent.table = Some(a);
                        let copies = parent.has_pinned && frames.marks[entry.frame] && frames.counts[entry.frame] >= PIN;
                        if copies { Job::Copy(*page, 0, None) } else { Job::Share(*page) }
                    }
                };
            }
            Job::Share(page) => {
                invalidate(&mut self.slots, p, page, 1);
                let row = parent.page(page).unwrap();
                let entry = Entry { writable: false, ..row.entry.unwrap() };
                row.entry = Some(entry);
                frames.marks[entry.frame] = false;
                frames.counts[entry.frame] += 1;
                child.page(page).unwrap().entry = Some(entry);
                parent.table = None;
                actor.job = Job::From(page + 1);
            }
            Job::Copy(page, _, None) => match frames.take(None) {
                Some(to) => actor.job = Job::Copy(page, 0, Some(to)),
                None => {
                    for row in child.pages.drain(..) {
                        Self::lose(frames, row.1.entry);
                    }
                    child.birth = Birth::Failed;
                    parent.structure = None;
                    parent.sequence += 1;
                    parent.table = None;
                    self.answer(a, "noframe");
                }
            },
            Job::Copy(page, word, Some(to)) if word < WORDS => {
                let from = parent.page(page).unwrap().entry.unwrap().frame;
                frames.words[to * WORDS + word] = frames.words[from * WORDS + word];
                actor.job = Job::Copy(page, word + 1, Some(to));
            }
            Job::Copy(page, _, Some(to)) => {
                frames.marks[to] = true;
                let row = child.page(page).unwrap();
                row.entry = Some(Entry { frame: to, writable: row.write });
                parent.table = None;
                actor.job = Job::From(page + 1);
            }
            Job::Count(_) | Job::Place(..) | Job::Walk(..) | Job::Slow => unreachable!("a fork moves and pins no page"),
        }
    }

    fn exit(&mut self, a: usize) {
        let p = self.own(a);
        let pages = &mut self.processes[p].pages;
        let Some((page, row)) = pages.pop_front() else {
            return self.answer(a, "ok");
        };
        invalidate(&mut self.slots, p, page, 1);
        Self::lose(&mut self.frames, row.entry);
    }

    /// The written turns, and then whoever can go, in a circle. Whether anybody is stuck.
    fn run(&mut self) -> bool {
        for k in 0..self.turns.len() {
            self.turn(self.turns[k] as usize);
        }
        let many = self.actors.len();
        let mut pointer = 0;
        while let Some(a) = (0..many).map(|k| (pointer + k) % many).find(|a| self.turn(*a)) {
            pointer = (a + 1) % many;
        }
        let mut stuck = false;
        for a in 0..many {
            let actor = &self.actors[a];
            let Some(op) = actor.ops.get(actor.done) else {
                continue;
            };
            stuck = true;
            let _ = match self.waits(a, op) {
                Some(Wait::Process(p)) => writeln!(self.out, "stuck {} process {}", actor.name, self.process_names[p]),
                Some(Wait::Handle(h)) => writeln!(self.out, "stuck {} handle {}", actor.name, self.handle_names[h]),
                _ => Ok(()),
            };
        }
        stuck
    }
}

fn number(word: Option<&str>) -> u64 {
    word.unwrap().parse().unwrap()
}

fn address(word: Option<&str>) -> (u64, usize) {
    let (page, word) = word.unwrap().split_once('.').unwrap();
    (page.parse().unwrap(), word.parse().unwrap())
}

fn process(names: &HashMap<&str, Named>, word: &str) -> usize {
    match names[word] {
        Named::Process(p) => p,
        _ => panic!("no process: {word}"),
    }
}

fn actor(names: &HashMap<&str, Named>, word: &str) -> usize {
    match names[word] {
        Named::Actor(a) => a,
        _ => panic!("no actor: {word}"),
    }
}

fn handle(names: &HashMap<&str, Named>, word: &str) -> usize {
    match names[word] {
        Named::Handle(h) => h,
        _ => panic!("no handle: {word}"),
    }
}

fn slot(names: &HashMap<&str, Named>, word: &str) -> usize {
    match names[word] {
        Named::Slot(slot) => slot,
        _ => panic!("no mirror: {word}"),
    }
}

fn main() {
    let mut text = String::new();
    std::io::stdin().read_to_string(&mut text).expect("a script");
    let mut machine = Machine::read(&text);
    let stuck = machine.run();
    std::io::stdout().write_all(&machine.out).expect("standard output");
    std::process::exit(if stuck { 4 } else { 0 });
}
