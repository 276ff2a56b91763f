//! Executor scripts and walks: executor.rs, driven from the outside, and around it what document 01 adds: the stack's
//! room (5), the map's length (4), judged pushes and replies, the walk's own rules.
use std::collections::BTreeSet;

use plants::on;

use crate::{
    analysis::{
        RelocationTarget,
        cfa::SectionAddress,
        executor::{ExecCbData, ExecCbResult, Executor},
        vm::{BranchTarget, StepResult, VM},
    },
    answer::{entries, judge_place, put_result},
    classes::place_name,
    image::Image,
    obj::{ObjInfo, ObjSectionKind},
    pieces::*,
};

/// "Visited bits ... low bit of each u32 first."
pub fn bit(map: &[u32], at: u32) -> bool {
    map[at as usize / 32] >> (at % 32) & 1 == 1
}

pub fn set_bit(map: &mut [u32], at: u32, to: bool) {
    let word = &mut map[at as usize / 32];
    *word = *word & !(1 << (at % 32)) | (to as u32) << (at % 32);
}

/// The place of each Code word, in the order of the bits.
pub fn code_places(obj: &ObjInfo) -> Vec<SectionAddress> {
    let code = obj.sections.iter().filter(|(_, s)| s.kind == ObjSectionKind::Code);
    code.flat_map(|(i, s)| (0..s.size as u32 / 4).map(move |w| SectionAddress::new(i, s.address as u32 + 4 * w)))
        .collect()
}

pub fn too_short(map: usize, code_words: u32) -> bool {
    (map as u64) * 32 < code_words as u64 + on(75) as u64
}

fn is_visited(executor: &Executor, obj: &ObjInfo, place: SectionAddress) -> bool {
    executor.visited(obj.sections[place.section].address as u32, place)
}

/// The map as the executor has it; bits from W up as they were.
fn put_map(out: &mut Vec<u32>, executor: &Executor, obj: &ObjInfo, mut map: Vec<u32>) {
    for (i, place) in code_places(obj).into_iter().enumerate() {
        set_bit(&mut map, i as u32, is_visited(executor, obj, place));
    }
    out.extend(map);
}

fn put_stack(out: &mut Vec<u32>, executor: &Executor) {
    out.push(executor.vm_stack.len() as u32);
    for held in &executor.vm_stack {
        out.extend([held.address.section, held.address.address]);
        put_state(out, &held.vm);
    }
}

enum Reply {
    Continue,
    Jump(SectionAddress),
    EndBlock,
    End,
}

/// What runs or waits when the script is done: 0 nothing, 1 runs, 2 waits.
type Left = (u32, Option<(SectionAddress, Box<VM>)>);

/// What the generator wants to know of a script so far.
#[derive(Default)]
pub struct Standing {
    pub waits: bool,
    pub runs: bool,
    pub here: Option<SectionAddress>,
    pub held: usize,
}

struct Script<'a, 'b> {
    obj: &'a ObjInfo,
    slots: usize,
    short: bool,
    p: &'a mut Words<'b>,
    left: u32,
    out: Vec<u32>,
    /// A `next` was accepted and is not answered yet.
    asked: bool,
}

impl Script<'_, '_> {
    fn push(&mut self, executor: &mut Executor) {
        let sorted = self.p.one() == 1;
        let (place, vm) = (self.p.place(), self.p.state());
        let judged = judge_place(self.obj, place);
        let number = match judged {
            0 if executor.vm_stack.len() >= self.slots => 5,
            number => number,
        };
        if number == 0 {
            executor.push(place, vm, sorted);
        }
        self.out.push(number);
    }

    fn visited(&mut self, executor: &Executor) {
        let place = self.p.place();
        let number = if self.short { 4 } else { judge_place(self.obj, place) };
        self.out.push(number);
        if number == 0 {
            self.out.push(is_visited(executor, self.obj, place) as u32);
        }
    }

    /// A running place that is neither an aligned code word nor its section's end (waiting: not that either).
    fn handed(&mut self) {
        let waiting = self.p.one() == 1;
        let place = self.p.place();
        let end = self
            .obj
            .sections
            .get(place.section)
            .is_some_and(|s| s.kind == ObjSectionKind::Code && s.address + s.size == place.address as u64);
        let bad = judge_place(self.obj, place) != 0 && (waiting || !end);
        assert!(bad, "the file has only places that 12 answers");
        self.out.push(12);
    }

    /// Serves operations up to the next accepted `next`, and answers the reply that came before it; nothing if the
    /// script is done. `waits` is the instruction that waits.
    fn serve(
        &mut self,
        executor: &mut Executor,
        mut waits: Option<(&mut VM, SectionAddress)>,
        done: &mut Left,
    ) -> Option<Reply> {
        let mut reply = None;
        let waiting_at_first = waits.is_some();
        while self.left > 0 {
            self.left -= 1;
            let waiting = waiting_at_first && reply.is_none();
            match self.p.one() {
                1 => self.push(executor),
                2 if self.short => self.out.push(4),
                2 if waiting => self.out.push(11),
                2 => {
                    self.asked = true;
                    return Some(reply.unwrap_or(Reply::EndBlock));
                }
                3 => {
                    let (kind, place) = (self.p.one(), self.p.place());
                    let changed = (self.p.one() == 1).then(|| self.p.state());
                    let number = match &waits {
                        _ if self.short && !(on(96) && !waiting) => 4,
                        None => 11,
                        _ if !waiting => 11,
                        Some((_, at)) if kind == 1 && place.section != at.section => 6,
                        _ if kind == 1 => judge_place(self.obj, place),
                        _ => 0,
                    };
                    self.out.push(number);
                    if let (Some((vm, _)), Some(changed)) = (&mut waits, changed)
                        && (number == 0 || on(97))
                    {
                        **vm = *changed;
                    }
                    if number == 0 {
                        reply = Some(match kind {
                            0 => Reply::Continue,
                            1 => Reply::Jump(place),
                            2 => Reply::EndBlock,
                            _ => Reply::End,
                        });
                    }
                }
                4 => self.visited(executor),
                _ => self.handed(),
            }
        }
        if let Some((vm, at)) = waits {
            let state = Box::new(vm.clone());
            *done = match reply {
                None => (2, Some((at, state))),
                Some(Reply::Continue) => (1, Some((at + 4, state))),
                // "Jump to a visited word ends the block."
                Some(Reply::Jump(to)) if !is_visited(executor, self.obj, to) => (1, Some((to, state))),
                _ => (0, None),
            };
        }
        None
    }
}

pub fn script(current: &Image, p: &mut Words) -> Vec<u32> {
    run_script(current, p).0
}

pub fn run_script(current: &Image, p: &mut Words) -> (Vec<u32>, Standing) {
    let slots = p.one() as usize;
    let count = p.one() as usize;
    let map = p.many(count).to_vec();
    let left = p.one();
    let Some(obj) = &current.obj else {
        let mut out = vec![1; left as usize];
        out.push(0);
        out.extend(map);
        out.push(0);
        return (out, Standing::default());
    };
    let short = too_short(map.len(), current.code_words);
    let mut executor = Executor::new(obj);
    if !short {
        // A word visited before: stepped once, its block ended.
        for (_, place) in code_places(obj).into_iter().enumerate().filter(|(i, _)| bit(&map, *i as u32)) {
            executor.push(place, VM::new(), false);
            let _ = executor.run(obj, |_| Ok(ExecCbResult::<()>::EndBlock));
        }
    }
    let mut s = Script { obj, slots, short, p, left, out: Vec::new(), asked: false };
    let mut done: Left = (0, None);
    let mut over = false;
    while !over {
        if !s.asked && s.serve(&mut executor, None, &mut done).is_none() {
            break;
        }
        let ran = executor.run(obj, |data: ExecCbData| {
            s.asked = false;
            s.out.extend([0, 1, data.ins_addr.section, data.ins_addr.address]);
            put_result(&mut s.out, &data.result);
            put_state(&mut s.out, data.vm);
            Ok(match s.serve(data.executor, Some((data.vm, data.ins_addr)), &mut done) {
                None => {
                    over = true;
                    ExecCbResult::End(())
                }
                Some(Reply::Continue) => ExecCbResult::Continue,
                Some(Reply::Jump(to)) => ExecCbResult::Jump(to),
                Some(Reply::EndBlock) => ExecCbResult::EndBlock,
                Some(Reply::End) => ExecCbResult::End(()),
            })
        });
        // After End the `next` that brought it is still to be answered.
        if let Ok(None) = ran {
            s.asked = false;
            s.out.extend([0, 0]);
        }
    }
    let mut out = s.out;
    put_stack(&mut out, &executor);
    if short {
        out.extend(map)
    } else {
        put_map(&mut out, &executor, obj, map)
    }
    out.push(done.0);
    if let Some((place, vm)) = &done.1 {
        out.extend([place.section, place.address]);
        put_state(&mut out, vm);
    }
    let here = done.1.map(|l| l.0);
    (out, Standing { waits: done.0 == 2, runs: done.0 == 1, here, held: executor.vm_stack.len() })
}

const TABLE_ENTRIES: usize = 1024;

#[derive(Default)]
pub struct Counts {
    steps: u64,
    blocks: u64,
    read: u64,
    not_read: u64,
    /// What happened on the way, for the classes; nothing is kept where nobody watches.
    seen: BTreeSet<String>,
    watched: bool,
}

impl Counts {
    fn saw(&mut self, what: &str) {
        if self.watched {
            self.seen.insert(what.to_string());
        }
    }
}

struct Walk<'a> {
    obj: &'a ObjInfo,
    /// W
    words: u64,
    slots: usize,
    start: SectionAddress,
    end: Option<SectionAddress>,
    counts: Counts,
}

impl Walk<'_> {
    /// Nothing: the stack is full (5).
    fn push(&self, executor: &mut Executor, place: SectionAddress, vm: impl FnOnce() -> Box<VM>) -> Option<()> {
        if executor.vm_stack.len() >= self.slots {
            return None;
        }
        executor.push(place, vm(), !on(76));
        Some(())
    }

    /// A target that is pushed, or a table that is read and whose entries are. The state is made only where it is pushed.
    fn follow(&mut self, executor: &mut Executor, target: &BranchTarget, vm: impl FnOnce() -> Box<VM>) -> Option<()> {
        match target {
            BranchTarget::Address(RelocationTarget::Address(place)) if judge_place(self.obj, *place) == 0 => {
                let pushed = self.push(executor, *place, vm);
                self.counts.saw(if pushed.is_some() { "a target pushed" } else { "5 at a target" });
                pushed
            }
            BranchTarget::Address(target) => {
                let address = matches!(target, RelocationTarget::Address(_));
                self.counts.saw(if address { "a target that is no code word" } else { "an External target" });
                Some(())
            }
            BranchTarget::JumpTable { address: RelocationTarget::External, .. } => {
                self.counts.not_read += !on(86) as u64;
                self.counts.saw("an External table");
                Some(())
            }
            BranchTarget::JumpTable { address: RelocationTarget::Address(table), size } => {
                let read = entries(self.obj, *table, *size, self.start, self.end);
                let how = if size.is_some() { "with a size" } else { "with no size" };
                match &read {
                    Ok((found, _)) if found.len() > TABLE_ENTRIES => {
                        self.counts.saw("a table of more than 1,024 entries")
                    }
                    Ok((found, _)) if found.len() == TABLE_ENTRIES => self.counts.saw("a table of 1,024 entries"),
                    Ok((found, _)) if found.is_empty() => self.counts.saw(&format!("a table {how} without entries")),
                    Ok(_) => self.counts.saw(&format!("a table {how} read")),
                    Err(number) => self.counts.saw(&format!("a table {how} refused by {number}")),
                }
                match read {
                    Ok((found, _))
                        if found.len() + on(91) as usize <= TABLE_ENTRIES + on(92) as usize * 999
                            && !(on(87) && found.is_empty() || on(93) && size.is_none()) =>
                    {
                        self.counts.read += 1;
                        let vm = vm();
                        for place in found {
                            if judge_place(self.obj, place) != 0 {
                                self.counts.saw("an entry that is no code word");
                            } else if self.push(executor, place, || vm.clone_all()).is_none() {
                                self.counts.saw("5 at an entry");
                                return None;
                            }
                        }
                    }
                    _ => self.counts.not_read += 1,
                }
                Some(())
            }
            _ => Some(()),
        }
    }

    fn turn(&mut self, data: ExecCbData) -> ExecCbResult<()> {
        self.counts.steps += 1;
        if data.block_start == data.ins_addr {
            self.counts.blocks += 1;
        }
        // "Blocks begun never exceed W; steps never exceed W times W."
        assert!(self.counts.blocks <= self.words && self.counts.steps <= self.words * self.words);
        let followed = match data.result {
            StepResult::Continue | StepResult::LoadStore { .. } => return ExecCbResult::Continue,
            StepResult::Illegal => Some(()),
            StepResult::Jump(BranchTarget::Address(RelocationTarget::Address(place)))
                if judge_place(self.obj, place) == 0 && place.section == data.ins_addr.section =>
            {
                return ExecCbResult::Jump(place);
            }
            StepResult::Jump(BranchTarget::Address(_)) if on(98) => Some(()),
            StepResult::Jump(target) => {
                let held = data.executor.vm_stack.len();
                let followed = self.follow(data.executor, &target, || data.vm.clone_all());
                if matches!(target, BranchTarget::Address(_)) && data.executor.vm_stack.len() > held {
                    self.counts.saw("a jump into another section");
                }
                followed
            }
            StepResult::Branch(branches) => branches.into_iter().try_for_each(|b| {
                if on(77) && b.link {
                    return Some(());
                }
                let held = data.executor.vm_stack.len();
                self.follow(data.executor, &b.target, || b.vm)?;
                if b.link && data.executor.vm_stack.len() > held {
                    self.counts.saw("a linked target pushed");
                }
                Some(())
            }),
        };
        // End carries 5 out.
        if followed.is_some() { ExecCbResult::EndBlock } else { ExecCbResult::End(()) }
    }

    /// From the starts to the end; nothing: the stack was full (5).
    fn run(&mut self, executor: &mut Executor, starts: &[SectionAddress], fresh: &VM) -> Option<()> {
        if starts.iter().try_for_each(|s| self.push(executor, *s, || fresh.clone_all())).is_none() {
            self.counts.saw("5 at a start");
            return None;
        }
        // "run until the stack is empty, also past Ended"
        while !executor.vm_stack.is_empty() {
            if let Ok(Some(())) = executor.run(self.obj, |data| Ok(self.turn(data))) {
                return None;
            }
        }
        Some(())
    }
}

pub fn walk(current: &Image, p: &mut Words) -> Vec<u32> {
    run_walk(current, p, 1, false).0
}

/// The walk done so often, each time from the beginning (bench/walk counts what it costs), and if watched the classes it reaches.
pub fn run_walk(current: &Image, p: &mut Words, turns: u32, watched: bool) -> (Vec<u32>, Counts) {
    let (slots, count, fill) = (p.one() as usize, p.one() as usize, p.one());
    let mut given = || {
        let there = p.one() == 1;
        let number = p.one();
        there.then_some(number)
    };
    let (r2, r13) = (given(), given());
    let (start, end) = (p.place(), p.optional_place());
    let starts: Vec<SectionAddress> = (0..p.one()).map(|_| p.place()).collect();
    let map = vec![fill; count];
    let refuse = |number: u32| {
        let mut out = vec![number, 0, 0, 0, 0, 0, 0, 0, 0];
        out.extend(&map);
        out.push(0);
        (out, Counts::default())
    };
    let Some(obj) = &current.obj else { return refuse(1) };
    if too_short(count, current.code_words) {
        return refuse(4);
    }
    if let Some(number) = starts.iter().map(|s| judge_place(obj, *s)).find(|n| *n != 0) {
        return refuse(number);
    }
    let mut w = Walk { obj, words: current.code_words as u64, slots, start, end, counts: Counts::default() };
    let mut executor = Executor::new(obj);
    let fresh = VM::new_with_base(r2, r13);
    let mut walked = Some(());
    for _ in 0..turns {
        w.counts = Counts { watched, ..Counts::default() };
        executor = Executor::new(obj);
        walked = w.run(&mut executor, &starts, &fresh);
    }
    let mut out = vec![if walked.is_some() { 0 } else { 5 }];
    for count in [w.counts.steps, w.counts.blocks, w.counts.read, w.counts.not_read] {
        out.extend([(count >> 32) as u32, count as u32]);
    }
    put_map(&mut out, &executor, obj, map);
    put_stack(&mut out, &executor);
    (out, w.counts)
}

macro_rules! put { ($out:expr, $($arg:tt)*) => { $out.push(format!($($arg)*)) } }

pub fn script_classes(out: &mut Vec<String>, current: &Image, p: &mut Words, answer: &[u32]) {
    p.one();
    let count = p.one();
    let map = p.many(count as usize);
    let Some(obj) = &current.obj else {
        put!(out, "script 1");
        return;
    };
    let short = too_short(map.len(), current.code_words);
    if map.len() as u32 * 32 > current.code_words {
        put!(out, "script: bits past W");
    }
    let mut a = Words::new(answer);
    let (mut waiting, mut at, mut depth): (bool, Option<SectionAddress>, i64) = (false, None, 0);
    let (mut replied, mut ended) = ("none", false);
    for _ in 0..p.one() {
        match p.one() {
            1 => {
                let (sorted, place) = (p.one(), p.place());
                p.state();
                let number = a.one();
                depth += (number == 0) as i64;
                put!(out, "script push: {number}, sorted {sorted}");
                put!(out, "script push: {}", place_name(obj, place));
                if waiting {
                    put!(out, "script push while one waits");
                }
                if number == 5 && depth == 0 {
                    put!(out, "script push: 5 with no slot");
                }
            }
            2 => {
                let number = a.one();
                put!(out, "script next: {number}");
                if number != 0 {
                    continue;
                }
                if a.one() == 0 {
                    put!(out, "script next: Ended after {replied}");
                    if replied == "Continue" {
                        put!(out, "script next: Ended past the section's end");
                    }
                    (ended, replied) = (true, "none");
                    continue;
                }
                let place = a.place();
                skip_result(&mut a);
                put!(out, "script next: an instruction after {replied}{}", if ended { " and Ended" } else { "" });
                (waiting, at, ended) = (true, Some(place), false);
            }
            3 => {
                let (kind, place) = (p.one(), p.place());
                let changed = p.one() == 1;
                if changed {
                    p.state();
                }
                let number = a.one();
                let name = ["Continue", "Jump", "EndBlock", "End"][kind as usize];
                put!(out, "script reply {name}: {number}");
                put!(out, "script reply, state changed {changed}: {}", (number == 0) as u32);
                if kind == 1 && (number == 2 || number == 6) {
                    let code = judge_place(obj, place);
                    put!(out, "script reply Jump: {number} where the place is {code}");
                    put!(out, "script reply Jump: {}", place_name(obj, place));
                }
                if number == 0 {
                    (waiting, replied) = (false, name);
                    let last = at.is_some_and(|p| {
                        let s = &obj.sections[p.section];
                        p.address as u64 + 4 == s.address + s.size
                    });
                    if kind == 0 && last {
                        put!(out, "script reply Continue at the last word");
                    }
                }
            }
            4 => {
                let place = p.place();
                let number = a.one();
                put!(
                    out,
                    "script visited: {number}{}",
                    if number == 0 { format!(", {}", a.one()) } else { String::new() }
                );
                put!(out, "script visited: {}", place_name(obj, place));
            }
            _ => {
                let (waits, place) = (p.one(), p.place());
                a.one();
                put!(out, "script handed over: 12, {}", place_name(obj, place));
                put!(out, "script handed over: 12, waiting {waits}");
            }
        }
    }
    let held = a.one();
    put!(out, "script leaves {} states, short map {short}", held.min(2));
    for _ in 0..held {
        a.place();
        a.state();
    }
    a.many(count as usize);
    put!(out, "script leaves {}", ["nothing running", "a running place", "a waiting instruction"][a.one() as usize]);
}

/// Skips outcome, payload and state of an instruction.
fn skip_result(a: &mut Words) {
    match a.one() {
        1 => {
            a.many(15);
        }
        3 => {
            a.many(5);
        }
        4 => {
            for _ in 0..2 {
                a.many(6);
                a.state();
            }
        }
        _ => {}
    }
    a.state();
}

pub fn walk_classes(out: &mut Vec<String>, current: &Image, p: &mut Words, answer: &[u32]) {
    let counts = run_walk(current, &mut Words::new(p.left), 1, true).1;
    for what in &counts.seen {
        put!(out, "walk: {what}");
    }
    let (slots, count, fill) = (p.one(), p.one(), p.one());
    let (r2, _, r13, _) = (p.one(), p.one(), p.one(), p.one());
    p.place();
    let end = p.optional_place();
    let starts = p.one();
    put!(out, "walk {}", answer[0]);
    let Some(obj) = &current.obj else { return };
    if answer[0] == 2 || answer[0] == 3 {
        let places: Vec<_> = (0..starts).map(|_| p.place()).collect();
        let first = places.iter().position(|s| judge_place(obj, *s) != 0).unwrap();
        put!(out, "walk start {}: {}", if first == 0 { "first" } else { "later" }, answer[0]);
        put!(out, "walk start: {}", place_name(obj, places[first]));
        let later = places[first + 1..].iter().any(|s| !matches!(judge_place(obj, *s), n if n == 0 || n == answer[0]));
        if later {
            put!(out, "walk start: {} before another", answer[0]);
        }
        return;
    }
    if answer[0] == 4 {
        put!(out, "walk 4, bits short by {}", if count * 32 + 32 >= current.code_words { "a word" } else { "more" });
        return;
    }
    let long = |i: usize| (answer[1 + 2 * i] as u64) << 32 | answer[2 + 2 * i] as u64;
    let (steps, blocks, read, not_read) = (long(0), long(1), long(2), long(3));
    put!(out, "walk of {} starts", starts.min(3));
    put!(out, "walk with slots {}", if slots == 0 { "0" } else { "some" });
    put!(out, "walk r2 {r2} r13 {r13}");
    put!(out, "walk function end {}", end.is_some());
    let ones: u32 = answer[9..9 + count as usize]
        .iter()
        .enumerate()
        .map(|(i, w)| {
            let left = (current.code_words as u64).saturating_sub(32 * i as u64).min(32);
            (*w as u64 & ((1 << left) - 1)).count_ones()
        })
        .sum();
    let held = answer[9 + count as usize];
    let mut at = |holds: bool, what: &str| {
        if holds {
            put!(out, "walk {}: {what}", answer[0]);
        }
    };
    at(steps > ones as u64, "a word stepped twice");
    at(steps == ones as u64 && steps > 0, "no word stepped twice");
    at(ones == current.code_words && ones > 1, "every word visited");
    at(blocks > starts as u64, "blocks begun beyond the starts");
    at(blocks < starts as u64, "fewer blocks than starts");
    at(read > 0, "a table read");
    at(not_read > 0, "a table not read");
    at(read > 1, "tables read");
    at(held > 0, "states left");
    at(fill != 0 && current.code_words % 32 != 0 && ones < current.code_words, "bits cleared below W, kept above");
    at(current.code_words == 0, "no code word");
    at(steps > 20, "more than 20 steps");
}
