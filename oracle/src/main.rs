//! The oracle: decomp-toolkit's vm.rs, executor.rs and mod.rs, run on cases (docs/FORMATS.md). README.md says how.
use std::{collections::BTreeMap, fs, process::exit};

/// As in the Rust: `N` elements from `offset` on.
#[macro_export]
macro_rules! array_ref {
    ($slice:expr, $offset:expr, $size:expr) => {
        <&[u8; $size]>::try_from(&$slice[$offset..$offset + $size]).unwrap()
    };
}

#[allow(dead_code, unused_imports)]
mod analysis {
    include!(concat!(env!("OUT_DIR"), "/analysis/mod.rs"));
}
mod answer;
mod bench;
mod classes;
mod image;
mod make;
mod make_image;
mod make_word;
mod obj;
#[cfg(test)]
mod paper;
mod pieces;
mod report;
mod rng;
mod show;
mod walk;

use answer::*;
use image::Image;
use rng::Rng;

/// The programs that answer cases, each with the first and the last of its kinds.
const PROGRAMS: [(&str, u32, u32); 3] =
    [("replay", IMAGE, TABLE), ("replay_scripts", SCRIPT, SCRIPT), ("replay_upper", WALK, READ)];

/// From this many cases on, every class of classes.txt must be reached; those marked ~ from four times as many on.
const ENOUGH: u64 = 100_000;

const USAGE: &str = "\
oracle make SEED COUNT CASES ANSWERS    cases from a seed, with the oracle's answers; counts of classes go to stderr
oracle sample SEED COUNT CASES ANSWERS  out of COUNT cases those that reach a class first, without the largest
oracle answer CASES ANSWERS             answers to an existing file of cases
oracle split CASES ANSWERS FOLDER       what replay answers (kinds 1 to 8), replay_scripts (1 and 9) and replay_upper (1 and 10 to
                                        12): FOLDER/replay.cases, FOLDER/replay.answers, and so on
oracle show CASES N                     case N (from 0), readable, with the oracle's answer
oracle planted CASES ANSWERS            (built with the feature planted) each wrong version against the right answers
oracle bench-step WORDS                 steps words, as often as the first says; bench-decoded-step decodes each time
oracle bench-walk CASE                  a word that says how often, an image, a walk of it: the walk's answer
oracle bench-stack LETTER               pushes and pops at depth 3,000, as crates/stack_bench
oracle bench-executor LETTER            next and a reply at depth 3,000, as crates/executor_bench
In front of these: --kinds K  the kinds of cases to make, as 1-8 or 9,11-12 (1-12 unless said); images are in every file
                   --plant N  answer as wrong version N (built with the feature planted)";

/// A set of kinds of cases.
#[derive(Clone, Copy)]
pub struct Kinds(u32);

impl Kinds {
    /// From a list of kinds and spans of kinds.
    fn from_list(list: &str) -> Option<Self> {
        let mut kinds = 0;
        for part in list.split(',') {
            let (first, last) = part.split_once('-').unwrap_or((part, part));
            let (first, last): (u32, u32) = (first.parse().ok()?, last.parse().ok()?);
            if first < IMAGE || last < first || last > READ {
                return None;
            }
            (first..=last).for_each(|k| kinds |= 1 << k);
        }
        Some(Self(kinds))
    }

    pub fn has(self, kind: u32) -> bool {
        self.0 >> kind & 1 == 1
    }
}

fn main() {
    let mut args: Vec<String> = std::env::args().skip(1).collect();
    let mut kinds = Kinds::from_list("1-12").unwrap();
    while args.len() > 1 && args[0].starts_with("--") {
        match args[0].as_str() {
            "--plant" => plants::set(args[1].parse().unwrap_or_else(|_| fail(USAGE))),
            "--kinds" => kinds = Kinds::from_list(&args[1]).unwrap_or_else(|| fail(USAGE)),
            _ => fail(USAGE),
        }
        args.drain(..2);
    }
    let args: Vec<&str> = args.iter().map(|a| a.as_str()).collect();
    let number = |s: &str| -> u64 { s.parse().unwrap_or_else(|_| fail(&format!("{s} is no number"))) };
    match args[..] {
        ["make", seed, count, cases, answers] => make_cases(number(seed), number(count), kinds, cases, answers),
        ["answer", cases, answers] => {
            let records = read_cases(cases);
            let mut current = Image::default();
            let text: String = records.iter().map(|r| line(&answer(&mut current, r))).collect();
            write(answers, text.as_bytes());
        }
        ["split", cases, answers, folder] => split(cases, answers, folder),
        ["show", cases, n] => show::show(&read_cases(cases), number(n) as usize),
        ["sample", seed, count, cases, answers] => sample(number(seed), number(count), kinds, cases, answers),
        ["planted", cases, answers] => planted(cases, answers),
        ["bench-step", words] => bench::step(words, false),
        ["bench-decoded-step", words] => bench::step(words, true),
        ["bench-walk", case] => {
            let (turns, records) = read_bench(case);
            print!("{}", line(&bench::walk(turns, &records)));
        }
        ["bench-stack", letter] => bench::stack(letter.as_bytes()[0]),
        ["bench-executor", letter] => bench::executor(letter.as_bytes()[0]),
        _ => fail(USAGE),
    }
}

fn fail(message: &str) -> ! {
    eprintln!("{message}");
    exit(2)
}

fn write(path: &str, bytes: &[u8]) {
    fs::write(path, bytes).unwrap_or_else(|e| fail(&format!("{path}: {e}")));
}

fn line(words: &[u32]) -> String {
    let words: Vec<String> = words.iter().map(|w| format!("{w:08x}")).collect();
    words.join(" ") + "\n"
}

fn put_record(out: &mut Vec<u8>, record: &Record) {
    for w in [record.kind, record.payload.len() as u32].iter().chain(&record.payload) {
        out.extend(w.to_be_bytes());
    }
}

fn read_words(path: &str) -> Vec<u32> {
    let bytes = fs::read(path).unwrap_or_else(|e| fail(&format!("{path}: {e}")));
    bytes.chunks_exact(4).map(|c| u32::from_be_bytes(c.try_into().unwrap())).collect()
}

fn read_cases(path: &str) -> Vec<Record> {
    records(path, &read_words(path))
}

/// A file of bench/walk: how often, then records.
fn read_bench(path: &str) -> (u32, Vec<Record>) {
    let words = read_words(path);
    (words[0], records(path, &words[1..]))
}

fn records(path: &str, mut left: &[u32]) -> Vec<Record> {
    let mut out = Vec::new();
    while let [kind, count, rest @ ..] = left {
        if rest.len() < *count as usize {
            fail(&format!("{path}: the last record is not whole"));
        }
        let (payload, after) = rest.split_at(*count as usize);
        out.push(Record { kind: *kind, payload: payload.to_vec() });
        left = after;
    }
    out
}

/// Makes cases and answers them, in order.
fn run(seed: u64, count: u64, kinds: Kinds, giants: &[u32], mut each: impl FnMut(&Image, &Record, &[u32])) {
    let mut rng = Rng::new(seed);
    let mut current = Image::default();
    let (mut made, mut number) = (0, 0);
    while made < count {
        for record in make::group(&mut rng, number, giants, kinds) {
            if made == count {
                return;
            }
            let words = answer(&mut current, &record);
            each(&current, &record, &words);
            made += 1;
        }
        number += 1;
    }
}

#[derive(Default)]
struct Stats {
    counts: BTreeMap<String, u64>,
}

impl Stats {
    fn add(&mut self, current: &Image, record: &Record, answer: &[u32]) {
        for class in classes::classes(current, record, answer) {
            *self.counts.entry(class).or_default() += 1;
        }
    }

    /// The classes of classes.txt that were not reached.
    fn missing(&self, rare: bool, skip: impl Fn(&str) -> bool) -> Vec<&'static str> {
        let wanted = include_str!("../classes.txt").lines().filter(|l| !l.is_empty() && !l.starts_with('#'));
        let wanted = wanted.filter(|c| rare || !c.starts_with("~ ")).map(|c| c.trim_start_matches("~ "));
        wanted.filter(|c| !skip(c) && !self.counts.contains_key(*c)).collect()
    }

    fn print(&self) {
        for (class, count) in &self.counts {
            eprintln!("{count:>9}  {class}");
        }
    }
}

/// The kind of case that a class is of.
fn kind_of(class: &str) -> u32 {
    match class.split(&[' ', ':']).next().unwrap_or("") {
        "image" => IMAGE,
        "decode" => DECODE,
        "mask" => MASK,
        "rotate" => ROTATE,
        "branch" => BRANCH,
        "lookup" => LOOKUP,
        "step" => STEP,
        "table" => TABLE,
        "script" => SCRIPT,
        "walk" => WALK,
        _ if class.starts_with("report write") => WRITE,
        _ => READ,
    }
}

/// What only large images reach: a sample has none of them but those with all code words, which share their bytes, and
/// where it has walks the one with a great table.
fn needs_giant(class: &str) -> bool {
    ["4096 bound", "4096 unbound", "4097 bound", "4097 unbound", "4096 symbols", "4097 symbols"]
        .iter()
        .any(|c| class.ends_with(c))
}

fn make_cases(seed: u64, count: u64, kinds: Kinds, cases: &str, answers: &str) {
    let (mut bytes, mut text, mut stats) = (Vec::new(), String::new(), Stats::default());
    run(seed, count, kinds, make_image::GIANTS, |current, record, words| {
        put_record(&mut bytes, record);
        text.push_str(&line(words));
        stats.add(current, record, words);
    });
    write(cases, &bytes);
    write(answers, text.as_bytes());
    stats.print();
    let missing = stats.missing(count >= 4 * ENOUGH, |class| !kinds.has(kind_of(class)));
    if !missing.is_empty() {
        for class in &missing {
            eprintln!("    never  {class}");
        }
        eprintln!("{} classes never reached", missing.len());
        if count >= ENOUGH {
            exit(1);
        }
    }
}

/// A case is kept if it reaches a class that none before it did; an image if a case kept looks at it. Small cases are
/// asked first, then any.
fn sample(seed: u64, count: u64, kinds: Kinds, cases: &str, answers: &str) {
    let giants: &[u32] = if kinds.has(WALK) { &[0, 1, 8] } else { &[0, 1] };
    let (mut bytes, mut text, mut kept, mut stats) = (Vec::new(), String::new(), 0, Stats::default());
    for most in [60, 120, 200, 400, usize::MAX] {
        let mut image: Option<(Record, Vec<u32>)> = None;
        let mut small = false;
        run(seed, count, kinds, giants, |current, record, words| {
            if record.kind == IMAGE {
                small = record.payload.len() <= most;
                image = Some((record.clone(), words.to_vec()));
            }
            // Kinds 2 to 5 look at no image.
            let alone = (2..=5).contains(&record.kind);
            if !(small || alone) || record.payload.len() + words.len() > most.saturating_mul(2) {
                return;
            }
            let mut reached = classes::classes(current, record, words);
            reached.retain(|c| kinds.has(kind_of(c)) && !stats.counts.contains_key(c));
            if reached.is_empty() {
                return;
            }
            let mut keep = |current: &Image, record: &Record, words: &[u32]| {
                put_record(&mut bytes, record);
                text.push_str(&line(words));
                stats.add(current, record, words);
                kept += 1;
            };
            if !alone && let Some((image, answer)) = image.take() {
                keep(current, &image, &answer);
            }
            if record.kind != IMAGE {
                keep(current, record, words);
            }
        });
    }
    write(cases, &bytes);
    write(answers, text.as_bytes());
    let missing = stats.missing(true, |class| needs_giant(class) || !kinds.has(kind_of(class)));
    for class in &missing {
        eprintln!("    never  {class}");
    }
    eprintln!("{kept} cases, {} bytes, answers {} bytes", bytes.len(), text.len());
    if !missing.is_empty() {
        exit(1);
    }
}

/// What each program answers, with the right answers: an image is every program's.
fn split(cases: &str, answers: &str, folder: &str) {
    let records = read_cases(cases);
    let text = fs::read_to_string(answers).unwrap_or_else(|e| fail(&format!("{answers}: {e}")));
    for (program, first, last) in PROGRAMS {
        let has = |kind: u32| kind == IMAGE || (first..=last).contains(&kind);
        let (mut bytes, mut right) = (Vec::new(), String::new());
        for (record, answer) in records.iter().zip(text.lines()).filter(|(r, _)| has(r.kind)) {
            put_record(&mut bytes, record);
            right.push_str(answer);
            right.push('\n');
        }
        write(&format!("{folder}/{program}.cases"), &bytes);
        write(&format!("{folder}/{program}.answers"), right.as_bytes());
    }
}

fn planted(cases: &str, answers: &str) {
    if !cfg!(feature = "planted") {
        fail("built without the feature planted");
    }
    let records = read_cases(cases);
    let text = fs::read_to_string(answers).unwrap_or_else(|e| fail(&format!("{answers}: {e}")));
    let right: Vec<&str> = text.lines().collect();
    let mut missed = 0;
    let list: Vec<(u32, &str)> = include_str!("../PLANTED.md")
        .lines()
        .filter_map(|l| l.strip_prefix("| ")?.split_once(" | "))
        .filter_map(|(n, what)| Some((n.trim().parse().ok()?, what)))
        .collect();
    for (n, what) in [(0, "the right oracle, built with the switches")].into_iter().chain(list) {
        plants::set(n);
        let mut current = Image::default();
        let differs = records.iter().zip(&right).position(|(record, right)| {
            // A wrong version may panic; that too is noticed.
            let words = std::panic::catch_unwind(std::panic::AssertUnwindSafe(|| answer(&mut current, record)));
            words.map_or(true, |words| line(&words).trim_end() != *right)
        });
        match differs {
            Some(at) => println!("{n:>3}: differs after {:>6} cases (kind {:>2})  {what}", at + 1, records[at].kind),
            None => println!("{n:>3}: never differs in {} cases  {what}", records.len()),
        }
        if differs.is_some() == (n == 0) {
            missed += 1;
        }
    }
    if missed > 0 {
        println!("{missed} not as wanted");
        exit(1);
    }
}
