//! A walk over PowerPC 750CL code, its jump tables and its report, by the proved functions of libgelruptai.a.
//!
//! Every list and every number is allowed everywhere: what doesn't fit is refused, with document 01's number. The unsafe code is in
//! `calls`, which hands slices over as pointers and lengths; Rust's borrows are what the library asks of them.

#![deny(unsafe_code)]

#[allow(unsafe_code)]
mod calls;
mod ffi;

use std::fmt;

/// A place: a section's index and an address. It may exist nowhere.
#[derive(Clone, Copy, Debug, Default, PartialEq, Eq, PartialOrd, Ord, Hash)]
pub struct Place {
    pub section: u32,
    pub address: u32,
}

impl Place {
    fn key(self) -> u64 {
        u64::from(self.section) << 32 | u64::from(self.address)
    }

    fn of(key: u64) -> Place {
        Place { section: (key >> 32) as u32, address: key as u32 }
    }
}

/// An image: its words (docs/FORMATS.md, "The image") and its data bytes, which may be any.
#[derive(Clone, Copy, Debug)]
pub struct Image<'a> {
    pub words: &'a [u32],
    pub data: &'a [u8],
}

impl Image<'_> {
    /// The first rule that the image breaks, if it breaks one. Every other function answers `BrokenImage` then.
    pub fn broken_rule(self) -> Option<Rule> {
        Rule::of(calls::check_image(self.words, self.data.len()))
    }

    /// W, how many Code words the image has; 0 where it is broken. A map has a bit for each.
    pub fn code_words(self) -> usize {
        calls::code_words(self.words, self.data)
    }

    /// A map with room for the image's Code words, none of them visited.
    pub fn empty_map(self) -> Vec<u32> {
        vec![0; self.code_words().div_ceil(32)]
    }

    /// The entries of the jump table at a place, ascending, and the bytes passed. `size` is the table's bytes where they are known, else
    /// they are guessed within `function`; at most `room` entries.
    pub fn table(self, at: Place, size: Option<u32>, function: Function, room: usize) -> Result<Table, Refusal> {
        let given = Given { function, ..Given::default() };
        let mut entries = vec![0; room];
        let (answer, [count, passed]) =
            calls::table(self.words, self.data, at, size.unwrap_or(0), &given.words(), &mut entries);
        Refusal::of(answer)?;
        entries.truncate(count as usize);
        Ok(Table { entries: entries.into_iter().map(Place::of).collect(), passed: passed as u32 })
    }

    /// The report, version 1, of a map.
    pub fn write_report(self, map: &[u32]) -> Result<Vec<u8>, Refusal> {
        let mut room = self.code_words() + 1024;
        loop {
            let mut out = vec![0; room];
            let (answer, written) = calls::write_report(self.words, self.data, map, &mut out);
            match Refusal::of(answer) {
                Err(Refusal::NoRoom) => room *= 2,
                refused => {
                    refused?;
                    out.truncate(written);
                    return Ok(out);
                }
            }
        }
    }

    /// A report read into a map, which stays as it was where it is refused. Bits from W up stay.
    pub fn read_report(self, report: &[u8], map: &mut [u32]) -> Result<(), Refusal> {
        Refusal::of(calls::read_report(self.words, self.data, report, map))
    }
}

/// A function's bounds, within which a table of unknown size is guessed.
#[derive(Clone, Copy, Debug, Default, PartialEq, Eq)]
pub struct Function {
    pub start: Place,
    pub end: Option<Place>,
}

/// What a walk is given besides its starts: the numbers of r2 and r13 where they are known, and a function's bounds.
#[derive(Clone, Copy, Debug, Default, PartialEq, Eq)]
pub struct Given {
    pub r2: Option<u32>,
    pub r13: Option<u32>,
    pub function: Function,
}

impl Given {
    fn words(&self) -> [u32; 9] {
        let number = |n: Option<u32>| n.map_or([0, 0], |n| [1, n]);
        let ([a, b], [c, d]) = (number(self.r2), number(self.r13));
        let Function { start, end } = self.function;
        let [e, f, g] = end.map_or([0, 0, 0], |p| [1, p.section, p.address]);
        [a, b, c, d, start.section, start.address, e, f, g]
    }

    fn of(w: [u32; 9]) -> Given {
        let number = |k: usize| (w[k] == 1).then(|| w[k + 1]);
        let place = |k: usize| Place { section: w[k], address: w[k + 1] };
        Given {
            r2: number(0),
            r13: number(2),
            function: Function { start: place(4), end: (w[6] == 1).then(|| place(7)) },
        }
    }
}

/// A walk: its starts, what it is given, and how many states may wait (each takes some 1.3 KB while it runs).
#[derive(Clone, Debug)]
pub struct Walk {
    pub starts: Vec<Place>,
    pub given: Given,
    pub states: u32,
}

impl Walk {
    /// The walk over an image, with a map of its own.
    pub fn run(&self, image: Image) -> Result<(Walked, Vec<u32>), Refusal> {
        let mut map = image.empty_map();
        let walked = self.run_into(image, &mut map)?;
        Ok((walked, map))
    }

    /// The walk over an image. Bits 0 to W - 1 of the map become what was visited, bits from W up stay; a refusal leaves all as it was.
    pub fn run_into(&self, image: Image, map: &mut [u32]) -> Result<Walked, Refusal> {
        let starts: Vec<u64> = self.starts.iter().map(|p| p.key()).collect();
        let mut stack = vec![0; calls::stack_words(self.states)];
        let mut entries = Box::new([0; 1024]);
        let (answer, [stepped, begun, read, not_read, waiting]) =
            calls::walk(image.words, image.data, &starts, &self.given.words(), map, &mut stack, &mut entries);
        let answer = match answer {
            0 => Answer::Done,
            5 => Answer::StackFull,
            n => return Err(Refusal::of(n).expect_err("0 is done")),
        };
        Ok(Walked { answer, stepped, begun, read, not_read, waiting })
    }
}

/// How a walk that was not refused ended.
#[derive(Clone, Copy, Debug, PartialEq, Eq)]
pub enum Answer {
    /// 0: nothing waits.
    Done,
    /// 5: a state had to wait and all slots were held; map and counts are as reached.
    StackFull,
}

/// What a walk counts: instructions stepped, blocks begun, tables read and not read, states that still wait.
#[derive(Clone, Copy, Debug, PartialEq, Eq)]
pub struct Walked {
    pub answer: Answer,
    pub stepped: u64,
    pub begun: u64,
    pub read: u64,
    pub not_read: u64,
    pub waiting: u64,
}

/// A table's entries and the bytes passed.
#[derive(Clone, Debug, PartialEq, Eq)]
pub struct Table {
    pub entries: Vec<Place>,
    pub passed: u32,
}

/// Whether Code word n was visited; false past the map's end.
pub fn visited(map: &[u32], n: usize) -> bool {
    map.get(n / 32).is_some_and(|w| w >> (n % 32) & 1 == 1)
}

/// An image file (docs/FORMATS.md), read.
#[derive(Clone, Debug)]
pub struct ImageFile {
    pub words: Vec<u32>,
    pub data: Vec<u8>,
    pub starts: Vec<Place>,
    pub given: Given,
}

impl ImageFile {
    pub fn read(file: &[u8]) -> Result<ImageFile, NoFile> {
        // a file has no more words and starts than its own bytes have room for
        let mut words = vec![0; file.len() / 4];
        let mut starts = vec![0; file.len() / 8];
        let mut given = [0; 9];
        let (answer, counts) = calls::read_file(file, &mut words, &mut starts, &mut given);
        if answer != 0 {
            return Err(NoFile { wrong: Wrong::numbered(answer), at: counts[0] as usize });
        }
        let [m, s, from, bytes] = counts.map(|n| n as usize);
        words.truncate(m);
        starts.truncate(s);
        Ok(ImageFile {
            words,
            data: file[from..from + bytes].to_vec(),
            starts: starts.into_iter().map(Place::of).collect(),
            given: Given::of(given),
        })
    }

    pub fn image(&self) -> Image<'_> {
        Image { words: &self.words, data: &self.data }
    }

    /// The walk that the file asks for, with so many states.
    pub fn walk(&self, states: u32) -> Walk {
        Walk { starts: self.starts.clone(), given: self.given, states }
    }
}

/// Defines an enum with its numbers, and what each says.
macro_rules! numbered {
    ($(#[$about:meta])* $name:ident: $($variant:ident = $number:literal, $says:literal;)*) => {
        $(#[$about])*
        #[derive(Clone, Copy, Debug, PartialEq, Eq)]
        pub enum $name {
            $(#[doc = $says] $variant = $number,)*
        }

        impl $name {
            /// Its number in include/gelruptai.h.
            pub fn number(self) -> u32 {
                self as u32
            }

            fn numbered(n: u32) -> $name {
                match n {
                    $($number => $name::$variant,)*
                    _ => unreachable!("the library's contract has no number {n} here"),
                }
            }
        }

        impl fmt::Display for $name {
            fn fmt(&self, f: &mut fmt::Formatter) -> fmt::Result {
                match self {
                    $($name::$variant => write!(f, "{}: {}", $number, $says),)*
                }
            }
        }
    };
}

numbered! {
    /// Document 01's refusals.
    Refusal:
    BrokenImage = 1, "the image breaks a rule";
    NotCode = 2, "a start is in no Code section";
    Misaligned = 3, "a start is no multiple of 4";
    MapTooSmall = 4, "the map has fewer bits than there are Code words";
    RelocationError = 7, "a table's word has a relocation that can't be read";
    Ragged = 8, "a table's size, cut to its section, is no multiple of 4";
    PointsNowhere = 9, "a table's word points to no section";
    NoRoom = 10, "more entries than there is room for";
    NoReport = 13, "the bytes are no report of this image";
}

impl Refusal {
    fn of(n: u32) -> Result<(), Refusal> {
        if n == 0 {
            Ok(())
        } else {
            Err(Refusal::numbered(n))
        }
    }
}

impl std::error::Error for Refusal {}

numbered! {
    /// The rules of an image, in the order in which they are judged.
    Rule:
    Words = 1, "the words are as many as the head says";
    Counts = 2, "1 to 64 sections, at most 4,096 entries in each further table";
    Kind = 3, "Executable or Relocatable";
    Sections = 4, "each section has a known kind, an end below 2^32, data of its size, none for Bss, and Code is aligned";
    ElfNumbers = 5, "elf numbers are distinct";
    Overlaps = 6, "in an Executable no byte is in two sections";
    CodeWords = 7, "at most 262,144 Code words";
    Bounds = 8, "each bound relocation is in an existing section, of a known kind, its symbol section there or none";
    BoundOrder = 9, "bound relocations ascend";
    Unbounds = 10, "each unbound relocation is in an existing section, of a known kind";
    Symbols = 11, "each object symbol has an existing section and a flag of 0 or 1";
    SymbolOrder = 12, "object symbols ascend";
    Data = 13, "each section's data lies in the data bytes";
}

impl Rule {
    fn of(n: u32) -> Option<Rule> {
        (n != 0).then(|| Rule::numbered(n))
    }
}

numbered! {
    /// What is wrong with an image file.
    Wrong:
    Short = 1, "the file ends inside its head of 56 bytes";
    Magic = 2, "the file does not begin with the letters GELR";
    Version = 3, "the file's version is not 1";
    Flag = 4, "a flag is neither 0 nor 1";
    Unused = 5, "a number that is not given is not 0";
    Truncated = 6, "the file ends before its counts say";
    Trailing = 7, "the file goes on after its counts say";
    WordsRoom = 8, "more image words than there is room for";
    StartsRoom = 9, "more starts than there is room for";
}

/// Bytes that are no image file: what is wrong, and the byte where that shows.
#[derive(Clone, Copy, Debug, PartialEq, Eq)]
pub struct NoFile {
    pub wrong: Wrong,
    pub at: usize,
}

impl fmt::Display for NoFile {
    fn fmt(&self, f: &mut fmt::Formatter) -> fmt::Result {
        write!(f, "no image file: at byte {}: {}", self.at, self.wrong)
    }
}

impl std::error::Error for NoFile {}
