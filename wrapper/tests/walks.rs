//! What `./audit` says of the shipped example, and each refusal, by way of the library.
use gelruptai::{visited, Answer, Function, Given, Image, ImageFile, Place, Refusal, Rule, Walk, Wrong};
use std::path::PathBuf;

fn in_repository(path: &str) -> PathBuf {
    PathBuf::from(env!("CARGO_MANIFEST_DIR")).join("..").join(path)
}

fn example() -> ImageFile {
    let bytes = std::fs::read(in_repository("example/driver.image")).expect("the shipped example");
    ImageFile::read(&bytes).expect("an image file")
}

/// The number that a line of crates/audit/stdout has after its words.
fn said(of: &str) -> u64 {
    let lines = std::fs::read_to_string(in_repository("crates/audit/stdout")).expect("the example's output");
    let line = lines.lines().find(|l| l.starts_with(of)).expect("a line of it");
    let number = line[of.len()..].trim();
    number.split(',').next().and_then(|n| n.parse().ok()).expect("a number")
}

/// The places of the runs that crates/audit/stdout lists, as addresses.
fn runs_said() -> Vec<(u32, u32)> {
    let lines = std::fs::read_to_string(in_repository("crates/audit/stdout")).expect("the example's output");
    let hex = |s: &str| u32::from_str_radix(s, 16).expect("an address");
    lines.lines().filter(|l| l.starts_with("  ")).map(|l| (hex(&l[2..10]), hex(&l[14..22]))).collect()
}

#[test]
fn the_example_walks_as_the_audit_says() {
    let file = example();
    let image = file.image();
    assert_eq!(image.broken_rule(), None);
    assert_eq!(file.starts.len() as u64, said("starts"));
    let (walked, map) = file.walk(4096).run(image).expect("a walk");
    assert_eq!(walked.answer, Answer::Done);
    assert_eq!(image.code_words() as u64, said("code words"));
    assert_eq!((0..image.code_words()).filter(|&n| visited(&map, n)).count() as u64, said("visited"));
    assert_eq!(walked.begun, said("blocks begun"));
    assert_eq!(walked.stepped, said("steps"));
    assert_eq!(walked.read, said("tables read"));
    assert_eq!(walked.not_read, said("tables not read"));
    assert_eq!(walked.waiting, said("states waiting"));
}

#[test]
fn the_visited_words_are_those_of_the_audit() {
    let file = example();
    let (_, map) = file.walk(64).run(file.image()).expect("a walk");
    // the example's one Code section is its first
    let from = file.words[6];
    let runs = runs_said();
    assert!(!runs.is_empty());
    for n in 0..file.image().code_words() {
        let address = from + 4 * n as u32;
        let inside = runs.iter().any(|&(a, e)| a <= address && address < e);
        assert_eq!(visited(&map, n), inside, "at {address:08x}");
    }
}

#[test]
fn a_broken_image_is_1_and_names_its_rule() {
    let file = example();
    let walk = file.walk(64);
    let mut map = file.image().empty_map();
    for (words, data, rule) in [
        (&file.words[..file.words.len() - 1], &file.data[..], Rule::Words),
        (&file.words[..], &file.data[..file.data.len() - 1], Rule::Data),
        (&[][..], &[][..], Rule::Words),
    ] {
        let image = Image { words, data };
        assert_eq!(image.broken_rule(), Some(rule));
        assert_eq!(image.code_words(), 0);
        assert_eq!(walk.run_into(image, &mut map), Err(Refusal::BrokenImage));
        assert_eq!(image.write_report(&map), Err(Refusal::BrokenImage));
        assert_eq!(image.read_report(&[], &mut map), Err(Refusal::BrokenImage));
        let table = image.table(Place { section: 1, address: 0x8000_4000 }, None, Function::default(), 8);
        assert_eq!(table, Err(Refusal::BrokenImage));
    }
    let mut kind = file.words.clone();
    kind[0] = 2;
    assert_eq!(Image { words: &kind, data: &file.data }.broken_rule(), Some(Rule::Kind));
}

#[test]
fn a_start_outside_code_is_2_and_off_a_word_3() {
    let file = example();
    let begin = file.starts[0];
    let walk = |starts: Vec<Place>| Walk { starts, ..file.walk(64) }.run(file.image()).map(|(w, _)| w.answer);
    assert_eq!(walk(vec![begin, Place { section: 1, address: 0x8000_4000 }]), Err(Refusal::NotCode));
    assert_eq!(walk(vec![Place { section: u32::MAX, address: u32::MAX }]), Err(Refusal::NotCode));
    assert_eq!(walk(vec![begin, Place { address: begin.address + 2, ..begin }]), Err(Refusal::Misaligned));
    assert_eq!(walk(vec![]), Ok(Answer::Done));
}

#[test]
fn a_small_map_is_4_and_stays() {
    let file = example();
    let mut map = vec![0xA5A5_A5A5; file.image().empty_map().len() - 1];
    let before = map.clone();
    assert_eq!(file.walk(64).run_into(file.image(), &mut map), Err(Refusal::MapTooSmall));
    assert_eq!(file.walk(64).run_into(file.image(), &mut []), Err(Refusal::MapTooSmall));
    assert_eq!(file.image().write_report(&map), Err(Refusal::MapTooSmall));
    assert_eq!(file.image().read_report(&[], &mut map), Err(Refusal::MapTooSmall));
    assert_eq!(map, before);
}

#[test]
fn a_full_stack_is_5_with_counts_as_reached() {
    let file = example();
    let (none, _) = file.walk(0).run(file.image()).expect("no refusal");
    assert_eq!((none.answer, none.stepped, none.waiting), (Answer::StackFull, 0, 0));
    let (two, map) = file.walk(2).run(file.image()).expect("no refusal");
    assert_eq!((two.answer, two.waiting), (Answer::StackFull, 2));
    assert!(0 < two.stepped && two.stepped < said("steps"));
    assert!(map.iter().any(|&w| w != 0));
}

#[test]
fn a_map_longer_than_needed_keeps_its_other_bits() {
    let file = example();
    let (_, short) = file.walk(64).run(file.image()).expect("a walk");
    let w = file.image().code_words();
    let mut long = vec![u32::MAX; short.len() + 3];
    file.walk(64).run_into(file.image(), &mut long).expect("a walk");
    for n in 0..long.len() * 32 {
        assert_eq!(visited(&long, n), n >= w || visited(&short, n), "bit {n}");
    }
}

#[test]
fn a_report_is_read_back() {
    let file = example();
    let image = file.image();
    let (_, map) = file.walk(64).run(image).expect("a walk");
    let report = image.write_report(&map).expect("a report");
    assert!(!report.is_empty());
    let mut read = image.empty_map();
    image.read_report(&report, &mut read).expect("its own report");
    assert_eq!(read, map);
    assert_eq!(image.read_report(&report[1..], &mut read), Err(Refusal::NoReport));
    assert_eq!(image.read_report(&[], &mut read), Err(Refusal::NoReport));
    assert_eq!(read, map);
}

#[test]
fn the_example_s_table_is_read() {
    let file = example();
    let at = Place { section: 1, address: 0x8000_4000 };
    let table = file.image().table(at, Some(32), Function::default(), 1024).expect("a table");
    assert_eq!(table.passed, 32);
    assert!(table.entries.contains(&Place { section: 0, address: 0x8000_333c }));
    assert!(table.entries.windows(2).all(|e| e[0] < e[1]));
    let refused = |size, room| file.image().table(at, size, Function::default(), room).map(|t| t.passed);
    assert_eq!(refused(Some(30), 1024), Err(Refusal::Ragged));
    assert_eq!(refused(Some(32), table.entries.len() - 1), Err(Refusal::NoRoom));
    assert_eq!(refused(Some(32), table.entries.len()), Ok(32));
}

/// A Code section at 1000 of these words, in an Executable.
fn code(words: &[u32]) -> (Vec<u32>, Vec<u8>) {
    let size = 4 * words.len() as u32;
    let data = words.iter().flat_map(|w| w.to_be_bytes()).collect();
    (vec![0, 0, 1, 0, 0, 0, 0x1000, size, 0, 1, 0, size], data)
}

#[test]
fn r2_and_r13_are_what_the_walk_is_given() {
    let blr = 0x4E80_0020;
    // mtctr r2 or r13, bctr, blr, blr
    for (mtctr, two, reached) in
        [(0x7C49_03A6, true, 3), (0x7DA9_03A6, false, 3), (0x7C49_03A6, false, 2), (0x7DA9_03A6, true, 2)]
    {
        let (words, data) = code(&[mtctr, 0x4E80_0420, blr, blr]);
        let image = Image { words: &words, data: &data };
        let number = |there: bool| there.then_some(0x100C);
        let given = Given { r2: number(two), r13: number(!two), ..Given::default() };
        let walk = Walk { starts: vec![Place { section: 0, address: 0x1000 }], given, states: 4 };
        let (walked, map) = walk.run(image).expect("a walk");
        assert_eq!(walked.stepped, reached);
        assert_eq!(visited(&map, 3), reached == 3);
        assert!(!visited(&map, 2));
    }
}

#[test]
fn a_guess_ends_with_its_function() {
    let file = example();
    let at = Place { section: 1, address: 0x8000_4000 };
    let sized = file.image().table(at, Some(32), Function::default(), 1024).expect("a table");
    let last = *sized.entries.last().expect("an entry");
    let start = sized.entries[0];
    let guess = |end| file.image().table(at, None, Function { start, end }, 1024).expect("a table");
    let after = Place { address: last.address + 4, ..last };
    assert_eq!(guess(Some(after)).entries, sized.entries);
    assert!(guess(Some(last)).passed < 32);
    assert!(guess(Some(start)).entries.is_empty());
}

#[test]
fn a_file_gives_what_its_head_says() {
    let mut bytes = std::fs::read(in_repository("example/driver.image")).expect("the shipped example");
    let head: [u32; 9] = [1, 0x11, 1, 0x22, 3, 0x33, 1, 4, 0x44];
    for (k, word) in head.iter().enumerate() {
        bytes[20 + 4 * k..24 + 4 * k].copy_from_slice(&word.to_be_bytes());
    }
    let place = |section, address| Place { section, address };
    let function = Function { start: place(3, 0x33), end: Some(place(4, 0x44)) };
    let given = ImageFile::read(&bytes).expect("an image file").given;
    assert_eq!(given, Given { r2: Some(0x11), r13: Some(0x22), function });
    assert_eq!((example().given.r2, example().given.r13), (None, Some(0x8000_D000)));
}

#[test]
fn what_is_no_image_file_is_said_at_its_byte() {
    let bytes = std::fs::read(in_repository("example/driver.image")).expect("the shipped example");
    let wrong = |bytes: &[u8]| ImageFile::read(bytes).map(|_| ()).map_err(|e| (e.wrong, e.at));
    assert_eq!(wrong(&[]), Err((Wrong::Short, 0)));
    assert_eq!(wrong(&bytes[..55]), Err((Wrong::Short, 55)));
    assert_eq!(wrong(&bytes[..bytes.len() - 1]), Err((Wrong::Truncated, bytes.len() - 1)));
    assert_eq!(wrong(&[&bytes[..], b"x"].concat()), Err((Wrong::Trailing, bytes.len())));
    for (at, new, expected) in [(0, 0, Wrong::Magic), (7, 2, Wrong::Version), (20, 1, Wrong::Flag)] {
        let mut changed = bytes.clone();
        changed[at] = new;
        assert_eq!(wrong(&changed), Err((expected, at / 4 * 4)));
    }
    assert_eq!(wrong(&bytes), Ok(()));
}

#[test]
fn a_thread_with_a_small_stack_is_enough() {
    let walk = std::thread::Builder::new().stack_size(128 * 1024).spawn(|| {
        let file = example();
        let (walked, map) = file.walk(64).run(file.image()).expect("a walk");
        (walked.stepped, file.image().write_report(&map).expect("a report").len())
    });
    let (stepped, _) = walk.expect("a thread").join().expect("an answer");
    assert_eq!(stepped, said("steps"));
}

/// As much code as there may be, of any words, from a start in every 64: its bits are read back from its report.
#[test]
fn the_largest_image_is_walked() {
    let mut seed = 1u32;
    let mut next = || {
        seed = seed.wrapping_mul(1_664_525).wrapping_add(1_013_904_223);
        seed
    };
    let most = 262_144;
    let mut all: Vec<u32> = (0..most).map(|_| next()).collect();
    let (words, data) = code(&all);
    let image = Image { words: &words, data: &data };
    assert_eq!((image.broken_rule(), image.code_words()), (None, most));
    let starts: Vec<Place> = (0..most as u32 / 64).map(|k| Place { section: 0, address: 0x1000 + 256 * k }).collect();
    let first: Vec<usize> = (0..most / 64).map(|k| 64 * k).collect();
    let walk = Walk { starts, given: Given::default(), states: 8192 };
    let (walked, map) = walk.run(image).expect("a walk");
    assert_eq!((walked.answer, walked.waiting), (Answer::Done, 0));
    assert!(first.iter().all(|&n| visited(&map, n)));
    let ones: u32 = map.iter().map(|w| w.count_ones()).sum();
    assert!(u64::from(ones) <= walked.stepped && walked.begun <= most as u64);
    let mut read = image.empty_map();
    image.read_report(&image.write_report(&map).expect("a report"), &mut read).expect("its own report");
    assert_eq!(read, map);

    all.push(0);
    let (words, data) = code(&all);
    assert_eq!(Image { words: &words, data: &data }.broken_rule(), Some(Rule::CodeWords));
}

/// Files cut and changed everywhere: an answer each time, whatever it is.
#[test]
fn damaged_files_get_an_answer() {
    let bytes = std::fs::read(in_repository("example/driver.image")).expect("the shipped example");
    for at in 0..bytes.len() {
        for new in [0, 1, 0x7f, 0xff] {
            let mut changed = bytes.clone();
            changed[at] = new;
            if let Ok(file) = ImageFile::read(&changed) {
                let answer = file.walk(8).run(file.image());
                assert_eq!(answer.is_err_and(|e| e == Refusal::BrokenImage), file.image().broken_rule().is_some());
            }
        }
    }
}
