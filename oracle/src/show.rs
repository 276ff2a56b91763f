//! A case in readable form.
use ppc750cl::Ins;

use crate::{
    answer::*,
    image::{Image, Tables},
    pieces::*,
};

/// Prints case `n`, the image that it looks at and the oracle's answer.
pub fn show(records: &[Record], n: usize) {
    let Some(record) = records.get(n) else {
        println!("there are {} cases", records.len());
        return;
    };
    let mut current = Image::default();
    let image = records[..=n].iter().rposition(|r| r.kind == IMAGE);
    if let Some(at) = image {
        answer(&mut current, &records[at]);
        if !(2..=5).contains(&record.kind) {
            println!("image of case {at}:");
            show_image(&current);
        }
    }
    let words = if record.kind == IMAGE { vec![current.broken.is_some() as u32] } else { answer(&mut current, record) };
    let mut p = Words::new(&record.payload);
    match record.kind {
        IMAGE => println!("case {n}: image"),
        DECODE => println!("case {n}: decode {:08x} ({:?})", record.payload[0], Ins::new(record.payload[0]).op),
        MASK => println!("case {n}: mask {} {}", p.one(), p.one()),
        ROTATE => println!("case {n}: rotate {:08x} by {:08x}", p.one(), p.one()),
        BRANCH => println!("case {n}: branch destination of {:08x} at {:08x}", p.one(), p.one()),
        LOOKUP => {
            let which = p.one();
            let names = [
                "",
                "section at",
                "section by elf number",
                "relocation_target_for",
                "section_address_for",
                "symbol size",
                "bytes",
                "bit",
                "word",
            ];
            println!("case {n}: lookup {which} ({}) {:08x?}", names[which as usize], p.left);
        }
        STEP => {
            let place = p.place();
            let word = p.one();
            println!(
                "case {n}: step at {}:{:08x} word {word:08x} ({:?})",
                place.section,
                place.address,
                Ins::new(word).op
            );
            show_state(&mut p, "state");
        }
        TABLE => {
            let (place, size, start, end) = (p.place(), p.one(), p.place(), p.optional_place());
            println!(
                "case {n}: jump table at {}:{:08x} size {size:x}, function from {}:{:08x} to {}, room {}, fill {:08x}",
                place.section,
                place.address,
                start.section,
                start.address,
                end.map_or("none".into(), |e| format!("{}:{:08x}", e.section, e.address)),
                p.one(),
                p.one()
            );
        }
        kind => println!("case {n}: kind {kind} {:08x?}", record.payload),
    }
    println!("oracle: {}", words.iter().map(|w| format!("{w:08x}")).collect::<Vec<_>>().join(" "));
    if record.kind == STEP {
        show_step(&words);
    }
}

fn show_image(image: &Image) {
    println!("  {}", image.broken.map_or("sound".into(), |rule| format!("refused: {rule}")));
    println!("  {} words, {} bytes of data, {} code words", image.words.len(), image.data.len(), image.code_words);
    let Some(t) = Tables::from_words(&image.words) else {
        println!("  {:08x?}", image.words);
        return;
    };
    println!("  kind {} ({}), module {:x}", t.kind, if t.kind == 0 { "Executable" } else { "Relocatable" }, t.module);
    for (i, s) in t.sections.iter().enumerate() {
        let kind = ["Code", "Data", "ReadOnly", "Bss"].get(s.kind as usize).unwrap_or(&"?");
        let bytes = image.data.get(s.place as usize..(s.place as usize).saturating_add(s.length as usize));
        let words: Vec<String> = pack(bytes.unwrap_or(&[])).iter().take(16).map(|w| format!("{w:08x}")).collect();
        println!(
            "  section {i}: {:08x} size {:x} {kind} elf {:x} place {:x} length {:x}: {}",
            s.address,
            s.size,
            s.elf,
            s.place,
            s.length,
            words.join(" ")
        );
    }
    for r in t.bound.iter().take(64) {
        println!(
            "  bound {}:{:08x} kind {} symbol {:x}:{:08x} addend {:08x}",
            r.section, r.address, r.kind, r.symbol_section, r.symbol_address, r.addend
        );
    }
    for r in t.unbound.iter().take(64) {
        println!(
            "  unbound elf {:x}:{:08x} module {:x} kind {} target elf {:x} addend {:08x}",
            r.elf, r.address, r.module, r.kind, r.target, r.addend
        );
    }
    for y in t.symbols.iter().take(64) {
        println!("  symbol {}:{:08x} size {:x} known {}", y.section, y.address, y.size, y.known);
    }
}

fn show_state(p: &mut Words, name: &str) {
    let vm = p.state();
    println!("  {name}:");
    for (i, g) in vm.gpr.iter().enumerate().filter(|(_, g)| **g != Default::default()) {
        println!("    r{i} {:x?} hi {:x?} lo {:x?}", g.value, g.hi_addr, g.lo_addr);
    }
    for (i, c) in vm.cr.iter().enumerate().filter(|(_, c)| **c != Default::default()) {
        println!("    cr{i} {:x?} with {:x?} signed {}", c.left, c.right, c.signed);
    }
    println!("    lr {:x?} ctr {:x?}", vm.lr, vm.ctr);
}

fn show_step(words: &[u32]) {
    let mut p = Words::new(words);
    let number = p.one();
    if number != 0 {
        println!("  refused: {number}");
        return;
    }
    match p.one() {
        0 => println!("  Continue"),
        1 => {
            let target = p.target();
            let words = p.many(12);
            println!("  LoadStore {target:x?} source register {} {words:x?}", words[11]);
        }
        2 => println!("  Illegal"),
        3 => println!("  Jump {:x?}", p.many(5)),
        _ => {
            for i in 0..2 {
                println!("  branch {i} to {:x?} link {}", p.many(5), p.one());
                show_state(&mut p, "its state");
            }
        }
    }
    show_state(&mut p, "state after");
}
