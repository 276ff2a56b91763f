//! An image as docs/FORMATS.md lays it out: its judge (document 01, "The image": 1 if a rule is broken) and the object
//! that the Rust looks at.
use plants::on;

use crate::obj::*;

pub const NO_SYMBOL_SECTION: u32 = u32::MAX;
pub const MAX_SECTIONS: usize = 64;
pub const MAX_ENTRIES: usize = 4096;
pub const MAX_CODE_WORDS: u64 = 262_144;

#[derive(Clone, Debug, Default, Eq, PartialEq)]
pub struct Section {
    pub address: u32,
    pub size: u32,
    pub kind: u32,
    pub elf: u32,
    pub place: u32,
    pub length: u32,
}

#[derive(Clone, Debug, Default, Eq, PartialEq)]
pub struct Bound {
    pub section: u32,
    pub address: u32,
    pub kind: u32,
    pub symbol_section: u32,
    pub symbol_address: u32,
    pub addend: u32,
}

#[derive(Clone, Debug, Default, Eq, PartialEq)]
pub struct Unbound {
    pub elf: u32,
    pub address: u32,
    pub module: u32,
    pub kind: u32,
    pub target: u32,
    pub addend: u32,
}

#[derive(Clone, Debug, Default, Eq, PartialEq)]
pub struct Symbol {
    pub section: u32,
    pub address: u32,
    pub size: u32,
    pub known: u32,
}

/// The tables of an image, read from its words.
#[derive(Clone, Debug, Default, Eq, PartialEq)]
pub struct Tables {
    pub kind: u32,
    pub module: u32,
    pub sections: Vec<Section>,
    pub bound: Vec<Bound>,
    pub unbound: Vec<Unbound>,
    pub symbols: Vec<Symbol>,
}

impl Tables {
    pub fn to_words(&self) -> Vec<u32> {
        let counts = [self.sections.len(), self.bound.len(), self.unbound.len(), self.symbols.len()];
        let mut out = vec![self.kind, self.module];
        out.extend(counts.iter().map(|c| *c as u32));
        for s in &self.sections {
            out.extend([s.address, s.size, s.kind, s.elf, s.place, s.length]);
        }
        for r in &self.bound {
            out.extend([r.section, r.address, r.kind, r.symbol_section, r.symbol_address, r.addend]);
        }
        for r in &self.unbound {
            out.extend([r.elf, r.address, r.module, r.kind, r.target, r.addend]);
        }
        for s in &self.symbols {
            out.extend([s.section, s.address, s.size, s.known]);
        }
        out
    }

    /// Nothing if the list's length is not the one that its counts ask for.
    pub fn from_words(words: &[u32]) -> Option<Tables> {
        let head = words.get(..6)?;
        let [n, b, u, s] = [head[2], head[3], head[4], head[5]].map(|c| c as u64);
        if words.len() as u64 != 6 + 6 * n + 6 * b + 6 * u + 4 * s {
            return None;
        }
        let mut rest = &words[6..];
        let mut rows = |count: u64, width: usize| {
            let (rows, after) = rest.split_at(count as usize * width);
            rest = after;
            rows.chunks(width)
        };
        Some(Tables {
            kind: head[0],
            module: head[1],
            sections: rows(n, 6)
                .map(|r| Section { address: r[0], size: r[1], kind: r[2], elf: r[3], place: r[4], length: r[5] })
                .collect(),
            bound: rows(b, 6)
                .map(|r| Bound {
                    section: r[0],
                    address: r[1],
                    kind: r[2],
                    symbol_section: r[3],
                    symbol_address: r[4],
                    addend: r[5],
                })
                .collect(),
            unbound: rows(u, 6)
                .map(|r| Unbound { elf: r[0], address: r[1], module: r[2], kind: r[3], target: r[4], addend: r[5] })
                .collect(),
            symbols: rows(s, 4).map(|r| Symbol { section: r[0], address: r[1], size: r[2], known: r[3] }).collect(),
        })
    }

    /// The first rule that is broken, if any. Rules are named for the counts that the generator keeps.
    pub fn broken(&self, buffer: usize) -> Option<&'static str> {
        let check = |holds: bool, rule: &'static str| if holds { Ok(()) } else { Err(rule) };
        let judged = || -> Result<(), &'static str> {
            check(self.kind <= 1, "image kind")?;
            check(!self.sections.is_empty(), "no section")?;
            check(self.sections.len() <= MAX_SECTIONS, "65 sections")?;
            check(self.bound.len() <= MAX_ENTRIES, "4097 bound")?;
            check(self.unbound.len() <= MAX_ENTRIES + on(14) as usize, "4097 unbound")?;
            check(self.symbols.len() <= MAX_ENTRIES, "4097 symbols")?;

            let mut code_words = 0;
            for s in &self.sections {
                let (address, size, length) = (s.address as u64, s.size as u64, s.length as u64);
                check(s.kind <= 3, "section kind")?;
                check(address + size < (1 << 32) + on(15) as u64, "section end")?;
                check(length == if s.kind == 3 { 0 } else { size }, "data length")?;
                check(s.place as u64 + length <= buffer as u64 || on(16) && length == 0, "buffer")?;
                if s.kind == 0 {
                    check(address % 4 == 0, "code address")?;
                    check(size % 4 == 0, "code size")?;
                    code_words += size / 4;
                }
            }
            check(code_words <= MAX_CODE_WORDS + on(17) as u64, "code words")?;
            for (i, s) in self.sections.iter().enumerate() {
                for t in &self.sections[..i] {
                    check(s.elf != t.elf, "elf numbers")?;
                    let apart = s.size == 0
                        || t.size == 0
                        || s.address as u64 + s.size as u64 <= t.address as u64
                        || t.address as u64 + t.size as u64 <= s.address as u64
                        || on(18) && s.kind == 3;
                    check(self.kind == 1 || apart, "overlap")?;
                }
            }

            // "A relocation lies in its section; an Absolute one has all four bytes there."
            let lies = |s: &Section, address: u32, kind: u32| {
                let past = address as u64 + if kind == 0 { 4 - on(19) as u64 } else { 1 };
                s.address <= address && past <= s.address as u64 + s.size as u64
            };
            for (i, r) in self.bound.iter().enumerate() {
                check(r.kind <= 1, "bound kind")?;
                let s = self.sections.get(r.section as usize).ok_or("bound section")?;
                check(lies(s, r.address, r.kind), "bound place")?;
                let symbol = r.symbol_section;
                check(symbol == NO_SYMBOL_SECTION || (symbol as usize) < self.sections.len(), "bound symbol")?;
                if let Some(before) = i.checked_sub(1).map(|i| &self.bound[i]) {
                    let (left, right) = ((before.section, before.address), (r.section, r.address));
                    check(left < right || on(20) && left == right, "bound order")?;
                }
            }
            for r in &self.unbound {
                check(r.kind <= 1, "unbound kind")?;
                let s = self.sections.iter().find(|s| s.elf == r.elf).ok_or("unbound section")?;
                check(lies(s, r.address, r.kind), "unbound place")?;
            }
            for (i, y) in self.symbols.iter().enumerate() {
                check((y.section as usize) < self.sections.len(), "symbol section")?;
                check(y.known <= 1, "symbol flag")?;
                if let Some(before) = i.checked_sub(1).map(|i| &self.symbols[i]) {
                    check((before.section, before.address) < (y.section, y.address), "symbol order")?;
                }
            }
            Ok(())
        };
        judged().err()
    }

    fn to_obj(&self, data: &[u8]) -> ObjInfo {
        let reloc_kind = |kind| if kind == 0 { ObjRelocKind::Absolute } else { ObjRelocKind::Other };
        let mut symbols = ObjSymbols::default();
        for r in &self.bound {
            symbols.list.push(ObjSymbol {
                kind: ObjSymbolKind::Unknown,
                section: (r.symbol_section != NO_SYMBOL_SECTION).then_some(r.symbol_section),
                address: r.symbol_address as u64,
                size: 0,
                size_known: false,
            });
        }
        let mut list: Vec<ObjSection> = Vec::new();
        for (i, s) in self.sections.iter().enumerate() {
            list.push(ObjSection {
                name: format!("section {i}"),
                kind: match s.kind {
                    0 => ObjSectionKind::Code,
                    1 => ObjSectionKind::Data,
                    2 => ObjSectionKind::ReadOnlyData,
                    _ => ObjSectionKind::Bss,
                },
                address: s.address as u64,
                size: s.size as u64,
                elf_index: s.elf,
                data: data[s.place as usize..][..s.length as usize].to_vec(),
                relocations: ObjRelocations::default(),
            });
        }
        for (i, r) in self.bound.iter().enumerate() {
            list[r.section as usize].relocations.list.push((
                r.address,
                ObjReloc {
                    kind: reloc_kind(r.kind),
                    target_symbol: i as u32,
                    addend: if on(21) { r.addend as i64 & 0x7fff_ffff } else { r.addend as i32 as i64 },
                },
            ));
        }
        for y in &self.symbols {
            symbols.list.push(ObjSymbol {
                kind: ObjSymbolKind::Object,
                section: Some(y.section),
                address: y.address as u64,
                size: y.size as u64,
                size_known: y.known == 1,
            });
        }
        let kind = if self.kind == 0 { ObjKind::Executable } else { ObjKind::Relocatable };
        let mut unresolved_relocations: Vec<_> = self
            .unbound
            .iter()
            .map(|r| ObjUnresolvedReloc {
                section: r.elf,
                address: r.address,
                module_id: r.module,
                kind: reloc_kind(r.kind),
                target_section: r.target,
                addend: r.addend,
            })
            .collect();
        // "first match counts"
        if on(22) {
            unresolved_relocations.reverse();
        }
        ObjInfo {
            kind,
            module_id: self.module,
            sections: ObjSections { obj_kind: kind, list },
            symbols,
            unresolved_relocations,
            sda2_base: None,
            sda_base: None,
        }
    }
}

/// A lent image: its words, its byte buffer, and the object if it is sound.
#[derive(Clone, Debug, Default)]
pub struct Image {
    pub words: Vec<u32>,
    pub data: Vec<u8>,
    pub broken: Option<&'static str>,
    pub obj: Option<ObjInfo>,
    /// W, the Code words in all.
    pub code_words: u32,
}

impl Image {
    pub fn new(words: Vec<u32>, data: Vec<u8>) -> Self {
        let Some(tables) = Tables::from_words(&words) else {
            return Self { words, data, broken: Some("list length"), ..Default::default() };
        };
        let broken = tables.broken(data.len());
        if broken.is_some() {
            return Self { words, data, broken, ..Default::default() };
        }
        let obj = Some(tables.to_obj(&data));
        let code_words = tables.sections.iter().filter(|s| s.kind == 0).map(|s| s.size / 4).sum();
        Self { words, data, broken, obj, code_words }
    }
}
