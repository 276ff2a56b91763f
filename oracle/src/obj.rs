//! Stand-in for the `obj` module: the image as the Rust sees it, its lookups from document 01, "The image".
use std::ops::Index;

use anyhow::{Result, anyhow};
use plants::on;

pub type SectionIndex = u32;

#[derive(Clone, Copy, Debug, Eq, PartialEq)]
pub enum ObjKind {
    Executable,
    Relocatable,
}

#[derive(Clone, Copy, Debug, Eq, PartialEq)]
pub enum ObjSectionKind {
    Code,
    Data,
    ReadOnlyData,
    Bss,
}

#[derive(Clone, Copy, Debug, Eq, PartialEq)]
pub enum ObjRelocKind {
    Absolute,
    /// Every other kind is one kind in the paper.
    Other,
}

#[derive(Clone, Copy, Debug, Eq, PartialEq)]
pub enum ObjSymbolKind {
    /// What a bound relocation points at.
    Unknown,
    Object,
}

#[derive(Clone, Debug)]
pub struct ObjReloc {
    pub kind: ObjRelocKind,
    pub target_symbol: u32,
    pub addend: i64,
}

#[derive(Clone, Debug, Default)]
pub struct ObjRelocations {
    pub list: Vec<(u32, ObjReloc)>,
}

impl ObjRelocations {
    /// Searched by halves: a sound image's list ascends, as the Rust's own map does.
    pub fn at(&self, address: u32) -> Option<&ObjReloc> {
        self.list.binary_search_by_key(&address, |r| r.0).ok().map(|i| &self.list[i].1)
    }
}

#[derive(Clone, Debug)]
pub struct ObjSection {
    pub name: String,
    pub kind: ObjSectionKind,
    pub address: u64,
    pub size: u64,
    pub elf_index: SectionIndex,
    pub data: Vec<u8>,
    pub relocations: ObjRelocations,
}

impl ObjSection {
    pub fn contains(&self, address: u32) -> bool {
        let address = address as u64;
        self.address <= address && (address < self.address + self.size || on(9) && address == self.address + self.size)
    }

    pub fn data_range(&self, start: u32, end: u32) -> Result<&[u8]> {
        let from = (start as u64).checked_sub(self.address);
        let to = (end as u64).checked_sub(self.address);
        from.zip(to)
            .and_then(|(from, to)| self.data.get(from as usize..to as usize))
            .ok_or_else(|| anyhow!("no such data"))
    }
}

/// The message by which a place in no section is known.
pub const NO_SECTION: &str = "no section at the address";

#[derive(Clone, Debug)]
pub struct ObjSections {
    pub obj_kind: ObjKind,
    pub list: Vec<ObjSection>,
}

impl ObjSections {
    pub fn len(&self) -> SectionIndex {
        self.list.len() as SectionIndex
    }

    pub fn iter(&self) -> impl DoubleEndedIterator<Item = (SectionIndex, &ObjSection)> {
        self.list.iter().enumerate().map(|(i, s)| (i as SectionIndex, s))
    }

    pub fn get(&self, index: SectionIndex) -> Option<&ObjSection> {
        self.list.get(index as usize)
    }

    /// The first section, in the table's order, that holds the address.
    pub fn holding(&self, address: u32) -> Option<(SectionIndex, &ObjSection)> {
        if on(10) {
            return self.iter().rev().find(|(_, s)| s.contains(address));
        }
        self.iter().find(|(_, s)| s.contains(address))
    }

    /// "A bare table word finds no section in a Relocatable image."
    pub fn at_address(&self, address: u32) -> Result<(SectionIndex, &ObjSection)> {
        if self.obj_kind == ObjKind::Relocatable && !on(11) {
            return Err(anyhow!("{NO_SECTION}"));
        }
        self.holding(address).ok_or_else(|| anyhow!("{NO_SECTION}"))
    }

    pub fn get_elf_index(&self, elf_index: SectionIndex) -> Option<(SectionIndex, &ObjSection)> {
        if on(12) {
            return self.get(elf_index).map(|s| (elf_index, s));
        }
        self.iter().find(|(_, s)| s.elf_index == elf_index)
    }
}

impl Index<SectionIndex> for ObjSections {
    type Output = ObjSection;

    fn index(&self, index: SectionIndex) -> &ObjSection {
        &self.list[index as usize]
    }
}

#[derive(Clone, Debug)]
pub struct ObjSymbol {
    pub kind: ObjSymbolKind,
    pub section: Option<SectionIndex>,
    pub address: u64,
    pub size: u64,
    pub size_known: bool,
}

#[derive(Clone, Debug, Default)]
pub struct ObjSymbols {
    pub list: Vec<ObjSymbol>,
}

impl ObjSymbols {
    pub fn kind_at_section_address(
        &self,
        section: SectionIndex,
        address: u32,
        kind: ObjSymbolKind,
    ) -> Result<Option<(u32, &ObjSymbol)>> {
        let is = |s: &ObjSymbol| s.kind == kind && s.section == Some(section) && s.address == address as u64;
        if on(13) {
            let found = self.list.iter().position(|s| s.kind == kind && s.address == address as u64);
            return Ok(found.map(|i| (i as u32, &self.list[i])));
        }
        // Objects stand last and ascend.
        let at =
            self.list.partition_point(|s| s.kind != kind || (s.section, s.address) < (Some(section), address as u64));
        Ok(self.list.get(at).filter(|s| is(s)).map(|s| (at as u32, s)))
    }
}

impl Index<u32> for ObjSymbols {
    type Output = ObjSymbol;

    fn index(&self, index: u32) -> &ObjSymbol {
        &self.list[index as usize]
    }
}

#[derive(Clone, Debug)]
pub struct ObjUnresolvedReloc {
    /// Elf number of the section that the relocation lies in.
    pub section: u32,
    pub address: u32,
    pub module_id: u32,
    pub kind: ObjRelocKind,
    /// Elf number.
    pub target_section: u32,
    pub addend: u32,
}

#[derive(Clone, Debug)]
pub struct ObjInfo {
    pub kind: ObjKind,
    pub module_id: u32,
    pub sections: ObjSections,
    pub symbols: ObjSymbols,
    pub unresolved_relocations: Vec<ObjUnresolvedReloc>,
    pub sda2_base: Option<u32>,
    pub sda_base: Option<u32>,
}
