//! Stand-in for `ppc750cl`, written from document 01, "Decoding". Rc and reserved bits are never looked at.
use plants::on;

#[rustfmt::skip]
#[derive(Clone, Copy, Debug, Eq, PartialEq)]
pub enum Opcode {
    Illegal,
    /// A legal word of which `step` knows only the registers that it writes.
    Other,
    Subfic, Cmpli, Cmpi, Addic, Addic_, Addi, Addis, Bc, B, Rlwinm, Rlwnm, Ori,
    Lwz, Lwzu, Lbz, Lbzu, Stw, Stwu, Stb, Stbu, Lhz, Lhzu, Lha, Lhau, Sth, Sthu, Lmw, Stmw,
    Lfs, Lfsu, Lfd, Lfdu, Stfs, Stfsu, Stfd, Stfdu,
    Bclr, Rfi, Bcctr, Cmp, Cmpl, Lwzx, Mfspr, Mtspr, Or, Add, Subf, Subfc,
    // Named by vm.rs and never given by the paper's decoder, which has them among the others.
    Lbzux, Lfdux, Lfsux, Lhaux, Lhzux, Lwzux, Stbux, Stfdux, Stfsux, Sthux, Stwux,
}

use Opcode::*;

/// "Primary opcodes", those that `step` tells apart.
#[rustfmt::skip]
pub const PRIMARY: [(u32, Opcode); 36] = [
    (8, Subfic), (10, Cmpli), (11, Cmpi), (12, Addic), (13, Addic_), (14, Addi), (15, Addis), (16, Bc), (18, B),
    (21, Rlwinm), (23, Rlwnm), (24, Ori),
    (32, Lwz), (33, Lwzu), (34, Lbz), (35, Lbzu), (36, Stw), (37, Stwu), (38, Stb), (39, Stbu),
    (40, Lhz), (41, Lhzu), (42, Lha), (43, Lhau), (44, Sth), (45, Sthu), (46, Lmw), (47, Stmw),
    (48, Lfs), (49, Lfsu), (50, Lfd), (51, Lfdu), (52, Stfs), (53, Stfsu), (54, Stfd), (55, Stfdu),
];

pub const UNDER_19: [(u32, Opcode); 3] = [(16, Bclr), (50, Rfi), (528, Bcctr)];

/// The last three also with 512 added.
#[rustfmt::skip]
pub const UNDER_31: [(u32, Opcode); 12] = [
    (0, Cmp), (32, Cmpl), (23, Lwzx), (339, Mfspr), (467, Mtspr), (444, Or), (266, Add), (40, Subf), (8, Subfc),
    (266 + 512, Add), (40 + 512, Subf), (8 + 512, Subfc),
];

// "Other words by what they write".
pub const D_PRIMARY: [u32; 1] = [7];
/// Each also with 512 added.
pub const D_31_OE: [u32; 11] = [10, 138, 202, 234, 136, 200, 232, 235, 459, 491, 104];
pub const D_31: [u32; 16] = [75, 11, 19, 83, 87, 279, 343, 20, 371, 533, 597, 534, 790, 595, 659, 310];
pub const DA_31: [u32; 4] = [55, 119, 311, 375];
pub const A_PRIMARY: [u32; 6] = [20, 25, 26, 27, 28, 29];
pub const A_31: [u32; 21] =
    [28, 60, 124, 284, 316, 412, 476, 24, 536, 792, 824, 26, 954, 922, 183, 247, 439, 567, 631, 695, 759];
pub const NONE_PRIMARY: [u32; 9] = [3, 17, 4, 56, 57, 59, 60, 61, 63];
pub const NONE_19: [u32; 10] = [0, 150, 33, 129, 193, 225, 257, 289, 417, 449];
pub const NONE_31: [u32; 31] = [
    151, 215, 407, 150, 662, 918, 661, 725, 535, 599, 663, 727, 983, 4, 54, 86, 246, 278, 470, 982, 1014, 598, 854,
    144, 512, 146, 210, 242, 306, 566, 438,
];

#[derive(Clone, Copy, Debug, Eq, PartialEq)]
pub enum Writes {
    Nothing,
    D,
    A,
    DAndA,
}

fn named(table: &[(u32, Opcode)], number: u32) -> Option<(Opcode, Writes)> {
    table.iter().find(|row| row.0 == number).map(|row| (row.1, Writes::Nothing))
}

pub fn decode(word: u32) -> (Opcode, Writes) {
    let primary = word >> 26;
    let extended = (word >> 1) & 0x3ff;
    let extended = if on(1) && primary == 31 { extended & 0x1ff } else { extended };
    let other = |writes| Some((Other, writes));
    let found = match primary {
        19 => named(&UNDER_19, extended).or_else(|| NONE_19.contains(&extended).then_some((Other, Writes::Nothing))),
        31 => named(&UNDER_31, extended).or_else(|| {
            if D_31.contains(&extended)
                || D_31_OE.contains(&extended)
                || extended >= 512 && D_31_OE.contains(&(extended - 512))
            {
                other(Writes::D)
            } else if DA_31.contains(&extended) {
                other(if on(2) { Writes::D } else { Writes::DAndA })
            } else if A_31.contains(&extended) {
                other(if on(3) && extended == 922 { Writes::D } else { Writes::A })
            } else if NONE_31.contains(&extended) && !(on(4) && extended == 438) {
                other(Writes::Nothing)
            } else {
                None
            }
        }),
        _ => named(&PRIMARY, primary).or_else(|| {
            if D_PRIMARY.contains(&primary) {
                other(Writes::D)
            } else if A_PRIMARY.contains(&primary) {
                other(Writes::A)
            } else if NONE_PRIMARY.contains(&primary) || on(5) && primary == 58 {
                other(Writes::Nothing)
            } else {
                None
            }
        }),
    };
    found.unwrap_or((Illegal, Writes::Nothing))
}

#[derive(Clone, Copy, Debug, Eq, PartialEq)]
pub struct GPR(pub u8);

#[derive(Clone, Copy, Debug, Eq, PartialEq)]
pub enum Argument {
    None,
    GPR(GPR),
}

#[derive(Clone, Copy, Debug, Eq, PartialEq)]
pub struct Ins {
    pub code: u32,
    pub op: Opcode,
    pub writes: Writes,
}

impl Ins {
    pub fn new(code: u32) -> Self {
        let (op, writes) = decode(code);
        Self { code, op, writes }
    }

    /// Bits `from` to `to` in the manual's numbering, bit 0 the highest.
    fn field(&self, from: u32, to: u32) -> u32 {
        (self.code >> (31 - to)) & ((1u32 << (to - from + 1)) - 1)
    }

    pub fn field_rd(&self) -> u8 {
        self.field(6, 10) as u8
    }
    pub fn field_rs(&self) -> u8 {
        self.field(6, 10) as u8
    }
    pub fn field_bo(&self) -> u8 {
        self.field(6, 10) as u8
    }
    pub fn field_ra(&self) -> u8 {
        self.field(11, 15) as u8
    }
    pub fn field_bi(&self) -> u8 {
        self.field(11, 15) as u8
    }
    pub fn field_rb(&self) -> u8 {
        self.field(16, 20) as u8
    }
    pub fn field_sh(&self) -> u8 {
        self.field(16, 20) as u8
    }
    pub fn field_mb(&self) -> u8 {
        self.field(21, 25) as u8
    }
    pub fn field_me(&self) -> u8 {
        self.field(26, 30) as u8
    }
    pub fn field_simm(&self) -> i16 {
        self.field(16, 31) as u16 as i16
    }
    pub fn field_uimm(&self) -> u16 {
        self.field(16, 31) as u16
    }
    pub fn field_crfd(&self) -> u8 {
        self.field(6, 8) as u8
    }
    pub fn field_l(&self) -> u8 {
        self.field(10, 10) as u8
    }
    /// The two halves of SPR stand exchanged in the word.
    pub fn field_spr(&self) -> u16 {
        if on(6) { self.field(11, 20) as u16 } else { (self.field(16, 20) << 5 | self.field(11, 15)) as u16 }
    }
    pub fn field_lk(&self) -> bool {
        self.field(31, 31) == 1
    }
    pub fn field_aa(&self) -> bool {
        self.field(30, 30) == 1
    }

    /// "Branch displacements are signed: 26 bits for b, 16 for bc, low two bits zero, added to the address
    /// modulo 2^32 unless AA."
    pub fn branch_dest(&self, address: u32) -> Option<u32> {
        let displacement = match self.op {
            B if on(7) => self.field(6, 29) << 2,
            B => ((self.field(6, 29) << 8) as i32 >> 6) as u32,
            Bc => ((self.field(16, 29) << 18) as i32 >> 16) as u32,
            _ => return None,
        };
        Some(if self.field_aa() && !on(8) { displacement } else { address.wrapping_add(displacement) })
    }

    /// The registers that the paper's lists say an "other" word writes.
    pub fn defs(&self) -> Vec<Argument> {
        let d = Argument::GPR(GPR(self.field_rd()));
        let a = Argument::GPR(GPR(self.field_ra()));
        match self.writes {
            Writes::Nothing => vec![],
            Writes::D => vec![d],
            Writes::A => vec![a],
            Writes::DAndA => vec![d, a],
        }
    }
}
