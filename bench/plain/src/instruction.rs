//! The instructions of the loops.

/// An operand in one of the four addressing modes.
#[derive(Clone, Copy)]
pub struct Place {
    pub mode: u8,
    pub reg: u8,
}

#[derive(Clone, Copy)]
pub enum Two {
    A,
    Mov,
    Movb,
}

#[derive(Clone, Copy)]
pub enum Reg {
    Xor,
    Mpy,
    Div,
}

#[derive(Clone, Copy)]
pub enum One {
    Blwp,
    B,
    Inv,
    Inc,
    Dec,
    Bl,
    Swpb,
}

#[derive(Clone, Copy)]
pub enum Jump {
    Jmp,
    Jne,
    Jl,
}

#[derive(Clone, Copy)]
pub enum Instr {
    Two { op: Two, dst: Place, src: Place },
    Reg { op: Reg, number: u8, src: Place },
    One { op: One, at: Place },
    Jump { op: Jump, disp: i8 },
    Sla { count: u8, number: u8 },
    Src { count: u8, number: u8 },
    Li { number: u8 },
    Ci { number: u8 },
    Rtwp,
}

/// The instruction of a word, if it is one of the loops'.
#[inline(always)]
pub fn decode(word: u16) -> Option<Instr> {
    let src = Place {
        mode: (word >> 4 & 3) as u8,
        reg: (word & 15) as u8,
    };
    let dst = Place {
        mode: (word >> 10 & 3) as u8,
        reg: (word >> 6 & 15) as u8,
    };
    let two = |op| Instr::Two { op, dst, src };
    let reg = |op| Instr::Reg {
        op,
        number: dst.reg,
        src,
    };
    let one = |op| Instr::One { op, at: src };
    let jump = |op| Instr::Jump {
        op,
        disp: word as i8,
    };
    let count = (word >> 4 & 15) as u8;
    Some(match word {
        0xA000..=0xAFFF => two(Two::A),
        0xC000..=0xCFFF => two(Two::Mov),
        0xD000..=0xDFFF => two(Two::Movb),
        0x2800..=0x2BFF => reg(Reg::Xor),
        0x3800..=0x3BFF => reg(Reg::Mpy),
        0x3C00..=0x3FFF => reg(Reg::Div),
        0x1000..=0x10FF => jump(Jump::Jmp),
        0x1600..=0x16FF => jump(Jump::Jne),
        0x1A00..=0x1AFF => jump(Jump::Jl),
        0x0A00..=0x0AFF => Instr::Sla {
            count,
            number: src.reg,
        },
        0x0B00..=0x0BFF => Instr::Src {
            count,
            number: src.reg,
        },
        0x0400..=0x043F => one(One::Blwp),
        0x0440..=0x047F => one(One::B),
        0x0540..=0x057F => one(One::Inv),
        0x0580..=0x05BF => one(One::Inc),
        0x0600..=0x063F => one(One::Dec),
        0x0680..=0x06BF => one(One::Bl),
        0x06C0..=0x06FF => one(One::Swpb),
        0x0200..=0x020F => Instr::Li { number: src.reg },
        0x0280..=0x028F => Instr::Ci { number: src.reg },
        0x0380 => Instr::Rtwp,
        _ => return None,
    })
}
