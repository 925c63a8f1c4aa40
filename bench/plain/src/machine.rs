//! The processor: one step, and runs of steps.

use crate::bus::{Bus, PortStop};
use crate::instruction::{decode, Instr, Jump, One, Place, Reg, Two};
use std::fmt;

/// How a run ends.
#[derive(Clone, Copy, Debug, PartialEq, Eq)]
pub enum End {
    Limit,
    Refused(u16),
    Port(u16),
}

impl From<PortStop> for End {
    fn from(stop: PortStop) -> End {
        End::Port(stop.0)
    }
}

pub struct Machine {
    bus: Bus,
    pc: u16,
    wp: u16,
    st: u16,
    count: u64,
}

const LOGICAL: u16 = 0x8000;
const ARITHMETIC: u16 = 0x4000;
const EQUAL: u16 = 0x2000;
const CARRY: u16 = 0x1000;
const OVERFLOW: u16 = 0x0800;
const PARITY: u16 = 0x0400;
const ORDER: u16 = LOGICAL | ARITHMETIC | EQUAL;

#[inline]
fn bit(set: bool, mask: u16) -> u16 {
    if set {
        mask
    } else {
        0
    }
}

#[inline]
fn by_result(result: u16) -> u16 {
    compare(result, 0)
}

#[inline]
fn compare(a: u16, b: u16) -> u16 {
    bit(a > b, LOGICAL) | bit((a as i16) > (b as i16), ARITHMETIC) | bit(a == b, EQUAL)
}

impl Machine {
    pub fn new(bus: Bus, wp: u16, pc: u16) -> Machine {
        Machine {
            bus,
            pc,
            wp,
            st: 0,
            count: 0,
        }
    }

    /// Writes words from an address of the expansion memory on.
    pub fn load(&mut self, at: u16, words: &[u16]) {
        for (at, word) in (at..).step_by(2).zip(words) {
            self.bus
                .write(at, *word)
                .expect("no port in expansion memory");
        }
    }

    /// Up to so many steps.
    #[inline(never)]
    pub fn run(&mut self, limit: u64) -> End {
        for _ in 0..limit {
            if let Err(end) = self.step() {
                return end;
            }
        }
        End::Limit
    }

    /// One step; where it is not executed, the processor's registers are as before.
    #[inline(always)]
    fn step(&mut self) -> Result<(), End> {
        let before = (self.pc, self.wp, self.st);
        let word = self.next()?;
        let done = match decode(word) {
            Some(instr) => self.execute(instr).map_err(End::from),
            None => Err(End::Refused(before.0)),
        };
        match done {
            Ok(()) => self.count += 1,
            Err(_) => (self.pc, self.wp, self.st) = before,
        }
        done
    }

    #[inline(always)]
    fn execute(&mut self, instr: Instr) -> Result<(), PortStop> {
        match instr {
            Instr::Two { op, dst, src } => self.two(op, dst, src)?,
            Instr::Reg { op, number, src } => self.reg(op, number, src)?,
            Instr::One { op, at } => self.one(op, at)?,
            Instr::Jump { op, disp } => {
                let taken = match op {
                    Jump::Jmp => true,
                    Jump::Jne => self.st & EQUAL == 0,
                    Jump::Jl => self.st & (LOGICAL | EQUAL) == 0,
                };
                if taken {
                    self.pc = self.pc.wrapping_add(2 * i16::from(disp) as u16);
                }
            }
            Instr::Sla { count, number } => self.shift_left(count, number)?,
            Instr::Src { count, number } => {
                let at = self.address_of(number);
                let places = self.count_of(count)?;
                let result = self.bus.read(at)?.rotate_right(places);
                self.bus.write(at, result)?;
                self.st = self.st & !(ORDER | CARRY)
                    | by_result(result)
                    | bit(result & 0x8000 != 0, CARRY);
            }
            Instr::Li { number } => {
                let word = self.next()?;
                self.bus.write(self.address_of(number), word)?;
                self.st = self.st & !ORDER | by_result(word);
            }
            Instr::Ci { number } => {
                let word = self.next()?;
                let found = self.bus.read(self.address_of(number))?;
                self.st = self.st & !ORDER | compare(found, word);
            }
            Instr::Rtwp => {
                let pc = self.bus.read(self.address_of(14))?;
                let st = self.bus.read(self.address_of(15))?;
                self.wp = self.bus.read(self.address_of(13))? & 0xFFFE;
                self.pc = pc & 0xFFFE;
                self.st = st;
            }
        }
        Ok(())
    }

    #[inline]
    fn address_of(&self, number: u8) -> u16 {
        self.wp.wrapping_add(2 * u16::from(number))
    }

    #[inline]
    fn next(&mut self) -> Result<u16, PortStop> {
        let word = self.bus.read(self.pc)?;
        self.pc = self.pc.wrapping_add(2);
        Ok(word)
    }

    #[inline(always)]
    fn address(&mut self, place: Place, size: u16) -> Result<u16, PortStop> {
        let register = self.address_of(place.reg);
        Ok(match place.mode {
            0 => register,
            1 => self.bus.read(register)?,
            2 => {
                let base = self.next()?;
                match place.reg {
                    0 => base,
                    _ => base.wrapping_add(self.bus.read(register)?),
                }
            }
            _ => {
                let address = self.bus.read(register)?;
                self.bus.write(register, address.wrapping_add(size))?;
                address
            }
        })
    }

    #[inline(always)]
    fn two(&mut self, op: Two, dst: Place, src: Place) -> Result<(), PortStop> {
        match op {
            Two::Movb => {
                let source = self.address(src, 1)?;
                let value = self.bus.read_byte(source);
                let destination = self.address(dst, 1)?;
                self.bus.write_byte(destination, value);
                let parity = bit(value.count_ones() % 2 == 1, PARITY);
                self.st = self.st & !(ORDER | PARITY) | by_result(u16::from(value) << 8) | parity;
            }
            Two::Mov => {
                let source = self.address(src, 2)?;
                let value = self.bus.read(source)?;
                let destination = self.address(dst, 2)?;
                self.bus.write(destination, value)?;
                self.st = self.st & !ORDER | by_result(value);
            }
            Two::A => {
                let source = self.address(src, 2)?;
                let value = self.bus.read(source)?;
                let destination = self.address(dst, 2)?;
                let found = self.bus.read(destination)?;
                self.add(destination, found, value)?;
            }
        }
        Ok(())
    }

    /// The sum of two words goes to an address.
    #[inline]
    fn add(&mut self, at: u16, a: u16, b: u16) -> Result<(), PortStop> {
        let (result, carry) = a.overflowing_add(b);
        self.bus.write(at, result)?;
        self.arithmetic(result, carry, (a ^ result) & (b ^ result) & 0x8000 != 0);
        Ok(())
    }

    #[inline]
    fn arithmetic(&mut self, result: u16, carry: bool, overflow: bool) {
        self.st = self.st & !(ORDER | CARRY | OVERFLOW)
            | by_result(result)
            | bit(carry, CARRY)
            | bit(overflow, OVERFLOW);
    }

    #[inline]
    fn reg(&mut self, op: Reg, number: u8, src: Place) -> Result<(), PortStop> {
        let source = self.address(src, 2)?;
        let value = self.bus.read(source)?;
        let at = self.address_of(number);
        let found = self.bus.read(at)?;
        match op {
            Reg::Xor => {
                self.bus.write(at, found ^ value)?;
                self.st = self.st & !ORDER | by_result(found ^ value);
            }
            Reg::Mpy => {
                let product = u32::from(found) * u32::from(value);
                self.bus.write(at, (product >> 16) as u16)?;
                self.bus.write(at.wrapping_add(2), product as u16)?;
            }
            Reg::Div => {
                let dividend =
                    u32::from(found) << 16 | u32::from(self.bus.read(at.wrapping_add(2))?);
                if value <= found {
                    self.st |= OVERFLOW;
                } else {
                    let by = u32::from(value);
                    self.bus.write(at, (dividend / by) as u16)?;
                    self.bus.write(at.wrapping_add(2), (dividend % by) as u16)?;
                    self.st &= !OVERFLOW;
                }
            }
        }
        Ok(())
    }

    #[inline]
    fn one(&mut self, op: One, place: Place) -> Result<(), PortStop> {
        let at = self.address(place, 2)?;
        match op {
            One::B => self.pc = at & 0xFFFE,
            One::Bl => {
                self.bus.write(self.address_of(11), self.pc)?;
                self.pc = at & 0xFFFE;
            }
            One::Blwp => self.switch(at)?,
            One::Inc => {
                let found = self.bus.read(at)?;
                self.add(at, found, 1)?;
            }
            One::Dec => {
                let found = self.bus.read(at)?;
                let result = found.wrapping_sub(1);
                self.bus.write(at, result)?;
                self.arithmetic(result, found >= 1, found == 0x8000);
            }
            One::Inv => {
                let result = !self.bus.read(at)?;
                self.bus.write(at, result)?;
                self.st = self.st & !ORDER | by_result(result);
            }
            One::Swpb => {
                let found = self.bus.read(at)?;
                self.bus.write(at, found.swap_bytes())?;
            }
        }
        Ok(())
    }

    /// A context switch by the vector at an address.
    #[inline]
    fn switch(&mut self, at: u16) -> Result<(), PortStop> {
        let wp = self.bus.read(at)? & 0xFFFE;
        let pc = self.bus.read(at.wrapping_add(2))? & 0xFFFE;
        self.bus.write(wp.wrapping_add(26), self.wp)?;
        self.bus.write(wp.wrapping_add(28), self.pc)?;
        self.bus.write(wp.wrapping_add(30), self.st)?;
        self.wp = wp;
        self.pc = pc;
        Ok(())
    }

    /// The count of a shift: 0 takes the low four bits of register 0, where 0 is sixteen.
    #[inline]
    fn count_of(&self, count: u8) -> Result<u32, PortStop> {
        if count > 0 {
            return Ok(u32::from(count));
        }
        Ok(match self.bus.read(self.address_of(0))? & 15 {
            0 => 16,
            places => u32::from(places),
        })
    }

    #[inline]
    fn shift_left(&mut self, count: u8, number: u8) -> Result<(), PortStop> {
        let at = self.address_of(number);
        let value = self.bus.read(at)?;
        let places = self.count_of(count)?;
        let wide = u32::from(value) << places;
        // the sign bit and the bits that come to its place, which are all equal where the sign never changes
        let signs = (i32::from(value as i16) << 16) >> (31 - places.min(16));
        self.bus.write(at, wide as u16)?;
        self.arithmetic(wide as u16, wide & 0x1_0000 != 0, signs != 0 && signs != -1);
        Ok(())
    }
}

impl fmt::Display for Machine {
    fn fmt(&self, f: &mut fmt::Formatter<'_>) -> fmt::Result {
        write!(
            f,
            "PC {:04X} WP {:04X} ST {:04X} count {}",
            self.pc, self.wp, self.st, self.count
        )
    }
}
