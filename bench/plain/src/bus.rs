//! The memory map of the console.

/// A word access met the port at this address.
#[derive(Clone, Copy, Debug, PartialEq, Eq)]
pub struct PortStop(pub u16);

/// The memory and the video processor's memory.
pub struct Bus {
    rom: Box<[u8; 8192]>,
    low: Box<[u8; 8192]>,
    high: Box<[u8; 24576]>,
    pad: [u8; 256],
    vdp: Vdp,
}

/// The video processor, as far as its data ports show it.
struct Vdp {
    memory: Box<[u8; 16384]>,
    address: u16,
    fetched: u8,
}

impl Vdp {
    fn read(&mut self) -> u8 {
        let byte = self.fetched;
        self.fetched = self.memory[usize::from(self.address)];
        self.advance();
        byte
    }

    fn write(&mut self, byte: u8) {
        self.memory[usize::from(self.address)] = byte;
        self.fetched = byte;
        self.advance();
    }

    fn advance(&mut self) {
        self.address = (self.address + 1) & 0x3FFF;
    }
}

impl Bus {
    pub fn new() -> Bus {
        Bus {
            rom: Box::new([0; 8192]),
            low: Box::new([0; 8192]),
            high: Box::new([0; 24576]),
            pad: [0; 256],
            vdp: Vdp {
                memory: Box::new([0; 16384]),
                address: 0,
                fetched: 0,
            },
        }
    }

    /// The bytes of the region of an address, and the place of the address in them.
    #[inline]
    fn cells(&self, at: u16) -> Option<(&[u8], usize)> {
        let place = usize::from(at);
        match at {
            0x0000..=0x1FFF => Some((&self.rom[..], place)),
            0x2000..=0x3FFF => Some((&self.low[..], place - 0x2000)),
            0x8000..=0x83FF => Some((&self.pad[..], place & 0xFF)),
            0xA000..=0xFFFF => Some((&self.high[..], place - 0xA000)),
            _ => None,
        }
    }

    /// The same for what can be written.
    #[inline]
    fn cells_mut(&mut self, at: u16) -> Option<(&mut [u8], usize)> {
        let place = usize::from(at);
        match at {
            0x2000..=0x3FFF => Some((&mut self.low[..], place - 0x2000)),
            0x8000..=0x83FF => Some((&mut self.pad[..], place & 0xFF)),
            0xA000..=0xFFFF => Some((&mut self.high[..], place - 0xA000)),
            _ => None,
        }
    }

    #[inline]
    pub fn read(&self, at: u16) -> Result<u16, PortStop> {
        let at = at & 0xFFFE;
        match self.cells(at) {
            Some((cells, place)) => Ok(u16::from_be_bytes([cells[place], cells[place + 1]])),
            None if is_port(at) => Err(PortStop(at)),
            None => Ok(0),
        }
    }

    #[inline]
    pub fn write(&mut self, at: u16, word: u16) -> Result<(), PortStop> {
        let at = at & 0xFFFE;
        match self.cells_mut(at) {
            Some((cells, place)) => {
                [cells[place], cells[place + 1]] = word.to_be_bytes();
                Ok(())
            }
            None if is_port(at) => Err(PortStop(at)),
            None => Ok(()),
        }
    }

    #[inline]
    pub fn read_byte(&mut self, at: u16) -> u8 {
        match self.cells(at) {
            Some((cells, place)) => cells[place],
            None if at == 0x8800 => self.vdp.read(),
            None => 0,
        }
    }

    #[inline]
    pub fn write_byte(&mut self, at: u16, byte: u8) {
        match self.cells_mut(at) {
            Some((cells, place)) => cells[place] = byte,
            None if at == 0x8C00 => self.vdp.write(byte),
            None => {}
        }
    }
}

#[inline]
fn is_port(at: u16) -> bool {
    matches!(
        at,
        0x8800 | 0x8802 | 0x8C00 | 0x8C02 | 0x9800 | 0x9802 | 0x9C00 | 0x9C02
    )
}
