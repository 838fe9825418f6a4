//! Register accesses: the table of places and the bus refusals of document 01.

use crate::core::{low_bits, Core};

/// The bits of IPISR and IPIER, named as in document 01.
pub mod flag {
    pub const MODE_FAULT: u32 = 1 << 0;
    pub const SLAVE_MODE_FAULT: u32 = 1 << 1;
    pub const TX_EMPTIED: u32 = 1 << 2;
    pub const UNDERRUN: u32 = 1 << 3;
    pub const RX_MADE_FULL: u32 = 1 << 4;
    pub const OVERRUN: u32 = 1 << 5;
    pub const TX_HALF_EMPTY: u32 = 1 << 6;
    pub const SLAVE_SELECTED: u32 = 1 << 7;
    pub const RX_NOT_EMPTY: u32 = 1 << 8;
    pub const ALL: u32 = 0x1FF;
}

/// Answer to an access; refusal 0 is OKAY, any other is SLVERR with value 0.
#[derive(Clone, Copy, Debug, PartialEq, Eq)]
pub struct Answer {
    pub refusal: u8,
    pub value: u32,
}

impl Answer {
    pub fn is_accepted(self) -> bool {
        self.refusal == 0
    }

    fn okay(value: u32) -> Answer {
        Answer { refusal: 0, value }
    }

    fn refused(refusal: u8) -> Answer {
        Answer { refusal, value: 0 }
    }
}

/// The SPICR bits that are kept; bits 5 and 6 act on writing and read 0.
#[derive(Clone, Copy, Debug, PartialEq, Eq)]
pub struct Control {
    pub loopback: bool,
    pub enable: bool,
    pub master: bool,
    pub cpol: bool,
    pub cpha: bool,
    pub manual_select: bool,
    pub inhibit: bool,
    pub lsb_first: bool,
}

impl Control {
    /// SPICR resets to 0x180.
    pub const POWER_ON: Control = Control {
        loopback: false,
        enable: false,
        master: false,
        cpol: false,
        cpha: false,
        manual_select: true,
        inhibit: true,
        lsb_first: false,
    };

    fn from_written(value: u32) -> Control {
        Control {
            loopback: has_bit(value, 0),
            enable: has_bit(value, 1),
            master: has_bit(value, 2),
            cpol: has_bit(value, 3),
            cpha: has_bit(value, 4),
            manual_select: has_bit(value, 7),
            inhibit: has_bit(value, 8),
            lsb_first: has_bit(value, 9),
        }
    }

    /// The value SPICR reads.
    pub fn value(self) -> u32 {
        u32::from(self.loopback)
            | u32::from(self.enable) << 1
            | u32::from(self.master) << 2
            | u32::from(self.cpol) << 3
            | u32::from(self.cpha) << 4
            | u32::from(self.manual_select) << 7
            | u32::from(self.inhibit) << 8
            | u32::from(self.lsb_first) << 9
    }

    // Bits 0 to 4, 7 and 9 are all the kept ones but inhibit.
    fn differs_beside_inhibit(self, other: Control) -> bool {
        let inhibit = other.inhibit;
        Control { inhibit, ..self } != other
    }
}

#[derive(Clone, Copy, Debug, PartialEq, Eq)]
enum Register {
    Dgier,
    Ipisr,
    Ipier,
    Srr,
    Spicr,
    Spisr,
    Spidtr,
    Spidrr,
    Spissr,
    TxOccupancy,
    RxOccupancy,
}

impl Core {
    /// Reads a register over the bus.
    pub fn read(&mut self, offset: u32, lanes: u8) -> Answer {
        match self.find_register(offset, lanes) {
            Ok(register) => self.read_register(register),
            Err(refusal) => Answer::refused(refusal),
        }
    }

    /// Writes a register over the bus; the value answered is 0.
    pub fn write(&mut self, offset: u32, lanes: u8, value: u32) -> Answer {
        match self.find_register(offset, lanes) {
            Ok(register) => self.write_register(register, value),
            Err(refusal) => Answer::refused(refusal),
        }
    }

    fn find_register(&self, offset: u32, lanes: u8) -> Result<Register, u8> {
        if lanes != 15 || offset % 4 != 0 {
            return Err(10);
        }
        match offset {
            0x1C => Ok(Register::Dgier),
            0x20 => Ok(Register::Ipisr),
            0x28 => Ok(Register::Ipier),
            0x40 => Ok(Register::Srr),
            0x60 => Ok(Register::Spicr),
            0x64 => Ok(Register::Spisr),
            0x68 => Ok(Register::Spidtr),
            0x6C => Ok(Register::Spidrr),
            0x70 => Ok(Register::Spissr),
            0x74 if self.depth == 16 => Ok(Register::TxOccupancy),
            0x78 if self.depth == 16 => Ok(Register::RxOccupancy),
            _ => Err(11),
        }
    }

    fn read_register(&mut self, register: Register) -> Answer {
        let value = match register {
            Register::Dgier => u32::from(self.global_interrupt_enable) << 31,
            Register::Ipisr => self.interrupt_status,
            Register::Ipier => self.interrupt_enable,
            Register::Srr | Register::Spidtr => 0,
            Register::Spicr => self.control.value(),
            Register::Spisr => self.read_status(),
            Register::Spidrr => match self.rx_store.pop_front() {
                Some(element) => element,
                None => return Answer::refused(13),
            },
            Register::Spissr => self.slave_select,
            Register::TxOccupancy => occupancy(self.tx_store.len()),
            Register::RxOccupancy => occupancy(self.rx_store.len()),
        };
        Answer::okay(value)
    }

    // "Reading SPISR clears MODF after the read."
    fn read_status(&mut self) -> u32 {
        let value = u32::from(self.rx_store.is_empty())
            | u32::from(self.is_full(self.rx_store.len())) << 1
            | u32::from(self.tx_store.is_empty()) << 2
            | u32::from(self.is_full(self.tx_store.len())) << 3
            | u32::from(self.mode_fault) << 4
            | u32::from(!self.is_miso_driven()) << 5;
        self.mode_fault = false;
        value
    }

    fn write_register(&mut self, register: Register, value: u32) -> Answer {
        match register {
            Register::Dgier => self.global_interrupt_enable = has_bit(value, 31),
            Register::Ipisr => self.interrupt_status ^= value & flag::ALL,
            Register::Ipier => self.interrupt_enable = value & flag::ALL,
            Register::Srr if value != 0x0000_000A => return Answer::refused(14),
            Register::Srr => self.reset(),
            Register::Spicr => self.write_control(value),
            Register::Spidtr if self.is_full(self.tx_store.len()) => return Answer::refused(12),
            Register::Spidtr => self.tx_store.push_back(value & low_bits(self.width)),
            Register::Spissr => return self.write_select(value),
            Register::Spisr | Register::Spidrr | Register::TxOccupancy | Register::RxOccupancy => {}
        }
        Answer::okay(0)
    }

    fn write_control(&mut self, value: u32) {
        let new = Control::from_written(value);
        let resets_tx = self.depth == 16 && has_bit(value, 5);
        let resets_rx = self.depth == 16 && has_bit(value, 6);
        // 01, "A slave's lines": "A SPICR write that changes any of bits 0 to 4, 7 or 9, or
        // at depth 16 sets bit 5, abandons the transfer and makes the core sit out".
        if resets_tx || self.control.differs_beside_inhibit(new) {
            self.abandon();
            self.sit_out();
        }
        // "Setting bit 8 from 0 abandons a master's transfer; a slave ignores it."
        if self.is_enabled_master() && new.inhibit && !self.control.inhibit {
            self.abandon();
        }
        if resets_tx {
            self.tx_store.clear();
        }
        if resets_rx {
            self.rx_store.clear();
        }
        self.control = new;
    }

    fn write_select(&mut self, value: u32) -> Answer {
        let select_bits = low_bits(self.slave_count);
        if (!value & select_bits).count_ones() >= 2 {
            return Answer::refused(15);
        }
        self.slave_select = value & select_bits;
        Answer::okay(0)
    }

    /// Whether a store that holds `held` elements is full; at depth 0 it holds one.
    pub(crate) fn is_full(&self, held: usize) -> bool {
        held == self.depth.max(1) as usize
    }
}

fn has_bit(value: u32, place: u32) -> bool {
    value >> place & 1 == 1
}

// "Occupancy reads as elements minus one, and 0 when empty."
fn occupancy(held: usize) -> u32 {
    held.saturating_sub(1) as u32
}
