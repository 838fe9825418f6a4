//! One core: what it holds, how it is set up, and the lines it shows.

use std::collections::VecDeque;

use crate::registers::Control;
use crate::transfer::Transfer;

/// The levels of the lines that reach a slave.
#[derive(Clone, Copy, Debug, PartialEq, Eq)]
pub struct Lines {
    pub spisel: bool,
    pub sck: bool,
    pub mosi: bool,
}

impl Lines {
    // 01, "A slave's lines": "Power-on has seen SPISEL high, SCK and MOSI low."
    const POWER_ON: Lines = Lines {
        spisel: true,
        sck: false,
        mosi: false,
    };
}

/// The lines a core itself shows. `ss` has K bits, active low.
#[derive(Clone, Copy, Debug, PartialEq, Eq)]
pub struct Outputs {
    pub sck: bool,
    pub mosi: bool,
    pub miso: bool,
    pub interrupt: bool,
    pub miso_driven: bool,
    pub ss: u32,
}

/// One AXI SPI core.
#[derive(Clone, Debug, PartialEq, Eq)]
pub struct Core {
    pub(crate) width: u32,
    pub(crate) depth: u32,
    pub(crate) slave_count: u32,
    pub(crate) control: Control,
    pub(crate) global_interrupt_enable: bool,
    pub(crate) interrupt_status: u32,
    pub(crate) interrupt_enable: u32,
    pub(crate) mode_fault: bool,
    pub(crate) slave_select: u32,
    pub(crate) tx_store: VecDeque<u32>,
    pub(crate) rx_store: VecDeque<u32>,
    pub(crate) transfer: Transfer,
    pub(crate) mosi: bool,
    pub(crate) seen: Lines,
    pub(crate) sitting_out: bool,
}

impl Core {
    /// A core at power-on, or the setup refusal 1 (width), 2 (depth) or 3 (slave count).
    pub fn setup(width: u32, depth: u32, slave_count: u32) -> Result<Core, u8> {
        if !matches!(width, 8 | 16 | 32) {
            return Err(1);
        }
        if !matches!(depth, 0 | 16) {
            return Err(2);
        }
        if !(1..=32).contains(&slave_count) {
            return Err(3);
        }
        Ok(Core::power_on(width, depth, slave_count))
    }

    fn power_on(width: u32, depth: u32, slave_count: u32) -> Core {
        let store_size = depth.max(1) as usize;
        Core {
            width,
            depth,
            slave_count,
            control: Control::POWER_ON,
            global_interrupt_enable: false,
            interrupt_status: 0,
            interrupt_enable: 0,
            mode_fault: false,
            slave_select: low_bits(slave_count),
            tx_store: VecDeque::with_capacity(store_size),
            rx_store: VecDeque::with_capacity(store_size),
            transfer: Transfer::Idle,
            mosi: false,
            seen: Lines::POWER_ON,
            sitting_out: false,
        }
    }

    // 01, "A slave's lines": "SRR returns all but the seen line levels to power-on
    // values and sits out likewise."
    pub(crate) fn reset(&mut self) {
        let seen = self.seen;
        *self = Core::power_on(self.width, self.depth, self.slave_count);
        self.seen = seen;
        self.sit_out();
    }

    pub(crate) fn abandon(&mut self) {
        self.transfer = Transfer::Idle;
    }

    // "If SPISEL is already high, nothing is sat out."
    pub(crate) fn sit_out(&mut self) {
        self.sitting_out = !self.seen.spisel;
    }

    pub fn width(&self) -> u32 {
        self.width
    }

    pub fn depth(&self) -> u32 {
        self.depth
    }

    pub fn slave_count(&self) -> u32 {
        self.slave_count
    }

    pub fn control(&self) -> Control {
        self.control
    }

    /// No transfer is running and no gap tick is still to come.
    pub fn is_idle(&self) -> bool {
        self.transfer == Transfer::Idle
    }

    /// Line edges are not counted until SPISEL is high.
    pub fn is_sitting_out(&self) -> bool {
        self.sitting_out
    }

    /// The transmit elements still held, the head first.
    pub fn tx_held(&self) -> &VecDeque<u32> {
        &self.tx_store
    }

    /// The received elements still held, the oldest first.
    pub fn rx_held(&self) -> &VecDeque<u32> {
        &self.rx_store
    }

    pub fn is_enabled_master(&self) -> bool {
        self.control.enable && self.control.master
    }

    pub fn is_enabled_slave(&self) -> bool {
        self.control.enable && !self.control.master
    }

    /// The lines this core shows now.
    pub fn outputs(&self) -> Outputs {
        Outputs {
            sck: self.sck(),
            mosi: self.mosi,
            miso: self.miso(),
            interrupt: self.interrupt(),
            miso_driven: self.is_miso_driven(),
            ss: self.ss(),
        }
    }

    // 01, "A master's ticks": "Odd edges leave the idle level CPOL, even ones return."
    pub(crate) fn sck(&self) -> bool {
        match &self.transfer {
            Transfer::Shifting(shift) if self.is_enabled_master() => {
                self.control.cpol ^ (shift.edges % 2 == 1)
            }
            _ => self.control.cpol,
        }
    }

    // "SS lines are all high unless the core is an enabled master; then they show SPISSR,
    // in automatic mode only from start tick until the gap tick or an abandonment".
    pub(crate) fn ss(&self) -> u32 {
        let shows_select = self.control.manual_select || !self.is_idle();
        if self.is_enabled_master() && shows_select {
            self.slave_select
        } else {
            low_bits(self.slave_count)
        }
    }

    // "MISO is driven exactly while an enabled slave has SPISEL low; undriven it reads 1."
    pub(crate) fn is_miso_driven(&self) -> bool {
        self.is_enabled_slave() && !self.seen.spisel
    }

    // "Between elements MISO shows the first bit of the Tx head at CPHA 0 (0 if empty),
    // and 0 at CPHA 1. In mid-element it shows the bit being sent, and 0 while sitting out."
    pub(crate) fn miso(&self) -> bool {
        if !self.is_miso_driven() {
            return true;
        }
        if self.sitting_out {
            return false;
        }
        match &self.transfer {
            Transfer::Shifting(shift) => self.bit_being_sent(shift),
            _ if self.control.cpha => false,
            _ => match self.tx_store.front() {
                Some(&head) => self.bit_of(head, 0),
                None => false,
            },
        }
    }

    fn interrupt(&self) -> bool {
        self.global_interrupt_enable && self.interrupt_status & self.interrupt_enable != 0
    }
}

/// A word whose lowest `count` bits (1 to 32) are ones.
pub(crate) fn low_bits(count: u32) -> u32 {
    u32::MAX >> (32 - count)
}
