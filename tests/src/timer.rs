//! One of the two timers (document 02, request 2).

// Control: "bit 15 interrupt, bit 0 start, others stored as 0".
pub const INTERRUPT: u16 = 0x8000;
pub const START: u16 = 0x0001;
/// The control bits that exist.
pub const CONTROL_BITS: u16 = INTERRUPT | START;

/// A good timer's count is below its period, or both are 0.
#[derive(Clone, Copy, Debug, Default, PartialEq, Eq)]
pub struct Timer {
    pub count: u16,
    pub period: u16,
    pub control: u16,
    pub fired: bool,
}

impl Timer {
    /// "Set the period, which zeroes the count." Fired and control stay.
    pub fn set_period(&mut self, value: u16) {
        self.period = value;
        self.count = 0;
    }

    /// Count, period and fired stay.
    pub fn set_control(&mut self, value: u16) {
        self.control = value & CONTROL_BITS;
    }

    /// "Read fired in bit 15, clearing it."
    pub fn take_fired(&mut self) -> u16 {
        if std::mem::take(&mut self.fired) {
            0x8000
        } else {
            0
        }
    }

    /// One millisecond: "on reaching its period the count returns to 0, fired is set". True if it fires. "Period 0 never
    /// fires and keeps count 0."
    pub fn millisecond(&mut self) -> bool {
        if self.control & START == 0 || self.period == 0 {
            return false;
        }
        self.count += 1;
        if self.count < self.period {
            return false;
        }
        self.count = 0;
        self.fired = true;
        true
    }
}
