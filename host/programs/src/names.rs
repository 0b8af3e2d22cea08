//! The name that `replay` gives a register.

use reference::w83782d::{find, REGISTERS};
use std::fmt::{self, Display, Formatter};

const RAILS: [&str; 7] = ["VCOREA", "VINR0", "+3.3V", "+5V", "+12V", "-12V", "-5V"];

/// 40h to 4Fh; there is no 45h.
const CONTROL: [&str; 16] = [
    "configuration",
    "interrupt status 1",
    "interrupt status 2",
    "SMI mask 1",
    "SMI mask 2",
    "",
    "chassis clear",
    "VID/fan divisor",
    "serial bus address",
    "device ID",
    "temperature 2 and 3 address",
    "pin control",
    "IRQ/OVT property",
    "fan and beep control",
    "bank select",
    "vendor ID",
];

/// 56h to 5Fh of bank 0.
const BANK_0: [&str; 10] = [
    "beep control 1",
    "beep control 2",
    "chip ID",
    "diode selection",
    "PWM 2 duty",
    "PWM 1 duty",
    "PWM clock",
    "VBAT monitor, fan divisor",
    "PWM 3 duty",
    "PWM 4 duty",
];

/// 50h to 56h of banks 1 and 2.
const TEMPERATURE: [&str; 7] = [
    "high byte",
    "low byte",
    "configuration",
    "hysteresis high byte",
    "hysteresis low byte",
    "over limit high byte",
    "over limit low byte",
];

/// The name of the register that an index reaches while a bank is selected.
pub struct Name {
    pub bank: u8,
    pub index: u8,
}

impl Display for Name {
    fn fmt(&self, f: &mut Formatter) -> fmt::Result {
        let Name { bank, index } = *self;
        let Some(cell) = find(bank, index) else {
            return f.write_str(match index {
                0x50..=0x5F => "no such bank",
                _ => "no register",
            });
        };
        let there_is = REGISTERS[cell].is_some();
        match (bank, index) {
            _ if !there_is => f.write_str("no register"),
            (1 | 2, 0x50..=0x5F) => {
                let name = TEMPERATURE[at(index, 0x50)];
                write!(f, "temperature {} {name}", bank + 1)
            }
            (4, 0x50..=0x5F) => write!(f, "real time status {}", index - 0x58),
            (_, 0x50..=0x5F) => f.write_str(BANK_0[at(index, 0x56)]),
            (_, 0x40..=0x4F) => f.write_str(CONTROL[at(index, 0x40)]),
            // "Index 60h to 7Fh is the same storage as 20h to 3Fh."
            (_, 0x60..=0x7F) => write_reading_or_limit(index - 0x40, f),
            _ => write_reading_or_limit(index, f),
        }
    }
}

fn at(index: u8, first: u8) -> usize {
    usize::from(index - first)
}

/// 20h to 3Dh.
fn write_reading_or_limit(index: u8, f: &mut Formatter) -> fmt::Result {
    match index {
        0x20..=0x26 => f.write_str(RAILS[at(index, 0x20)]),
        0x27 => f.write_str("temperature 1"),
        0x28..=0x2A => write!(f, "fan {} count", index - 0x27),
        // "High, low limit of each voltage in that order."
        0x2B..=0x38 => {
            let place = at(index, 0x2B);
            let (rail, end) = (RAILS[place / 2], ["high", "low"][place % 2]);
            write!(f, "{rail} {end} limit")
        }
        0x39 => f.write_str("temperature 1 over limit"),
        0x3A => f.write_str("temperature 1 hysteresis"),
        _ => write!(f, "fan {} count limit", index - 0x3A),
    }
}
