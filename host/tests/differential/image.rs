//! The image's layout: cells 0-111, chassis 112, sensor 1's mark 113, then
//! status mark, OVT mark and asserted of sensor 2 (114-116) and sensor 3
//! (117-119), spare 120-127. A flag of 0 is closed, armed or released, any other
//! value opened, hot or asserted.

use crate::common::rng::Rng;
use reference::w83782d::{cell, Monitor, CELLS};
use reference::Mark;

pub const LENGTH: usize = 128;
pub const CHASSIS: usize = 112;
pub const SPARE: usize = 120;

pub type Image = [u8; LENGTH];

/// The state in an image.
pub fn state_in(image: &Image) -> Monitor {
    let flag = |at: usize| image[at] != 0;
    let mark = |at: usize| if flag(at) { Mark::Hot } else { Mark::Armed };
    let mut registers = [0; CELLS];
    registers.copy_from_slice(&image[..CELLS]);
    Monitor {
        registers,
        chassis: flag(CHASSIS),
        status_mark: [mark(113), mark(114), mark(117)],
        ovt_mark: [mark(115), mark(118)],
        ovt_asserted: [flag(116), flag(119)],
    }
}

/// The image that an accepted call leaves: flags 0 or 1, and the spare bytes.
pub fn image_of(monitor: &Monitor, spare: &[u8]) -> Image {
    let mark = |mark: Mark| u8::from(mark == Mark::Hot);
    let mut image = [0; LENGTH];
    image[..CELLS].copy_from_slice(&monitor.registers);
    image[CHASSIS] = u8::from(monitor.chassis);
    image[113] = mark(monitor.status_mark[0]);
    for sensor in 0..2 {
        let at = 114 + 3 * sensor;
        image[at] = mark(monitor.status_mark[1 + sensor]);
        image[at + 1] = mark(monitor.ovt_mark[sensor]);
        image[at + 2] = u8::from(monitor.ovt_asserted[sensor]);
    }
    image[SPARE..].copy_from_slice(spare);
    image
}

pub fn power_on() -> Image {
    image_of(&Monitor::power_on(), &[0; LENGTH - SPARE])
}

/// Any cells, any flags, odd flag bytes among them.
pub fn random(rng: &mut Rng) -> Image {
    let mut image = [0; LENGTH];
    image.fill_with(|| rng.byte());
    for flag in &mut image[CHASSIS..SPARE] {
        *flag = match rng.below(3) {
            0 => 0,
            1 => rng.pick(&[0x01, 0x80, 0xA5, 0xFF]),
            _ => *flag,
        };
    }
    image
}

/// Power-on with a few bits changed, anywhere.
pub fn near_power_on(rng: &mut Rng) -> Image {
    let mut image = power_on();
    for _ in 0..rng.below(24) {
        image[rng.below(LENGTH as u64) as usize] ^= 1 << rng.below(8);
    }
    image
}

/// The image with a bank selected; the other bits of 4Eh stay.
pub fn in_bank(image: &Image, bank: u8) -> Image {
    let select = cell(0, 0x4E);
    let mut image = *image;
    image[select] = image[select] & 0xF8 | bank;
    image
}

/// Where a byte of the image lies.
pub fn place(at: usize) -> String {
    match at {
        0..=47 => format!("cell of {:02X}h", at + 0x20),
        48..=63 => format!("cell of bank 0 {:02X}h", at + 0x20),
        64..=79 => format!("cell of bank 1 {:02X}h", at - 64 + 0x50),
        80..=95 => format!("cell of bank 2 {:02X}h", at - 80 + 0x50),
        96..=111 => format!("cell of bank 4 {:02X}h", at - 96 + 0x50),
        112 => "chassis latch".into(),
        113 => "sensor 1 mark".into(),
        114..=119 => {
            let flag = ["status mark", "OVT mark", "OVT output"][(at - 114) % 3];
            format!("sensor {} {flag}", 2 + (at - 114) / 3)
        }
        _ => format!("spare byte {at}"),
    }
}
