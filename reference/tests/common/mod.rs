//! Helpers of the tests. Addresses, bits and limits are worked out here from
//! the papers, apart from the program under test.
#![allow(dead_code)]

pub mod w83l784r;

use reference::w83782d::{Monitor, Sample};
use reference::Mark;

/// C-14, for a fan of either chip at a limit of 100 with divisor 2, so slow from 202
/// on: u of one sample after another, whether the fan is slow at it, and whether its
/// status bit is latched.
pub const CROSSINGS: [(u32, bool, bool); 9] = [
    (0, false, false),
    (201, false, false),
    (202, true, true),
    (203, true, false),
    (u32::MAX, true, false),
    (201, false, true),
    (0, false, false),
    (500, true, true),
    (0, false, true),
];

/// A small generator with a fixed seed (xorshift, 64 bits).
pub struct Rng(u64);

impl Rng {
    pub fn new(seed: u64) -> Rng {
        Rng(seed.wrapping_mul(0x9E37_79B9_7F4A_7C15) | 1)
    }

    pub fn next(&mut self) -> u64 {
        self.0 ^= self.0 << 13;
        self.0 ^= self.0 >> 7;
        self.0 ^= self.0 << 17;
        self.0
    }

    /// A number from 0 up to, not with, `n`.
    pub fn below(&mut self, n: u64) -> u64 {
        (self.next() >> 20) % n
    }

    pub fn byte(&mut self) -> u8 {
        (self.next() >> 32) as u8
    }

    pub fn coin(&mut self) -> bool {
        self.below(2) == 1
    }

    /// An undivided count, spread over all sizes.
    pub fn count(&mut self) -> u32 {
        let shift = self.below(33);
        ((self.next() >> 32) >> shift) as u32
    }

    pub fn mark(&mut self) -> Mark {
        if self.coin() {
            Mark::Hot
        } else {
            Mark::Armed
        }
    }
}

/// A speed to plan, spread over all sizes, at times one to be refused.
pub fn any_speed(rng: &mut Rng) -> u32 {
    match rng.below(12) {
        0 => 0,
        1 => 1_350_001 + rng.below(1 << 20) as u32,
        _ => {
            let shift = rng.below(21);
            (1 + (((rng.next() >> 32) % 1_350_000) >> shift)) as u32
        }
    }
}

/// Cell of a register: bank 0 20h-5Fh, then banks 1, 2, 4 from 50h up.
pub fn at(bank: u8, index: u8) -> usize {
    let index = usize::from(index);
    match bank {
        0 => index - 0x20,
        1 => index - 0x50 + 64,
        2 => index - 0x50 + 80,
        4 => index - 0x50 + 96,
        _ => unreachable!(),
    }
}

/// Any state at all, also one that no list of calls reaches.
pub fn any_state(rng: &mut Rng) -> Monitor {
    let mut m = Monitor::power_on();
    for cell in m.registers.iter_mut() {
        *cell = rng.byte();
    }
    m.chassis = rng.coin();
    m.status_mark = [rng.mark(), rng.mark(), rng.mark()];
    m.ovt_mark = [rng.mark(), rng.mark()];
    m.ovt_asserted = [rng.coin(), rng.coin()];
    m
}

/// A sample with sensors 2 and 3 inside -256 to 255 half degrees.
pub fn any_sample(rng: &mut Rng) -> Sample {
    let mut codes = [0; 7];
    for code in codes.iter_mut() {
        *code = rng.byte();
    }
    let mut u = [0; 3];
    for count in u.iter_mut() {
        *count = rng.count();
    }
    Sample {
        codes,
        t1: rng.byte() as i8,
        t2: rng.below(512) as i16 - 256,
        t3: rng.below(512) as i16 - 256,
        u,
    }
}

/// Selects a bank and keeps bit 7 of 4Eh.
pub fn select(m: &mut Monitor, bank: u8) {
    let bit_7 = m.look(0x4E).1 & 0x80;
    assert_eq!(m.write(0x4E, bit_7 | bank), 0);
}

/// The byte that a register shows, whatever bank is selected.
pub fn peek(m: &Monitor, bank: u8, index: u8) -> u8 {
    let mut copy = *m;
    select(&mut copy, bank);
    let (answer, byte) = copy.look(index);
    assert_eq!(answer, 0);
    byte
}

/// A write to a banked register; the selected bank is put back.
pub fn poke(m: &mut Monitor, bank: u8, index: u8, value: u8) {
    let before = m.look(0x4E).1;
    select(m, bank);
    assert_eq!(m.write(index, value), 0);
    assert_eq!(m.write(0x4E, before), 0);
}

/// All zero: a sample that meets no condition on a quiet monitor.
pub const CALM: Sample = Sample {
    codes: [0; 7],
    t1: 0,
    t2: 0,
    t3: 0,
    u: [0; 3],
};

/// A monitor at power-on whose limits are set so that no condition is ever met.
pub fn quiet() -> Monitor {
    let mut m = Monitor::power_on();
    for channel in 0..7 {
        assert_eq!(m.write(0x2B + 2 * channel, 0xFF), 0);
    }
    assert_eq!(m.write(0x39, 0x7F), 0);
    for fan in 0..3 {
        assert_eq!(m.write(0x3B + fan, 0xFF), 0);
    }
    for bank in [1, 2] {
        poke(&mut m, bank, 0x55, 0x7F);
        poke(&mut m, bank, 0x56, 0x80);
    }
    m
}

/// Sets over limit and hysteresis of a sensor 1 to 3, in half degrees (sensor 1
/// takes even ones only).
pub fn set_limits(m: &mut Monitor, sensor: u8, over: i16, hysteresis: i16) {
    if sensor == 1 {
        assert_eq!(over % 2, 0);
        assert_eq!(hysteresis % 2, 0);
        assert_eq!(m.write(0x39, (over / 2) as u8), 0);
        assert_eq!(m.write(0x3A, (hysteresis / 2) as u8), 0);
    } else {
        let bank = sensor - 1;
        poke(m, bank, 0x53, hysteresis.div_euclid(2) as u8);
        poke(m, bank, 0x54, (hysteresis.rem_euclid(2) as u8) << 7);
        poke(m, bank, 0x55, over.div_euclid(2) as u8);
        poke(m, bank, 0x56, (over.rem_euclid(2) as u8) << 7);
    }
}

/// A calm sample with one sensor at so many half degrees.
pub fn at_temperature(sensor: u8, half_degrees: i16) -> Sample {
    let mut s = CALM;
    match sensor {
        1 => {
            assert_eq!(half_degrees % 2, 0);
            s.t1 = (half_degrees / 2) as i8;
        }
        2 => s.t2 = half_degrees,
        _ => s.t3 = half_degrees,
    }
    s
}

/// Reads 41h and 42h, which clears them, and gives the sensor's bit: 41h bit 4,
/// 41h bit 5, 42h bit 5.
pub fn take_status(m: &mut Monitor, sensor: u8) -> bool {
    let status = [m.read(0x41).1, m.read(0x42).1];
    let (byte, bit) = [(0, 4), (0, 5), (1, 5)][usize::from(sensor) - 1];
    status[byte] >> bit & 1 == 1
}

/// The real-time bit of fan 1 to 3: bank 4 59h bit 6, 59h bit 7, 5Ah bit 3.
pub fn fan_rings(m: &Monitor, fan: u8) -> bool {
    let (index, bit) = [(0x59, 6), (0x59, 7), (0x5A, 3)][usize::from(fan) - 1];
    m.registers[at(4, index)] >> bit & 1 == 1
}
