//! Helpers of the W83L784R's tests. Cells, bits and limits are worked out here
//! from the papers, apart from the program under test.

use super::Rng;
use reference::w83l784r::{Monitor, Sample};

/// Cell of a main register: 20h-5Fh, and 60h-7Fh the same as 20h-3Fh, then
/// 80h-9Fh.
pub fn at(index: u8) -> usize {
    match index {
        0x20..=0x5F => usize::from(index) - 0x20,
        0x60..=0x7F => usize::from(index) - 0x60,
        0x80..=0x9F => usize::from(index) - 0x80 + 64,
        _ => unreachable!(),
    }
}

/// Cells of a set, 96 on for sensor 2 and 104 on for sensor 3: value high, low.
pub fn value_at(sensor: u8) -> (usize, usize) {
    (set_at(sensor), set_at(sensor) + 1)
}

/// Configuration.
pub fn configuration_at(sensor: u8) -> usize {
    set_at(sensor) + 2
}

/// Hysteresis high, low.
pub fn hysteresis_at(sensor: u8) -> (usize, usize) {
    (set_at(sensor) + 3, set_at(sensor) + 4)
}

/// Over limit high, low.
pub fn over_at(sensor: u8) -> (usize, usize) {
    (set_at(sensor) + 5, set_at(sensor) + 6)
}

fn set_at(sensor: u8) -> usize {
    match sensor {
        2 => 96,
        3 => 104,
        _ => unreachable!(),
    }
}

/// Any state at all, also one that no list of calls reaches.
pub fn any_state(rng: &mut Rng) -> Monitor {
    let mut m = Monitor::power_on();
    for cell in m.registers.iter_mut() {
        *cell = rng.byte();
    }
    m.status_mark = [rng.mark(), rng.mark(), rng.mark()];
    m.ovt_mark = [rng.mark(), rng.mark(), rng.mark()];
    m.ovt_asserted = [rng.coin(), rng.coin(), rng.coin()];
    m.quotient = [rng.byte() as i8, rng.byte() as i8, rng.byte() as i8];
    m
}

/// Any state that takes samples: 40h bit 0 is 1 and bit 1 is 0.
pub fn any_running_state(rng: &mut Rng) -> Monitor {
    let mut m = any_state(rng);
    let configuration = &mut m.registers[at(0x40)];
    *configuration = *configuration & 0b1111_1100 | 0b01;
    m
}

pub fn any_sample(rng: &mut Rng) -> Sample {
    Sample {
        codes: [rng.byte(), rng.byte(), rng.byte(), rng.byte()],
        degrees: [rng.byte() as i8, rng.byte() as i8, rng.byte() as i8],
        u: [rng.count(), rng.count()],
    }
}

/// All zero: a sample that meets no condition on a quiet monitor.
pub const CALM: Sample = Sample {
    codes: [0; 4],
    degrees: [0; 3],
    u: [0; 2],
};

/// A monitor at power-on whose limits are set so that no condition is ever met.
pub fn quiet() -> Monitor {
    let mut m = Monitor::power_on();
    for high_limit in [0x2B, 0x2D, 0x2F, 0x31] {
        assert_eq!(m.write(high_limit, 0xFF), 0);
    }
    assert_eq!(m.write(0x39, 127), 0);
    assert_eq!(m.write(0x3A, 0x80), 0);
    for fan_limit in [0x3B, 0x3C] {
        assert_eq!(m.write(fan_limit, 0xFF), 0);
    }
    for sensor in [2, 3] {
        assert_eq!(m.write_sensor(sensor, 0x03, 0x7F80), 0);
        assert_eq!(m.write_sensor(sensor, 0x02, 0x8000), 0);
    }
    m
}

/// Sets over limit and hysteresis of a sensor 1 to 3, in half degrees (sensor 1
/// takes even ones only).
pub fn set_limits(m: &mut Monitor, sensor: u8, over: i16, hysteresis: i16) {
    if sensor == 1 {
        assert_eq!((over % 2, hysteresis % 2), (0, 0));
        assert_eq!(m.write(0x39, (over / 2) as u8), 0);
        assert_eq!(m.write(0x3A, (hysteresis / 2) as u8), 0);
    } else {
        assert_eq!(m.write_sensor(sensor, 0x03, (over * 128) as u16), 0);
        assert_eq!(m.write_sensor(sensor, 0x02, (hysteresis * 128) as u16), 0);
    }
}

/// A calm sample with one sensor at so many degrees.
pub fn at_degrees(sensor: u8, degrees: i8) -> Sample {
    let mut s = CALM;
    s.degrees[usize::from(sensor) - 1] = degrees;
    s
}

/// An accepted sample with one sensor at so many degrees and all else calm.
pub fn sample_at(m: &mut Monitor, sensor: u8, degrees: i8) {
    assert_eq!(m.sample(&at_degrees(sensor, degrees)), 0);
}

/// The code of a sensor's stored temperature, as a look shows it; its half degree
/// is 0.
pub fn stored(m: &Monitor, sensor: u8) -> i8 {
    if sensor == 1 {
        let (answer, byte) = m.look(0x27);
        assert_eq!(answer, 0);
        return byte as i8;
    }
    let (answer, word) = m.look_sensor(sensor, 0x00);
    assert_eq!((answer, word % 256), (0, 0));
    (word / 256) as u8 as i8
}

/// "The sample plus the signed offset byte, held within -128 to 127."
pub fn held(degrees: i8, offset: i8) -> i8 {
    let sum = i16::from(degrees) + i16::from(offset);
    match sum {
        i16::MIN..=-129 => -128,
        128..=i16::MAX => 127,
        _ => sum as i8,
    }
}

/// What a bus read gives, of a copy.
pub fn read_of(m: &Monitor, index: u8) -> (u8, u8) {
    let mut copy = *m;
    copy.read(index)
}

/// What a bus read of a set gives, of a copy.
pub fn read_sensor_of(m: &Monitor, sensor: u8, index: u8) -> (u8, u16) {
    let mut copy = *m;
    copy.read_sensor(sensor, index)
}

/// Reads a sensor's value on the bus: 27h, or 00h of its set.
pub fn read_value(m: &mut Monitor, sensor: u8) {
    let answer = match sensor {
        1 => m.read(0x27).0,
        _ => m.read_sensor(sensor, 0x00).0,
    };
    assert_eq!(answer, 0);
}

/// Reads 41h, which clears it, and gives the sensor's bit: 5, 6 or 7.
pub fn take_status(m: &mut Monitor, sensor: u8) -> bool {
    let (answer, byte) = m.read(0x41);
    assert_eq!(answer, 0);
    byte >> (4 + sensor) & 1 == 1
}

/// The real-time bit of fan 1 or 2: 46h bit 0, bit 1.
pub fn fan_rings(m: &Monitor, fan: u8) -> bool {
    let (answer, byte) = m.look(0x46);
    assert_eq!(answer, 0);
    byte >> (fan - 1) & 1 == 1
}
