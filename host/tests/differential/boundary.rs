//! The C functions, with slices for pointer and length: the wrapper can't lend
//! an image of another length, and these tests must.

use reference::w83782d::Sample;

#[path = "../../src/raw.rs"]
mod raw;

/// Answer, and the byte of a read or a look, or the records that a replay accepted.
pub type Answer = (u8, u64);

/// "answer * 256 + byte"
fn answer_and_byte(word: u16) -> Answer {
    ((word / 256) as u8, (word % 256).into())
}

pub fn power_on(image: &mut [u8]) -> u8 {
    // SAFETY: pointer and length are those of the slice.
    unsafe { raw::w83782d_power_on(image.as_mut_ptr(), image.len()) }
}

pub fn write(image: &mut [u8], index: u8, value: u8) -> u8 {
    // SAFETY: pointer and length are those of the slice.
    unsafe { raw::w83782d_write(image.as_mut_ptr(), image.len(), index, value) }
}

pub fn read(image: &mut [u8], index: u8) -> Answer {
    // SAFETY: pointer and length are those of the slice.
    let word = unsafe { raw::w83782d_read(image.as_mut_ptr(), image.len(), index) };
    answer_and_byte(word)
}

pub fn look(image: &[u8], index: u8) -> Answer {
    // SAFETY: pointer and length are those of the slice.
    let word = unsafe { raw::w83782d_look(image.as_ptr(), image.len(), index) };
    answer_and_byte(word)
}

/// The sample's codes are lent apart, so that their length may be wrong.
pub fn sample(image: &mut [u8], volts: &[u8], sample: &Sample) -> u8 {
    // SAFETY: each pointer and the length after it are those of a slice.
    unsafe {
        raw::w83782d_sample(
            image.as_mut_ptr(),
            image.len(),
            volts.as_ptr(),
            volts.len(),
            sample.t1,
            sample.t2,
            sample.t3,
            sample.u[0],
            sample.u[1],
            sample.u[2],
        )
    }
}

pub fn set_plan(image: &mut [u8], fan: u8, rpm: u32) -> u8 {
    // SAFETY: pointer and length are those of the slice.
    unsafe { raw::w83782d_set_plan(image.as_mut_ptr(), image.len(), fan, rpm) }
}

pub fn event(image: &mut [u8], record: &[u8]) -> Answer {
    // SAFETY: each pointer and the length after it are those of a slice.
    let word = unsafe {
        raw::w83782d_event(
            image.as_mut_ptr(),
            image.len(),
            record.as_ptr(),
            record.len(),
        )
    };
    answer_and_byte(word)
}

/// "answer * 2^60 + records accepted"
pub fn replay(image: &mut [u8], log: &[u8]) -> Answer {
    // SAFETY: each pointer and the length after it are those of a slice.
    let word =
        unsafe { raw::w83782d_replay(image.as_mut_ptr(), image.len(), log.as_ptr(), log.len()) };
    ((word >> 60) as u8, word % (1 << 60))
}

/// "answer * 65536 + standing alarms * 256 + bit 0 SMI, bit 1 OVT of sensor 2,
/// bit 2 OVT of sensor 3"
pub fn outputs(image: &[u8]) -> (u32, u32, u32) {
    // SAFETY: pointer and length are those of the slice.
    let word = unsafe { raw::w83782d_outputs(image.as_ptr(), image.len()) };
    (word / 65536, word / 256 % 256, word % 256)
}

/// "top byte" and "low 24 bits"
pub fn speed(image: &[u8], fan: u8) -> (u32, u32) {
    // SAFETY: pointer and length are those of the slice.
    let word = unsafe { raw::w83782d_speed(image.as_ptr(), image.len(), fan) };
    (word >> 24, word & 0x00FF_FFFF)
}

/// "answer * 65536 + half degrees"
pub fn temperature(image: &[u8], sensor: u8) -> (u32, i16) {
    // SAFETY: pointer and length are those of the slice.
    let word = unsafe { raw::w83782d_temperature(image.as_ptr(), image.len(), sensor) };
    (word / 65536, (word % 65536) as i16)
}

pub fn chassis_opened(image: &mut [u8]) -> u8 {
    // SAFETY: pointer and length are those of the slice.
    unsafe { raw::w83782d_chassis_opened(image.as_mut_ptr(), image.len()) }
}

/// "answer * 65536 + divisor * 256 + limit"
pub fn plan(rpm: u32) -> (u32, u32, u32) {
    // SAFETY: numbers only.
    let word = unsafe { raw::w83782d_plan(rpm) };
    (word / 65536, word / 256 % 256, word % 256)
}

/// Answer and reading.
pub fn millivolts(channel: u8, code: u8, r5: u32, r6: u32) -> (u8, i32) {
    // SAFETY: numbers only.
    unsafe {
        (
            raw::w83782d_millivolts_answer(channel, r5, r6),
            raw::w83782d_millivolts(channel, code, r5, r6),
        )
    }
}

pub fn pwm_parts(x: u8) -> u16 {
    // SAFETY: numbers only.
    unsafe { raw::w83782d_pwm_parts(x) }
}

pub mod records {
    use super::raw;
    use reference::w83782d::Sample;

    pub fn decode(record: &[u8]) -> u8 {
        // SAFETY: pointer and length are those of the slice.
        unsafe { raw::w83782d_decode(record.as_ptr(), record.len()) }
    }

    pub fn record_at(log: &[u8], k: u64) -> u64 {
        // SAFETY: pointer and length are those of the slice.
        unsafe { raw::w83782d_record_at(log.as_ptr(), log.len(), k) }
    }

    pub fn record_write(index: u8, value: u8, out: &mut [u8]) -> u8 {
        // SAFETY: pointer and length are those of the slice.
        unsafe { raw::w83782d_record_write(index, value, out.as_mut_ptr(), out.len()) }
    }

    pub fn record_read(index: u8, out: &mut [u8]) -> u8 {
        // SAFETY: pointer and length are those of the slice.
        unsafe { raw::w83782d_record_read(index, out.as_mut_ptr(), out.len()) }
    }

    pub fn record_chassis(out: &mut [u8]) -> u8 {
        // SAFETY: pointer and length are those of the slice.
        unsafe { raw::w83782d_record_chassis(out.as_mut_ptr(), out.len()) }
    }

    /// The sample's codes are lent apart, so that their length may be wrong.
    pub fn record_sample(volts: &[u8], sample: &Sample, out: &mut [u8]) -> u8 {
        // SAFETY: each pointer and the length after it are those of a slice.
        unsafe {
            raw::w83782d_record_sample(
                volts.as_ptr(),
                volts.len(),
                sample.t1,
                sample.t2,
                sample.t3,
                sample.u[0],
                sample.u[1],
                sample.u[2],
                out.as_mut_ptr(),
                out.len(),
            )
        }
    }
}
