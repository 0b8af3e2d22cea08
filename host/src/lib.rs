//! The hardware monitor W83782D for Rust firmware: a small safe wrapper over the
//! proved library.
//!
//! A [`Monitor`] answers bus accesses as the chip does, takes samples, sets fan
//! alarms and shows alarms, outputs and readings. What the rules refuse is an
//! `Err` with a [`Refusal`], and changes nothing. [`plan`], [`millivolts`] and
//! [`pwm_parts`] need no monitor.
//!
//! The proved code is the archive `libw83782d_c.a`, which `rt lib --cpu x86-64` in
//! `crates/w83782d_c` makes. It needs no other library; this crate needs only
//! `core`.

#![no_std]

mod raw;
mod readings;
mod records;
mod refusal;

pub use readings::{Outputs, Speed};
pub use records::{record_at, Record, Replay, Sample, RECORD_SIZE};
pub use refusal::Refusal;

/// Bytes of a monitor's image.
pub const IMAGE_SIZE: usize = 128;

/// A hardware monitor W83782D.
///
/// It owns its image, the bytes that are its whole state. Any bytes are some
/// state, so an image may be saved and put back.
///
/// ```
/// use w83782d::{Monitor, Refusal};
///
/// let mut monitor = Monitor::power_on();
/// // 4Eh bit 7 selects which byte of the vendor ID 4Fh reads.
/// monitor.write(0x4E, 0x80)?;
/// assert_eq!(monitor.read(0x4F), Ok(0x5C));
/// monitor.write(0x4E, 0x00)?;
/// assert_eq!(monitor.read(0x4F), Ok(0xA3));
/// // The chip ID is read-only.
/// assert_eq!(monitor.write(0x58, 0xFF), Err(Refusal::ReadOnly));
/// assert_eq!(monitor.read(0x58), Ok(0x30));
/// # Ok::<(), Refusal>(())
/// ```
#[derive(Clone, Debug)]
pub struct Monitor {
    image: [u8; IMAGE_SIZE],
}

impl Monitor {
    /// A monitor at power-on. No plan is in force and the chassis latch is clear.
    #[must_use]
    pub fn power_on() -> Monitor {
        let mut image = [0; IMAGE_SIZE];
        // SAFETY: pointer and length are those of `image`, which is lent for the call.
        let answer = unsafe { raw::w83782d_power_on(image.as_mut_ptr(), IMAGE_SIZE) };
        debug_assert_eq!(answer, 0, "refused only for an image of another length");
        Monitor { image }
    }

    /// The monitor whose image was kept from [`Monitor::image`].
    #[must_use]
    pub const fn from_image(image: [u8; IMAGE_SIZE]) -> Monitor {
        Monitor { image }
    }

    /// The whole state, to keep.
    #[must_use]
    pub const fn image(&self) -> &[u8; IMAGE_SIZE] {
        &self.image
    }

    /// Bus write. [`Refusal::NoRegister`] or [`Refusal::ReadOnly`] leaves the
    /// monitor as it was.
    pub fn write(&mut self, index: u8, value: u8) -> Result<(), Refusal> {
        // SAFETY: pointer and length are those of the image, which is lent for the call.
        let answer =
            unsafe { raw::w83782d_write(self.image.as_mut_ptr(), IMAGE_SIZE, index, value) };
        refusal::accepted(answer)
    }

    /// Bus read, with its effects: reading 41h or 42h clears it, and reading 50h
    /// of bank 1 or 2 releases OVT in interrupt mode. [`Refusal::NoRegister`]
    /// leaves the monitor as it was. [`Monitor::look`] shows the same without them.
    pub fn read(&mut self, index: u8) -> Result<u8, Refusal> {
        // SAFETY: pointer and length are those of the image, which is lent for the call.
        let word = unsafe { raw::w83782d_read(self.image.as_mut_ptr(), IMAGE_SIZE, index) };
        refusal::byte(word)
    }

    /// What [`Monitor::read`] would give, [`Refusal::NoRegister`] included, without its
    /// effects: a diagnostics screen clears no alarm by showing it. The bank is the one
    /// that 4Eh selects.
    ///
    /// ```
    /// use w83782d::{Monitor, Sample};
    ///
    /// let mut monitor = Monitor::power_on();
    /// let sample = Sample {
    ///     codes: [0; 7],
    ///     sensor_1: 0,
    ///     sensor_2: 0,
    ///     sensor_3: 0,
    ///     counts: [2, 0, 0],
    /// };
    /// monitor.sample(&sample)?;
    /// // The limit of fan 1 is 0 at power-on.
    /// assert_eq!(monitor.look(0x41), Ok(0x40));
    /// assert_eq!(monitor.look(0x41), Ok(0x40));
    /// assert_eq!(monitor.read(0x41), Ok(0x40));
    /// assert_eq!(monitor.look(0x41), Ok(0x00));
    /// # Ok::<(), w83782d::Refusal>(())
    /// ```
    pub fn look(&self, index: u8) -> Result<u8, Refusal> {
        // SAFETY: pointer and length are those of the image, which is lent for the call.
        let word = unsafe { raw::w83782d_look(self.image.as_ptr(), IMAGE_SIZE, index) };
        refusal::byte(word)
    }

    /// The chassis was opened: sets the chassis latch, in standby too.
    pub fn chassis_opened(&mut self) {
        // SAFETY: pointer and length are those of the image, which is lent for the call.
        let answer = unsafe { raw::w83782d_chassis_opened(self.image.as_mut_ptr(), IMAGE_SIZE) };
        debug_assert_eq!(answer, 0, "refused only for an image of another length");
    }

    /// A sample: stores its readings, sets the real-time bits, latches status and
    /// moves OVT. [`Refusal::BadTemperature`] or [`Refusal::NotMonitoring`] leaves
    /// the monitor as it was. A measurement of sensor 1 beyond -128 to 127 is held
    /// at the nearer end by the caller: `130 as i8` is -126, an alarm lost.
    ///
    /// A fan's status bit is latched when the fan gets slow and when it is no longer
    /// slow: after a read of 41h or 42h a fan that stays slow doesn't assert SMI
    /// again, and one that recovers does. Whether it was slow at the last accepted
    /// sample is its real-time bit (bank 4, bits 6 and 7 of 59h, bit 3 of 5Ah), 0
    /// after power-on and a reset.
    ///
    /// ```
    /// use w83782d::{Monitor, Refusal, Sample, Speed};
    ///
    /// let mut monitor = Monitor::power_on();
    /// // SMI enabled, monitoring started; no limit is set yet.
    /// monitor.write(0x40, 0x03)?;
    /// let sample = Sample {
    ///     codes: [0; 7],
    ///     sensor_1: -5,
    ///     sensor_2: 81,
    ///     sensor_3: 161,
    ///     // Divisor 2 at power-on.
    ///     counts: [306, 0, u32::MAX],
    /// };
    /// monitor.sample(&sample)?;
    /// assert_eq!(monitor.speed(1), Ok(Speed::Tenths(44_118)));
    /// assert_eq!(monitor.speed(2), Ok(Speed::TooFast));
    /// assert_eq!(monitor.speed(3), Ok(Speed::TooSlow));
    /// assert_eq!(monitor.temperature(1), Ok(-10));
    /// assert_eq!(monitor.temperature(2), Ok(81));
    /// assert_eq!(monitor.temperature(4), Err(Refusal::NoChannel));
    /// // Fans 1 and 3, and sensor 3, which is above 80 degrees.
    /// let outputs = monitor.outputs();
    /// assert_eq!(outputs.standing_alarms, 3);
    /// assert!(outputs.smi && !outputs.ovt2 && outputs.ovt3);
    /// # Ok::<(), Refusal>(())
    /// ```
    pub fn sample(&mut self, sample: &Sample) -> Result<(), Refusal> {
        let [u1, u2, u3] = sample.counts;
        // SAFETY: each pointer and the length after it are those of an array, which is lent
        // for the call; the two arrays are different ones.
        let answer = unsafe {
            raw::w83782d_sample(
                self.image.as_mut_ptr(),
                IMAGE_SIZE,
                sample.codes.as_ptr(),
                sample.codes.len(),
                sample.sensor_1,
                sample.sensor_2,
                sample.sensor_3,
                u1,
                u2,
                u3,
            )
        };
        refusal::accepted(answer)
    }

    /// Sets the [`plan`] of a fan alarm at a speed in whole rpm (not the tenths that
    /// [`Monitor::speed`] reads) on fan 1, 2 or 3: writes that fan's count limit and
    /// its three divisor bits, and nothing else, whatever bank is selected and
    /// whether or not monitoring is stopped. Stored counts and real-time bits wait
    /// for the next sample, which may then latch the fan's status bit, either way.
    /// [`Refusal::NoChannel`] or [`Refusal::BadSpeed`] leaves the monitor as it was.
    ///
    /// From then on an accepted sample sets the fan's real-time bit exactly when
    /// its undivided count is (limit + 1) * divisor or more, until the first of
    /// these: a reset by 40h bit 7, an accepted write that gives a bit of that
    /// fan's limit or divisor another value (either may come in a record too), the
    /// next accepted plan on that fan.
    ///
    /// ```
    /// use w83782d::{Monitor, Refusal, Sample};
    ///
    /// let mut monitor = Monitor::power_on();
    /// // Divisor 2, limit 152.
    /// monitor.set_plan(1, 4_400)?;
    /// let mut sample = Sample {
    ///     codes: [0; 7],
    ///     sensor_1: 0,
    ///     sensor_2: 0,
    ///     sensor_3: 0,
    ///     counts: [305, 0, 0],
    /// };
    /// monitor.sample(&sample)?;
    /// assert_eq!(monitor.outputs().standing_alarms, 0);
    /// sample.counts[0] = 306;
    /// monitor.sample(&sample)?;
    /// assert_eq!(monitor.outputs().standing_alarms, 1);
    /// assert_eq!(monitor.set_plan(4, 4_400), Err(Refusal::NoChannel));
    /// assert_eq!(monitor.set_plan(1, 0), Err(Refusal::BadSpeed));
    /// # Ok::<(), Refusal>(())
    /// ```
    pub fn set_plan(&mut self, fan: u8, rpm: u32) -> Result<(), Refusal> {
        // SAFETY: pointer and length are those of the image, which is lent for the call.
        let answer =
            unsafe { raw::w83782d_set_plan(self.image.as_mut_ptr(), IMAGE_SIZE, fan, rpm) };
        refusal::accepted(answer)
    }
}

/// How a fan alarm is set: the divisor and the count limit.
#[derive(Clone, Copy, Debug, PartialEq, Eq)]
pub struct Plan {
    /// 1, 2, 4, .. 128.
    pub divisor: u8,
    /// 0 to 254.
    pub limit: u8,
}

/// The plan of a fan alarm at a speed in whole rpm, which rings at that speed and at
/// every slower one, or [`Refusal::BadSpeed`]. [`Monitor::set_plan`] sets it.
///
/// ```
/// use w83782d::{plan, Plan, Refusal};
///
/// assert_eq!(plan(4_400), Ok(Plan { divisor: 2, limit: 152 }));
/// assert_eq!(plan(0), Err(Refusal::BadSpeed));
/// ```
pub fn plan(rpm: u32) -> Result<Plan, Refusal> {
    // SAFETY: takes and returns numbers only.
    let word = unsafe { raw::w83782d_plan(rpm) };
    let [_, answer, divisor, limit] = word.to_be_bytes();
    refusal::accepted(answer)?;
    Ok(Plan { divisor, limit })
}

/// The millivolts of a code on a voltage channel, 0 to 6: VCOREA, VINR0, +3.3,
/// +5, +12, -12, -5. Resistors R5 and R6 are in kilo-ohm, 1 to 1,000, and count
/// for channels 5 and 6 only. Anything else is [`Refusal::NoChannel`].
///
/// ```
/// use w83782d::{millivolts, Refusal};
///
/// assert_eq!(millivolts(3, 186, 0, 0), Ok(5_000));
/// assert_eq!(millivolts(5, 35, 232, 56), Ok(-12_034));
/// assert_eq!(millivolts(5, 35, 232, 0), Err(Refusal::NoChannel));
/// ```
pub fn millivolts(channel: u8, code: u8, r5: u32, r6: u32) -> Result<i32, Refusal> {
    // SAFETY: takes and returns numbers only.
    let answer = unsafe { raw::w83782d_millivolts_answer(channel, r5, r6) };
    refusal::accepted(answer)?;
    // SAFETY: takes and returns numbers only.
    Ok(unsafe { raw::w83782d_millivolts(channel, code, r5, r6) })
}

/// How many of 256 parts a PWM duty byte is on: the byte, and 256 for FFh.
#[must_use]
pub fn pwm_parts(duty: u8) -> u16 {
    // SAFETY: takes and returns numbers only.
    unsafe { raw::w83782d_pwm_parts(duty) }
}
