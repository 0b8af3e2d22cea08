//! The archive's functions, as `include/w83782d.h` declares them.

extern "C" {
    pub fn w83782d_power_on(image: *mut u8, n: usize) -> u8;
    pub fn w83782d_write(image: *mut u8, n: usize, index: u8, value: u8) -> u8;
    pub fn w83782d_read(image: *mut u8, n: usize, index: u8) -> u16;
    pub fn w83782d_look(image: *const u8, n: usize, index: u8) -> u16;
    pub fn w83782d_chassis_opened(image: *mut u8, n: usize) -> u8;
    pub fn w83782d_sample(
        image: *mut u8,
        n: usize,
        volts: *const u8,
        v: usize,
        t1: i8,
        t2: i16,
        t3: i16,
        u1: u32,
        u2: u32,
        u3: u32,
    ) -> u8;
    pub fn w83782d_set_plan(image: *mut u8, n: usize, fan: u8, rpm: u32) -> u8;
    pub fn w83782d_event(image: *mut u8, n: usize, record: *const u8, m: usize) -> u16;
    pub fn w83782d_replay(image: *mut u8, n: usize, log: *const u8, m: usize) -> u64;
    pub fn w83782d_outputs(image: *const u8, n: usize) -> u32;
    pub fn w83782d_speed(image: *const u8, n: usize, fan: u8) -> u32;
    pub fn w83782d_temperature(image: *const u8, n: usize, sensor: u8) -> u32;
    pub fn w83782d_plan(rpm: u32) -> u32;
    pub fn w83782d_millivolts_answer(channel: u8, r5: u32, r6: u32) -> u8;
    pub fn w83782d_millivolts(channel: u8, code: u8, r5: u32, r6: u32) -> i32;
    pub fn w83782d_pwm_parts(x: u8) -> u16;
    pub fn w83782d_decode(record: *const u8, m: usize) -> u8;
    pub fn w83782d_record_at(log: *const u8, m: usize, k: u64) -> u64;
    pub fn w83782d_record_write(index: u8, value: u8, out: *mut u8, m: usize) -> u8;
    pub fn w83782d_record_read(index: u8, out: *mut u8, m: usize) -> u8;
    pub fn w83782d_record_chassis(out: *mut u8, m: usize) -> u8;
    pub fn w83782d_record_sample(
        volts: *const u8,
        v: usize,
        t1: i8,
        t2: i16,
        t3: i16,
        u1: u32,
        u2: u32,
        u3: u32,
        out: *mut u8,
        m: usize,
    ) -> u8;
}
