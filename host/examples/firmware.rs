//! Firmware of a controller that takes the place of the W83782D: start with or without
//! a kept image, fan alarms, bus accesses, a sample a second, SMI and OVT, a log.
//! `examples/c/firmware.c` is the same in C and prints the same lines.
//!
//!     (cd crates/w83782d_c && rt lib --cpu x86-64)
//!     cd host && cargo run --example firmware
//!
//! What the board would do is at the end, as stand-ins that print.

use board::{Access, Board, SECONDS};
use w83782d::{millivolts, Monitor, Record, Refusal, Sample, Speed};

/// Limits of the rails, high before low, then of sensor 1: those of power-on are 0
/// and would ring at the first sample. Last 40h, SMI enabled and monitoring on.
#[rustfmt::skip]
const SETTINGS: [(u8, u8); 17] = [
    (0x2B, 105), (0x2C, 95), (0x2D, 99), (0x2E, 89), (0x2F, 216), (0x30, 196),
    (0x31, 195), (0x32, 177), (0x33, 207), (0x34, 187), (0x35, 49), (0x36, 21),
    (0x37, 63), (0x38, 45), (0x39, 60), (0x3A, 55), (0x40, 0x03),
];

/// Fans, and the speeds in rpm at which they ring, as at every slower one.
const ALARMS: [(u8, u32); 3] = [(1, 4_400), (2, 2_641), (3, 1_000)];

/// Voltage channel of +12, whose reading needs no resistors, and the register of
/// its code, which a read leaves as it is.
const PLUS_12: u8 = 4;
const PLUS_12_CODE: u8 = 0x24;

struct Firmware {
    monitor: Monitor,
    /// The chip's index pointer, which stays from one bus access to the next.
    index: u8,
    /// The first byte after the bus address of a write is the index.
    index_is_next: bool,
}

impl Firmware {
    /// A controller that restarts goes on where it was; one that has nothing kept
    /// is the chip at power-on, and is given its settings.
    fn start(board: &mut Board) -> Result<Firmware, Refusal> {
        let monitor = match board.kept_image() {
            Some(image) => {
                println!("start: image restored");
                Monitor::from_image(image)
            }
            None => {
                println!("start: nothing kept, power-on");
                commissioned()?
            }
        };
        let firmware = Firmware {
            monitor,
            index: 0,
            index_is_next: false,
        };
        // The pins don't outlast a restart: an alarm that is on is shown at once.
        firmware.drive_pins(board);
        Ok(firmware)
    }

    // ---- The bus: what the I2C peripheral's interrupts call

    fn bus_addressed_for_write(&mut self) {
        self.index_is_next = true;
    }

    /// Every byte is acknowledged: a refusal is about a register, and the bus is in
    /// order.
    fn bus_received(&mut self, byte: u8, board: &mut Board) {
        if self.index_is_next {
            self.index = byte;
            self.index_is_next = false;
            return;
        }
        match self.monitor.write(self.index, byte) {
            Ok(()) => board.log(&Record::write(self.index, byte)),
            Err(refusal) => board.note("write to", self.index, refusal),
        }
    }

    /// The byte to send. A master that reads is owed one: of a refused read it is 0.
    fn bus_requested(&mut self, board: &mut Board) -> u8 {
        match self.monitor.read(self.index) {
            Ok(byte) => {
                board.log(&Record::read(self.index));
                byte
            }
            Err(refusal) => {
                board.note("read of", self.index, refusal);
                0x00
            }
        }
    }

    // ---- Events of the cabinet

    fn chassis_opened(&mut self, board: &mut Board) {
        self.monitor.chassis_opened();
        board.log(&Record::chassis_opened());
    }

    /// Once a second. While the bus master has stopped monitoring a sample is
    /// refused, which is no fault.
    fn sample(&mut self, board: &mut Board) -> Result<(), Refusal> {
        let sample = Sample {
            codes: board.voltages(),
            sensor_1: board.sensor_1(),
            sensor_2: board.sensor_2(),
            sensor_3: board.sensor_3(),
            counts: [1, 2, 3].map(|fan| board.count(fan)),
        };
        match self.monitor.sample(&sample) {
            Ok(()) => board.log(&Record::sample(&sample)?),
            Err(Refusal::NotMonitoring) => {}
            Err(refusal) => return Err(refusal),
        }
        Ok(())
    }

    /// After every event. The chip has one OVT pin for sensors 2 and 3.
    fn drive_pins(&self, board: &mut Board) {
        let outputs = self.monitor.outputs();
        board.drive_smi(outputs.smi);
        board.drive_ovt(outputs.ovt2 || outputs.ovt3);
    }

    /// Readings for people, from what the last sample stored.
    fn show(&mut self, second: usize) -> Result<(), Refusal> {
        let code = self.monitor.read(PLUS_12_CODE)?;
        let millivolts = millivolts(PLUS_12, code, 0, 0)?;
        let half_degrees = self.monitor.temperature(2)?;
        print!("{second} s: +12 at {millivolts} mV, ");
        print!("sensor 2 at {:.1}, fan 1 ", f64::from(half_degrees) / 2.0);
        match self.monitor.speed(1)? {
            Speed::Tenths(tenths) => print!("at {:.1} rpm", f64::from(tenths) / 10.0),
            Speed::TooFast => print!("too fast"),
            Speed::TooSlow => print!("too slow"),
        }
        println!(", alarms {}", self.monitor.outputs().standing_alarms);
        Ok(())
    }
}

/// A monitor at power-on with its settings and fan alarms. An alarm leaves the
/// divisors of the other fans, which share registers with its own.
fn commissioned() -> Result<Monitor, Refusal> {
    let mut monitor = Monitor::power_on();
    for (index, value) in SETTINGS {
        monitor.write(index, value)?;
    }
    for (fan, rpm) in ALARMS {
        monitor.set_plan(fan, rpm)?;
        println!("fan {fan}: alarm at {rpm} rpm");
    }
    Ok(monitor)
}

/// One bus access as the peripheral's interrupts tell it.
fn serve(access: Access, firmware: &mut Firmware, board: &mut Board) {
    firmware.bus_addressed_for_write();
    match access {
        Access::Read(index) => {
            firmware.bus_received(index, board);
            let byte = firmware.bus_requested(board);
            println!("bus: {index:02X}h gives {byte:02X}h");
        }
        Access::Write(index, value) => {
            println!("bus: {value:02X}h to {index:02X}h");
            firmware.bus_received(index, board);
            firmware.bus_received(value, board);
        }
    }
}

/// So many seconds of the main loop.
fn run(seconds: &[usize], firmware: &mut Firmware, board: &mut Board) -> Result<(), Refusal> {
    for &second in seconds {
        board.tick(second);
        for &access in board.accesses() {
            serve(access, firmware, board);
            firmware.drive_pins(board);
        }
        if board.chassis_switch() {
            firmware.chassis_opened(board);
            firmware.drive_pins(board);
        }
        firmware.sample(board)?;
        firmware.drive_pins(board);
        firmware.show(second)?;
        board.keep_image(firmware.monitor.image());
    }
    Ok(())
}

fn main() -> Result<(), Refusal> {
    let mut board = Board::new();
    let mut firmware = Firmware::start(&mut board)?;
    let first = firmware.monitor.clone();
    let (before, after) = SECONDS.split_at(3);
    run(before, &mut firmware, &mut board)?;

    // The controller restarts while the cabinet runs on; its pins are released.
    board.release_pins();
    firmware = Firmware::start(&mut board)?;
    run(after, &mut firmware, &mut board)?;

    // What the log is for: from the same image it gives the same monitor again.
    let mut again = first;
    let replay = again.replay(board.logged());
    replay.end?;
    let same = again.image() == firmware.monitor.image();
    println!(
        "log: {} records, {}",
        replay.accepted,
        if same { "same image" } else { "ANOTHER image" }
    );
    Ok(())
}

/// Stand-ins for the board's functions: five seconds of a cabinet.
mod board {
    use w83782d::{Record, Refusal, IMAGE_SIZE};

    #[derive(Clone, Copy)]
    pub enum Access {
        Read(u8),
        Write(u8, u8),
    }

    pub const SECONDS: [usize; 5] = [1, 2, 3, 4, 5];

    /// What the bus master wants in each second: the chip ID; a reserved index and
    /// a read-only one; status twice, which the first read clears; another limit
    /// for VCOREA; status.
    const ACCESSES: [&[Access]; 5] = [
        &[Access::Read(0x58)],
        &[Access::Read(0x45), Access::Write(0x58, 0xFF)],
        &[Access::Read(0x41), Access::Read(0x41)],
        &[Access::Write(0x2B, 0x6A)],
        &[Access::Read(0x41)],
    ];
    const SENSOR_2_HALF_DEGREES: [i16; 5] = [80, 80, 81, 161, 149];
    /// Slow in the second second, recovered in the third: both latch its status bit.
    const FAN_1_RPM: [u32; 5] = [5_000, 4_400, 5_000, 5_000, 5_000];

    pub struct Board {
        moment: usize,
        kept: Option<[u8; IMAGE_SIZE]>,
        log: Vec<u8>,
        smi: bool,
        ovt: bool,
    }

    impl Board {
        pub fn new() -> Board {
            Board {
                moment: 0,
                kept: None,
                log: Vec::new(),
                smi: false,
                ovt: false,
            }
        }

        pub fn release_pins(&mut self) {
            (self.smi, self.ovt) = (false, false);
        }

        pub fn tick(&mut self, second: usize) {
            self.moment = second - 1;
        }

        /// Memory that outlives a restart. A board checks that what it holds is
        /// whole (a sum, a mark): any bytes are some monitor.
        pub fn kept_image(&self) -> Option<[u8; IMAGE_SIZE]> {
            self.kept
        }

        pub fn keep_image(&mut self, image: &[u8; IMAGE_SIZE]) {
            self.kept = Some(*image);
        }

        pub fn accesses(&self) -> &'static [Access] {
            ACCESSES[self.moment]
        }

        pub fn chassis_switch(&self) -> bool {
            self.moment == 4
        }

        pub fn voltages(&self) -> [u8; 7] {
            [100, 94, 206, 186, 197, 35, 54]
        }

        pub fn sensor_1(&self) -> i8 {
            35
        }

        pub fn sensor_2(&self) -> i16 {
            SENSOR_2_HALF_DEGREES[self.moment]
        }

        pub fn sensor_3(&self) -> i16 {
            83
        }

        /// The undivided count; one that doesn't turn has the largest.
        pub fn count(&self, fan: u8) -> u32 {
            let rpm = match fan {
                1 => FAN_1_RPM[self.moment],
                2 => 2_900,
                _ => 1_200,
            };
            1_350_000_u32.checked_div(rpm).unwrap_or(u32::MAX)
        }

        pub fn drive_smi(&mut self, asserted: bool) {
            drive("SMI", &mut self.smi, asserted);
        }

        pub fn drive_ovt(&mut self, asserted: bool) {
            drive("OVT", &mut self.ovt, asserted);
        }

        pub fn log(&mut self, record: &Record) {
            self.log.extend_from_slice(record.bytes());
        }

        pub fn logged(&self) -> &[u8] {
            &self.log
        }

        /// For the service engineer.
        pub fn note(&self, what: &str, index: u8, refusal: Refusal) {
            println!(
                "bus: {what} {index:02X}h refused, answer {}",
                refusal.number()
            );
        }
    }

    fn drive(pin: &str, was: &mut bool, asserted: bool) {
        if *was != asserted {
            println!("{pin} {}", if asserted { "asserted" } else { "released" });
        }
        *was = asserted;
    }
}
