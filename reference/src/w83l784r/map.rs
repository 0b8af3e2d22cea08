//! Sections 1 and 2: the registers of the main device, and the two sets of
//! sensors 2 and 3.

/// Cells of the monitor: index 20h to 5Fh of the main device (cells 0 to 63) and
/// 80h to 9Fh (64 to 95), then the set of sensor 2 (96 to 103) and the set of
/// sensor 3 (104 to 111).
pub const CELLS: usize = 112;

/// The column "Kind".
#[derive(Clone, Copy, Debug, PartialEq, Eq)]
pub enum Kind {
    Reading,
    Limit,
    Configuration,
    Status,
    Mask,
    RealTime,
    Divisor,
    Address,
    Stored,
    Identity,
    Offset,
}

impl Kind {
    /// What a reset keeps: "4Ah, the stored readings [...] and the three
    /// offsets" (section 3). 4Bh is an address too, but "only stored" and
    /// restored (K-10).
    pub const fn kept_by_reset(self) -> bool {
        matches!(self, Kind::Reading | Kind::Address | Kind::Offset)
    }
}

/// One row of section 1, for the indexes `first` to `last`.
#[derive(Clone, Copy, Debug, PartialEq, Eq)]
pub struct Row {
    pub first: u8,
    pub last: u8,
    pub power_on: u8,
    /// "Writable": the bits that an accepted bus write stores; 00h is `none`.
    pub writable: u8,
    /// "Shows": the bits of the cell that a read shows. Those of an identity are
    /// not asked: it shows its power-on byte always.
    pub shows: u8,
    pub kind: Kind,
}

const fn row(first: u8, last: u8, power_on: u8, writable: u8, shows: u8, kind: Kind) -> Row {
    Row {
        first,
        last,
        power_on,
        writable,
        shows,
        kind,
    }
}

/// Section 1. What has no row is reserved. Bits that 002 calls reserved are not
/// writable and read 0, even where it marks them Read/Write (K-04, K-07).
pub const ROWS: &[Row] = &[
    // VIN1 (Vcore), VIN3 (VBAT), VIN2 (+3.3), VCC (+5) code. 8.1.
    row(0x20, 0x23, 0x00, 0x00, 0xFF, Kind::Reading),
    // Sensor 1. 8.1, 6.4.
    row(0x27, 0x27, 0x00, 0x00, 0xFF, Kind::Reading),
    // Fan 1, 2 count. 8.1, 6.5.1; 2Ah is reserved (K-21).
    row(0x28, 0x29, 0x00, 0x00, 0xFF, Kind::Reading),
    // High, low limit of VIN1, VIN3, VIN2, VCC. 8.1 has no power-on value, so
    // 00h (K-32), here and for the limits below.
    row(0x2B, 0x32, 0x00, 0xFF, 0xFF, Kind::Limit),
    // Sensor 1 over limit, hysteresis. 8.1.
    row(0x39, 0x3A, 0x00, 0xFF, 0xFF, Kind::Limit),
    // Fan 1, 2 count limit. 8.1.
    row(0x3B, 0x3C, 0x00, 0xFF, 0xFF, Kind::Limit),
    // Configuration: 7 INITIALIZATION, 3 DIS_PWROK, 1 INT_Clear, 0 Start. 7.1.
    // Bit 7 is a command: never stored, and it reads 0.
    row(0x40, 0x40, 0x01, 0x8B, 0x0B, Kind::Configuration),
    // Interrupt status 1, 2. 7.2, 7.3; the target bits read 0 (K-31).
    row(0x41, 0x41, 0x00, 0x00, 0xEF, Kind::Status),
    row(0x42, 0x42, 0x00, 0x00, 0x03, Kind::Status),
    // SMI mask 1, 2. 7.4, 7.5.
    row(0x43, 0x43, 0x00, 0xEF, 0xEF, Kind::Mask),
    row(0x44, 0x44, 0x00, 0x0F, 0x0F, Kind::Mask),
    // Real-time status 1, 2. 7.6, 7.7; "target bits read 0, house" (C-16).
    row(0x45, 0x45, 0x00, 0x00, 0xEF, Kind::RealTime),
    row(0x46, 0x46, 0x00, 0x00, 0x03, Kind::RealTime),
    // Fan 2 divisor 6-4, fan 1 divisor 2-0. 7.9; both divide by 2 (K-01).
    row(0x49, 0x49, 0x11, 0x77, 0x77, Kind::Divisor),
    // Bus address: 6-0. 7.10.
    row(0x4A, 0x4A, 0x2D, 0x7F, 0x7F, Kind::Address),
    // Bus addresses of sensors 2 and 3, and bits that disable them. 7.11 (K-09).
    row(0x4B, 0x4B, 0x01, 0xFF, 0xFF, Kind::Stored),
    // Vendor low, vendor high, chip. 7.12-7.14.
    row(0x4C, 0x4C, 0xA3, 0x00, 0xFF, Kind::Identity),
    row(0x4D, 0x4D, 0x5C, 0x00, 0xFF, Kind::Identity),
    row(0x4E, 0x4E, 0x50, 0x00, 0xFF, Kind::Identity),
    // ACPI step: DIFFREG, 6-0. 7.15.
    row(0x4F, 0x4F, 0x05, 0x7F, 0x7F, Kind::Configuration),
    // OVT: 5-4 OVT_MD, 3 to 1 EN_OVT3 to EN_OVT1, 0 OVTPOL. 7.16 (K-35).
    row(0x50, 0x50, 0x00, 0x3F, 0x3F, Kind::Configuration),
    // SMI: 3-2 TEMP_SMI_MD, 1 EN_SMI#, 0 SMIPOL. 7.17 (K-35).
    row(0x51, 0x51, 0x04, 0x0F, 0x0F, Kind::Configuration),
    // GPO. 7.18.
    row(0x52, 0x52, 0x00, 0xFF, 0xFF, Kind::Stored),
    // Sensor types: 3-0. 7.19.
    row(0x53, 0x53, 0x00, 0x0F, 0x0F, Kind::Stored),
    // Misc control: 5, 4, 2, 0. 7.20.
    row(0x54, 0x54, 0x00, 0x35, 0x35, Kind::Stored),
    // Fault control: 2-0. 7.21.
    row(0x55, 0x55, 0x00, 0x07, 0x07, Kind::Stored),
    // Fan fault high, low, twice (K-27); VBAT fault high, low. 7.22-7.27.
    row(0x56, 0x56, 0xFF, 0xFF, 0xFF, Kind::Stored),
    row(0x57, 0x57, 0x00, 0xFF, 0xFF, Kind::Stored),
    row(0x58, 0x58, 0xFF, 0xFF, 0xFF, Kind::Stored),
    row(0x59, 0x59, 0x00, 0xFF, 0xFF, Kind::Stored),
    row(0x5A, 0x5A, 0xFF, 0xFF, 0xFF, Kind::Stored),
    row(0x5B, 0x5B, 0x00, 0xFF, 0xFF, Kind::Stored),
    // Pre-scale, duty of fan 1, then of fan 2. 7.28-7.31.
    row(0x80, 0x80, 0x01, 0xFF, 0xFF, Kind::Stored),
    row(0x81, 0x81, 0xFF, 0xFF, 0xFF, Kind::Stored),
    row(0x82, 0x82, 0x01, 0xFF, 0xFF, Kind::Stored),
    row(0x83, 0x83, 0xFF, 0xFF, 0xFF, Kind::Stored),
    // Fan configuration: 5-0. 7.32 (K-02).
    row(0x84, 0x84, 0x00, 0x3F, 0x3F, Kind::Stored),
    // Target 1, 2. 7.33, 7.34 (K-03).
    row(0x85, 0x86, 0x00, 0xFF, 0xFF, Kind::Stored),
    // Tolerances. 7.35.
    row(0x87, 0x87, 0x11, 0xFF, 0xFF, Kind::Stored),
    // Stop duty 1, 2; start-up duty 1, 2. 7.36-7.39.
    row(0x88, 0x8B, 0x01, 0xFF, 0xFF, Kind::Stored),
    // Stop time 1, 2. 7.40, 7.41.
    row(0x8C, 0x8D, 0x3C, 0xFF, 0xFF, Kind::Stored),
    // Step times. 7.42, 7.43 (K-28).
    row(0x8E, 0x8F, 0x0A, 0xFF, 0xFF, Kind::Stored),
    // Offset of sensor 1, 2, 3: whole signed bytes (K-22). 7.44-7.46. A bus
    // write stores no bit of them (K-23).
    row(0x90, 0x92, 0x00, 0x00, 0xFF, Kind::Offset),
];

/// One row of section 2, a register of a set. The two sets are alike (K-05).
#[derive(Clone, Copy, Debug, PartialEq, Eq)]
pub struct SetRow {
    /// The cell of bits 15-8 and that of bits 7-0, counted from the set's first
    /// cell. 01h is a byte and has no bits 15-8.
    pub high: Option<usize>,
    pub low: usize,
    pub power_on: u16,
    /// "Writable"; 0000h is `none`.
    pub writable: u16,
    /// "Shows".
    pub shows: u16,
    pub kind: Kind,
}

/// Section 2, by index: 00h to 03h. The cells of a set are value high, low,
/// configuration, hysteresis high, low, over limit high, low, and one that is
/// none.
pub const SET_ROWS: [SetRow; 4] = [
    // 00h: temperature. 15-8 the degrees, 7 the half degree. 9.1, 10.1.
    SetRow {
        high: Some(0),
        low: 1,
        power_on: 0x0000,
        writable: 0x0000,
        shows: 0xFF80,
        kind: Kind::Reading,
    },
    // 01h: configuration. 4-3 fault queue, 0 stop bit, which C-16 names as
    // stored (K-06). 9.2, 10.2.
    SetRow {
        high: None,
        low: 2,
        power_on: 0x0000,
        writable: 0x0019,
        shows: 0x0019,
        kind: Kind::Stored,
    },
    // 02h: hysteresis, nine bits, 75.0. 9.3, 10.3.
    SetRow {
        high: Some(3),
        low: 4,
        power_on: 0x4B00,
        writable: 0xFF80,
        shows: 0xFF80,
        kind: Kind::Limit,
    },
    // 03h: over limit, nine bits, 80.0. 9.4, 10.4.
    SetRow {
        high: Some(5),
        low: 6,
        power_on: 0x5000,
        writable: 0xFF80,
        shows: 0xFF80,
        kind: Kind::Limit,
    },
];

/// What the rows say of one cell.
#[derive(Clone, Copy, Debug, PartialEq, Eq)]
pub struct Register {
    pub power_on: u8,
    pub writable: u8,
    pub shows: u8,
    pub kind: Kind,
}

/// The rows laid out by cell; `None` is a reserved cell.
pub static REGISTERS: [Option<Register>; CELLS] = registers();

const fn registers() -> [Option<Register>; CELLS] {
    let mut table = [None; CELLS];
    let mut r = 0;
    while r < ROWS.len() {
        let row = &ROWS[r];
        let mut index = row.first;
        while index <= row.last {
            table[cell(index)] = Some(Register {
                power_on: row.power_on,
                writable: row.writable,
                shows: row.shows,
                kind: row.kind,
            });
            index += 1;
        }
        r += 1;
    }
    let mut sensor = 2;
    while sensor <= 3 {
        let mut index = 0;
        while index < SET_ROWS.len() {
            let row = &SET_ROWS[index];
            if let Some(high) = row.high {
                table[set(sensor) + high] = Some(byte_of(row, 8));
            }
            table[set(sensor) + row.low] = Some(byte_of(row, 0));
            index += 1;
        }
        sensor += 1;
    }
    table
}

/// The eight bits of a set's row from this one up.
const fn byte_of(row: &SetRow, bit: u32) -> Register {
    Register {
        power_on: (row.power_on >> bit) as u8,
        writable: (row.writable >> bit) as u8,
        shows: (row.shows >> bit) as u8,
        kind: row.kind,
    }
}

/// Every cell at power-on; "reserved ones 00h".
pub(super) const POWER_ON: [u8; CELLS] = power_on();

const fn power_on() -> [u8; CELLS] {
    let table = registers();
    let mut cells = [0x00; CELLS];
    let mut cell = 0;
    while cell < CELLS {
        if let Some(register) = table[cell] {
            cells[cell] = register.power_on;
        }
        cell += 1;
    }
    cells
}

/// The cell that an index of the main device reaches. It may be reserved; `None`
/// is an index that the part lacks.
pub const fn find(index: u8) -> Option<usize> {
    match index {
        0x20..=0x5F => Some(index as usize - 0x20),
        // "60h-7Fh is the same storage as 20h-3Fh (8.1), reserved places
        // included."
        0x60..=0x7F => Some(index as usize - 0x60),
        0x80..=0x9F => Some(64 + index as usize - 0x80),
        _ => None,
    }
}

/// The cell of a main register that this program names itself.
pub const fn cell(index: u8) -> usize {
    match find(index) {
        Some(cell) => cell,
        None => panic!("no such register"),
    }
}

/// The first cell of the set of sensor 2 or 3.
pub const fn set(sensor: u8) -> usize {
    match sensor {
        2 => 96,
        3 => 104,
        _ => panic!("no such set"),
    }
}
