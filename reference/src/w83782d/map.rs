//! "Register map" of document 01.

/// Cells of the monitor: bank 0 index 20h to 5Fh (cells 0 to 63), then index
/// 50h to 5Fh of bank 1 (64 to 79), bank 2 (80 to 95) and bank 4 (96 to 111).
pub const CELLS: usize = 112;

/// The eight values of 4Eh bits 2-0: a row of "any" bank ignores them.
pub const ANY: &[u8] = &[0, 1, 2, 3, 4, 5, 6, 7];

/// One row of the register map.
#[derive(Clone, Copy, Debug, PartialEq, Eq)]
pub struct Row {
    /// Banks in which the row is reached, or `ANY`.
    pub banks: &'static [u8],
    pub first: u8,
    pub last: u8,
    /// "Writable bits"; 00h is a read-only register.
    pub writable: u8,
    /// "Power-on: each section's value, and 00h where it has none."
    pub power_on: u8,
}

const fn row(banks: &'static [u8], first: u8, last: u8, writable: u8, power_on: u8) -> Row {
    Row {
        banks,
        first,
        last,
        writable,
        power_on,
    }
}

/// "Rows from 50h up that name no bank are bank 0. Anything else is reserved."
pub const ROWS: &[Row] = &[
    // Readings: seven voltages, sensor 1, fan 1 to 3 count.
    row(ANY, 0x20, 0x2A, 0x00, 0x00),
    // High, low limit of each voltage; sensor 1 over limit, hysteresis; fan 1
    // to 3 count limit.
    row(ANY, 0x2B, 0x3D, 0xFF, 0x00),
    // Configuration: bits 7, 6, 3, 1, 0. Section 7.3.
    row(ANY, 0x40, 0x40, 0xCB, 0x01),
    // Interrupt status.
    row(ANY, 0x41, 0x42, 0x00, 0x00),
    // SMI mask: all; 5-0.
    row(ANY, 0x43, 0x43, 0xFF, 0x00),
    row(ANY, 0x44, 0x44, 0x3F, 0x00),
    // Chassis clear: bit 7.
    row(ANY, 0x46, 0x46, 0x80, 0x00),
    // Fan 2 divisor 7-6, fan 1 divisor 5-4. Section 7.10.
    row(ANY, 0x47, 0x47, 0xF0, 0x50),
    // Bus address: 6-0. Section 7.11.
    row(ANY, 0x48, 0x48, 0x7F, 0x2D),
    // Identity, VID bit 0. Section 7.13.
    row(ANY, 0x49, 0x49, 0x00, 0x02),
    // Stored. Section 7.14 names all bits.
    row(ANY, 0x4A, 0x4A, 0xFF, 0x01),
    // Fan 3 divisor 7-6, rest by section 7.15: bits 1-0 are reserved.
    row(ANY, 0x4B, 0x4B, 0xFC, 0x44),
    // Stored. Section 7.16 calls bits 7, 5, 1, 0 reserved.
    row(ANY, 0x4C, 0x4C, 0x5C, 0x01),
    // Stored. Section 7.17 names all bits.
    row(ANY, 0x4D, 0x4D, 0xFF, 0x15),
    // Bank, bit 7 selects the vendor byte: 7, 2-0. Section 7.18.
    row(ANY, 0x4E, 0x4E, 0x87, 0x80),
    // Identity: the vendor byte, which is never the cell.
    row(ANY, 0x4F, 0x4F, 0x00, 0x00),
    // Stored. Section 7.21 names all bits; 7.22 calls bit 6 reserved.
    row(&[0], 0x56, 0x56, 0xFF, 0x00),
    row(&[0], 0x57, 0x57, 0xBF, 0x80),
    // Identity. Section 7.23.
    row(&[0], 0x58, 0x58, 0x00, 0x30),
    // Diodes: 6-4.
    row(&[0], 0x59, 0x59, 0x70, 0x70),
    // PWM duty.
    row(&[0], 0x5A, 0x5B, 0xFF, 0xFF),
    // PWM clock: 6-0.
    row(&[0], 0x5C, 0x5C, 0x7F, 0x11),
    // Divisor top bits: fan 3, 2, 1 in 7, 6, 5; writable 7-5, 3-0.
    row(&[0], 0x5D, 0x5D, 0xEF, 0x00),
    // PWM duty.
    row(&[0], 0x5E, 0x5F, 0xFF, 0xFF),
    // Sensor 2, 3 value.
    row(&[1, 2], 0x50, 0x51, 0x00, 0x00),
    // Bit 1 OVT mode: 4, 3, 1, 0.
    row(&[1, 2], 0x52, 0x52, 0x1B, 0x00),
    // Hysteresis: all; 7. Sections 7.34, 7.35.
    row(&[1, 2], 0x53, 0x53, 0xFF, 0x4B),
    row(&[1, 2], 0x54, 0x54, 0x80, 0x00),
    // Over limit: all; 7. Sections 7.36, 7.37.
    row(&[1, 2], 0x55, 0x55, 0xFF, 0x50),
    row(&[1, 2], 0x56, 0x56, 0x80, 0x00),
    // Real-time status.
    row(&[4], 0x59, 0x5A, 0x00, 0x00),
];

/// What a row says of one cell.
#[derive(Clone, Copy, Debug, PartialEq, Eq)]
pub struct Register {
    pub writable: u8,
    pub power_on: u8,
}

/// The rows laid out by cell; `None` is a reserved cell.
pub static REGISTERS: [Option<Register>; CELLS] = registers();

const fn registers() -> [Option<Register>; CELLS] {
    let mut table = [None; CELLS];
    let mut r = 0;
    while r < ROWS.len() {
        let row = &ROWS[r];
        let mut b = 0;
        while b < row.banks.len() {
            let mut index = row.first;
            while index <= row.last {
                table[cell(row.banks[b], index)] = Some(Register {
                    writable: row.writable,
                    power_on: row.power_on,
                });
                index += 1;
            }
            b += 1;
        }
        r += 1;
    }
    table
}

/// Every cell at power-on; reserved cells 00h.
pub(super) const POWER_ON: [u8; CELLS] = power_on();

const fn power_on() -> [u8; CELLS] {
    let table = registers();
    let mut cells = [0x00; CELLS];
    let mut cell = 0;
    while cell < CELLS {
        if let Some(register) = table[cell] {
            cells[cell] = register.power_on;
        }
        cell += 1;
    }
    cells
}

/// The cell that an index reaches while a bank is selected, or `None`: "index
/// below 20h or above 7Fh, [...] or absent bank". The cell may be reserved.
pub const fn find(bank: u8, index: u8) -> Option<usize> {
    match index {
        // "other indexes ignore the bank"
        0x20..=0x4F => Some(index as usize - 0x20),
        // "For 50h to 5Fh the bank is 4Eh bits 2-0". "Banks 3, 5, 6 and 7 may
        // be selected, and then 50h to 5Fh answers 1."
        0x50..=0x5F => match bank {
            0 => Some(index as usize - 0x20),
            1 => Some(64 + index as usize - 0x50),
            2 => Some(80 + index as usize - 0x50),
            4 => Some(96 + index as usize - 0x50),
            _ => None,
        },
        // "Index 60h to 7Fh is the same storage as 20h to 3Fh."
        0x60..=0x7F => Some(index as usize - 0x60),
        _ => None,
    }
}

/// The cell of a register that this program names itself.
pub const fn cell(bank: u8, index: u8) -> usize {
    match find(bank, index) {
        Some(cell) => cell,
        None => panic!("no such register"),
    }
}
