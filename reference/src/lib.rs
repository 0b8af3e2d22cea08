//! Second program for the hardware monitors W83782D and W83L784R.
//!
//! It carries out document 01 sentence by sentence, in the order of that
//! paper's headings, and is meant to be read with the paper beside it. Where a
//! later request amends a sentence, the code names the request. Where document
//! 01 is silent, the data sheet and the readings that the project has fixed
//! ("open points") decide. The W83L784R follows request C-16 in the same way, in
//! the order of the C-16 table, the project's reading of it. Plainness comes
//! before cleverness: the planner searches, and arithmetic is done in wide
//! integers.
//!
//! Every state is allowed as a start, also one whose cells hold bits that no
//! call could have put there. A refused call leaves the state unchanged.
//!
//! Each chip is a module: its registers, its state and what its calls do. Beside
//! them are the rules that the chips of the family share: plans, plans in force,
//! speed, the steps of a temperature sensor, standing alarms, answer numbers.

mod in_force;
mod plan;
mod sensor;
mod speed;
mod status;
pub mod w83782d;
pub mod w83l784r;

pub use in_force::{End, InForce, Plan, Rewrites};
pub use plan::{plan, u_of_speed};
pub use sensor::Mark;
pub use speed::Speed;

/// "Answer numbers" of document 01.
pub mod answer {
    /// 0: "accepted".
    pub const ACCEPTED: u8 = 0;
    /// 1: "index below 20h or above 7Fh, reserved index, or absent bank". For
    /// the W83L784R "an index this part lacks or reserves" (request C-16).
    pub const NO_REGISTER: u8 = 1;
    /// 2: "write to a read-only register".
    pub const READ_ONLY: u8 = 2;
    /// 3: "sample with sensor 2 or 3 outside -256 to 255 half degrees".
    pub const BAD_TEMPERATURE: u8 = 3;
    /// 4: "sample while 40h bit 0 is 0 or bit 3 is 1". For the W83L784R while
    /// 40h bit 0 is 0 or bit 1 is 1.
    pub const NOT_MONITORING: u8 = 4;
    /// 5: "record not of 32 bytes, unknown kind, a byte not zero that should
    /// be, or record n asked for and not whole in the log".
    pub const BAD_RECORD: u8 = 5;
    /// 6: "planned speed 0 or above 1,350,000".
    pub const BAD_SPEED: u8 = 6;
    /// 7: "fan not 1 to 3, voltage channel not 0 to 6, or, for channels 5 and 6
    /// only, a resistor not a whole 1 to 1,000 kilo-ohm". A temperature sensor
    /// other than 1 to 3 is refused with the same number. For the W83L784R a fan
    /// other than 1 and 2, a commissioned sensor other than 1 to 3, or an access
    /// to the set of a sensor other than 2 and 3.
    pub const NO_CHANNEL: u8 = 7;
    /// 8: "output buffer not of 32 bytes".
    pub const BAD_BUFFER: u8 = 8;
    /// 9: "bus write to an offset (W83L784R)": only commissioning sets one
    /// (request C-16).
    pub const OFFSET_LOCKED: u8 = 9;
    /// 12: a whole record after the 100,000 that a day holds (request C-11).
    pub const DAY_FULL: u8 = 12;
}
