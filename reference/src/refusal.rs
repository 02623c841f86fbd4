//! The paper's numbers of refusal.

pub type Refusal = u32;

/// Under 6 bytes or a wrong mark.
pub const ARCHIVE_MARK: Refusal = 1;
/// Count over 512, or a trailer that does not fit the length.
pub const ARCHIVE_TRAILER: Refusal = 2;
/// Records that do not run as placed, or a title length over 40.
pub const ARCHIVE_PLACES: Refusal = 3;
/// A title byte outside 32 to 126; in adding also a title over 40 bytes.
pub const TITLE: Refusal = 4;
/// A number that is 0 or not above the one before.
pub const NUMBER: Refusal = 5;
/// The number is absent.
pub const ABSENT: Refusal = 6;
/// A record that is not 68 bytes.
pub const RECORD_LENGTH: Refusal = 6;
pub const CYCLE: Refusal = 7;
pub const RUNNING_TIME: Refusal = 8;
pub const HEADWAY: Refusal = 9;
/// Volume, saturation or share arriving on green.
pub const VOLUME: Refusal = 10;
/// Start post or green length.
pub const GREEN: Refusal = 11;
pub const SEEDS: Refusal = 12;
/// No discharge at all, or no exit volume at all.
pub const NO_VOLUME: Refusal = 13;
/// An entry or an exit that nothing serves.
pub const UNSERVED: Refusal = 14;
pub const UNSETTLED: Refusal = 15;
/// A profile that is too short.
pub const PROFILE: Refusal = 16;
/// The second buffer is too short.
pub const BUFFER: Refusal = 17;
/// The archive already holds 512 records.
pub const FULL: Refusal = 18;
/// More than eight points.
pub const POINT_COUNT: Refusal = 19;
/// A given point's running time or headway.
pub const POINT: Refusal = 20;
/// A page buffer that is too short.
pub const PAGE: Refusal = 21;
