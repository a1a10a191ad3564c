//! A record of a tape: 8 bytes.

pub const SPAWN: u8 = 1;
pub const RETURN: u8 = 2;
pub const STEAL: u8 = 3;
pub const SYNC: u8 = 4;
pub const READ: u8 = 5;
pub const WRITE: u8 = 6;
pub const FOLD: u8 = 7;

/// The reducers.
pub const SUM: usize = 0;
pub const MIN: usize = 1;
pub const AFFINE: usize = 2;
pub const REDUCERS: usize = 3;

/// The field is a splitter, the victim of a steal, or a reducer.
pub fn record(kind: u8, worker: u8, field: u16, value: u32) -> [u8; 8] {
    let [f0, f1] = field.to_le_bytes();
    let [v0, v1, v2, v3] = value.to_le_bytes();
    [kind, worker, f0, f1, v0, v1, v2, v3]
}

/// Kind, worker, field and value, as a step takes them.
pub fn fields(&[kind, worker, f0, f1, v0, v1, v2, v3]: &[u8; 8]) -> [u32; 4] {
    let field = u16::from_le_bytes([f0, f1]);
    let value = u32::from_le_bytes([v0, v1, v2, v3]);
    [kind.into(), worker.into(), field.into(), value]
}
