//! The frames besides those of a whole sending that an active sends.
use crate::standby::number;

pub const HELLO: u8 = 1;
pub const WELCOME: u8 = 2;
pub const BIND: u8 = 3;
pub const BATCH: u8 = 4;
pub const ACK: u8 = 5;
pub const NACK: u8 = 6;
pub const BOUND: u8 = 7;
pub const CHECKED: u8 = 8;

fn framed(kind: u8, fields: &[&[u8]]) -> Vec<u8> {
    let body = fields.concat();
    [&(body.len() as u32 + 1).to_le_bytes()[..], &[kind], &body].concat()
}

fn text(bytes: &[u8]) -> Vec<u8> {
    [&(bytes.len() as u32).to_le_bytes()[..], bytes].concat()
}

pub fn hello(version: u16, epoch: u64, node: &str) -> Vec<u8> {
    framed(HELLO, &[&version.to_le_bytes(), &epoch.to_le_bytes(), &text(node.as_bytes()), &[0; 4]])
}

/// Without lag: what is sent whole is compared by nobody.
pub fn bind(handle: u32, epoch: u64, key: &[Vec<u8>; 4]) -> Vec<u8> {
    let key: Vec<u8> = key.iter().flat_map(|part| text(part)).collect();
    framed(BIND, &[&handle.to_le_bytes(), &epoch.to_le_bytes(), &[0; 8], &key])
}

pub fn checked(handle: u32, epoch: u64, incarnation: u64) -> Vec<u8> {
    framed(CHECKED, &[&handle.to_le_bytes(), &epoch.to_le_bytes(), &incarnation.to_le_bytes()])
}

/// The epoch that a whole frame names: none in the frames of a standby.
pub fn epoch_of(frame: &[u8]) -> Option<u64> {
    let at = match frame[4] {
        HELLO => 7,
        BIND | BATCH | CHECKED => 9,
        _ => return None,
    };
    Some(number(&mut &frame[at..], 8))
}

/// The node that a whole Hello names.
pub fn node_of(hello: &[u8]) -> &[u8] {
    &hello[19..19 + number(&mut &hello[15..], 4) as usize]
}

/// The incarnation that a whole Welcome or Checked names.
pub fn incarnation_of(frame: &[u8]) -> u64 {
    let at = if frame[4] == WELCOME { 13 } else { 17 };
    number(&mut &frame[at..], 8)
}

/// Whether a whole Bound says that the session is as new: 1, 1, nothing in flight, no stamp, no marks, no message. So is one that nobody has told anything of.
pub fn is_new(bound: &[u8]) -> bool {
    let numbers = [1u64, 1, 0, 0, 0].map(u64::to_le_bytes).concat();
    bound.get(9..).is_none_or(|told| told == numbers)
}
