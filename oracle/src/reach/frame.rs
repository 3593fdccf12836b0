//! What the drivers reach of frame.rs: changes in frame form.

use super::{Op, Writer};

pub fn form(changes: &[Op]) -> Vec<u8> {
    let mut bytes = Vec::new();
    let mut writer = Writer(&mut bytes);
    changes.iter().for_each(|change| writer.op(change));
    bytes
}
