//! Frames put together byte by byte, faulty ones too, by document 01's table and without the
//! Rust's writer.

use crate::call::Key;

/// A frame's body, growing.
#[derive(Debug, Clone, Default)]
pub struct Body(pub Vec<u8>);

impl Body {
    pub fn kind(kind: u8) -> Self {
        Self(vec![kind])
    }

    pub fn u8(mut self, value: u8) -> Self {
        self.0.push(value);
        self
    }

    pub fn u16(mut self, value: u16) -> Self {
        self.0.extend(value.to_le_bytes());
        self
    }

    pub fn u32(mut self, value: u32) -> Self {
        self.0.extend(value.to_le_bytes());
        self
    }

    pub fn u64(mut self, value: u64) -> Self {
        self.0.extend(value.to_le_bytes());
        self
    }

    pub fn raw(mut self, bytes: &[u8]) -> Self {
        self.0.extend(bytes);
        self
    }

    pub fn blob(self, bytes: &[u8]) -> Self {
        self.u32(bytes.len() as u32).raw(bytes)
    }

    /// The frame: the body behind its length.
    pub fn frame(self) -> Vec<u8> {
        framed(&self.0)
    }
}

pub fn framed(body: &[u8]) -> Vec<u8> {
    Body::default().blob(body).0
}

pub const COMMIT: u8 = 0;
pub const WHOLE: u8 = 1;
pub const LAST_WHOLE: u8 = 2;

pub fn hello(version: u16, epoch: u64, node: &[u8], kinds: &[u16]) -> Vec<u8> {
    let body = Body::kind(1).u16(version).u64(epoch).blob(node).u32(kinds.len() as u32);
    kinds.iter().fold(body, |body, kind| body.u16(*kind)).frame()
}

pub fn welcome(epoch: u64, incarnation: u64) -> Vec<u8> {
    Body::kind(2).u64(epoch).u64(incarnation).frame()
}

pub fn bind(handle: u32, epoch: u64, max_lag: u64, key: &Key) -> Vec<u8> {
    let body = Body::kind(3).u32(handle).u64(epoch).u64(max_lag);
    key.iter().fold(body, |body, part| body.blob(part)).frame()
}

/// A batch's head; `changes` are in frame form.
#[derive(Debug, Clone)]
pub struct Batch {
    pub handle: u32,
    pub epoch: u64,
    pub commit_no: u64,
    pub part: u8,
    pub changes: Vec<Vec<u8>>,
    pub records: Vec<(u16, Vec<u8>)>,
}

pub fn batch(batch: &Batch) -> Vec<u8> {
    let Batch { handle, epoch, commit_no, part, changes, records } = batch;
    let body = Body::kind(4).u32(*handle).u64(*epoch).u64(*commit_no).u8(*part).u32(changes.len() as u32);
    let body = changes.iter().fold(body, |body, change| body.raw(change)).u32(records.len() as u32);
    records.iter().fold(body, |body, (kind, bytes)| body.u16(*kind).blob(bytes)).frame()
}

pub fn ack(handle: u32, commit_no: u64) -> Vec<u8> {
    Body::kind(5).u32(handle).u64(commit_no).frame()
}

pub fn nack(handle: u32, reason: u8) -> Vec<u8> {
    Body::kind(6).u32(handle).u8(reason).frame()
}

pub fn bound(handle: u32, numbers: [u64; 3], stamp: &[u8], marks: &[u8], last_outgoing: u64) -> Vec<u8> {
    let body = numbers.into_iter().fold(Body::kind(7).u32(handle), Body::u64);
    body.blob(stamp).blob(marks).u64(last_outgoing).frame()
}

pub fn checked(handle: u32, epoch: u64, incarnation: u64) -> Vec<u8> {
    Body::kind(8).u32(handle).u64(epoch).u64(incarnation).frame()
}

pub mod change {
    //! Changes in frame form.

    use super::Body;

    pub fn next_incoming(seq: u64) -> Vec<u8> {
        Body::kind(1).u64(seq).0
    }

    pub fn next_incoming_in_flight(seq: u64, in_flight: u64) -> Vec<u8> {
        Body::kind(2).u64(seq).u64(in_flight).0
    }

    pub fn in_flight(seq: u64) -> Vec<u8> {
        Body::kind(3).u64(seq).0
    }

    pub fn record(seq: u64, msg: &[u8]) -> Vec<u8> {
        Body::kind(4).u64(seq).blob(msg).0
    }

    pub fn bare_record(seq: u64) -> Vec<u8> {
        Body::kind(5).u64(seq).0
    }

    pub fn reset() -> Vec<u8> {
        vec![6]
    }

    pub fn created_at(stamp: &[u8]) -> Vec<u8> {
        Body::kind(7).blob(stamp).0
    }

    pub fn marks(marks: &[u8]) -> Vec<u8> {
        Body::kind(8).blob(marks).0
    }
}
