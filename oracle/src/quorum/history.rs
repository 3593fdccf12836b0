//! The second reading: the whole history of accepted calls, and counts over it. Nothing is kept of a handle.

use crate::{Call, Side};

pub struct History {
    members: usize,
    needed: usize,
    accepted: Vec<Call>,
}

impl History {
    /// Where a handle was bound last among these calls.
    fn binding(handle: u32, calls: &[Call]) -> Option<usize> {
        calls.iter().rposition(|call| *call == Call::Bind(handle))
    }

    /// The calls before the first StaleEpoch.
    fn before_deposing(&self) -> &[Call] {
        let first = self.accepted.iter().position(|call| matches!(call, Call::Stale(_)));
        &self.accepted[..first.unwrap_or(self.accepted.len())]
    }

    #[cfg(ours)]
    pub fn is_deposed(&self) -> bool {
        self.before_deposing().len() < self.accepted.len()
    }

    pub fn is_bound(&self, handle: u32) -> bool {
        Self::binding(handle, &self.accepted).is_some()
    }

    /// The numbers sent on a handle since it was bound last, in order.
    pub fn sent(&self, handle: u32) -> Vec<u64> {
        let from = Self::binding(handle, &self.accepted).unwrap_or(self.accepted.len());
        let number = |call: &Call| match *call {
            Call::Sent(on, number) if on == handle => Some(number),
            _ => None,
        };
        self.accepted[from..].iter().filter_map(number).collect()
    }

    /// The handles ever bound, each once.
    fn handles(&self) -> usize {
        let first = |at: usize, handle: u32| !self.accepted[..at].contains(&Call::Bind(handle));
        let bound = |(at, call): (usize, &Call)| matches!(*call, Call::Bind(handle) if first(at, handle));
        self.accepted.iter().enumerate().filter(|pair| bound(*pair)).count()
    }

    /// Whether a member acknowledged the number or a later one since the binding.
    #[cfg(ours)]
    pub fn has_acknowledged(&self, member: usize, handle: u32, number: u64) -> bool {
        let from = Self::binding(handle, &self.accepted).unwrap_or(self.accepted.len());
        let is = |call: &Call| matches!(*call, Call::Ack(by, on, x) if by == member && on == handle && x >= number);
        self.accepted[from..].iter().any(is)
    }

    fn refusal(&self, call: Call) -> u8 {
        let (member, handle) = match call {
            Call::Ack(member, handle, _) => (Some(member), Some(handle)),
            Call::Stale(member) => (Some(member), None),
            Call::Sent(handle, _) => (None, Some(handle)),
            Call::Bind(handle) if self.is_bound(handle) || self.handles() < 256 => (None, None),
            Call::Bind(_) => return 37,
        };
        if member.is_some_and(|member| member >= self.members) || handle.is_some_and(|handle| !self.is_bound(handle)) {
            return 37;
        }
        let right = match call {
            Call::Sent(handle, number) => self.sent(handle).last().unwrap_or(&0).checked_add(1) == Some(number),
            Call::Ack(_, handle, number) => self.sent(handle).contains(&number),
            Call::Bind(_) | Call::Stale(_) => true,
        };
        if right { 0 } else { 38 }
    }

    /// How many members acknowledged the number or a later one on the handle, among the calls since its binding.
    fn holders(calls: &[Call], handle: u32, number: u64) -> usize {
        let mut members: Vec<usize> = Vec::new();
        for call in calls {
            if let Call::Ack(member, on, acknowledged) = *call
                && on == handle
                && acknowledged >= number
                && !members.contains(&member)
            {
                members.push(member);
            }
        }
        members.len()
    }
}

impl Side for History {
    fn make(n: u64, k: u64) -> Result<Self, u8> {
        if !(1..=5).contains(&n) || !(1..=n).contains(&k) {
            return Err(37);
        }
        Ok(Self { members: n as usize, needed: k as usize, accepted: Vec::new() })
    }

    fn call(&mut self, call: Call) -> Result<(), u8> {
        match self.refusal(call) {
            0 => self.accepted.push(call),
            refusal => return Err(refusal),
        }
        Ok(())
    }

    fn figure(&self, handle: u32) -> Result<u64, u8> {
        if !self.is_bound(handle) {
            return Err(37);
        }
        let calls = self.before_deposing();
        let Some(from) = Self::binding(handle, calls) else { return Ok(0) };
        let own = &calls[from..];
        let held = |call: &Call| match *call {
            Call::Ack(_, on, number) if on == handle && Self::holders(own, handle, number) >= self.needed => {
                Some(number)
            }
            _ => None,
        };
        Ok(own.iter().filter_map(held).max().unwrap_or(0))
    }
}
