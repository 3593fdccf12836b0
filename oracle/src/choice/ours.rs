//! Our side: the copies' stores are laid out as docs/AREAS.md has them, and `wz_choose` is called on them.

use crate::plain::Answer;
use crate::splitmix::Chance;
use crate::{Copy, MOST};

unsafe extern "C" {
    fn wz_choose(
        copies: *const u64,
        copies_len: usize,
        w0: *const u64,
        w0_len: usize,
        b0: *const u8,
        b0_len: usize,
        w1: *const u64,
        w1_len: usize,
        b1: *const u8,
        b1_len: usize,
        w2: *const u64,
        w2_len: usize,
        b2: *const u8,
        b2_len: usize,
        w3: *const u64,
        w3_len: usize,
        b3: *const u8,
        b3_len: usize,
        w4: *const u64,
        w4_len: usize,
        b4: *const u8,
        b4_len: usize,
    ) -> u64;
}

/// The words and bytes of five stores, and the 30 words that say of each copy whether it is listed, whether it is
/// checked, its epoch and its store's shape.
pub struct Areas {
    copies: Vec<u64>,
    stores: [(Vec<u64>, Vec<u8>); MOST],
}

/// Where `salt` isn't 0, everything that means nothing is filled by chance, and longer slices are lent than are asked for.
pub fn areas(copies: &[Copy], salt: u64) -> Areas {
    let mut chance = Chance(salt);
    let mut lent = Areas { copies: Vec::new(), stores: Default::default() };
    let none = Copy::default();
    for i in 0..MOST {
        let copy = copies.get(i).unwrap_or(&none);
        let (shape, words, bytes) = store(copy, salt != 0, &mut chance);
        let most = if salt == 0 { 1 } else { u64::MAX };
        let flag = |set: bool, chance: &mut Chance| if set { 1 + chance.below(most) } else { 0 };
        lent.copies.extend([flag(copy.listed, &mut chance), flag(copy.checked, &mut chance), copy.epoch]);
        lent.copies.extend(shape);
        lent.stores[i] = (words, bytes);
    }
    if salt != 0 && chance.below(2) == 0 {
        lent.copies.push(chance.next());
    }
    lent
}

fn store(copy: &Copy, odd: bool, chance: &mut Chance) -> ([u64; 3], Vec<u64>, Vec<u8>) {
    let mut draw = |n: u64| if odd { chance.below(n) } else { 0 };
    let used = copy.sessions.len();
    let (s, c, m) = (used + draw(3) as usize, draw(20) as usize, draw(3) as usize);
    let (width, size) = (16 + 2 * m, 224 + c);
    let mut words: Vec<u64> = (0..66 + s * width + draw(2) as usize).map(|_| draw(u64::MAX)).collect();
    let mut bytes: Vec<u8> = (0..s * size + draw(2) as usize).map(|_| draw(256) as u8).collect();
    words[0] = used as u64;
    words[1] = draw(65);
    for (place, (key, next)) in copy.sessions.iter().enumerate() {
        let (wa, ba) = (66 + place * width, place * size);
        words[wa] = *next;
        for (k, text) in key.iter().enumerate() {
            // A length beyond the field counts as the field's.
            words[wa + 7 + k] = if text.len() == 32 { 32 + draw(2) * draw(u64::MAX / 2) } else { text.len() as u64 };
            bytes[ba + 32 * k..][..text.len()].copy_from_slice(text);
        }
    }
    let mut shape = [s as u64, c as u64, m as u64];
    if copy.broken {
        match draw(6) {
            0 => words[0] = s as u64 + 1,
            1 => words[1] = 65,
            2 => shape[1] = 33_554_433,
            3 => shape[2] = 65_537,
            4 => words.truncate(65 + s * width),
            _ => shape[0] = 1 << 40,
        }
    }
    (shape, words, bytes)
}

/// The answer, read from the code that is returned; no lent area is changed.
pub fn call(areas: &Areas) -> Answer {
    let [(w0, b0), (w1, b1), (w2, b2), (w3, b3), (w4, b4)] = &areas.stores;
    let copies = &areas.copies;
    macro_rules! over_all {
        ($($slice:ident),*) => { unsafe { wz_choose($($slice.as_ptr(), $slice.len()),*) } };
    }
    let code = over_all!(copies, w0, b0, w1, b1, w2, b2, w3, b3, w4, b4);
    match code >> 63 {
        1 => Ok((code - (1 << 63)) as usize),
        _ => Err((code >> 40) as u8),
    }
}

pub fn choose(copies: &[Copy], salt: u64) -> Answer {
    call(&areas(copies, salt))
}
