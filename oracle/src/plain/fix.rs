//! A FIX message log, document 02 read a second time: the file is cut behind each byte 01, and the pieces are gathered
//! up to a field 10.

/// What a file holds: number and text of each message. Or the first fault, with the offset of its message.
pub type Read<'a> = Result<Vec<(u64, &'a [u8])>, (u32, u64)>;

const SPLIT: u8 = 1;

/// A piece as a field: its tag and its value.
fn field(piece: &[u8]) -> Option<(&[u8], &[u8])> {
    let (last, text) = piece.split_last()?;
    let equals = text.iter().position(|byte| *byte == b'=')?;
    let (tag, value) = (&text[..equals], &text[equals + 1..]);
    let named = tag.first().is_some_and(|first| *first != b'0') && tag.iter().all(u8::is_ascii_digit);
    (*last == SPLIT && named && !value.is_empty()).then_some((tag, value))
}

/// A number of any count of digits; one beyond 128 bits counts as the greatest.
fn number(text: &[u8]) -> Option<u128> {
    let digit = |byte: &u8| byte.is_ascii_digit().then(|| u128::from(byte - b'0'));
    text.iter().try_fold(0_u128, |sum, byte| Some(sum.saturating_mul(10).saturating_add(digit(byte)?)))
}

/// A message's number: 28, then 29.
fn message(pieces: &[&[u8]]) -> Result<u64, u32> {
    let fields: Vec<_> = pieces.iter().map(|piece| field(piece)).collect::<Option<_>>().ok_or(28_u32)?;
    let tags: Vec<_> = fields.iter().map(|(tag, _)| *tag).collect();
    if !tags.starts_with(&[b"8", b"9", b"35"]) || tags.last() != Some(&b"10".as_slice()) {
        return Err(28);
    }
    let length = number(fields[1].1).ok_or(28_u32)?;
    let told = fields[fields.len() - 1].1;
    let numbers: Vec<_> = fields.iter().filter(|(tag, _)| tag == b"34").map(|(_, value)| number(value)).collect();
    let [Some(seq)] = numbers[..] else { return Err(28) };
    if seq == 0 || seq >= u128::from(u64::MAX) || told.len() != 3 || number(told).is_none() {
        return Err(28);
    }
    let body: usize = pieces[2..pieces.len() - 1].iter().map(|piece| piece.len()).sum();
    let sum: u64 = pieces[..pieces.len() - 1].iter().flat_map(|piece| piece.iter()).map(|byte| u64::from(*byte)).sum();
    if length != body as u128 || number(told) != Some(u128::from(sum % 256)) {
        return Err(29);
    }
    Ok(seq as u64)
}

pub fn read(file: &[u8]) -> Read<'_> {
    let pieces: Vec<&[u8]> = file.split_inclusive(|byte| *byte == SPLIT).collect();
    let (mut messages, mut at, mut last) = (Vec::new(), 0, 0);
    for pieces in pieces.split_inclusive(|piece| field(piece).is_some_and(|(tag, _)| tag == b"10")) {
        let length: usize = pieces.iter().map(|piece| piece.len()).sum();
        let fault = |refusal| (refusal, at as u64);
        let seq = message(pieces).map_err(fault)?;
        if seq <= last {
            return Err(fault(30));
        }
        messages.push((seq, &file[at..at + length]));
        (at, last) = (at + length, seq);
    }
    Ok(messages)
}
