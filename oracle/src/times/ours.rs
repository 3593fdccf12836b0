//! Our library.

use crate::Side;

#[repr(C)]
struct Numbered {
    refusal: u8,
    millis: u64,
    picos: u64,
}

unsafe extern "C" {
    fn wz_stamp_read(stamp: *const u8, stamp_len: usize) -> Numbered;
    fn wz_stamp_write(millis: u64, picos: u64, out: *mut u8, out_len: usize) -> u64;
}

pub struct Ours;

impl Side for Ours {
    fn read(stamp: &[u8]) -> Result<(u64, u64), u8> {
        let numbered = unsafe { wz_stamp_read(stamp.as_ptr(), stamp.len()) };
        match numbered.refusal {
            0 => Ok((numbered.millis, numbered.picos)),
            refusal => {
                assert_eq!((numbered.millis, numbered.picos), (0, 0), "a refusal has no number");
                Err(refusal)
            }
        }
    }

    fn write(millis: u64, picos: u64, area: &mut [u8]) -> Result<usize, u8> {
        let code = unsafe { wz_stamp_write(millis, picos, area.as_mut_ptr(), area.len()) };
        if code >> 63 == 1 {
            return Ok((code & (u64::MAX >> 2)) as usize);
        }
        assert_eq!(code << 24, 0, "a refusal has no detail");
        Err((code >> 40) as u8)
    }
}
