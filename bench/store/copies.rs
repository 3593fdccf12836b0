//! Times bare copies of 4,000 bytes round rings of several lengths, in pages of 4 KiB and 2 MiB: what a recording can't be below.
//! rustc -O --edition 2021 -o target/bench-copies bench/store/copies.rs && target/bench-copies
use std::arch::asm;
use std::arch::x86_64::{__m256i, _mm256_loadu_si256, _mm256_stream_si256};
use std::hint::black_box;
use std::time::Instant;

extern "C" {
    fn mmap(at: *mut u8, len: usize, prot: i32, flags: i32, fd: i32, offset: i64) -> *mut u8;
    fn madvise(at: *mut u8, len: usize, advice: i32) -> i32;
}

const LARGE: usize = 2 << 20;
const MESSAGE: usize = 4_000;

/// Touched memory of len bytes, in large pages or in none (MADV_HUGEPAGE is 14, MADV_NOHUGEPAGE 15).
fn area(len: usize, large: bool) -> &'static mut [u8] {
    let whole = len.next_multiple_of(LARGE);
    let s = unsafe {
        let p = mmap(std::ptr::null_mut(), whole + LARGE, 3, 0x22, -1, 0) as usize;
        let a = p.next_multiple_of(LARGE) as *mut u8;
        assert_eq!(madvise(a, whole, if large { 14 } else { 15 }), 0);
        std::slice::from_raw_parts_mut(a, len)
    };
    s.fill(1);
    s
}

#[inline(never)]
fn plain(d: &mut [u8], s: &[u8]) {
    d.copy_from_slice(s);
}

/// Past the caches; d begins at a multiple of 32.
#[inline(never)]
#[target_feature(enable = "avx2")]
unsafe fn past_caches(d: &mut [u8], s: &[u8]) {
    for i in (0..s.len()).step_by(32) {
        let x = _mm256_loadu_si256(s.as_ptr().add(i).cast::<__m256i>());
        _mm256_stream_si256(d.as_mut_ptr().add(i).cast::<__m256i>(), x);
    }
}

#[inline(never)]
unsafe fn rep_movsb(d: &mut [u8], s: &[u8]) {
    asm!("rep movsb", inout("rcx") s.len() => _, inout("rdi") d.as_mut_ptr() => _, inout("rsi") s.as_ptr() => _);
}

/// Nanoseconds for a copy: the best of thirty rounds of 2,000.
fn round(ring: &mut [u8], way: usize) -> f64 {
    let message = vec![0x41u8; MESSAGE];
    let mut at = 0;
    let mut best = f64::MAX;
    for _ in 0..30 {
        let begin = Instant::now();
        for _ in 0..2_000 {
            if ring.len() < at + MESSAGE {
                at = 0;
            }
            let d = &mut ring[at..at + MESSAGE];
            match way {
                0 => plain(d, black_box(&message)),
                1 => unsafe { rep_movsb(d, black_box(&message)) },
                _ => unsafe { past_caches(d, black_box(&message)) },
            }
            at += MESSAGE;
        }
        best = best.min(begin.elapsed().as_nanos() as f64 / 2_000.0);
    }
    best
}

fn main() {
    println!("ring bytes  page    memcpy  rep movsb  past the caches");
    for len in [256_000, 1 << 20, 4 << 20, 16 << 20, 32 << 20] {
        for large in [false, true] {
            let ring = area(len, large);
            let ns: Vec<f64> = (0..3).map(|way| round(ring, way)).collect();
            println!("{len:10}  {}  {:6.0}  {:9.0}  {:15.0}", if large { "2 MiB" } else { "4 KiB" }, ns[0], ns[1], ns[2]);
        }
    }
}
