//! The thread's own processor time, for the benches: others may work beside them.

#[repr(C)]
struct Moment {
    seconds: i64,
    nanoseconds: i64,
}

unsafe extern "C" {
    safe fn clock_gettime(clock: i32, moment: &mut Moment) -> i32;
}

/// In nanoseconds (Linux: clock 3).
pub fn now() -> f64 {
    let mut it = Moment { seconds: 0, nanoseconds: 0 };
    assert_eq!(clock_gettime(3, &mut it), 0, "Linux has this clock");
    it.seconds as f64 * 1e9 + it.nanoseconds as f64
}
