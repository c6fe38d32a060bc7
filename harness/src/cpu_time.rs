//! The processor time of this thread (Linux), which does not count the turns that other programs get.

#[repr(C)]
struct Timespec {
    seconds: i64,
    nanoseconds: i64,
}

const CLOCK_THREAD_CPUTIME_ID: i32 = 3;

extern "C" {
    fn clock_gettime(clock: i32, time: *mut Timespec) -> i32;
}

pub fn nanoseconds() -> u64 {
    let mut time = Timespec { seconds: 0, nanoseconds: 0 };
    assert_eq!(unsafe { clock_gettime(CLOCK_THREAD_CPUTIME_ID, &mut time) }, 0);
    (time.seconds * 1_000_000_000 + time.nanoseconds) as u64
}

#[cfg(test)]
mod tests {
    use super::nanoseconds;

    #[test]
    fn work_takes_time() {
        let start = nanoseconds();
        crate::reference::sha256::digest(&vec![0; 1_000_000]);
        assert!(nanoseconds() > start);
    }
}
