//! The clock that nodes want.

/// The time in ms since the machine was started, by a clock that keeps counting while it sleeps
/// (CLOCK_BOOTTIME). [`std::time::Instant`] stops in sleep, so datagrams that waited meanwhile would
/// count as young.
#[cfg(target_os = "linux")]
pub fn now() -> u64 {
    use std::os::raw::{c_int, c_long};

    // as <time.h> has it on Linux with 64 bits, for which libdeltat is made
    #[repr(C)]
    struct Timespec {
        seconds: i64,
        nanoseconds: c_long,
    }

    extern "C" {
        fn clock_gettime(clock: c_int, time: *mut Timespec) -> c_int;
    }

    const CLOCK_BOOTTIME: c_int = 7;
    let mut time = Timespec { seconds: 0, nanoseconds: 0 };
    // SAFETY: the pointer is that of a struct of the form that clock_gettime fills.
    let status = unsafe { clock_gettime(CLOCK_BOOTTIME, &mut time) };
    assert_eq!(status, 0, "CLOCK_BOOTTIME is in Linux since 2.6.39");
    time.seconds as u64 * 1000 + time.nanoseconds as u64 / 1_000_000
}

#[cfg(test)]
mod tests {
    #[test]
    fn the_clock_runs_at_the_rate_of_the_system() {
        let (instant, begun) = (std::time::Instant::now(), super::now());
        std::thread::sleep(std::time::Duration::from_millis(50));
        let (took, elapsed) = (super::now() - begun, instant.elapsed().as_millis() as u64);
        assert!(took >= 49 && took <= elapsed + 1, "{took} ms against {elapsed} ms");
    }
}
