//! Depth of work on the stack.

use std::ffi::c_void;

extern "C" {
    fn stack_used(work: extern "C" fn(*mut c_void), argument: *mut c_void) -> usize;
}

/// The bytes of stack that the work touches, on a stack of its own.
pub fn used<F: FnOnce()>(work: F) -> usize {
    extern "C" fn enter<F: FnOnce()>(work: *mut c_void) {
        let work = unsafe { &mut *work.cast::<Option<F>>() };
        work.take().expect("work is done once")();
    }
    let mut work = Some(work);
    unsafe { stack_used(enter::<F>, (&raw mut work).cast()) }
}

#[cfg(test)]
mod tests {
    use std::hint::black_box;

    #[test]
    fn an_array_is_counted() {
        let with_array = super::used(|| {
            black_box([black_box(1u8); 10_000]);
        });
        assert!((10_000..30_000).contains(&with_array), "{with_array}");
        assert!(super::used(|| ()) < 2_000);
    }
}
