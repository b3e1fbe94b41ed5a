//! How many instructions a job executes: a child of this process does it, step by step.

#[cfg(target_os = "linux")]
mod traced {
    use std::ffi::{c_int, c_long, c_uint};
    use std::ptr::{null_mut, NonNull};

    const TRACE_ME: c_uint = 0;
    const SINGLE_STEP: c_uint = 9;
    const KILL: c_int = 9;
    const STOP: c_int = 19;

    extern "C" {
        fn fork() -> c_int;
        fn ptrace(request: c_uint, ...) -> c_long;
        fn waitpid(child: c_int, status: *mut c_int, options: c_int) -> c_int;
        fn raise(signal: c_int) -> c_int;
        fn kill(process: c_int, signal: c_int) -> c_int;
        fn _exit(status: c_int) -> !;
    }

    /// The signal that stopped the child, if it is stopped.
    fn stopped_by(child: c_int) -> Option<c_int> {
        let mut status = 0;
        // SAFETY: the status has a place of its own.
        let told = unsafe { waitpid(child, &mut status, 0) };
        (told == child && status & 0xFF == 0x7F).then_some(status >> 8 & 0xFF)
    }

    /// Steps from the child's first stop to its second.
    fn steps_of(child: c_int) -> Option<u64> {
        let nothing: Option<NonNull<u8>> = None;
        let mut steps = 0;
        stopped_by(child).filter(|&signal| signal == STOP)?;
        loop {
            // SAFETY: the child is stopped, and no memory of ours is lent.
            if unsafe { ptrace(SINGLE_STEP, child, nothing, null_mut::<u8>()) } != 0 {
                return None;
            }
            if stopped_by(child)? == STOP {
                return Some(steps);
            }
            steps += 1;
        }
    }

    /// The instructions of a job with those of stopping before and after it, where the system lets a process trace another.
    pub fn steps(job: &mut dyn FnMut()) -> Option<u64> {
        // SAFETY: this process has one thread. The child does the job between two stops, and never returns.
        let child = unsafe { fork() };
        if child == 0 {
            unsafe {
                if ptrace(TRACE_ME) != 0 {
                    _exit(1);
                }
                raise(STOP);
                job();
                raise(STOP);
                _exit(0);
            }
        }
        if child < 0 {
            return None;
        }
        let steps = steps_of(child);
        // SAFETY: the child is ours.
        unsafe {
            kill(child, KILL);
            waitpid(child, null_mut(), 0);
        }
        steps
    }
}

#[cfg(not(target_os = "linux"))]
mod traced {
    pub fn steps(_: &mut dyn FnMut()) -> Option<u64> {
        None
    }
}

/// The instructions of a job, an entry.
pub fn an_entry(entries: usize, job: &mut dyn FnMut()) -> Option<f64> {
    let stops = traced::steps(&mut || ())?;
    let steps = traced::steps(job)?;
    Some((steps - stops) as f64 / entries as f64)
}
