//! Processor time, so that what else runs on the machine counts for little: of a process with one thread
//! it is the time that passes on an idle machine. (Linux on 64 bits.)

#[repr(C)]
#[derive(Default)]
struct Time {
    seconds: i64,
    /// Nanoseconds or microseconds.
    part: i64,
}

#[repr(C)]
#[derive(Default)]
struct Usage {
    user: Time,
    system: Time,
    rest: [i64; 14],
}

const PROCESS: i32 = 2;
const CHILDREN: i32 = -1;

unsafe extern "C" {
    fn clock_gettime(clock: i32, time: *mut Time) -> i32;
    fn getrusage(who: i32, usage: *mut Usage) -> i32;
}

/// The seconds that a call takes this process.
pub fn of_call<T>(call: impl FnOnce() -> T) -> (T, f64) {
    let before = own();
    let answer = call();
    (answer, own() - before)
}

/// The seconds that a call takes the processes which it starts and waits for.
pub fn of_children<T>(call: impl FnOnce() -> T) -> (T, f64) {
    let before = childrens();
    let answer = call();
    (answer, childrens() - before)
}

fn own() -> f64 {
    let mut time = Time::default();
    // Safety: the time is a local's, laid out as the function writes it.
    assert_eq!(unsafe { clock_gettime(PROCESS, &mut time) }, 0);
    time.seconds as f64 + time.part as f64 * 1e-9
}

fn childrens() -> f64 {
    let mut usage = Usage::default();
    // Safety: as above.
    assert_eq!(unsafe { getrusage(CHILDREN, &mut usage) }, 0);
    let Usage { user, system, rest: _ } = usage;
    [user, system].iter().map(|time| time.seconds as f64 + time.part as f64 * 1e-6).sum()
}
