//! Two ways to do the same work, timed in alternating rounds of one process. The time is that of the thread alone, so that what else
//! runs on the machine counts less.

use std::ffi::{c_int, c_long};

const THREAD_TIME: c_int = 3;

#[repr(C)]
struct Time {
    seconds: c_long,
    nanoseconds: c_long,
}

extern "C" {
    fn clock_gettime(clock: c_int, to: *mut Time) -> c_int;
}

/// The thread's time so far, in nanoseconds.
fn now() -> f64 {
    let mut time = Time { seconds: 0, nanoseconds: 0 };
    // SAFETY: the call writes the structure, which is laid out as in C.
    assert!(unsafe { clock_gettime(THREAD_TIME, &mut time) } == 0, "the thread's clock");
    time.seconds as f64 * 1e9 + time.nanoseconds as f64
}

/// The medians: of the first way's time, of the second's (both in nanoseconds), and of their ratios.
pub struct Timed {
    pub first: f64,
    pub second: f64,
    pub ratio: f64,
}

fn median(mut numbers: Vec<f64>) -> f64 {
    numbers.sort_by(f64::total_cmp);
    numbers[numbers.len() / 2]
}

fn time<T: PartialEq>(work: &mut impl FnMut() -> T) -> (f64, T) {
    let start = now();
    let answer = std::hint::black_box(work());
    (now() - start, answer)
}

/// One way alone: the median of its time, in nanoseconds. One round is not counted.
pub fn alone<T: PartialEq>(rounds: usize, mut work: impl FnMut() -> T) -> f64 {
    median((0..=rounds).map(|_| time(&mut work).0).skip(1).collect())
}

/// One round is not counted: it warms the caches. Both ways must answer the same.
pub fn alternate<T: PartialEq>(rounds: usize, mut a: impl FnMut() -> T, mut b: impl FnMut() -> T) -> Timed {
    let (mut first, mut second, mut ratio) = (vec![], vec![], vec![]);
    for round in 0..=rounds {
        let ((time_a, answer_a), (time_b, answer_b)) = if round % 2 == 0 {
            let a = time(&mut a);
            (a, time(&mut b))
        } else {
            let b = time(&mut b);
            (time(&mut a), b)
        };
        assert!(answer_a == answer_b, "both ways answer the same");
        if round > 0 {
            first.push(time_a);
            second.push(time_b);
            ratio.push(time_a / time_b);
        }
    }
    Timed { first: median(first), second: median(second), ratio: median(ratio) }
}
