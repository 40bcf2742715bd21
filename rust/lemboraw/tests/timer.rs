//! Whole milliseconds, none of them lost.

use lemboraw::Timer;
use std::thread::sleep;
use std::time::Duration;

#[test]
fn whole_milliseconds_and_none_lost() {
    let mut timer = Timer::init_time();
    let mut sum = 0.0;
    for _ in 0..20 {
        sleep(Duration::from_micros(700));
        let dt = timer.dt_ms();
        assert!(dt >= 0.0 && dt.fract() == 0.0);
        sum += dt;
    }
    // Twenty times 0.7 ms: a clock that dropped fractions would often have given nothing.
    assert!(sum >= 14.0, "{sum}");
    assert!(sum <= timer.ms_since_start());
}

#[test]
fn nothing_before_the_step() {
    let mut timer = Timer::init_time();
    assert_eq!(timer.dt_ms_from(1e9), None);
    sleep(Duration::from_millis(12));
    assert_eq!(timer.dt_ms_from(1e9), None);
    let dt = timer.dt_ms_from(10.0).unwrap_or(0.0);
    assert!(dt >= 12.0, "{dt}");
    assert_eq!(timer.dt_ms_from(1e9), None);
}
