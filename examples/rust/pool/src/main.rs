//! Two pools share this process's cores: a service, whose tasks come in bursts, and a batch job that always has some.
//!
//!     VOLDAZPE_PREFIX=PREFIX cargo run --release

use pool::{Pool, Scope};
use std::error::Error;
use std::sync::atomic::{AtomicU64, Ordering};
use std::sync::Arc;
use std::thread;
use std::time::{Duration, Instant};
use voldazpe::house::Options;

/// Some tens of microseconds of work.
fn work() {
    let mut value = 1u64;
    for step in 0..20_000u64 {
        value = std::hint::black_box(value.wrapping_mul(6_364_136_223_846_793_005).wrapping_add(step));
    }
}

/// A task of the batch job. It spawns two further tasks, to a depth of `times`.
fn divide(scope: &Scope, times: u32) {
    work();
    if times > 0 {
        scope.spawn(move |scope| divide(scope, times - 1));
        scope.spawn(move |scope| divide(scope, times - 1));
    }
}

fn main() -> Result<(), Box<dyn Error>> {
    let house = Options::new().open_own()?;
    let cores = usize::from(house.state()?.managed);
    let service = Pool::start(house.join("service")?, 0, cores); // level 0 is served first
    let batch = Pool::start(house.join("batch")?, 1, cores);

    batch.spawn(|scope| divide(scope, 12)); // 2^13 - 1 tasks
    let latest = Arc::new(AtomicU64::new(0));
    for _ in 0..20 {
        let came = Instant::now();
        for _ in 0..50 {
            let latest = Arc::clone(&latest);
            service.spawn(move |_| {
                work();
                latest.fetch_max(came.elapsed().as_micros() as u64, Ordering::Relaxed);
            });
        }
        service.wait();
        thread::sleep(Duration::from_millis(5));
    }
    println!("the longest from a burst's begin to a task's end: {} us", latest.load(Ordering::Relaxed));
    batch.wait();
    println!("orders: {}, threads moved: {}", house.state()?.orders, house.state()?.moved);
    Ok(())
}
