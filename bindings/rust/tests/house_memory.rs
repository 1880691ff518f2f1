//! What houses take of memory goes back: many are opened and closed, one after another. A process of its own, since other
//! tests' memory isn't to be seen here.
#![cfg(voldazpe_house)]

use std::fs;
use voldazpe::house::Options;

const ONE: &str = "[[socket]]\nmanaged = [1]\nunmanaged = [0]\n";

/// Bytes that this process has in memory.
fn resident() -> u64 {
    let pages = fs::read_to_string("/proc/self/statm").unwrap();
    pages.split(' ').nth(1).unwrap().parse::<u64>().unwrap() * 4096
}

fn open_and_close(times: u32) {
    for _ in 0..times {
        let kept = [0_u8; 10_000];
        let house = Options::new().unpinned().hook(move |_| assert_eq!(kept[5000], 0)).open(ONE).unwrap();
        let application = house.join("one").unwrap();
        application.want(0, 1).unwrap();
        let seat = application.register().unwrap();
        seat.wait(None).unwrap();
        house.close().unwrap(); // before the application and the seat
    }
}

#[test]
fn closed_houses_take_nothing() {
    open_and_close(100);
    let before = resident();
    open_and_close(1000);
    let more = resident().saturating_sub(before);
    assert!(more < 4_000_000, "{more} bytes more"); // a house has 60,000, a hook here 10,000
}
