//! Two applications want one core: it is asked back from the first, goes to the second, and comes back. Nothing is pinned
//! here.

use std::error::Error;
use std::thread;
use voldazpe::{Arbiter, Client, Order, Request, Thread};

fn main() -> Result<(), Box<dyn Error>> {
    let arbiter = Arbiter::open("[[socket]]\nmanaged = [1]\nunmanaged = [0]\n")?;
    let page = arbiter.page(); // an Arc: any thread reads it, without a lock
    let mut member = arbiter.member()?; // this thread's: it gives orders of any client, without a lock
    let (first, second) = (Thread::new(0, 0).unwrap(), Thread::new(1, 0).unwrap());
    member.give(Client::Clock, Order::Tick(1))?; // a moment before all other orders
    member.give(first, Order::Join)?;
    member.give(first, Order::Ask(Request::at(7, 1).unwrap()))?; // one core, at the last level
    println!("the first: {}", member.give(first, Order::Block)?);
    thread::scope(|scope| {
        scope.spawn(|| {
            let mut member = arbiter.member().unwrap(); // one for each thread
            let mut give = |order| member.give(second, order).unwrap();
            give(Order::Join);
            give(Order::Ask(Request::at(0, 1).unwrap())); // one core, at level 0
            give(Order::Block);
            page.wait(second, None);
            println!("the second is at position {:?}", page.position(second));
            give(Order::Leave);
        });
        while page.must_release(first) == Some(false) { /* a task */ }
        member.give(first, Order::Block).unwrap();
        page.wait(first, None);
        println!("the first is at position {:?}", page.position(first));
    });
    Ok(())
}
