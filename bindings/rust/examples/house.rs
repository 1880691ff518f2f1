//! One thread works on a core of a house while it may keep it.

#[cfg(voldazpe_house)]
fn main() -> Result<(), voldazpe::HouseError> {
    let house = voldazpe::House::open_own()?; // shares this process's processors
    let service = house.join("service")?;
    service.want(0, 1)?; // one core at level 0
    let seat = service.register()?; // this thread
    seat.wait(None)?; // sleeps until it has a core: pinned to it
    let tasks = (0..1000).take_while(|_| seat.keep()).count(); // one load per task; false: asked back
    println!("{tasks} tasks ran on core {:?}", seat.core());
    Ok(()) // dropped, the seat leaves and the house closes
}

/// Where the house isn't installed, the package is built without it.
#[cfg(not(voldazpe_house))]
fn main() {}
