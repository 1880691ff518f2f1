/*
 * Numbers that come one after another, to threads that sleep until theirs comes, on fewer bells than there are numbers.
 *
 * A gate of turns: each of NUMBERS orders is one of THREADS threads', in any way, and they go in order, one at a time. A passed turn
 * rings for the next one, and for SOON numbers behind it.
 *
 * With FLOOR, a floor with so many places: each thread takes TURNS turns, at numbers that it draws.
 *
 * Shown in all orders: each thread ends; of orders the next one goes, and on the floor there is a place for each.
 * sleepers.pml says how to read this.
 */

#include "sleepers.pml"

byte passed;
byte drawn;
byte went;                      /* how many orders went, or how many threads are on the floor */

#ifdef FLOOR
#define SOON 0
#else
byte owner[NUMBERS];
#endif

/* arb_play/src/turns.rt: fn has_come(&self */
inline has_come(number) {
    /*| number <= self.passed.load(Ordering::SeqCst) */
#ifdef COME_TOO_LATE
    come = (number < passed)
#else
    come = (number <= passed)
#endif
}

/* arb_play/src/turns.rt: fn comes_soon(&self */
inline comes_soon(number) {
    /*| for _ in 0..LOOKS { */
    /*| let passed = self.passed.load(Ordering::SeqCst); */
    /*| if number <= passed { */
    /*| return true; */
    /*| } */
    /*| if number - passed > self.soon { */
    /*| return false; */
    /*| } */
    /*| hint::spin_loop(); */
    /*| } */
    /*| false */
#ifdef SOON_IS_COME
    come = (number <= passed + SOON)
#else
    come = (number <= passed)
#endif
}

/* arb_play/src/turns.rt: pub(crate) fn wait<R: Wait>(&self */
inline wait(number, me) {
    /*| let bell = &self.bells[number % BELLS]; */
    /*| for _ in rt.forever() { */
    do
    :: true ->
        /*| if self.comes_soon(number) { */
        /*| break; */
        /*| } */
        comes_soon(number);
        if
        :: come -> break
        :: !come
        fi;
        /*| let heard = bell.listen(); */
        listen(number % BELLS, me);
        /*| if self.has_come(number) { */
        /*| break; */
        /*| } */
#ifndef TURN_NO_LOOK
        has_come(number);
#endif
        if
        :: come -> break
        :: !come
        fi;
        /*| bell.sleep(rt, heard, Duration::from_secs(LONGEST_SLEEP)); */
        bell_sleep(number % BELLS, me)
    od;
    /*| } */
    atomic {
        come = false;
        forget(number % BELLS, me)
    }
}

/* arb_play/src/turns.rt: pub(crate) fn pass(&self) */
inline pass(me) {
    /*| let passed = self.passed.fetch_add(1, Ordering::SeqCst).wrapping_add(1); */
#ifdef PASS_RINGS_FIRST
    next = passed + 1;
#else
    d_step {
        passed++;
#ifndef PASS_LOADS_AGAIN
        next = passed
#endif
    }
#ifdef PASS_LOADS_AGAIN
    next = passed;
#endif
#endif
    /*| for behind in 0..=self.soon { */
    /*| self.bells[passed.wrapping_add(behind) % BELLS].ring(); */
    /*| } */
#ifdef PASS_RINGS_FURTHER
    behind = 1;
#endif
    do
#ifdef PASS_RINGS_FEWER
    :: behind < SOON ->
#else
    :: behind <= SOON ->
#endif
        ring((next + behind) % BELLS, me);
        behind++
    :: else -> break
    od;
#ifdef PASS_RINGS_FIRST
    passed++;
#endif
    behind = 0;
    next = 0
}

#define TURNER SLEEPER; bool come; byte number, next, behind

#ifndef FLOOR

/* arb_play/src/turn.rt: fn before<R: Wait>(&self */
    /*| self.turns.wait(rt, order); */
    /*| true */

/* arb_play/src/turn.rt: fn after<R: Wait>(&self */
    /*| self.turns.pass(); */

/* arb_play/src/turn.rt: pub fn new() -> TurnGate */
    /*| TurnGate { */
    /*| turns: Turns::new(0, SOON), */
    /*| } */

/* gives its orders, each in its turn */
proctype thread(byte me) {
    TURNER;
    do
    :: number < NUMBERS && owner[number] == me ->
        wait(number, me);
        assert(went == number);
        went++;
        pass(me);
        number++
    :: number < NUMBERS && owner[number] != me -> number++
    :: number == NUMBERS -> break
    od
}

#else

/* arb_play/src/floor.rt: fn draw(&self) -> usize */
inline draw() {
    /*| self.drawn.fetch_add(1, Ordering::SeqCst) */
    d_step {
        number = drawn;
        drawn++
    }
}

/* arb_play/src/floor.rt: pub(crate) fn end(&mut self) */
inline end_visit(me) {
    /*| if let Some(floor) = self.floor */
    /*| && self.placed */
    /*| { */
    if
    :: placed ->
        went--;
        /*| floor.turns.pass(); */
        pass(me);
        /*| self.placed = false; */
        placed = false
    :: !placed
    fi
    /*| } */
}

/* arb_play/src/floor.rt: fn take_turn<R: Wait>(&mut self */
inline take_turn(me) {
    /*| if let Some(floor) = self.floor { */
    /*| let number = floor.draw(); */
    draw();
    /*| self.end(); */
    end_visit(me);
    /*| floor.turns.wait(rt, number); */
    wait(number, me);
    /*| self.placed = true; */
    placed = true;
    went++;
    assert(went <= FLOOR)
    /*| self.left = floor.orders; */
    /*| } */
}

/* arb_play/src/floor.rt: fn with(places: usize, orders: u32) -> Floor */
    /*| Floor { */
    /*| drawn: AtomicUsize::new(0), */
    /*| turns: Turns::new(places.saturating_sub(1), 0), */
    /*| orders, */
    /*| } */

/* takes its turns, and leaves the floor */
/* arb_play/src/walking.rt: fn take_orders<K: Set, G: Gate, R: Wait>( */
    /*| .. */
    /*| let mut visit = Visit::begin(floor); */
    /*| let mut index = own.first(client.id()); */
    /*| while index < script.len() { */
    /*| if account.calls_on() { */
    /*| visit.go_on(rt); */
    /*| } else { */
    /*| visit.end(); */
    /*| } */
    /*| let given = given_at(script, index); */
    /*| step(rt, begun, gate, client, index, given, &mut account); */
    /*| index = own.after(index); */
    /*| } */
    /*| visit.end(); */
    /*| account */
proctype thread(byte me) {
    TURNER;
    bool placed;
    byte left = TURNS;
    do
    :: left > 0 -> take_turn(me); left--
    :: left == 0 -> break
    od;
#ifndef FLOOR_KEPT
    end_visit(me)
#endif
}

#endif

init {
    byte k;
    atomic {
        k = 1;
#ifdef FLOOR
        passed = FLOOR - 1;
#else
        do
        :: k <= NUMBERS ->
            if
            :: owner[k - 1] = 1
            :: owner[k - 1] = 2
            :: k > 1 -> owner[k - 1] = 3
            fi;
            k++
        :: else -> break
        od;
        k = 1;
#endif
        do
        :: k <= THREADS -> run thread(k); k++
        :: else -> break
        od
    }
}
