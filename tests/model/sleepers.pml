/*
 * What threads sleep on: bells, and waiters for room. It is part of house.pml, turns.pml and members.pml.
 *
 * A step is one access of an atomic, of the queue or of a channel, or one call of the kernel. Each is sequentially consistent. Above it,
 * after a bar, are the lines of code that it stands for; two dots stand for lines that matter to no sleep. tests/models
 * compares these lines with the code.
 *
 * Here a sleep has no limit. In the code a sleeper looks again after a second at the latest. So a lost wake-up shows as a thread
 * that never ends. The looks that come before the listening change nothing, and are left out.
 *
 * Of a count the model keeps which threads hold the number that it has now. A comparison asks no more, as long as no count wraps.
 * A set of threads is a byte, with a bit for each.
 *
 * Each name after an #if is a wrong body, or says how large the house is. tests/models has a list of both, and tries each.
 */

#define BIT(me) (1 << (me))

/* what each thread has: whether it listened and hasn't slept since, and whether it found a bell odd that it rings */
#define SLEEPER bool listens, rings

/* bells */

bool bell_odd[BELLS];           /* whether the count is odd */
byte bell_heard[BELLS];         /* the threads that heard the count that it has now */
byte bell_loaded[BELLS];        /* the threads that ring, and loaded the count that it has now */
byte bell_sleepers[BELLS];      /* the threads that the kernel holds asleep */

/* arb_page/src/bell.rt: pub fn listen(&self) */
inline listen(bell, me) {
    /*| let count = self.count.fetch_or(1, Ordering::SeqCst) | 1; */
    /*| (count % (1 << 32)) as u32 */
    d_step {
#if defined LISTEN_READS
        skip;
#elif defined LISTEN_ADDS
        bell_odd[bell] = !bell_odd[bell];
        bell_heard[bell] = 0;
        bell_loaded[bell] = 0;
#else
        if
        :: !bell_odd[bell] -> bell_odd[bell] = true; bell_heard[bell] = 0; bell_loaded[bell] = 0
        :: else
        fi;
#endif
        bell_heard[bell] = bell_heard[bell] | BIT(me);
        listens = true
    }
}

/* a thread drops the count that it heard */
inline forget(bell, me) {
    bell_heard[bell] = bell_heard[bell] & ~BIT(me);
    listens = false
}

/* arb_page/src/bell.rt: pub fn sleep<R: Wait>(&self */
inline bell_sleep(bell, me) {
    /*| self.count.park_timeout(rt, heard, limit); */
    d_step {
        if
        :: bell_heard[bell] & BIT(me) -> bell_sleepers[bell] = bell_sleepers[bell] | BIT(me)
        :: else
        fi;
        forget(bell, me)
    }
    (bell_sleepers[bell] & BIT(me)) == 0
}

/* arb_page/src/bell.rt: pub fn ring(&self) */
inline ring(bell, me) {
    /*| let count = self.count.load(Ordering::SeqCst); */
    /*| if count & 1 == 0 { */
    /*| return; */
    /*| } */
    d_step {
        load_bell(bell, me)
    }
    ring_loaded(bell, me)
}

inline load_bell(bell, me) {
    rings = bell_odd[bell];
    if
    :: rings -> bell_loaded[bell] = bell_loaded[bell] | BIT(me)
    :: else
    fi
}

inline ring_loaded(bell, me) {
#ifdef RING_WAKES_FIRST
    if
    :: rings -> bell_sleepers[bell] = 0
    :: else
    fi;
#endif
    if
    :: !rings
    /*| let next = count.wrapping_add(1); */
    /*| if self */
    /*| .count */
    /*| .compare_exchange(count, next, Ordering::SeqCst, Ordering::SeqCst) */
    /*| .is_ok() */
    /*| { */
    :: d_step {
        rings ->
        rings = (bell_loaded[bell] & BIT(me)) != 0;
#ifndef RING_COUNTS_NOT
        if
        :: rings -> bell_odd[bell] = false; bell_heard[bell] = 0; bell_loaded[bell] = 0
        :: else
        fi
#endif
        }
        /*| self.count.wake_all(); */
        /*| } */
        if
        :: !rings
#if defined RING_WAKES_ONE
        :: rings -> wake_one_of(bell_sleepers[bell]); rings = false
#elif defined RING_WAKES_FIRST
        :: rings -> rings = false
#else
        :: d_step { rings -> bell_sleepers[bell] = 0; rings = false }
#endif
        fi
    fi
}

/* one of those that sleep, if there is one: any one may be the kernel's choice */
inline wake_one_of(sleepers) {
    atomic {
        if
        :: sleepers == 0
        :: sleepers & 1 -> sleepers = sleepers & ~1
        :: sleepers & 2 -> sleepers = sleepers & ~2
        :: sleepers & 4 -> sleepers = sleepers & ~4
        :: sleepers & 8 -> sleepers = sleepers & ~8
        fi
    }
}

/* waiters */

byte room_count;
byte room_heard;                /* the threads that heard the number of changes that there is now */
byte room_sleepers;

/* arb_page/src/waiters.rt: pub fn join(&self) */
inline join(me) {
    /*| self.count.fetch_add(1, Ordering::SeqCst); */
#ifndef JOIN_COUNTS_NOT
    room_count++;
#endif
    /*| (self.changes.load(Ordering::SeqCst) % (1 << 32)) as u32 */
    d_step {
        room_heard = room_heard | BIT(me);
        listens = true
    }
}

/* arb_page/src/waiters.rt: pub fn sleep<R: Wait>(&self */
inline room_sleep(me) {
    /*| self.changes.park_timeout(rt, heard, limit); */
    d_step {
        if
        :: room_heard & BIT(me) -> room_sleepers = room_sleepers | BIT(me)
        :: else
        fi;
        room_heard = room_heard & ~BIT(me);
        listens = false
    }
    (room_sleepers & BIT(me)) == 0
}

/* arb_page/src/waiters.rt: pub fn leave(&self) */
inline leave() {
    /*| self.count.fetch_sub(1, Ordering::SeqCst); */
    assert(room_count > 0);
    room_count--
}

/* arb_page/src/waiters.rt: pub fn wake_one(&self) */
inline wake_one() {
    /*| if self.count.load(Ordering::SeqCst) != 0 { */
    if
    :: room_count == 0
    :: room_count != 0 ->
#ifdef TAKE_WAKES_FIRST
        wake_one_of(room_sleepers);
#endif
        /*| self.changes.fetch_add(1, Ordering::SeqCst); */
#ifndef TAKE_COUNTS_NOT
        room_heard = 0;
#endif
        /*| self.changes.wake_one(); */
        /*| } */
#ifndef TAKE_WAKES_FIRST
        wake_one_of(room_sleepers)
#endif
    fi
}

/* arb_page/src/waiters.rt: pub fn wake_all(&self) */
inline wake_all() {
    /*| if self.count.load(Ordering::SeqCst) != 0 { */
    if
    :: room_count == 0
    :: room_count != 0 ->
        /*| self.changes.fetch_add(1, Ordering::SeqCst); */
        room_heard = 0;
        /*| self.changes.wake_all(); */
        /*| } */
#ifdef END_WAKES_ONE
        wake_one_of(room_sleepers)
#else
        room_sleepers = 0
#endif
    fi
}

/* a wait: `listens` is whether `heard` is there */

/* arb_page/src/patience.rt: pub fn rest<R: Wait>(&mut self */
inline rest(bell, me) {
    /*| if self.pause() { */
    /*| return; */
    /*| } */
    /*| match self.heard.take() { */
    if
    /*| None => self.heard = Some(bell.listen()), */
    :: !listens ->
        listen(bell, me);
#ifdef BELL_NO_LOOK
        bell_sleep(bell, me)
#endif
    /*| Some(heard) => { */
    :: listens ->
        /*| bell.sleep(rt, heard, Duration::from_secs(LONGEST_SLEEP)); */
        bell_sleep(bell, me)
        /*| self.slept = true; */
        /*| } */
    fi
    /*| } */
}

/* arb_page/src/patience.rt: pub fn rest_among<R: Wait>(&mut self */
inline rest_among(me) {
    /*| if self.pause() { */
    /*| return; */
    /*| } */
    /*| match self.heard.take() { */
    if
    /*| None => self.heard = Some(waiters.join()), */
    :: !listens ->
        join(me);
#ifdef ROOM_NO_LOOK
        room_sleep(me);
        leave()
#endif
    /*| Some(heard) => { */
    :: listens ->
        /*| waiters.sleep(rt, heard, Duration::from_secs(LONGEST_SLEEP)); */
        room_sleep(me);
        /*| waiters.leave(); */
#ifndef SLEEPER_STAYS
        leave()
#endif
        /*| self.slept = true; */
        /*| } */
    fi
    /*| } */
}

/* arb_page/src/patience.rt: pub fn leave(&mut self */
inline leave_where_joined(me) {
    /*| if self.heard.take().is_some() { */
    /*| waiters.leave(); */
    /*| } */
    if
#ifdef LEAVES_ALWAYS
    :: true ->
#else
    :: !listens
    :: listens ->
#endif
        atomic {
            room_heard = room_heard & ~BIT(me);
            listens = false;
            leave()
        }
    fi
}

/* arb_page/src/watch.rt: pub fn rest<R: Wait>(&mut self */
    /*| self.patience.rest(rt, bell); */
