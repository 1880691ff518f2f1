/*
 * Members of one arbiter, whose calls wait: for the lock, and for a thread's core. Each thread has a member of its own.
 *
 * There are WORKERS threads and CORES cores. Each thread blocks, waits for its core and retires, TURNS times. WATCHERS more wait for
 * the core of thread 0 too. With LEAVES one more gives an order by which the application leaves: no thread has a core or waits then.
 *
 * Or there are GIVERS alone, each of which gives ORDERS orders that change no place. With LIMIT no more orders than that are entered.
 *
 * What the arbiter decides is left open: a core that is free again goes to any thread that waits, and any stale word is posted next.
 *
 * Shown in all orders:
 * - each thread ends: one that rests for the lock gets it, and one that waits for a core goes on once the word says something else;
 * - in the end nobody is counted among those that wait for the lock.
 *
 * sleepers.pml says how to read this. Its waiters for room are those that wait for the lock here.
 */

#ifdef GIVERS
#define WORKERS 0
#define CORES 0
#define TURNS 0
#else
#define GIVERS 0
#define ORDERS 0
#endif
#ifndef WATCHERS
#define WATCHERS 0
#endif

#if WORKERS > 2
#define BELLS 3                 /* a bell has the number of its thread, and so has a place word */
#else
#define BELLS 2
#endif
#define NONE BELLS

#include "sleepers.pml"

mtype = { unmanaged, waiting, core }            /* a place */
mtype = { status, block, retire, leaves }       /* an order */

bool locked;
mtype place[BELLS] = unmanaged;                 /* what the arbiter says */
mtype word[BELLS] = unmanaged;                  /* what the table says */
byte free_cores = CORES;
bool left;
#ifdef LIMIT
byte entered;
#endif
#ifdef POST_RINGS_LAST_ALONE
byte last = NONE;                               /* the word that was posted last */
#endif

/* a member's steps */

/* arb_common/src/seats.rt: pub(crate) fn take_lock(common: &Common */
    /*| common */
    /*| .table */
    /*| .shared */
    /*| .compare_exchange::<Take>(seat, LOCK, 0, 1) */
    /*| == 0 */

/* arb_common/src/member_or_turn.rt: pub fn begin(&mut self) */
inline begin() {
    /*| self.in_turn = take_lock(&self.common, &mut self.seat); */
    /*| self.in_turn */
    d_step {
        in_turn = !locked;
        locked = true
    }
}

/* an order, by the arbiter: nobody else has the lock */
inline step(order) {
    atomic {
        if
#ifdef LIMIT
        :: entered == LIMIT -> no_reply = true
        :: entered < LIMIT && order == status -> entered++
#else
        :: order == status
#endif
        :: order == block ->
            if
            :: left
            :: !left && free_cores > 0 -> free_cores--; place[thread] = core
            :: !left && free_cores == 0 -> place[thread] = waiting
            fi
        :: order == retire ->
            if
            :: left
            :: !left ->
                place[thread] = unmanaged;
                if
                :: place[0] == waiting -> place[0] = core
                :: place[1] == waiting -> place[1] = core
#if WORKERS > 2
                :: place[2] == waiting -> place[2] = core
#endif
                :: else -> free_cores++
                fi
            fi
        :: order == leaves ->
            left = true;
            place[0] = unmanaged;
#if WORKERS > 2
            place[2] = unmanaged;
#endif
            place[1] = unmanaged
        fi
    }
}

/* a stale word, or none */
inline next_stale() {
    if
    :: place[0] != word[0] -> stale = 0
    :: place[1] != word[1] -> stale = 1
#if WORKERS > 2
    :: place[2] != word[2] -> stale = 2
#endif
    :: else -> stale = NONE
    fi
}

/* arb_common/src/member_or_turn.rt: pub fn post(&mut self) */
    /*| let (word, value) = post_core(&self.common.table.shared, &mut self.seat)?; */
    /*| store_post(&self.common, &mut self.seat, word, value); */
    /*| Some((word, value)) */
inline store_post() {
    word[stale] = place[stale]
}

/* arb_common/src/seats.rt: pub(crate) fn leave_lock(common: &Common */
    /*| common.table.shared.store::<GiveUp>(seat, LOCK, 0); */

/* arb_common/src/member_or_turn.rt: pub fn end(&mut self) */
inline give_back() {
    /*| leave_lock(&self.common, &mut self.seat); */
    /*| self.in_turn = false; */
    d_step {
        in_turn = false;
        locked = false
    }
}

/* what members sleep on */

/* arb_waiting/src/member.rt: pub fn open(alloc: Global */
    /*| let member = MemberOrTurn::new(Member::open(alloc, topology, limit)?); */
    /*| match Arc::new(alloc, Sleepers::new(topology)) { */
    /*| Ok(sleepers) => Ok(WaitingMember { member, sleepers }), */
    /*| Err(_) => Err(AllocError), */
    /*| } */

/* arb_waiting/src/member.rt: pub fn another(&mut self) */
    /*| let sleepers = Arc::try_clone(&self.sleepers)?; */
    /*| let member = self.member.another()?; */
    /*| Ok(WaitingMember { member, sleepers }) */
#ifdef SLEEPERS_NOT_SHARED
#define WAKES(thread, me) ((thread) == (me))    /* who sleeps on what another member has isn't woken */
#else
#define WAKES(thread, me) true
#endif

/* arb_waiting/src/sleepers.rt: pub(crate) fn bell(&self */
    /*| &self.bells[thread.index()] */
#ifdef WAITS_AT_ANOTHER_BELL
#define BELL(thread) (((thread) + 1) % BELLS)
#else
#define BELL(thread) (thread)
#endif

/* arb_waiting/src/sleepers.rt: pub(crate) fn ring(&self */
inline ring_thread(me) {
    /*| if word >= FIRST_PLACE */
    /*| && value != WAITING */
    /*| && let Some(bell) = self.bells.get(word - FIRST_PLACE) */
    /*| { */
    /*| bell.ring(); */
    /*| } */
    if
#if defined RINGS_WHERE_WAITING
    :: place[stale] == waiting ->
#elif defined RINGS_FOR_CORES_ALONE
    :: place[stale] == core ->
#else
    :: place[stale] != waiting && WAKES(stale, me) ->
#endif
#ifdef RINGS_ANOTHER_BELL
        ring((stale + 1) % BELLS, me)
#else
        ring(stale, me)
#endif
    :: else
    fi
}

/* giving an order */

/* arb_waiting/src/giving.rt: fn begin_at_last<R: Wait>(rt: &R */
inline begin_at_last(me) {
    /*| let mut patience = Patience::new(); */
    listens = false;
    /*| for _ in rt.forever() { */
    do
    :: true ->
        /*| if member.begin() { */
        /*| patience.leave(&sleepers.lock); */
        /*| return; */
        /*| } */
        begin();
        if
        :: in_turn ->
#ifndef BEGUN_STAYS
            leave_where_joined(me);
#endif
            break
        :: !in_turn
        fi;
        /*| patience.rest_among(rt, &sleepers.lock); */
        rest_among(me)
    od
    /*| } */
    /*| unreachable!() */
}

/* arb_waiting/src/giving.rt: fn post_all(member: &mut MemberOrTurn */
inline post_all(me) {
    /*| while let Some((word, value)) = member.post() { */
    /*| sleepers.ring(word, value); */
    /*| } */
    do
    :: atomic {
        next_stale();
        if
        :: stale == NONE -> break
        :: stale < NONE ->
#ifdef POST_RINGS_FIRST
            skip
#else
            store_post()
#endif
        fi
        };
#if defined POST_RINGS_LAST_ALONE
        last = stale
#elif defined POST_RINGS_NOBODY
        skip
#else
        ring_thread(me)
#endif
#ifdef POST_RINGS_FIRST
        ;
        store_post()
#endif
    od;
#ifdef POST_RINGS_LAST_ALONE
    if
    :: last < NONE -> stale = last; last = NONE; ring_thread(me)
    :: else
    fi;
#endif
    stale = NONE
}

/* arb_waiting/src/giving.rt: pub fn give<R: Wait>(&mut self */
inline give(order, me) {
    /*| begin_at_last(rt, &mut self.member, &self.sleepers); */
    begin_at_last(me);
    /*| let reply = self.member.step(client, order); */
    step(order);
    /*| post_all(&mut self.member, &self.sleepers); */
    post_all(me);
#ifdef GIVE_WAKES_FIRST
    wake_one();
#endif
    /*| self.member.end(); */
    give_back();
    /*| self.sleepers.lock.wake_one(); */
    if
#if defined GIVE_WAKES_NOBODY || defined GIVE_WAKES_FIRST || defined SLEEPERS_NOT_SHARED
    :: true
#elif defined FULL_WAKES_NOBODY
    :: no_reply
    :: !no_reply -> wake_one()
#else
    :: true -> wake_one()
#endif
    fi
    /*| reply */
}

/* waiting for a core */

/* arb_waiting/src/readings.rt: pub fn place(&mut self */
inline read_place() {
    /*| .. */
    /*| let word = self.member.read(place_index(thread)); */
    /*| place_in_word(topology, word).unwrap_or(Place::Unmanaged) */
    is_waiting = (word[thread] == waiting)
}

/* arb_waiting/src/readings.rt: pub fn wait_for_core<R: Wait>(&mut self */
inline wait_for_core(me) {
    /*| let mut patience = Patience::new(); */
    listens = false;
    /*| for _ in rt.forever() { */
    do
    :: true ->
        /*| let place = self.place(thread); */
        /*| if place != Place::Waiting { */
        /*| return place; */
        /*| } */
        read_place();
        if
        :: !is_waiting -> break
        :: is_waiting
        fi;
        /*| patience.rest(rt, self.sleepers.bell(thread)); */
        rest(BELL(thread), me)
    od;
    atomic { forget(BELL(thread), me) }
    /*| } */
    /*| unreachable!() */
}

/* `thread` is the one whose order it is, or whose core the member waits for */
#define MEMBER SLEEPER; bool in_turn, is_waiting, no_reply; byte thread, stale = NONE

/* waits for its core, and hands it on */
proctype worker(byte me) {
    MEMBER;
    byte turns = TURNS;
    thread = me;
    do
    :: turns > 0 ->
        give(block, me);
        wait_for_core(me);
        give(retire, me);
        turns--
    :: turns == 0 -> break
    od
}

/* waits for the core of thread 0 */
proctype watcher(byte me) {
    MEMBER;
    wait_for_core(me)
}

/* gives its orders */
proctype giver(byte me) {
    MEMBER;
    byte orders = ORDERS;
    do
    :: orders > 0 ->
        give(status, me);
        no_reply = false;
        orders--
    :: orders == 0 -> break
    od
}

/* has the application leave */
proctype leaver(byte me) {
    MEMBER;
    give(leaves, me)
}

init {
    byte me;
    atomic {
        do
        :: me < WORKERS -> run worker(me); me++
        :: else -> break
        od;
        do
        :: me < WORKERS + WATCHERS -> run watcher(me); me++
        :: else -> break
        od;
        do
        :: me < WORKERS + WATCHERS + GIVERS -> run giver(me); me++
        :: else -> break
        od;
#ifdef LEAVES
        run leaver(me)
#endif
    }
    _nr_pr == 1;
    assert(room_count == 0)
}
