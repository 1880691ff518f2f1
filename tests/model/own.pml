/*
 * The own thread of a house in C, whose files are in `house`: how it rests and is rung for, how a call waits for room in the journal's
 * buffer, and how a close waits for calls that are inside. CALLERS threads make CALLS calls each, of one order. An order may ask a
 * core back, or give one back. The buffer has room for RECORDS orders, of which a call wants one; with 0 there is no journal. The
 * house is closed once nothing else can happen, and with HURRIES at any time.
 *
 * Shown in all orders:
 * - each thread ends: those that call, the own one, and the one that closes;
 * - where nothing else can happen, no core is asked back, since its tick has come, and no call sleeps for room;
 * - the buffer has room for each order;
 * - once the close has ended, no call is inside.
 *
 * threads.pml has what an order does to threads. sleepers.pml says how to read this. A sleep with a limit ends at any time. A count is
 * kept as the threads that have seen the number that it has now. What only the lock's holder sees is no step of its own.
 */

#define BIT(me) (1 << (me))
#define OWN CALLERS
#define CLOSER (CALLERS + 1)
#define NOBODY (CALLERS + 2)

mtype = { awake, rests_shortly, rests }

byte lock = NOBODY;             /* the thread that has it */
mtype state = awake;            /* the house's `rest` */
bool closed, wanted;
bool asked;                     /* a core is asked back */
byte records;                   /* orders in the journal's buffer */

bool bell_seen;                 /* the own thread has seen the number that `bell` has now */
bool own_asleep;                /* the kernel holds it asleep */
byte emptied_seen;              /* the callers that have seen the number that `emptied` has now */
byte emptied_asleep;

byte inside;
bool closing;
bool inside_seen;               /* the closer has seen the number that `inside` has now */
bool closer_asleep;

bool own_ended, over;           /* the own thread, and the close */

#define HELD bool ring, refused, last

/* journal.c */

/* house/journal.c: bool voldazpe_house_journal_has_room( */
    /*| return !house->journal || house->journal->front->count <= RECORDS - HOLD; */
#define HAS_ROOM (RECORDS == 0 || records < RECORDS)

/* house/journal.c: bool voldazpe_house_journal_is_half_full( */
    /*| return house->journal && house->journal->front->count > RECORDS / 2; */
#define IS_HALF_FULL (RECORDS > 0 && records > RECORDS / 2)

/* house/journal.c: void voldazpe_house_journal_order( */
inline journal_order() {
    /*| buffer_t *front = house->journal->front; */
    /*| front->records[front->count++] = (record_t){*order, *reply, client}; */
    if
    :: RECORDS == 0
    :: else -> assert(records < RECORDS); records++
    fi
}

/* house/journal.c: void voldazpe_house_journal_write( */
inline journal_write() {
    /*| .. */
    /*| journal->front->count = 0; */
    /*| house->wanted = false; */
    /*| atomic_fetch_add(&house->emptied, 1); */
    /*| voldazpe_house_unlock(house); */
#ifdef EMPTIED_WAKES_FIRST
    d_step { emptied_asleep = 0 }
#endif
    d_step {
        records = 0;
        wanted = false;
#ifndef EMPTIED_COUNTS_NOTHING
        emptied_seen = 0;
#endif
        lock = NOBODY
    }
    /*| voldazpe_house_wake(&house->emptied); */
#if !defined EMPTIED_WAKES_NOBODY && !defined EMPTIED_WAKES_FIRST
    d_step { emptied_asleep = 0 }
#endif
    /*| for (uint32_t i = 0; i < full->count; i++) write_record(house, &full->records[i]); */
    /*| flush_texts(house); */
    /*| voldazpe_house_lock(house); */
    take_lock(OWN)
}

/* calls.c */

inline take_lock(me) {
    atomic { lock == NOBODY -> lock = me }
}

/* house/calls.c: void voldazpe_house_exit( */
inline exit_house() {
    /*| if (atomic_fetch_sub(&house->inside, 1) == CLOSING + 1) voldazpe_house_wake(&house->inside); */
    d_step {
        inside--;
        inside_seen = false;
        last = (closing && inside == 0)
    }
    if
#ifndef EXIT_WAKES_NOBODY
    :: d_step { last -> closer_asleep = false; last = false }
#else
    :: last -> last = false
#endif
    :: !last
    fi
}

/* house/calls.c: voldazpe_house_code_t voldazpe_house_enter( */
inline enter() {
    /*| .. */
    /*| if (atomic_fetch_add(&house->inside, 1) < CLOSING) return VOLDAZPE_OK; */
    d_step {
        inside++;
        inside_seen = false;
        refused = closing
    }
    /*| voldazpe_house_exit(house); */
    /*| return VOLDAZPE_HOUSE_CLOSED; */
    if
#ifndef REFUSED_STAYS_INSIDE
    :: refused -> exit_house()
#else
    :: refused
#endif
    :: !refused
    fi
}

/* house/calls.c: static bool has_work( */
inline has_work() {
    /*| if (house->rest == AWAKE) return false; */
    if
    :: state == awake -> ring = false
    /*| if (house->closed || house->wanted || voldazpe_house_journal_is_half_full(house)) return true; */
#ifndef CLOSE_RINGS_NOBODY
    :: state != awake && closed -> ring = true
#endif
#ifndef ROOM_RINGS_NOBODY
    :: state != awake && (wanted || IS_HALF_FULL) -> ring = true
#endif
    /*| return house->asked > 0 && house->rest == RESTS; */
#if defined ASKED_RINGS_NOBODY
    :: else -> ring = false
#elif defined ASKED_RINGS_SHORTLY
    :: else -> ring = (asked && state == rests_shortly)
#else
    :: else -> ring = (asked && state == rests)
#endif
    fi
}

/* house/calls.c: __attribute__((noinline)) static void unlock_wake_and_tell( */
    /*| .. */
    /*| voldazpe_house_unlock(house); */
    /*| for (uint32_t i = 0; i < wake_count; i++) voldazpe_house_wake(wakes[i]); */
    /*| if (ring) voldazpe_house_wake(&house->bell); */
    /*| .. */

/* house/calls.c: void voldazpe_house_finish( */
inline finish() {
    d_step {
        /*| bool ring = has_work(house); */
        has_work();
        /*| if (ring) { */
        if
        :: ring ->
            /*| house->rest = AWAKE; */
            state = awake;
            /*| atomic_fetch_add(&house->bell, 1); */
#ifndef RING_COUNTS_NOTHING
            bell_seen = false
#endif
            /*| } */
        :: else
        fi;
        /*| .. */
        /*| if (ring || house->event_count > 0 || house->wake_count > 0) unlock_wake_and_tell(house, ring); */
        /*| else voldazpe_house_unlock(house); */
        lock = NOBODY
    }
    if
#ifndef RING_WAKES_NOBODY
    :: d_step { ring -> own_asleep = false; ring = false }
#else
    :: ring -> ring = false
#endif
    :: !ring
    fi
}

/* house/calls.c: static void await_room( */
inline await_room(me) {
    /*| uint32_t seen = VOLDAZPE_LOAD(&house->emptied); */
    /*| house->wanted = true; */
    d_step {
#ifndef ROOM_READ_UNLOCKED
        emptied_seen = emptied_seen | BIT(me);
#endif
        wanted = true
    }
    /*| voldazpe_house_finish(house); */
    finish();
#ifdef ROOM_READ_UNLOCKED
    d_step { emptied_seen = emptied_seen | BIT(me) }
#endif
    /*| while (VOLDAZPE_LOAD(&house->emptied) == seen) (void)voldazpe_house_sleep(&house->emptied, seen, -1); */
    do
    :: emptied_seen & BIT(me) ->
        d_step { emptied_asleep = emptied_asleep | (emptied_seen & BIT(me)) }
        (emptied_asleep & BIT(me)) == 0
    :: else -> break
    od;
    /*| voldazpe_house_lock(house); */
    take_lock(me)
}

/* house/calls.c: voldazpe_house_code_t voldazpe_house_begin( */
inline begin(me) {
    /*| voldazpe_house_lock(house); */
    take_lock(me);
    /*| while (!house->closed && !voldazpe_house_journal_has_room(house)) { */
    do
    :: !closed && !HAS_ROOM ->
        /*| if (pthread_equal(house->own, pthread_self())) voldazpe_house_journal_write(house); */
        /*| else await_room(house); */
        await_room(me)
        /*| } */
    /*| if (house->closed) { */
    /*| voldazpe_house_unlock(house); */
    /*| return VOLDAZPE_HOUSE_CLOSED; */
    /*| } */
    :: d_step { closed -> refused = true; lock = NOBODY } break
    :: !closed && HAS_ROOM -> break
    od
    /*| .. */
    /*| return VOLDAZPE_OK; */
}

/* clock.c */

/* house/clock.c: static bool works( */
inline works() {
    /*| if (house->wanted || voldazpe_house_journal_is_half_full(house)) { */
    if
    :: wanted || IS_HALF_FULL ->
        /*| voldazpe_house_journal_write(house); */
        journal_write();
        /*| return true; */
        /*| } */
        worked = true
    /*| if (until_tick(house) > 0) return false; */
    :: !(wanted || IS_HALF_FULL) -> worked = false
    /*| voldazpe_house_tick(house); */
    /*| return true; */
    :: d_step { !(wanted || IS_HALF_FULL) && asked -> journal_order(); asked = false; worked = true }
    fi
}

/* house/clock.c: static void rest( */
inline rest() {
    /*| uint32_t seen = VOLDAZPE_LOAD(&house->bell); */
    /*| uint64_t pause = until_tick(house); */
    /*| house->rest = pause == UINT64_MAX ? RESTS : RESTS_SHORTLY; */
    /*| voldazpe_house_unlock(house); */
    d_step {
#ifndef BELL_READ_UNLOCKED
        bell_seen = true;
#endif
        shortly = asked;
#ifndef REST_SET_UNLOCKED
        state = (shortly -> rests_shortly : rests);
#endif
        lock = NOBODY
    }
#ifdef BELL_READ_UNLOCKED
    d_step { bell_seen = true }
#endif
#ifdef REST_SET_UNLOCKED
    d_step { state = (shortly -> rests_shortly : rests) }
#endif
    /*| (void)voldazpe_house_sleep(&house->bell, seen, pause == UINT64_MAX ? -1 : (int64_t)pause * 1000); */
    d_step { own_asleep = bell_seen }
    if
    :: !own_asleep
    :: d_step { own_asleep && shortly -> own_asleep = false }
    fi;
    /*| voldazpe_house_lock(house); */
    /*| house->rest = AWAKE; */
    /*| voldazpe_house_unlock(house); */
    atomic {
        lock == NOBODY ->
        state = awake;
        bell_seen = false;
        shortly = false
    }
}

/* house/clock.c: void *voldazpe_house_live( */
proctype own() {
    HELD;
    bool worked, shortly;
    /*| .. */
    /*| while (opened) { */
    do
    /*| voldazpe_house_lock(house); */
    :: take_lock(OWN);
        /*| if (house->closed) break; */
        if
        :: closed -> break
        :: !closed
        fi;
        /*| if (works(house)) voldazpe_house_finish(house); */
        works();
        if
        :: worked -> worked = false; finish()
        /*| else rest(house); */
        :: !worked -> rest()
        fi
        /*| } */
    od;
    /*| if (opened) { */
    /*| if (house->journal) voldazpe_house_journal_write(house); */
#ifndef CLOSE_WAKES_NO_ROOM
    if
    :: RECORDS > 0 -> journal_write()
    :: else
    fi;
#endif
    /*| voldazpe_house_unlock(house); */
    atomic {
        lock = NOBODY;
        own_ended = true
    }
    /*| .. */
}

/* house.c */

/* house/house.c: static bool is_last( */
inline is_last() {
    /*| voldazpe_house_list_lock(); */
    /*| voldazpe_house_lock(house); */
    take_lock(CLOSER)
    /*| .. */
    /*| if (!house->closed && --house->opens == 0) return true; */
    /*| .. */
}

/* house/house.c: static void end_all( */
inline end_all() {
    /*| house->closed = true; */
    /*| atomic_fetch_or(&house->inside, CLOSING); */
    d_step {
        closed = true;
        closing = true;
        inside_seen = false
    }
    /*| .. */
    /*| atomic_fetch_add(&house->emptied, 1); */
#ifndef CLOSE_WAKES_NO_ROOM
    d_step { emptied_seen = 0 }
#endif
    /*| voldazpe_house_wake(&house->emptied); */
#ifndef CLOSE_WAKES_NO_ROOM
    d_step { emptied_asleep = 0 }
#endif
    /*| voldazpe_house_list_remove(house); */
    /*| voldazpe_house_list_unlock(); */
    /*| voldazpe_house_finish(house); */
#ifndef CLOSE_UNLOCKS_ONLY
    finish()
#else
    d_step { lock = NOBODY }
#endif
}

/* house/house.c: voldazpe_house_code_t voldazpe_house_close( */
proctype closer() {
    HELD;
    bool nobody;
    if
#ifdef HURRIES
    :: true
#endif
    :: timeout ->
        assert(!asked);
        assert(emptied_asleep == 0)
    fi;
    /*| .. */
    /*| voldazpe_house_code_t code = voldazpe_house_enter(house); */
    enter();
    /*| .. */
    /*| bool last = is_last(house, &code); */
    is_last();
    /*| if (last) { */
    /*| end_all(house); */
    end_all();
    /*| (void)pthread_join(house->own, NULL); */
    own_ended;
    /*| } */
    /*| voldazpe_house_exit(house); */
    exit_house();
    /*| if (last) { */
    /*| for (uint32_t inside; (inside = VOLDAZPE_LOAD(&house->inside)) != CLOSING;) { */
    do
    :: d_step { nobody = (inside == 0); inside_seen = true }
        if
        :: nobody -> break
        :: !nobody ->
            /*| (void)voldazpe_house_sleep(&house->inside, inside, -1); */
            d_step { closer_asleep = inside_seen }
            !closer_asleep
            /*| } */
        fi
    od;
    /*| .. */
    over = true
}

/* another thread: it makes calls with the house's pointer, of one order each */
proctype caller(byte me) {
    HELD;
    byte calls = CALLS;
    do
    :: calls > 0 && !refused ->
        calls--;
        enter();
        if
        :: refused
        :: !refused ->
            begin(me);
            if
            :: refused
            :: !refused ->
                atomic {
                    assert(!over);
                    journal_order();
                    if
                    :: asked = true
                    :: asked = false
                    :: true
                    fi
                }
#ifndef CALL_UNLOCKS_ONLY
                finish()
#else
                d_step { lock = NOBODY }
#endif
            fi;
            assert(!over);
            exit_house()
        fi
    :: else -> break
    od
}

init {
    byte me;
    atomic {
        run own();
        run closer();
        do
        :: me < CALLERS -> run caller(me); me++
        :: else -> break
        od
    }
    _nr_pr == 1;
    assert(inside == 0)
}
