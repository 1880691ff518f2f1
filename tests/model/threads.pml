/*
 * Threads of a house in C, whose files are in `house`: how a thread waits for a core, is pinned and is woken. There are two threads,
 * each of an application of its own, and CORES managed cores. Each thread waits up to TURNS times, and works in between until its core
 * is asked back. With RETURNS the first one may also give its core back or leave. With LIMITS its waits may end at a limit, and with
 * CANCELS it may be cancelled as it sleeps. With POLLS its waits have a limit of 0. With HOOKS a hook is told of the cores that they
 * give back by waits.
 *
 * Meanwhile other threads give WANTS orders, each of which may ask a core back, want one back no longer or give one. The house's own
 * thread moves a thread whose core is asked back. With STOPS the first thread's wait is ended, once, at any time. With WITHDRAWS its
 * application is withdrawn at any time. The house is
 * closed once nothing else can happen, and with HURRIES at any time. What the arbiter decides is left open: any order may give any
 * free core to a thread that waits.
 *
 * Shown in all orders:
 * - each thread ends, and then has the mask that it had before (`unpinned`);
 * - where nothing else can happen, a thread that sleeps has a word that says so, and nobody has ended its wait (`woken`);
 * - a thread that works, and whose word names a core, is pinned to that core (`pinned`);
 * - a thread that works, gives its core back or leaves isn't pinned to a core that another thread's word names (`alone`);
 * - while the lock is free, a thread that works without a core has the unmanaged mask, and an ended one the mask of before (`unpinned`);
 * - a thread without a core that gives an order to block has the unmanaged mask (`unpinned`);
 * - a hook that is told of a core which its thread gave back doesn't run on it (`elsewhere`).
 *
 * A thread works from the return of its wait to its next call. From the order of a wait to its return it may be on another's core: until
 * it sleeps, as it sleeps, and until it has undone a pinning that came too late.
 *
 * sleepers.pml says how to read this. What only the lock's holder sees is no step of its own. Here MOST_WAKES is 1.
 */

/* a core's number, or one of these */
#define ASKED 2                 /* a core that is asked back is this and its number */
#define NONE 4
#define WAITS 5
#define TO_END 6                /* it waits, and that wait is to end */
#define CLOSED 7
#define WITHDRAWN 8
#define HAS_CORE(word) ((word) < NONE)
#define KEEPS(word) ((word) < ASKED)
#define CORE(word) (KEEPS(word) -> (word) : (HAS_CORE(word) -> (word) - ASKED : ASKED))
#define ENDS(word) ((word) > TO_END)

/* a mask: a core's number, or one of these */
#define UNMANAGED 2
#define BEFORE 3

/* who there is, beside the threads 1 and 2 */
#define NOBODY 0
#define OTHER 3

/* what a thread is in: no call, or one of these */
#define WORKING 0
#define RETURNING 1             /* giving back what it has, or leaving */
#define WAITING 2               /* a wait, from its order on */

byte word[3] = NONE;
byte place[3] = NONE;           /* what the arbiter says, in the form of a word */
bool seated[3] = true;
bool sleeps[3];
#ifdef STOPS
bool ends[3];                   /* whether its wait, or else its next one, is to end */
#endif
bool asleep[3];                 /* whether the kernel holds it asleep on its word */
byte mask[3] = UNMANAGED;
byte phase[3];                  /* what it is in */

byte lock;                      /* who has it */
byte self;                      /* the thread that gives the orders, where they are its own */
byte kept;                      /* the sleeper that is to be woken once the lock is free */
bool closed;

/* what each may have while it holds the lock, and whom it wakes after it */
#define HOLDER byte shown, before, next, wakes; bool another, slept, refused

hidden byte alone, pinned, unpinned, woken, elsewhere;

#define ALONE(one, other) (phase[one] == WAITING || mask[one] >= UNMANAGED || CORE(word[other]) != mask[one])
#define PINNED(one) (phase[one] != WORKING || !HAS_CORE(word[one]) || mask[one] == CORE(word[one]))
#define UNPINNED(one) (phase[one] != WORKING || lock != NOBODY || HAS_CORE(word[one]) || \
                       mask[one] == (ENDS(word[one]) -> BEFORE : UNMANAGED))

/* what is shown at each moment */
inline check() {
    alone = ALONE(1, 2) && ALONE(2, 1);
    pinned = PINNED(1) && PINNED(2);
    unpinned = UNPINNED(1) && UNPINNED(2);
    assert(alone);
    assert(pinned);
    assert(unpinned)
}

/* stores that are seen late: by their thread at once, by the others at any time; a word's before the lock is free */

#if defined NONE_STORED_LATE || defined WORD_STORED_LATE || defined END_STORED_LATE
byte late;                      /* whose word it is, or nobody's */
byte late_word;

/* a word as the lock's holder sees it */
#define WORD(thread) (late == thread -> late_word : word[thread])

inline see_late() {
    if
    :: late != NOBODY -> word[late] = late_word; late = NOBODY; late_word = 0
    :: else
    fi
}

inline store_late(thread, next) {
    d_step {
        see_late();
        late = thread;
        late_word = next
    }
}

active proctype memory() {
end:
    do
    :: d_step { late != NOBODY -> see_late() }
    od
}
#else
#define WORD(thread) word[thread]

inline see_late() {
    skip
}
#endif

#ifdef SLEEPS_STORED_LATE
bool late_sleeps[3];

active proctype memory() {
end:
    do
    :: d_step { late_sleeps[1] -> sleeps[1] = true; late_sleeps[1] = false }
    :: d_step { late_sleeps[2] -> sleeps[2] = true; late_sleeps[2] = false }
    od
}
#endif

inline store(thread, next) {
    d_step {
        see_late();
        word[thread] = next;
        check()
    }
}

/* the operating system */

inline run_on(thread, processors) {
    d_step {
        mask[thread] = processors;
        check()
    }
}

/* the lock */

inline unlock() {
    see_late();
    lock = NOBODY;
    check()
}

/* house/calls.c: voldazpe_house_code_t voldazpe_house_begin( */
inline begin(me) {
    /*| voldazpe_house_lock(house); */
    /*| .. */
    /*| if (house->closed) { */
    /*| voldazpe_house_unlock(house); */
    /*| return VOLDAZPE_HOUSE_CLOSED; */
    /*| } */
    /*| house->self = -1; */
    /*| return VOLDAZPE_OK; */
    lock == NOBODY;
    if
    :: closed -> refused = true
    :: else -> lock = me; self = NOBODY
    fi
}

/* house/calls.c: void voldazpe_house_wake_later( */
inline wake_later(thread) {
    /*| if (house->wake_count == MOST_WAKES) voldazpe_house_wake(house->wakes[--house->wake_count]); */
#ifndef MORE_WAKES_FORGOTTEN
    if
    :: kept != NOBODY -> asleep[kept] = false
    :: else
    fi;
#endif
    /*| house->wakes[house->wake_count++] = word; */
    kept = thread
}

/* house/calls.c: void voldazpe_house_finish( */
    /*| .. */
    /*| house->self = -1; */
    /*| if (ring || house->event_count > 0 || house->wake_count > 0) unlock_wake_and_tell(house, ring); */
    /*| else voldazpe_house_unlock(house); */

/* house/calls.c: __attribute__((noinline)) static void unlock_wake_and_tell( */
inline finish() {
    /*| .. */
    /*| void *wakes[MOST_WAKES]; */
    /*| uint32_t event_count = house->event_count, wake_count = house->wake_count; */
    /*| .. */
    /*| memcpy(wakes, house->wakes, wake_count * sizeof *wakes); */
    /*| house->event_count = house->wake_count = 0; */
    /*| .. */
    /*| voldazpe_house_unlock(house); */
    d_step {
#ifndef FINISH_KEEPS_SELF
        self = NOBODY;
#endif
        wakes = kept;
        kept = NOBODY;
        unlock()
    }
    /*| for (uint32_t i = 0; i < wake_count; i++) voldazpe_house_wake(wakes[i]); */
    if
    :: d_step { wakes != NOBODY -> asleep[wakes] = false; wakes = NOBODY }
    :: wakes == NOBODY
    fi
    /*| .. */
}

/* the arbiter: what an order may change */

#define IS_ASKED(thread) (HAS_CORE(place[thread]) && !KEEPS(place[thread]))
#define FREE(core) (CORE(place[1]) != core && CORE(place[2]) != core)

inline give_free_core(thread) {
    if
    :: place[thread] == WAITS && FREE(0) -> place[thread] = 0
#if CORES == 2
    :: place[thread] == WAITS && FREE(1) -> place[thread] = 1
#endif
    :: true
    fi
}

/* whoever waits is given a free core, or isn't */
inline give_free_cores() {
    give_free_core(1);
    give_free_core(2)
}

inline order_block(me) {
    /* not the core that it gives back */
    if
#if CORES == 2
    :: place[me] != ASKED && FREE(0) -> place[me] = 0
    :: place[me] != ASKED + 1 && FREE(1) -> place[me] = 1
#else
    :: place[me] == NONE && FREE(0) -> place[me] = 0
#endif
    :: place[me] = WAITS
    fi;
    give_free_core(3 - me)
}

/* of a retire, and of a leave */
inline order_end(thread) {
    place[thread] = NONE;
    give_free_cores()
}

inline order_want() {
    if
    :: KEEPS(place[1]) -> place[1] = place[1] + ASKED
    :: KEEPS(place[2]) -> place[2] = place[2] + ASKED
    :: IS_ASKED(1) -> place[1] = place[1] - ASKED
    :: IS_ASKED(2) -> place[2] = place[2] - ASKED
    :: give_free_cores()
    fi
}

inline order_tick() {
    if
    :: IS_ASKED(1) -> place[1] = NONE
    :: IS_ASKED(2) -> place[2] = NONE
#if CORES == 2
    :: IS_ASKED(1) && IS_ASKED(2) -> place[1] = NONE; place[2] = NONE
#endif
    fi;
    give_free_cores()
}

/* orders.c */

/* house/orders.c: static void wake( */
inline wake(thread) {
    /*| if (VOLDAZPE_LOAD(&thread->sleeps)) voldazpe_house_wake_later(house, &thread->handle.word); */
    d_step {
        slept = sleeps[thread];
        wake_where_it_slept(thread)
    }
}

inline wake_where_it_slept(thread) {
    if
    :: slept -> wake_later(thread); slept = false
    :: else
    fi
}

/* house/orders.c: static void show( */
inline look_at(thread) {
    /*| registration_t *thread = house->threads[seat]; */
    /*| if (!thread) return; */
    /*| int32_t before = VOLDAZPE_LOAD(&thread->handle.word), word = word_of(house, seat); */
    /*| bool another = (int32_t)seat != house->self && word_core(before) != word_core(word); */
    /*| if (before == word) return; */
    before = WORD(thread);
    next = place[thread];
    another = (thread != self && CORE(before) != CORE(next))
#ifdef SLEEPS_READ_FIRST
    ;
    slept = sleeps[thread]
#endif
}

inline show_word(thread) {
    /*| if (another && word_has_core(before)) { */
    if
    :: another && HAS_CORE(before) ->
        /*| VOLDAZPE_STORE(&thread->handle.word, WORD_NONE); */
#if defined NONE_STORED_LATE
        store_late(thread, NONE);
#elif !defined NONE_NOT_STORED && !defined NONE_STORED_LAST
        store(thread, NONE);
#endif
        /*| voldazpe_house_run_on(house, thread->id, &house->unmanaged); */
#ifndef MOVED_STAYS_PINNED
        run_on(thread, UNMANAGED);
#endif
#ifdef NONE_STORED_LAST
        store(thread, NONE);
#endif
        /*| .. */
        /*| } */
        skip
    :: else
    fi;
    /*| if (another && word_has_core(word)) voldazpe_house_run_on_core(house, thread->id, word_core(word)); */
#ifdef STORED_BEFORE_PINNING
    store(thread, next);
#endif
    if
    :: another && HAS_CORE(next) -> before = CORE(next); run_on(thread, before)
    :: else
    fi;
#ifdef SLEEPS_READ_BEFORE_STORE
    slept = sleeps[thread];
#endif
    /*| VOLDAZPE_STORE(&thread->handle.word, word); */
#if defined WORD_STORED_LATE
    store_late(thread, next);
#elif !defined STORED_BEFORE_PINNING
    store(thread, next);
#endif
    /*| if (word != WORD_WAITS) wake(house, thread); */
    if
    :: next == WAITS
    :: next != WAITS ->
#if defined SLEEPS_READ_FIRST || defined SLEEPS_READ_BEFORE_STORE
        d_step { wake_where_it_slept(thread) }
#elif defined SHOW_WAKES_NOBODY
        skip
#else
        wake(thread)
#endif
    fi
    /*| .. */
}

#define SAID(thread) (WORD(thread) == TO_END -> WAITS : WORD(thread))
#define IS_TO_SHOW(thread) (seated[thread] && SAID(thread) != place[thread])
#define LOSES(thread) (IS_TO_SHOW(thread) && HAS_CORE(WORD(thread)) && CORE(WORD(thread)) != CORE(place[thread]))
#ifdef GIVEN_BEFORE_LOST
#define FIRST(thread) (IS_TO_SHOW(thread) && !LOSES(thread))
#else
#define FIRST(thread) LOSES(thread)
#endif

/* the posts of an order: whoever loses a core comes before who is given it */
/* house/orders.c: voldazpe_code_t voldazpe_house_order( */
    /*| .. */
    /*| while ((code = voldazpe_lib_member_post(&house->member, &next)) == VOLDAZPE_OK) { */
    /*| if (next.word >= VOLDAZPE_FIRST_PLACE) post(house, next.word - VOLDAZPE_FIRST_PLACE, (uint32_t)next.value); */
    /*| } */
    /*| return code == VOLDAZPE_SETTLED ? VOLDAZPE_OK : (voldazpe_code_t)code; */
inline posts() {
    do
    :: atomic {
        IS_TO_SHOW(1) || IS_TO_SHOW(2) ->
        if
        :: FIRST(1) -> shown = 1
        :: FIRST(2) -> shown = 2
        :: else -> shown = (IS_TO_SHOW(1) -> 1 : 2)
        fi;
        look_at(shown)
        }
        show_word(shown);
        shown = NOBODY
    :: atomic { !IS_TO_SHOW(1) && !IS_TO_SHOW(2) -> break }
    od
}

/* house/orders.c: void voldazpe_house_end( */
inline end_wait(thread) {
    /*| VOLDAZPE_STORE(&thread->ends, 1); */
    /*| if (VOLDAZPE_LOAD(&thread->handle.word) != WORD_WAITS) return; */
    d_step {
        ends[thread] = true;
        shown = (WORD(thread) == WAITS -> thread : NOBODY)
    }
    if
    :: shown == NOBODY
    :: shown != NOBODY ->
        /*| VOLDAZPE_STORE(&thread->handle.word, WORD_ENDS); */
#ifndef STOP_STORES_NOTHING
        store(thread, TO_END);
#endif
        /*| wake(house, thread); */
#ifndef STOP_WAKES_NOBODY
        wake(thread);
#endif
        shown = NOBODY
    fi
}

/* house/orders.c: void voldazpe_house_detach( */
inline detach(thread, its_end) {
    /*| int32_t before = VOLDAZPE_LOAD(&thread->handle.word); */
    /*| house->threads[thread->seat] = NULL; */
    /*| thread->seat = -1; */
#ifdef DETACH_UNPINS_FIRST
    run_on(thread, BEFORE);
#endif
    atomic {
        seated[thread] = false;
        /*| VOLDAZPE_STORE(&thread->handle.word, word); */
#ifdef END_STORED_LATE
        store_late(thread, its_end)
#else
        store(thread, its_end)
#endif
    }
    /*| voldazpe_house_run_on(house, thread->id, &thread->before); */
#ifndef DETACH_UNPINS_FIRST
    run_on(thread, BEFORE);
#endif
    /*| wake(house, thread); */
#ifndef DETACH_WAKES_NOBODY
    wake(thread)
#else
    skip
#endif
    /*| .. */
}

/* wait.c */

/* house/wait.c: static bool pin( */
inline pin(me, its_core) {
    /*| voldazpe_house_t *house = me->house; */
    /*| voldazpe_house_run_on_core(house, 0, core); */
    d_step {
        phase[me] = WAITING;
        mask[me] = its_core;
        check()
    }
    /*| int32_t word = word_of(me); */
    /*| if (word_core(word) == core) return true; */
    d_step {
#ifdef PIN_NO_LOOK
        got = true;
#else
        got = (CORE(word[me]) == its_core);
#endif
        seen = word[me];
        if
        :: got -> phase[me] = WORKING; check()
        :: else
        fi
    }
    /*| voldazpe_house_run_on(house, 0, ending(word) == VOLDAZPE_OK ? &house->unmanaged : &me->before); */
    /*| return false; */
    if
    :: got
    :: !got ->
#if defined PIN_NOT_UNDONE
        skip
#elif defined PIN_UNDONE_TO_BEFORE
        run_on(me, BEFORE)
#else
        seen = (ENDS(seen) -> BEFORE : UNMANAGED);
        run_on(me, seen)
#endif
    fi
}

/* house/wait.c: static void unpin( */
inline unpin(me) {
    /*| voldazpe_house_run_on(me->house, 0, &me->house->unmanaged); */
    run_on(me, UNMANAGED);
    /*| if (ending(word_of(me)) != VOLDAZPE_OK) voldazpe_house_run_on(me->house, 0, &me->before); */
#ifndef UNPIN_NO_LOOK
    if
    :: ENDS(word[me]) -> run_on(me, BEFORE)
    :: else
    fi
#endif
}

/* house/wait.c: static bool sleep_once( */
inline sleep_once(me) {
    /*| .. */
    /*| long slept = syscall(SYS_futex, &me->handle.word, FUTEX_WAIT_PRIVATE, WORD_WAITS, nanoseconds < 0 ? NULL : &limit, */
    /*| NULL, 0); */
    /*| .. */
#ifdef KERNEL_COMPARES_READ
    seen = word[me];
#else
    seen = WAITS;
#endif
    d_step {
        asleep[me] = (word[me] == seen);
        seen = 0
    }
    if
    :: !asleep[me]
#ifdef LIMITS
    :: d_step { me == 1 && asleep[me] -> asleep[me] = false; over = true }
#endif
#ifdef CANCELS
    :: d_step { me == 1 && asleep[me] -> asleep[me] = false; cancelled = true }
#endif
    fi
}

/* house/wait.c: static void cancelled( */
    /*| .. */
    /*| unpin(me); */

/* house/wait.c: static void sleep_while_waiting( */
inline sleep_while_waiting(me) {
    /*| if (word_of(me) != WORD_WAITS) return; */
    if
    :: word[me] != WAITS
    :: word[me] == WAITS ->
        /*| .. */
        /*| VOLDAZPE_STORE(&me->sleeps, 1); */
#if defined SLEEPS_STORED_LATE
        late_sleeps[me] = true;
#else
        sleeps[me] = true;
#endif
        /*| while (word_of(me) == WORD_WAITS && *left != 0) { */
        do
        :: word[me] == WAITS && !over && !cancelled ->
            /*| bool more = sleep_once(me, *left); */
            sleep_once(me)
        :: else -> break
            /*| .. */
            /*| } */
        od;
        /*| VOLDAZPE_STORE(&me->sleeps, 0); */
        /*| pthread_cleanup_pop(0); */
        if
        :: cancelled -> unpin(me)
        :: !cancelled ->
#ifdef SLEEPS_STORED_LATE
            late_sleeps[me] = false;
#endif
            sleeps[me] = false
        fi
    fi
}

/* house/wait.c: static blocked_t block( */
inline block(me) {
    /*| .. */
    /*| if (voldazpe_house_begin(house) != VOLDAZPE_OK) return it; */
    atomic {
        begin(me);
        /*| int32_t before = word_of(me); */
        /*| if (ending(before) == VOLDAZPE_OK && before < 0) { */
        if
        :: refused || KEEPS(word[me]) || ENDS(word[me])
        :: else ->
            unpinned = (word[me] != NONE || mask[me] == UNMANAGED);
            assert(unpinned);
            /*| bool has_core = word_has_core(before); */
            /*| it.vain = !sleeps && in_vain(me, has_core, &it.code); */
            /*| house->self = me->seat; */
            self = me;
            seen = word[me];
            if
#ifdef POLLS
            /*| if (it.code == VOLDAZPE_OK && (!it.vain || has_core)) { */
            /*| it.code = voldazpe_house_order(house, (uint32_t)me->seat, it.vain ? voldazpe_retire() : voldazpe_block(), &reply); */
            /*| } */
            :: HAS_CORE(seen) && me == 1 -> vain = true; order_end(me)
            :: !HAS_CORE(seen) && me == 1 -> vain = true
#endif
            :: phase[me] = WAITING; order_block(me)
            fi;
            pins = pins || (HAS_CORE(place[me]) && CORE(place[me]) != CORE(seen));
#ifdef HOOKS
            if
            :: HAS_CORE(seen) && CORE(place[me]) != CORE(seen) -> lost = CORE(seen)
            :: else
            fi;
#endif
            seen = 0
            /*| } */
        fi
    }
    if
    :: refused -> refused = false
    :: !refused ->
        posts();
        /*| int32_t word = word_of(me); */
        /*| it.waits = word == WORD_WAITS; */
        /*| if (it.waits && VOLDAZPE_LOAD(&me->ends)) VOLDAZPE_STORE(&me->handle.word, WORD_ENDS); */
#if defined STOPS && !defined BLOCK_LOOKS_FOR_NO_STOP
        if
        :: word[me] == WAITS && ends[me] -> store(me, TO_END)
        :: else
        fi;
#endif
        /*| it.other = word_has_core(word) && word_core(word) != word_core(before); */
        /*| voldazpe_house_finish(house); */
        /*| if (word_core(word) != word_core(before)) it.lost = word_core(before); */
        /*| return it; */
#ifdef BLOCK_UNLOCKS_ONLY
        atomic { unlock() }
#else
        finish()
#endif
    fi
}

/* house/wait.c: static voldazpe_house_code_t retire( */
inline retire(me, only_waiting) {
    /*| .. */
    /*| if (voldazpe_house_begin(house) != VOLDAZPE_OK) return code; */
    atomic {
        begin(me);
        /*| int32_t word = word_of(me); */
        /*| if (word == WORD_WAITS || word == WORD_ENDS || (word_has_core(word) && !only_waiting)) { */
        if
        :: !refused && (word[me] == WAITS || word[me] == TO_END || (HAS_CORE(word[me]) && !only_waiting)) ->
            /*| .. */
            /*| house->self = me->seat; */
            /*| code = voldazpe_house_order(house, (uint32_t)me->seat, voldazpe_retire(), &reply); */
            self = me;
            order_end(me)
            /*| } */
        :: else
        fi
    }
    if
    :: refused -> refused = false
    :: !refused ->
        posts();
        /*| voldazpe_house_finish(house); */
        /*| return code; */
        finish()
    fi
}

/* house/wait.c: static void tell( */
inline tell_lost(me) {
    /*| .. */
    /*| voldazpe_house_tell(house, &event, voldazpe_house_listener(house, me->application)); */
    /*| voldazpe_house_exit(house); */
    d_step {
        elsewhere = (mask[me] != lost || CORE(place[me]) == lost); /* or it is its own again */
        assert(elsewhere);
        lost = NONE
    }
}

/* a call returns */
inline back(me) {
    phase[me] = WORKING;
    check()
}

/* house/wait.c: static voldazpe_house_code_t why( */
    /*| return atomic_exchange(&me->ends, 0) ? VOLDAZPE_HOUSE_WAIT_ENDED : VOLDAZPE_TIMED_OUT; */
inline stop_ends() {
#ifdef STOPS
    ends[me] = false;
#endif
    skip
}

/* house/wait.c: __attribute__((noinline)) static voldazpe_house_code_t wait_for_core( */
inline wait_for_core(me) {
    /*| for (;;) { */
    do
    :: true ->
        /*| voldazpe_house_code_t code = ending(word_of(me)); */
        /*| if (code != VOLDAZPE_OK) { */
        if
        /*| voldazpe_house_run_on(me->house, 0, &me->before); */
        /*| return code; */
#ifdef END_RETURNS_AS_IT_IS
        :: d_step { ENDS(word[me]) -> ended = true; back(me) } break
#else
        :: d_step { ENDS(word[me]) -> ended = true; mask[me] = BEFORE; back(me) } break
#endif
        /*| } */
        :: !ENDS(word[me])
        fi;
        /*| bool pins = left == 0 && word_has_core(word_of(me)); */
        /*| if (pins) unpin(me); */
#ifdef POLLS
        if
        :: me == 1 && !HAS_CORE(word[me]) -> over = true
        :: me == 1 && HAS_CORE(word[me]) ->
            d_step { over = true; phase[me] = RETURNING; check() }
#ifndef POLL_STAYS_PINNED
            unpin(me);
            pins = true
#endif
        :: me != 1
        fi;
#endif
        /*| blocked_t it = block(me, left != 0); */
        /*| if (it.code != VOLDAZPE_OK) return it.code; */
        block(me);
        /*| if (it.lost >= 0 && voldazpe_house_has_hook(me->house)) { */
        /*| if (!pins) unpin(me); */
        /*| pins = true; */
        /*| tell(me, VOLDAZPE_HOUSE_LOST, it.lost); */
        /*| } */
#ifdef HOOKS
        if
        :: lost != NONE ->
#ifndef TOLD_ON_ITS_CORE
            unpin(me);
#endif
#ifndef TOLD_PINS_NOT
            pins = true;
#endif
            tell_lost(me)
        :: lost == NONE
        fi;
#endif
        /*| if (it.vain) return why(me); */
#ifdef POLLS
        if
        :: d_step { vain -> vain = false; back(me) } break
        :: !vain
        fi;
#endif
        /*| pins = pins || it.other; */
        /*| sleep_while_waiting(me, &left); */
        sleep_while_waiting(me);
        if
        :: cancelled -> cancelled = false; ended = true; break
        :: !cancelled
        fi;
        /*| int32_t word = word_of(me); */
        seen = word[me];
        /*| if (word == WORD_WAITS || word == WORD_ENDS) { */
        if
        :: seen == WAITS || seen == TO_END ->
            /*| unpin(me); */
            unpin(me);
            /*| pins = true; */
            d_step {
#ifndef LIMIT_PINS_NOT
                pins = true;
#endif
                over = true;
                phase[me] = RETURNING;
                check()
            }
            /*| code = retire(me, true); */
            /*| if (code != VOLDAZPE_OK) return code; */
            retire(me, true);
            /*| word = word_of(me); */
            seen = word[me]
            /*| if (word == WORD_NONE) return why(me); */
            /*| } */
        :: else
        fi;
        if
        :: d_step { over && seen == NONE -> stop_ends(); back(me) } break
        /*| if (word_has_core(word) && (!pins || pin(me, word_core(word)))) { */
        /*| if (it.waits || it.other) tell(me, VOLDAZPE_HOUSE_GOT, word_core(word)); */
        /*| return VOLDAZPE_OK; */
        /*| } */
        :: HAS_CORE(seen) && pins -> shown = CORE(seen); pin(me, shown); shown = NOBODY
        :: d_step { HAS_CORE(seen) && !pins -> got = true; back(me) }
        :: else
        fi;
        if
        :: got -> break
        :: !got -> pins = false; seen = 0
        fi
    od;
    /*| } */
    atomic {
        pins = false;
        over = false;
        seen = 0
    }
}

/* house/wait.c: voldazpe_house_code_t voldazpe_house_give_back( */
inline give_back(me) {
    /*| .. */
    /*| int32_t word = word_of(me); */
    /*| voldazpe_house_code_t code = ending(word); */
    /*| if (code != VOLDAZPE_OK || !word_has_core(word)) return code; */
    /*| .. */
    if
    :: !HAS_CORE(word[me])
    :: d_step { HAS_CORE(word[me]) -> phase[me] = RETURNING; check() }
        /*| unpin(me); */
#ifndef GIVE_BACK_UNPINS_LAST
        unpin(me);
#endif
        /*| code = retire(me, false); */
        retire(me, false);
#ifdef GIVE_BACK_UNPINS_LAST
        unpin(me);
#endif
        /*| return code == VOLDAZPE_OK ? ending(word_of(me)) : code; */
        d_step { back(me) }
    fi
}

/* seats.c */

/* house/seats.c: static voldazpe_house_code_t leave(registration_t *me) { */
inline leave(me) {
    /*| .. */
    /*| voldazpe_house_run_on(house, 0, &me->before); */
    d_step {
        phase[me] = RETURNING;
        mask[me] = BEFORE;
        check()
    }
    /*| if (voldazpe_house_begin(house) == VOLDAZPE_OK) { */
    atomic {
        begin(me);
        registered = (!refused && seated[me])
    }
    if
    :: refused -> refused = false
    :: !refused ->
        /*| if (me->seat >= 0) { */
        if
        :: registered ->
            registered = false;
            /*| uint32_t seat = (uint32_t)me->seat, place = house->place[seat]; */
            /*| voldazpe_house_detach(house, me, WORD_NONE); */
#ifndef LEAVE_DETACHES_NOT
            detach(me, NONE);
#else
            seated[me] = false;
            store(me, NONE);
#endif
            /*| _Static_assert(VOLDAZPE_PLACE_KINDS == 4, "who is elsewhere has nothing to give back"); */
            /*| if (place >= 4 || place == VOLDAZPE_WAITING) { */
            /*| code = voldazpe_house_order(house, seat, voldazpe_retire(), &reply); */
            /*| } */
            atomic { order_end(me) }
            posts()
            /*| } */
        :: !registered
        fi;
        /*| voldazpe_house_finish(house); */
        finish()
        /*| } */
    fi;
    /*| .. */
    unpinned = (mask[me] == BEFORE);
    assert(unpinned)
}

/* house/seats.c: voldazpe_house_code_t voldazpe_house_withdraw( */
inline withdraw(thread) {
    /*| .. */
    atomic {
        begin(OTHER);
        registered = seated[thread]
    }
    /*| for (uint32_t seat = first; seat < first + VOLDAZPE_THREADS; seat++) { */
    /*| if (house->threads[seat]) voldazpe_house_detach(house, house->threads[seat], WORD_WITHDRAWN); */
    /*| } */
    if
    :: registered -> detach(thread, WITHDRAWN)
    :: !registered
    fi;
    registered = false;
    /*| code = voldazpe_house_order(house, first, voldazpe_leave(), &reply); */
    atomic { order_end(thread) }
    posts();
    /*| .. */
    /*| end_for(house); */
    finish()
    /*| .. */
}

/* house.c */

/* house/house.c: static bool is_last( */
    /*| voldazpe_house_list_lock(); */
    /*| voldazpe_house_lock(house); */
    /*| .. */
    /*| if (!house->closed && --house->opens == 0) return true; */
    /*| .. */

/* house/house.c: static void end_all( */
inline end_all() {
    /*| house->closed = true; */
    /*| .. */
    atomic {
        lock == NOBODY ->
        lock = OTHER;
        closed = true;
        shown = 1
    }
    /*| for (uint32_t seat = 0; seat < VOLDAZPE_ALL_THREADS; seat++) { */
    /*| if (house->threads[seat]) voldazpe_house_detach(house, house->threads[seat], WORD_CLOSED); */
    /*| } */
    do
    :: shown < 3 && seated[shown] -> detach(shown, CLOSED);
        shown++
    :: atomic { shown < 3 && !seated[shown] -> shown++ }
    :: shown == 3 -> shown = NOBODY; break
    od;
    /*| .. */
    /*| voldazpe_house_finish(house); */
    finish()
}

/* a thread of an application: it waits, works and leaves */
proctype thread(byte me) {
    HOLDER;
    byte turns = TURNS, seen;
    bool pins, got, over, cancelled, ended, registered;
#ifdef POLLS
    bool vain;
#endif
#ifdef HOOKS
    byte lost = NONE;
#endif
    do
    :: turns > 0 && !ended ->
        turns--;
        wait_for_core(me);
        if
        :: !got
        :: got ->
            got = false;
            if
            :: !KEEPS(word[me])
#ifdef RETURNS
            :: me == 1 -> give_back(me)
            :: me == 1 -> ended = true
#endif
            fi
        fi
    :: turns == 0 && !ended && ENDS(word[me]) -> ended = true
    :: ended -> break
    od;
    turns = 0;
    ended = false;
    leave(me)
}

/* The house's own thread, which moves threads whose core is asked back; and another one, which wants more and fewer cores, withdraws
 * an application, and closes the house. They are one, since each does all of it under the lock. */
/* house/clock.c: void voldazpe_house_tick( */
    /*| .. */
    /*| (void)voldazpe_house_order(house, VOLDAZPE_CLOCK, voldazpe_tick(moment(house)), &reply); */
proctype others() {
    HOLDER;
    byte wants = WANTS;
    bool withdrawn, registered;
#ifdef STOPS
    byte stops = 1;
#endif
    do
    :: atomic { lock == NOBODY && (IS_ASKED(1) || IS_ASKED(2)) -> lock = OTHER; order_tick() }
        posts();
        finish()
    :: atomic { wants > 0 && lock == NOBODY -> wants--; begin(OTHER); order_want() }
        posts();
        finish()
#ifdef STOPS
    :: atomic { stops > 0 && lock == NOBODY && seated[1] -> stops--; begin(OTHER) }
        end_wait(1);
        finish()
#endif
#ifdef WITHDRAWS
    :: !withdrawn ->
        withdrawn = true;
        withdraw(1)
#endif
#ifdef HURRIES
    :: break
#endif
    :: timeout ->
        woken = (!asleep[1] || word[1] == WAITS) && (!asleep[2] || word[2] == WAITS);
#ifdef STOPS
        woken = woken && !(asleep[1] && ends[1]);
#endif
        assert(woken);
        break
    od;
    wants = 0;
    withdrawn = false;
    end_all()
}

init {
    atomic {
        run thread(1);
        run thread(2);
        run others()
    }
}
