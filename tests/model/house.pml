/*
 * A small house: a server and its clients, over a queue of PLACES messages. CALLERS clients give ORDERS orders each, one after
 * another or two at a time, and close. With WAITS there is one client more: it blocks and waits for a core, which the last order of
 * another one gives it. The server may be out of memory where it asks for some, or be dropped before it serves: then it ends early.
 *
 * Shown in all orders:
 * - each thread ends;
 * - in the end nobody is counted among the waiters, and each client counts as closing once;
 * - a server without a fault has taken all that was put, and each order that it takes has room;
 * - no memory is asked for where only close marks come;
 * - a client that waits for a core is told of the server's end only where no core came.
 *
 * sleepers.pml says how to read this.
 */

#ifdef WAITS
#define CLIENTS (CALLERS + 1)
#else
#define CLIENTS CALLERS
#endif
#define WAITER CLIENTS          /* the client that waits is the last one */
#define SERVER 0                /* clients are 1, 2, ..; a bell has the number of its sleeper */
#define BELLS (CLIENTS + 1)
#define MOST_OPEN 2

#include "sleepers.pml"

mtype = { plain, block, grant, mark }   /* what a message says */

chan queue = [PLACES] of { byte, mtype };
byte answers[BELLS];            /* how many answers lie in each client's channel */
bool hung_up;                   /* the channels have no sender any more */
bool placed;                    /* whether the waiter's place word says a core; otherwise it says waiting */
bool ended;
byte closing;

byte marks;                     /* how many marks were put */
bool failed;                    /* the server ends early */

/* the desk */

/* arb_page/src/pages.rt: pub fn ring_all(&self) */
inline ring_all() {
    /*| for k in 0..CLIENTS { */
    /*| self.bells[k].ring(); */
    /*| } */
#ifdef WAITS
    ring(WAITER, SERVER)        /* on the others nobody sleeps */
#else
    skip
#endif
}

/* arb_desk/src/desk.rt: pub fn end(&self) */
inline desk_end() {
    /*| self.ended.store(true, Ordering::SeqCst); */
#if !defined ENDED_LAST && !defined ENDED_NEVER
    ended = true;
#endif
    /*| self.room.wake_all(); */
#ifndef END_WAKES_NO_ROOM
    wake_all();
#endif
    /*| self.pages.ring_all(); */
#ifndef END_RINGS_NO_PLACE
    ring_all();
#endif
#ifdef ENDED_LAST
    ended = true;
#endif
}

/* arb_house/src/ends.rt: pub fn end(self) -> Arc<Desk<K>, Global> */
    /*| let Ends { desk } = self; */
    /*| desk.end(); */
    /*| desk */

/* the same where the server is dropped */
/* arb_house/src/ends.rt: fn drop(self) */
    /*| let Ends { desk } = self; */
    /*| desk.end(); */

/* the server */

/* arb_desk/src/desk.rt: pub fn closing(&self) -> usize */
    /*| self.closing.load(Ordering::SeqCst) */

/* arb_house/src/looks.rt: pub(crate) fn look(orders: &Orders */
    /*| is_empty(orders, pass).then_some(NoMessage(())) */

/* arb_house/src/looks.rt: pub(crate) fn look<K: Set>(desk: &Desk<K> */
    /*| (desk.closing() >= clients).then_some(OnlyMarks(())) */

/* arb_house/src/server.rt: fn make_room<K: Set>( */
inline make_room() {
#ifdef CLOSING_READ_FIRST
    all_close = (closing >= CLIENTS);
#endif
    /*| if recorder.has_room() { */
    /*| return Ok(Room::Ready); */
    /*| } */
    if
    :: room > 0 -> may_take = true
    :: atomic {
        room == 0 ->
        /*| if let Some(seen) = NoMessage::look(&desk.orders, pass) { */
        /*| return Err(Untaken::NoMessage(seen)); */
        /*| } */
        may_take = nempty(queue);
        only_marks = (marks == CLIENTS)
        }
        if
        :: !may_take
        :: atomic {
            may_take ->
            /*| if let Some(seen) = OnlyMarks::look(desk, clients) { */
#ifndef CLOSING_READ_FIRST
            all_close = (closing >= CLIENTS);
#endif
            /*| return Ok(Room::NotNeeded(seen)); */
            /*| } */
            if
            :: all_close
            :: else ->
                assert(!only_marks);
                /*| match recorder.reserve() { */
                /*| Ok(()) => Ok(Room::Ready), */
                /*| Err(Memory) => Err(Untaken::Memory), */
                /*| } */
                if
                :: room = 1
                :: room = 2
#ifdef MEMORY_AT_LAST
                :: true -> false        /* no memory comes: it goes round for good */
#else
                :: failed = true; may_take = false
#endif
                fi
            fi;
            only_marks = false;
            all_close = false
            }
        fi
    fi
}

/* arb_house/src/looks.rt: pub(crate) fn take_one<R: Wait>( */
    /*| match take(rt, orders, pass) { */
    /*| Some(message) => Ok(message), */
    /*| None => Err(NoMessage(())), */
    /*| } */

/* arb_house/src/server.rt: fn have_room<K: Set, R: Wait>(rt: &R */
    /*| match room { */
    /*| Room::Ready => {} */
    /*| Room::NotNeeded(seen) => recorder.reserve_at_last(rt, seen), */
    /*| } */

/* arb_page/src/pages.rt: pub(crate) fn ring_thread(&self */
inline ring_thread() {
    /*| if word >= FIRST_PLACE */
    /*| && value != WAITING */
    /*| && let Some(bell) = self.bells.get(word - FIRST_PLACE) */
    /*| { */
    /*| bell.ring(); */
    /*| } */
#ifdef PLACE_RINGS_NOBODY
    skip
#else
    ring(WAITER, SERVER)
#endif
}

/* arb_page/src/writer.rt: pub fn post(&mut self */
inline post_core() {
#ifdef PLACE_RINGS_FIRST
    ring_thread();
#endif
    /*| append::<K, Brand>(pages, &mut self.seat, word, value); */
    placed = true;
    /*| pages.ring_thread(word, value); */
#ifndef PLACE_RINGS_FIRST
    ring_thread()
#endif
}

/* what an order does to the waiter's place: the posts that follow it */
inline record() {
#ifdef WAITS
    if
    :: what == plain
    :: what == grant && !blocked -> core = true
    :: what == block && !core -> blocked = true
    :: (what == grant && blocked) || (what == block && core) -> post_core()
    fi;
#endif
    skip
}

/* arb_house/src/server.rt: fn turn<R: Wait>(&mut self */
inline turn() {
    /*| let clients = self.answers.len(); */
    /*| let room = make_room(&self.ends.desk, &mut self.pass, &mut self.recorder, clients)?; */
    make_room();
#ifdef WAKES_BEFORE_TAKING
    if
    :: may_take -> wake_one()
    :: else
    fi;
#endif
    if
    :: !may_take
    /*| let message = match take_one(rt, &self.ends.desk.orders, &mut self.pass) { */
    /*| Ok(message) => message, */
    /*| Err(seen) => return Err(Untaken::NoMessage(seen)), */
    /*| }; */
    :: atomic {
        may_take ->
        if
        :: queue ? client, what -> found = true; forget(SERVER, SERVER)
        :: empty(queue)
        fi;
        may_take = false
        }
        if
        :: !found
        :: found ->
            /*| self.ends.desk.room.wake_one(); */
#if defined MARK_WAKES_NOBODY
            if
            :: what != mark -> wake_one()
            :: else
            fi;
#elif !defined WAKES_BEFORE_TAKING && !defined TAKE_WAKES_NOBODY
            wake_one();
#endif
            /*| let Message { client, body } = message; */
            /*| match body { */
            if
            /*| Body::Close => self.clients.close(client), */
            :: what == mark -> closed++
            /*| Body::Put(order) => { */
            :: what != mark ->
                /*| have_room(rt, &mut self.recorder, room); */
                assert(room > 0);
                /*| let answer = self.recorder.record(&self.ends.desk.pages, client, &order); */
                room--;
                record();
                /*| self.send(rt, client, answer); */
                /*| } */
                atomic {
                    assert(answers[client] < MOST_OPEN);
                    answers[client]++
                }
            fi;
            client = 0;
            what = 0
            /*| } */
            /*| Ok(()) */
        fi
    fi
}

/* arb_house/src/server.rt: fn rest<R: Wait>(rt: &R */
    /*| if watch.has_slept() { */
    /*| thread::yield_now(); */
    /*| } */
    /*| watch.rest(rt, messages); */

/* arb_house/src/server.rt: fn end(self, fault: Option<Memory>) */
inline server_end() {
    /*| let Server { */
    /*| ends, */
    /*| pass, */
    /*| recorder, */
    /*| clients, */
    /*| answers: _, */
    /*| } = self; */
    /*| let desk = ends.end(); */
    desk_end();
    /*| .. */
    assert(failed || empty(queue));
#ifndef SENDERS_STAY
    hung_up = true
#endif
}

/* arb_house/src/server.rt: pub fn serve<R: Wait>(mut self */
proctype server() {
    SLEEPER;
    byte client, closed, room;
    mtype what;
    bool may_take, found, only_marks, all_close, blocked, core;
    if
    :: true                     /* it serves */
    :: failed = true            /* it is dropped, since a thread can't be started */
    fi;
    /*| let mut watch = Watch::new(); */
    /*| for _ in rt.forever() { */
    do
    /*| if self.all_closed() { */
    /*| break; */
    /*| } */
    :: closed == CLIENTS || failed -> break
    :: else ->
        /*| match self.turn(rt) { */
        turn();
        if
        /*| Ok(()) => watch.found(), */
        :: found -> found = false
        /*| Err(Untaken::Memory) => return self.end(Some(Memory)), */
        :: failed
        /*| Err(Untaken::NoMessage(seen)) => { */
        :: !failed && !found ->
            /*| rest(rt, &mut watch, &self.ends.desk.messages, seen); */
            rest(SERVER, SERVER)
            /*| } */
        fi
        /*| } */
    od;
    /*| } */
    /*| self.end(None) */
    server_end()
}

/* a client */

/* arb_desk/src/desk.rt: pub fn has_ended(&self) -> bool */
    /*| self.ended.load(Ordering::SeqCst) */

/* arb_client/src/posting.rt: pub(crate) fn look_for_end(&mut self) */
inline look_for_end() {
    /*| self.ended = self.desk.has_ended(); */
    saw_end = ended
}

/* arb_client/src/posting.rt: fn put_order<R: Wait>(&mut self */
inline put_order(me, order) {
#ifdef RINGS_BEFORE_PUT
    ring(SERVER, me);
#endif
#ifdef BELL_TESTED_BEFORE_PUT
    d_step { load_bell(SERVER, me) };
#endif
    /*| .. */
    /*| if !put(rt, &self.desk.orders, &mut self.pass, message) { */
    /*| return false; */
    /*| } */
    /*| self.desk.messages.ring(); */
    /*| self.out.push_reserved(asked); */
    /*| true */
    if
    :: full(queue) -> done = false
    :: atomic { nfull(queue) -> queue ! me, order; done = true }
#ifdef FIRST_ORDER_RINGS
        if
        :: open > 0
        :: open == 0 -> ring(SERVER, me)
        fi;
#elif defined BELL_TESTED_BEFORE_PUT
        ring_loaded(SERVER, me);
#elif !defined ORDER_RINGS_NOBODY && !defined RINGS_BEFORE_PUT
        ring(SERVER, me);
#endif
        open++
    fi
}

/* arb_client/src/posting.rt: fn refusal(&self) */
    /*| if self.shut || self.ended { */
    /*| return Some(PostFault::Gone); */
    /*| } */
    /*| .. */

/* arb_client/src/posting.rt: pub fn post<R: Wait>(&mut self */
inline post(me, order) {
    /*| self.look_for_end(); */
#ifndef POST_LOOKS_FOR_NO_END
    look_for_end();
#endif
    /*| if let Some(fault) = self.refusal() { */
    /*| return Err(fault); */
    /*| } */
    /*| .. */
    /*| if self.put_order(rt, OpenOrder { order, orders_seen }) { */
    /*| Ok(()) */
    /*| } else { */
    /*| Err(PostFault::Busy) */
    /*| } */
    if
    :: saw_end -> gone = true
    :: !saw_end -> put_order(me, order)
    fi
}

/* arb_client/src/posting.rt: pub(crate) fn post_at_last<R: Wait>(&mut self */
inline post_at_last(me, order) {
    /*| let mut patience = Patience::new(); */
    listens = false;
    /*| for _ in rt.forever() { */
    do
    :: true ->
        /*| let answer = self.post(rt, *order); */
        post(me, order);
        /*| if answer != Err(PostFault::Busy) { */
        /*| patience.leave(&self.desk.room); */
        /*| return answer; */
        /*| } */
        if
        :: done || gone ->
#ifndef POST_STAYS
            leave_where_joined(me);
#endif
            break
        :: else
        fi;
        /*| patience.rest_among(rt, &self.desk.room); */
        rest_among(me)
    od
    /*| } */
    /*| unreachable!() */
}

/* arb_client/src/collecting.rt: pub fn collect<R: Wait>(&mut self */
inline collect(me) {
    /*| if self.out.is_empty() { */
    /*| return Err(CollectFault::NothingOut); */
    /*| } */
    /*| let Some(answer) = self.answers.recv(rt) else { */
    /*| return Err(self.shut(CollectFault::Gone)); */
    /*| }; */
    /*| self.take_answer(answer) */
    atomic {
        if
        :: answers[me] > 0 -> answers[me]--; open--
        :: answers[me] == 0 && hung_up -> open = 0; gone = true
        fi
    }
}

/* arb_client/src/calling.rt: pub fn call<R: Wait>(&mut self */
inline call(me, order) {
    /*| match self.post_at_last(rt, &order) { */
    /*| Ok(()) => match self.collect(rt) { */
    /*| Ok(reply) => Ok(reply), */
    /*| Err(fault) => Err(CallFault::Collect(fault)), */
    /*| }, */
    /*| Err(fault) => Err(CallFault::Post(fault)), */
    /*| } */
    post_at_last(me, order);
    if
    :: gone
    :: !gone -> done = false; collect(me)
    fi
}

/* arb_client/src/calling.rt: fn look(&mut self) */
    /*| match self.place() { */
    /*| Place::On { core, asked: _ } => Some(Ok(core)), */
    /*| Place::Waiting if self.ended => { */
    /*| let gone = self.shut(CollectFault::Gone); */
    /*| Some(Err(WaitFault::Call(CallFault::Collect(gone)))) */
    /*| } */
    /*| Place::Waiting => None, */
    /*| place => Some(Err(WaitFault::Lost(place))), */
    /*| } */

/* arb_page/src/pages.rt: pub fn bell(&self */
    /*| &self.bells[client.index()] */

/* arb_client/src/calling.rt: pub fn wait_for_core<R: Wait>(&mut self */
    /*| match self.call(rt, Order::Block) { */
    /*| Ok(Reply::Refused(refusal)) => Err(WaitFault::Refused(refusal)), */
    /*| Ok(_) => self.watch(rt), */
    /*| Err(fault) => Err(WaitFault::Call(fault)), */
    /*| } */

/* arb_client/src/calling.rt: fn watch<R: Wait>(&mut self */
inline watch(me) {
    /*| let mut patience = Patience::new(); */
    listens = false;
    /*| for _ in rt.forever() { */
    do
    :: true ->
#ifdef PLACE_BEFORE_FLAG
        on_core = placed;
#endif
        /*| self.look_for_end(); */
        look_for_end();
        /*| if let Some(found) = self.look() { */
        /*| return found; */
        /*| } */
#ifndef PLACE_BEFORE_FLAG
        on_core = placed;
#endif
        if
        :: on_core -> break
        :: !on_core && saw_end -> assert(!placed); break
        :: !on_core && !saw_end
        fi;
        /*| patience.rest(rt, self.desk.pages.bell(self.id)); */
        rest(me, me)
    od;
    atomic { forget(me, me) }
    /*| } */
    /*| unreachable!() */
}

/* arb_desk/src/desk.rt: pub fn puts_no_more(&self) */
inline puts_no_more() {
    /*| self.closing.fetch_add(1, Ordering::SeqCst); */
    closing++
}

/* arb_client/src/closing.rt: fn put_mark<K: Set, R: Wait>( */
inline put_mark(me) {
    /*| desk.puts_no_more(); */
#if !defined COUNTS_OFTEN && !defined COUNTS_LAST && !defined COUNTS_BEFORE_COLLECTING
    puts_no_more();
#endif
    /*| let mut patience = Patience::new(); */
    listens = false;
    /*| for _ in rt.forever() { */
    do
    :: true ->
#ifdef COUNTS_OFTEN
        puts_no_more();
#endif
        /*| if desk.has_ended() { */
        /*| patience.leave(&desk.room); */
        /*| return false; */
        /*| } */
#ifndef CLOSE_LOOKS_FOR_NO_END
        look_for_end();
#endif
        if
        :: saw_end ->
#ifndef END_STAYS
            leave_where_joined(me);
#endif
            break
        :: !saw_end
        fi;
        /*| let mark = Message { */
        /*| client: id, */
        /*| body: Body::Close, */
        /*| }; */
        /*| if put(rt, &desk.orders, pass, mark) { */
#ifdef MARK_RINGS_FIRST
        ring(SERVER, me);
#endif
        if
        :: full(queue)
        :: atomic { nfull(queue) -> queue ! me, mark; marks++ }
            /*| desk.messages.ring(); */
#if !defined MARK_RINGS_NOBODY && !defined MARK_RINGS_FIRST
            ring(SERVER, me);
#endif
            /*| patience.leave(&desk.room); */
#ifndef MARK_STAYS
            leave_where_joined(me);
#endif
            /*| return true; */
            /*| } */
            break
        fi;
        /*| patience.rest_among(rt, &desk.room); */
        rest_among(me)
    od;
#ifdef COUNTS_LAST
    puts_no_more();
#endif
    skip
    /*| } */
    /*| unreachable!() */
}

/* arb_client/src/closing.rt: pub fn close<R: Wait>(mut self */
inline close(me) {
#ifdef COUNTS_BEFORE_COLLECTING
    puts_no_more();
#endif
    /*| while self.out() > 0 { */
    /*| let _reply = self.collect(rt); */
    /*| } */
    do
    :: open > 0 -> collect(me)
    :: open == 0 -> break
    od;
    /*| .. */
    /*| let marked = put_mark(rt, &desk, &mut pass, id); */
    /*| .. */
    put_mark(me)
}

#define CLIENT SLEEPER; byte open; bool saw_end, gone, done

/* gives its orders, the next one before the last one's answer or after it, and closes */
proctype caller(byte me; mtype last) {
    CLIENT;
    byte left = ORDERS;
    mtype order;
    do
    :: left > 0 && !gone ->
        order = (left == 1 -> last : plain);
        if
        :: open == 0 -> post_at_last(me, order)
        :: open > 0 && open < MOST_OPEN -> post(me, order)
        fi;
        if
        :: done -> left--; done = false
        :: !done && !gone -> collect(me)        /* the queue is full */
        :: gone
        fi
    :: left > 0 && open > 0 -> collect(me)
    :: left == 0 || gone -> break
    od;
    left = 0;
    order = 0;
    saw_end = false;
    close(me)
}

/* waits for a core, and closes */
proctype waiter() {
    CLIENT;
    bool on_core;
    call(WAITER, block);
    if
    :: gone
    :: !gone -> watch(WAITER)
    fi;
    saw_end = false;
    close(WAITER)
}

init {
    byte client = CALLERS;
    atomic {
        run server();
#ifdef WAITS
        run waiter();
        run caller(client, grant);
        client--;
#endif
        do
        :: client > 0 -> run caller(client, plain); client--
        :: else -> break
        od
    }
    _nr_pr == 1;
    assert(room_count == 0);
    assert(closing == CLIENTS);
    assert(failed || marks == CLIENTS)
}
