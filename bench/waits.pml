/* Who waits for whom in `hl7gate gateway`. No contract says that a thread gets on, so `spin` looks at each order of these threads' steps:
 *
 *     spin -a bench/waits.pml && cc -O2 -DSAFETY -DCOLLAPSE -DMEMLIM=3000 -o pan pan.c && ./pan
 *
 * It takes two minutes, and 2 GB of memory.
 * Without an error there is no deadlock and no lost wake-up. An "invalid end state" is a thread that waits for ever. The assertion of `Stop` fails where
 * nothing more happens and a message is left. What it has: two sessions, two receivers, an install that brings the second receiver and may take the first one out,
 * a stop and a failing disk at any time, connections that end at any time. With `-DMISSING=1` to 7 one wake-up is left out, or wakes another,
 * and `pan` has to find that.
 *
 * Each part names the function that it stands for. What is done under one lock is one step. One thread takes a lock while it holds another: `all_shown` holds
 * the journal's and takes a line's, and nobody takes them the other way round.
 *
 * Time limits wake nobody here, but for a forwarder that sleeps when the gateway is stopped: `Hub::stop` rings no bell, and its half second ends. In the
 * program that half second, the reads of sockets and the pauses wake threads more often. It leaves out `hold`, `go` and `resend`, and what is looked at by time
 * alone: a disk without room, turns for long messages, the page. It also leaves out spurious wake-ups, lack of memory, records that nobody waits for (names, and the
 * plan that a file begins with), and why a message is refused: of its plan (`Stale` or not) or of its content.
 */
#ifndef FIRST
#define FIRST 1                     /* how many messages the first session has, and the second one */
#endif
#ifndef SECOND
#define SECOND 1
#endif
#ifndef INSTALL
#define INSTALL 1                   /* 0: no plan is installed, and both receivers are there from the start */
#endif
#ifndef MISSING
#define MISSING 0
#endif
#define WORDS 4                     /* threads: two sessions, two forwarders, the one for words */
#define THREADS 5

/* ---- under the journal's lock: gw_journal::Desk, gw_ledger::Ledger, gw_gateway::Office */
mtype = { stored, fresh, given };
mtype last[THREADS] = stored;       /* the record that each thread waits for: it counts; in the batch; given to the storage, which syncs */
byte fresh_for[2], given_for[2];    /* messages that are due to each receiver, likewise */
byte ready_for[2];                  /* those that count: its forwarder can read them */
bool here = true;                   /* the storage lies under the lock: no thread syncs */
bool has_failed = false;
bit batch;                          /* whether the number of the batch that was begun last is odd */
byte on_news[THREADS];              /* who sleeps on a condition of the journal: 1: `even`, 2: `odd` */
byte begun[THREADS];                /* the condition of the batch that a thread syncs, or rings for */
byte plan = 1;                      /* the receivers of the plan in force, a bit for each */

#define has(set, r) ((set >> r) & 1)
#define left(r) (fresh_for[r] + given_for[r] + ready_for[r])
#define THIS (1 + batch)            /* the condition of the batch that was begun last, and of the next */
#define NEXT (2 - batch)

/* ---- hl7gate gateway/lines.rt, hub.rt */
bool is_line[2];                    /* a receiver has a line */
bool is_planned[2];
bool is_rung[2];
bool on_bell[2];                    /* its forwarder sleeps on the condition `bell` */
bool has_ended = false;             /* Hub::stop, Hub::fail */

byte gone;                          /* how many of sessions and words have ended */
bool has_begun;                     /* where both sessions have as many messages they are alike, and the first goes first */

/* Desk::take, Ledger::take, and the number of the batch, which `settle` keeps */
inline take_one(i) { if :: last[i] == fresh -> last[i] = given :: else fi }
inline take(me) {
    take_one(0); take_one(1); take_one(2); take_one(3); take_one(4);
    given_for[0] = fresh_for[0]; given_for[1] = fresh_for[1]; fresh_for[0] = 0; fresh_for[1] = 0;
    here = false; batch = 1 - batch; begun[me] = THIS
}

/* Desk::give_back: what was given counts */
inline back_one(i) { if :: last[i] == given -> last[i] = stored :: else fi }
inline give_back() {
    back_one(0); back_one(1); back_one(2); back_one(3); back_one(4);
    ready_for[0] = ready_for[0] + given_for[0]; ready_for[1] = ready_for[1] + given_for[1]; given_for[0] = 0; given_for[1] = 0;
    here = true
}

/* Journal::ring, with the lock free: all who wait for the batch, then one of those who wait for the next; at a fault all, the ones after the others.
   Another thread may have begun the next batch meanwhile, or have brought it to its end */
inline wake(i, which) { if :: on_news[i] == which -> on_news[i] = 0 :: else fi }
inline wake_all(which) { wake(0, which); wake(1, which); wake(2, which); wake(3, which); wake(4, which) }
inline wake_one(which) {
    if
    :: on_news[0] == which -> on_news[0] = 0
    :: on_news[1] == which -> on_news[1] = 0
    :: on_news[2] == which -> on_news[2] = 0
    :: on_news[3] == which -> on_news[3] = 0
    :: on_news[4] == which -> on_news[4] = 0
    :: else
    fi
}
#if MISSING == 1
inline ring_all(me) { skip }
#elif MISSING == 2
inline ring_all(me) { wake_one(begun[me]) }
#else
inline ring_all(me) { d_step { wake_all(begun[me]) } }
#endif
#if MISSING == 6
inline ring_one(me) { skip }
#else
inline ring_one(me) { wake_one(3 - begun[me]) }
#endif
#if MISSING == 3
inline ring_others(me) { skip }
#else
inline ring_others(me) { d_step { wake_all(3 - begun[me]) } }
#endif

/* Journal::bell_of */
#if MISSING == 7
#define BELL NEXT
#else
#define BELL (last[me] == given -> THIS : NEXT)
#endif

/* Journal::settle: waits until the thread's record counts (`lost`: it never will). Who finds the storage there takes it, and syncs with the lock free */
inline settle(me) {
    do
    :: atomic { on_news[me] == 0 ->
        if
        :: last[me] == stored -> break
        :: last[me] != stored && has_failed -> lost = true; break
        :: last[me] != stored && !has_failed && !here -> on_news[me] = BELL
        :: last[me] != stored && !has_failed && here -> d_step { take(me) }; goto sync
        fi }
    od;
    goto settled;
sync: /* Job::run, with the lock free; what was given has the thread's own record */
    if
    :: d_step { give_back() }; atomic { ring_all(me) }; atomic { ring_one(me); begun[me] = 0 }
    :: has_failed = true; atomic { ring_all(me) }; atomic { ring_others(me); begun[me] = 0; lost = true }
    fi;
settled:
    skip
}

/* Hub::stop, Hub::fail: from here on nothing of lines matters, since all their waits end */
inline forget(r) { fresh_for[r] = 0; given_for[r] = 0; ready_for[r] = 0; is_planned[r] = false; is_rung[r] = false; on_bell[r] = false }
inline stop() { has_ended = true; forget(0); forget(1) }

/* Line::ring, by Ringing::ring: a receiver that has no line yet isn't rung for */
inline ring(r) {
    d_step {
        if
        :: is_line[r] && !has_ended ->
            is_rung[r] = true;
#if MISSING != 4
            on_bell[r] = false
#endif
        :: else
        fi
    }
}

/* Line::wait. The bell rings, or the gateway has ended, so that its time limit counts */
inline wait(r) {
    atomic {
        if
        :: is_rung[r] -> is_rung[r] = false
        :: !is_rung[r] -> on_bell[r] = !has_ended; !on_bell[r]; is_rung[r] = false
        fi
    }
}

/* AtLog::arrive: Office::accept under the plan in force, for its receivers; or AtLog::refuse: a record of no receiver */
inline put_for(r) { if :: has(plan, r) && !has_ended -> fresh_for[r]++ :: else fi }
inline judge() {
    if
    :: last[me] = fresh; due = due | plan; d_step { put_for(0); put_for(1) }
    :: last[me] = fresh
    fi
}

/* attend, answer_blocks over AtLog: what one read brings is judged, then secured (AtLog::secure), and the forwarders are woken (AtLog::wake) */
proctype Session(byte me; byte most) {
    byte n = 0, due = 0;
    bool lost = false;
    do
    :: atomic { n < most && (me == 0 || has_begun || FIRST != SECOND) -> has_begun = true; n++; if :: has_failed -> goto fails :: else -> judge() fi };
more:
        if
        :: atomic { n < most -> n++; if :: has_failed -> goto fails :: else -> judge() fi }; goto more
        :: true
        fi;
        settle(me);
        if :: lost -> goto fails :: else fi;
#if MISSING != 5
        if :: has(due, 0) -> ring(0) :: else fi;
        if :: has(due, 1) -> ring(1) :: else fi;
#endif
        due = 0
    :: n = 0; break
    od;
    goto ends;
fails: /* no answer goes out any more */
    atomic { lost = false; due = 0; n = 0; stop() };
ends:
    gone++
}

/* forward_all, Forwarder::run: connects, sends, and connects anew */
proctype Forwarder(byte me; byte r) {
    bool may = false, is_over = false, lost = false;
    /* go_on: Lines::next_new */
    is_line[r] || has_ended;
again:
    if
    :: has_ended -> goto ends
    :: atomic { !has_ended -> may = is_planned[r] }
    fi;
    /* Forwarder::address */
    if
    :: atomic { may || left(r) > 0 -> may = false; goto next }
    :: atomic { !(may || left(r) > 0) -> may = false }
    fi;
    wait(r);
    goto again;
next: /* Pending::next, is_ready */
    if
    :: atomic { has_ended || is_over -> is_over = false; goto again }
    :: atomic { !has_ended && !is_over && ready_for[r] > 0 -> ready_for[r]-- }; goto send
    /* Here::stands: a receiver that the plan lacks is sent what is left, and then no more */
    :: atomic { !has_ended && !is_over && left(r) == 0 -> skip }; is_over = !is_planned[r]
    :: !has_ended && !is_over && left(r) > 0 && ready_for[r] == 0
    fi;
    /* Here::wait: the receiver may have ended its connection meanwhile */
    wait(r);
    if :: true :: is_over = true fi;
    goto next;
send: /* deliver; the connection ends, or Pending::pass, `passed` */
    if
    :: atomic { !has_ended -> ready_for[r]++; goto again }
    :: has_ended -> goto ends
    :: has_failed -> goto fails
    :: atomic { !has_failed -> last[me] = fresh }
    fi;
    settle(me);
    if :: lost -> goto fails :: else fi;
    /* Pending::show */
    if
    :: left(r) > 0
    :: atomic { left(r) == 0 -> skip }; is_over = !is_planned[r]
    fi;
    goto next;
fails:
    atomic { lost = false; stop() };
ends:
    skip
}

/* `swap` and `install`: gateway/plans.rt, take: Office::take_plan, settle, begin_lines (`wanted`, then each line) */
proctype Words() {
    bool lost = false;
    if :: !INSTALL -> goto ends :: else fi;
    atomic {
        if :: has_failed -> goto fails :: else fi;
        last[WORDS] = fresh;
        if :: plan = 2 :: plan = 3 fi
    };
    settle(WORDS);
    if :: lost -> goto fails :: else fi;
    is_planned[0] = has(plan, 0) && !has_ended;
    d_step { is_line[1] = true; is_planned[1] = !has_ended };
    goto ends;
fails:
    atomic { lost = false; stop() };
ends:
    gone++
}

/* Hub::stop, at any time. Where all others have ended or sleep, nothing may be left */
proctype Stop() {
    atomic {
        assert(has_failed || has_ended || gone < 3 || !on_bell[0] || is_line[1] && !on_bell[1] || left(0) + left(1) == 0);
        d_step { stop() }
    }
}

init {
    atomic {
        is_line[0] = true; is_planned[0] = true;
        if :: INSTALL :: else -> plan = 3; is_line[1] = true; is_planned[1] = true fi;
        run Session(0, FIRST); run Session(1, SECOND);
        run Forwarder(2, 0); run Forwarder(3, 1);
        run Words(); run Stop()
    }
}
