/*
** How three processes share a store (c/store/): the turn's word, an append in its
** three steps, slots, calls, those who give up, finishes that are left to others,
** and an append that fails and can't be taken back.
**
** KILLS   how many may be killed, at any step
** STOPS   one may be stopped for ever, at any step
** LIMITS  how often the time of each may be over: while it waits, or in its leave
** LATE    at some moment the time of all is over
** FAILS   how many appends leave a torn end
** FAULT_.. plants a fault, which has to be found: c/model/run
**
** Slices end only behind a death or a failed append: so no waking among those who
** live leans on a clock. What isn't here: numbers that run out, memory that is
** weaker than sequentially consistent, rotation, opening, several threads of one
** opening, tickets (any waiter of an operation is called), faults of the kernel.
*/
#ifndef KILLS
#define KILLS 0
#endif
#ifndef STOPS
#define STOPS 0
#endif
#ifndef LIMITS
#define LIMITS 0
#endif
#ifndef FAILS
#define FAILS 0
#endif
#ifndef FIRST
#define FIRST R
#endif
#define N 3
#define R 1
#define W 2
#define FREE 0
#define WAITING 1
#define CALLED 2

byte owner; bool wait, duty;             /* the turn's word */
bool alive[N] = true;                    /* the locks of the kernel */
bool sleepsTurn[N], sleepsSlot[N];       /* who is in the kernel's queues of the words */
byte slot[N], wants[N], called[3];       /* slots; of each operation who was called, + 1 */
bool owed[N];                            /* slots with a finish that is left to others */
byte progress[N];                        /* what is in progress by the lines up to the page's end */
byte rest, restWho, restOp;              /* behind it in the file: nothing, a torn line (1), a whole one (2) */
byte inside[N];                          /* the witness: who is in what in the world */
byte holder;                             /* the witness of turns */
byte deaths, ended, fails = FAILS;
bool late;
byte stopped = N;

#define CAN(op) ((op == R && progress[0] != W && progress[1] != W && progress[2] != W) || (op == W && !progress[0] && !progress[1] && !progress[2]))
#define AGAINST(op) ((op == R && (inside[0] == W || inside[1] == W || inside[2] == W)) || (op == W && (inside[0] || inside[1] || inside[2])))
#ifdef FAULT_NO_SLICE
#define SLICE false
#else
#define SLICE (deaths > 0 || fails < FAILS)
#endif

inline append(who, op2) {
    atomic { assert(rest == 0); rest = 1; restWho = who + 1; restOp = op2 };
    atomic { assert(rest == 1 && restWho == who + 1); rest = 2 };
    atomic { assert(rest == 2 && restWho == who + 1); progress[who] = restOp; rest = 0; restWho = 0; restOp = 0 }
}
/* In each turn: the file is longer than the page says, since somebody died, or couldn't take a line back. */
inline mend() {
#ifndef FAULT_NO_MEND
    atomic { if
    :: rest == 1 -> rest = 0; restWho = 0; restOp = 0
    :: rest == 2 -> progress[restWho - 1] = restOp; rest = 0; restWho = 0; restOp = 0
    :: else
    fi }
#else
    skip
#endif
}
inline finishOwed(p) {
    if
    :: atomic { owed[p] && progress[p] } -> append(p, 0); atomic { owed[p] = 0 }
    :: atomic { else -> owed[p] = 0 }
    fi
}
inline call1(p, op2) { slot[p] == WAITING && wants[p] == op2 && CAN(op2) -> slot[p] = CALLED; called[op2] = p + 1; due[p] = 1 }
inline announce1(op2) {
    atomic { if
    :: called[op2] != 0 && slot[called[op2] - 1] == CALLED && wants[called[op2] - 1] == op2
    :: else -> if :: call1(0, op2) :: call1(1, op2) :: call1(2, op2) :: else fi
    fi }
}
inline announce() {
#if LIMITS > 0 || defined(LATE)
    finishOwed(0); finishOwed(1); finishOwed(2);
#endif
    announce1(R); announce1(W)
}
inline wakeTurn() {
#ifdef FAULT_NO_TURN_WAKE
    w = 0;
#endif
    if
    :: atomic { w && sleepsTurn[0] -> w = 0; sleepsTurn[0] = 0 }
    :: atomic { w && sleepsTurn[1] -> w = 0; sleepsTurn[1] = 0 }
    :: atomic { w && sleepsTurn[2] -> w = 0; sleepsTurn[2] = 0 }
    :: atomic { !w || !(sleepsTurn[0] || sleepsTurn[1] || sleepsTurn[2]) -> w = 0 }
    fi
}
inline wakeDue() {
#ifndef FAULT_NO_WAKE
    do
    :: atomic { due[0] -> due[0] = 0; sleepsSlot[0] = 0 }
    :: atomic { !due[0] && due[1] -> due[1] = 0; sleepsSlot[1] = 0 }
    :: atomic { !due[0] && !due[1] && due[2] -> due[2] = 0; sleepsSlot[2] = 0 }
    :: atomic { !due[0] && !due[1] && !due[2] -> break }
    od;
#endif
    atomic { due[0] = 0; due[1] = 0; due[2] = 0 }
}
/* One whose append has failed isn't current: it leaves the duty in the word. */
inline give() {
    do
    :: atomic { duty && current -> duty = 0 }; announce()
#ifdef FAULT_BLIND_GIVE
    :: atomic { !duty && current -> skip }; atomic { holder = 0; w = wait; owner = 0; wait = 0; duty = 0; break }
#else
    :: atomic { !duty && current -> holder = 0; w = wait; owner = 0; wait = 0; break }
#endif
    :: atomic { !current -> holder = 0; w = wait; owner = 0; wait = 0; duty = 1; break }
    od;
    wakeTurn();
    wakeDue();
    current = 1
}
inline holds() { assert(holder == 0 || !alive[holder - 1]); holder = me + 1 }
/* Does the duty that stands in the word, if nobody has the turn. */
inline attend() {
#ifndef FAULT_NO_ATTEND
    if
    :: atomic { duty && owner == 0 -> owner = me + 1; holds() }; mend(); give()
    :: atomic { !(duty && owner == 0) }
    fi
#else
    skip
#endif
}
inline leaveDuty() { atomic { duty = 1 }; attend() }
/* has = 1 if the turn was taken; 0 if it is late. */
inline take() {
    do
    :: atomic { owner == 0 -> owner = me + 1; wait = wait || mark; holds(); has = 1; mark = 0; looks2 = 0; isLate = 0; break }
    :: atomic { owner != 0 && looks2 -> looks2 = 0; seen = owner;
#ifdef FAULT_STALE_OWNER
        gone = 1
#else
        gone = !alive[seen - 1]
#endif
       };
       atomic { if
       :: gone && owner == seen -> owner = me + 1; wait = 1; duty = 1; holds(); has = 1; stolen = 1; gone = 0; seen = 0; mark = 0; isLate = 0; break
       :: else -> gone = 0; seen = 0
       fi }
    :: atomic { owner != 0 && !looks2 -> wait = 1; seen = owner; seenDuty = duty; if :: isLate || late -> has = 0; mark = 0; seen = 0; seenDuty = 0; break :: else fi };
       if
#ifdef FAULT_BLIND_SLEEP
       :: atomic { seen = 0; seenDuty = 0; sleepsTurn[me] = 1 };
#else
       :: atomic { !(owner == seen && wait && duty == seenDuty) -> seen = 0; seenDuty = 0 }
       :: atomic { owner == seen && wait && duty == seenDuty -> seen = 0; seenDuty = 0; sleepsTurn[me] = 1 };
#endif
          if
          :: atomic { !sleepsTurn[me] -> mark = 1 }
          :: atomic { SLICE -> sleepsTurn[me] = 0; mark = 1; looks2 = 1 }
          :: atomic { limits > 0 -> limits--; sleepsTurn[me] = 0; mark = 1; isLate = 1 }
          :: atomic { late -> sleepsTurn[me] = 0; mark = 1; isLate = 1; looks2 = 1 }
          fi
       fi
    od;
    if
    :: atomic { has && stolen -> stolen = 0; called[R] = 0; called[W] = 0 }; mend()
    :: atomic { has && !stolen }; mend()
    :: atomic { !has }
    fi
}
inline giveUp() {
    atomic { c = (slot[me] == CALLED); slot[me] = FREE };
#ifdef FAULT_CALL_DROPPED
    c = 0;
#endif
    if
    :: atomic { c -> c = 0 }; leaveDuty()
    :: atomic { !c }
    fi
}
inline bury1(p) {
    if
    :: atomic { p != me && !alive[p] -> slot[p] = FREE; owed[p] = 0 }; if :: atomic { progress[p] != 0 }; append(p, 0) :: atomic { progress[p] == 0 } fi
    :: atomic { p == me || alive[p] }
    fi
}
inline start() {
    if
#if FAILS > 0
    :: atomic { fails > 0 -> fails--; rest = 1; restWho = me + 1; restOp = op; current = 0 };
       atomic { if :: waits -> slot[me] = FREE; waits = 0 :: else fi };
       give(); attend(); atomic { ok = 0 }
#endif
#ifdef FAULT_EARLY_RELEASE
    :: atomic { assert(rest == 0); rest = 1; restWho = me + 1; restOp = op; slot[me] = FREE; waits = 0 };
       give();
       atomic { assert(rest == 1 && restWho == me + 1); rest = 2 };
       atomic { progress[me] = op; rest = 0; restWho = 0; restOp = 0; ok = 1 }
#else
    :: append(me, op);
       if
       :: atomic { waits -> waits = 0; slot[me] = FREE }; announce()
       :: atomic { !waits }
       fi;
       give(); attend(); atomic { ok = 1 }
#endif
    fi
}
inline enter() {
    do
    :: take();
        if
        :: atomic { !has && waits -> waits = 0 }; giveUp(); break
        :: atomic { !has && !waits -> break }
        :: atomic { has -> if
            :: waits && slot[me] == CALLED -> slot[me] = WAITING; if :: called[op] == me + 1 -> called[op] = 0 :: else fi
            :: else fi }
        fi;
        if
        :: atomic { !CAN(op) && looks -> looks = 0; called[R] = 0; called[W] = 0 }; bury1(0); bury1(1); bury1(2); announce()
        :: atomic { CAN(op) || !looks -> looks = 0 }
        fi;
        if
        :: atomic { CAN(op) }; start(); break
        :: atomic { !CAN(op) -> if :: !waits -> wants[me] = op; slot[me] = WAITING; waits = 1 :: else fi };
            give(); attend();
            if
#ifdef FAULT_BLIND_SLOT
            :: atomic { sleepsSlot[me] = 1 };
#else
            :: atomic { slot[me] != WAITING }
            :: atomic { slot[me] == WAITING -> sleepsSlot[me] = 1 };
#endif
                if
                :: atomic { !sleepsSlot[me] }
                :: atomic { SLICE -> sleepsSlot[me] = 0; looks = 1 }
                :: atomic { limits > 0 -> limits--; sleepsSlot[me] = 0; waits = 0 }; giveUp(); break
                :: atomic { late -> sleepsSlot[me] = 0; waits = 0 }; giveUp(); break
                fi
            fi
        fi
    od;
    atomic { waits = 0; looks = 0; has = 0; isLate = 0; looks2 = 0; mark = 0 }
}
/* One that is late leaves its finish to whoever has the next turn. */
inline leave() {
    take();
    if
    :: atomic { has };
        append(me, 0);
#ifndef FAULT_NO_ANNOUNCE
        announce();
#endif
        give(); attend()
#ifdef FAULT_OWED_UNSAID
    :: atomic { !has -> owed[me] = 1 }
#else
    :: atomic { !has -> owed[me] = 1 }; leaveDuty()
#endif
    fi;
    atomic { has = 0; isLate = 0; looks2 = 0; mark = 0 }
}
proctype P(byte me) {
    byte op, seen, limits = LIMITS; bool due[N], w, seenDuty, mark, looks2, has, stolen, gone, waits, looks, ok, isLate, c, current = 1;
    {
        atomic { op = (me == 2 -> W : FIRST) };
        enter();
        if
        :: atomic { ok -> ok = 0; assert(!AGAINST(op)); inside[me] = op }; inside[me] = 0; leave()
        :: atomic { !ok }
        fi
    } unless { !alive[me] || stopped == me };
    ended++
}
/* When all have ended by themselves, nobody has left anything to anybody. */
active proctype End() {
end:
    atomic { ended == N && deaths == 0 && stopped == N -> assert(owner == 0 && rest == 0 && !owed[0] && !owed[1] && !owed[2] && !progress[0] && !progress[1] && !progress[2]) }
}
#if KILLS > 0
active proctype Killer() {
    byte v;
end:
    do
    :: deaths < KILLS && ended < N ->
        if :: v = 0 :: v = 1 :: v = 2 fi;
        if
        :: atomic { alive[v] && stopped != v -> alive[v] = 0; sleepsTurn[v] = 0; sleepsSlot[v] = 0; inside[v] = 0; deaths++ }
        :: !alive[v]
        fi;
        v = 0
    :: ended == N -> break
    od
}
#endif
#if STOPS
active proctype Stopper() {
    if :: stopped = 0 :: stopped = 1 :: stopped = 2 :: skip fi
}
#endif
#ifdef LATE
active proctype Clock() { late = 1 }
#endif
init { atomic { run P(0); run P(1); run P(2) } }
