/*
** How one thread listens for many (wanzoche_store_listen, c/store/sleeping.c): two
** openings with a thread each that listens, and the tasks that it listens for. Tasks
** 0 and 1 are of the first, task 2 of the second; both sleep at one bell, as those do
** whose numbers share it. Each task writes once, alone. One that isn't admitted
** stands among those that wait, is put into the list of its opening, and rings.
**
** KILLS   whether the second opening may be killed, at any step; task 1 isn't there then
** FAULT_.. plants a fault, which has to be found: c/model/run
**
** A turn is one lock here (c/model/turn.pml has its steps), and of a count it is told
** whether it has grown since somebody read it. What isn't here: doors, limits, closing,
** a count that comes round to the number that was read.
*/
#ifndef KILLS
#define KILLS 0
#endif
#define TASKS 3
#define OPENING(t) (t / 2)
#define FREE 0
#define WAITING 1
#define CALLED 2

byte turn;                               /* who has it, + 1 */
byte slot[TASKS], busy;                  /* slots; who writes by the lines, + 1 */
byte inside;                             /* the witness: how many write in the world */
bool counted[2];                         /* whether the bell was counted since this opening read it */
bool sleeps[2];                          /* who is in the kernel's queue of the bell */
bool rung[2];                            /* whether who listens was told to come back since it read that */
bool list[TASKS], asked[TASKS];          /* who is listened for, and who was told to ask again */
byte ended = KILLS;                      /* tasks that are over */
bool dead;
#ifdef FAULT_NO_SLICE
#define SLICE false
#else
#define SLICE dead
#endif

inline wakeBell() {
#ifdef FAULT_NO_BELL_WAKE
    skip
#elif defined(FAULT_WAKE_ONE)
    atomic { if
    :: sleeps[0] -> sleeps[0] = 0
    :: sleeps[1] -> sleeps[1] = 0
    :: !sleeps[0] && !sleeps[1]
    fi }
#else
    atomic { sleeps[0] = 0; sleeps[1] = 0 }
#endif
}
inline call1(t) { slot[t] == WAITING -> slot[t] = CALLED; due = 1 }
/* In a turn: writes its finish, calls one that waits, and counts the bell; and wakes whom it has called behind the turn. */
inline leave() {
    atomic { turn == 0 -> turn = me + 1; busy = 0;
        if :: call1(0) :: call1(1) :: call1(2) :: else fi };
#ifndef FAULT_SILENT_CALL
    atomic { if :: due -> counted[0] = 1; counted[1] = 1 :: else fi };
#endif
    atomic { turn = 0 };
    if
    :: atomic { due -> due = 0 }; wakeBell()
    :: atomic { !due }
    fi
}
inline ring() {
#ifndef FAULT_NO_RING
    atomic { rung[OPENING(me)] = 1 };
    atomic { counted[0] = 1; counted[1] = 1 };
    wakeBell()
#else
    skip
#endif
}
/* In a turn: what the dead had is over, and it begins, or stands among those that wait. */
inline begin() {
    atomic { turn == 0 -> if :: dead -> if :: busy == 3 -> busy = 0 :: else fi; slot[2] = FREE :: else fi;
        if :: !busy -> busy = me + 1; slot[me] = FREE; ok = 1 :: else -> slot[me] = WAITING fi }
}
inline waitsForItsTurn() {
#ifdef FAULT_RING_FIRST
    ring();
    atomic { list[me] = 1 };
#else
    atomic { list[me] = 1 };
    ring();
#endif
    atomic { asked[me] -> asked[me] = 0 }
}
proctype Task(byte me) {
    bool due, ok;
    {
        do
        :: begin();
            if
            :: atomic { ok }; break
            :: atomic { !ok }; waitsForItsTurn()
            fi
        od;
        atomic { assert(inside == 0); inside++ };
        atomic { inside-- };
        leave()
    } unless { dead && me == 2 };
    ended++
}
/* Looks at one of the records that were gathered. */
inline looksAt(t) {
    atomic { if
    :: gathered[t] && first == TASKS && slot[t] != WAITING -> first = t
    :: else
    fi }
}
inline gather() {
    atomic { gathered[0] = list[0] && me == OPENING(0); gathered[1] = list[1] && me == OPENING(1); gathered[2] = list[2] && me == OPENING(2) }
}
/* Tells a task, which isn't listened for any more. */
inline tell(t) { list[t] = 0; asked[t] = 1 }
proctype Listener(byte me) {
    byte first = TASKS;
    bool gathered[TASKS], told;
    {
        do
        :: gather();
#ifdef FAULT_HEARD_BLIND
            atomic { rung[me] = 0 };
#endif
            do
            ::
#ifdef FAULT_BELL_LATE
                atomic { told = rung[me]; rung[me] = 0 };
#else
                atomic { counted[me] = 0; told = rung[me]; rung[me] = 0 };
#endif
                if :: atomic { me == 0 }; looksAt(0); looksAt(1) :: atomic { me == 1 }; looksAt(2) fi;
#ifdef FAULT_BELL_LATE
                atomic { counted[me] = 0 };
#endif
                if
                :: atomic { told -> told = 0; first = TASKS; break }
                :: atomic { !told && first != TASKS -> tell(first); first = TASKS; break }
                :: atomic { !told && first == TASKS && counted[me] }
                :: atomic { !told && first == TASKS && !counted[me] -> sleeps[me] = 1 };
end:                if
                    :: atomic { !sleeps[me] }
                    :: atomic { SLICE && sleeps[me] -> sleeps[me] = 0;
                        if :: gathered[0] && list[0] -> tell(0) :: gathered[1] && list[1] -> tell(1) :: gathered[2] && list[2] -> tell(2) :: else fi;
                        break }
                    fi
                fi
            od
        od
    } unless { dead && me == 1 };
    atomic { sleeps[me] = 0 }
}
/* Listeners may sleep for ever when all tasks are over, and tasks never wait for ever. */
#if KILLS > 0
active proctype Killer() {
    if
    :: atomic { ended < TASKS -> dead = 1; sleeps[1] = 0; turn = (turn == 3 -> 0 : turn); inside = (busy == 3 -> 0 : inside) }
    :: skip
    fi
}
#endif
init { atomic { run Task(0); run Task(2); run Listener(0); run Listener(1); if :: KILLS == 0 -> run Task(1) :: else fi } }
