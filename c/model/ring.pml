/*
** How three processes follow each other by the ring of attempts (c/store/ring.c): the
** steps of an append, records that are copied while others write over them, and what
** somebody leaves who is killed in between.
**
** KILLS   how many may be killed, at any step
** ROUNDS  how many turns each process takes
** FAULT_.. plants a fault, which has to be found: c/model/run
**
** A turn is had by one at a time, or taken from a dead one: turn.pml has how. A line is
** the number of who wrote it. What isn't here: rotation, which sends all to the files as
** a loss of the place does; memory that is weaker than sequentially consistent.
*/
#ifndef KILLS
#define KILLS 0
#endif
#ifndef ROUNDS
#define ROUNDS 2
#endif
#define N 3
#define ATTEMPTS 2
#define MOST (N * ROUNDS)
#define IN_FILE 9
#define NO_PLACE 255

typedef Attempt { byte what, end }

byte line[MOST], length; bool torn;  /* the file */
byte end, attempts; Attempt ring[ATTEMPTS]; /* the page */
byte owner, deaths;
bool alive[N] = true;

#define COUNT attempts++
/* In a turn: what was written up to `at` counts, and has this record. */
inline put(said) {
#ifdef FAULT_COUNT_FIRST
    COUNT;
    ring[(attempts - 1) % ATTEMPTS].what = said;
    ring[(attempts - 1) % ATTEMPTS].end = at;
    end = at;
#else
    ring[attempts % ATTEMPTS].what = said;
    ring[attempts % ATTEMPTS].end = at;
#ifdef FAULT_COUNT_BEFORE_END
    COUNT;
    end = at;
#else
    end = at;
    COUNT;
#endif
#endif
    place = attempts
}
inline followRecord() {
    if
    :: seen == IN_FILE -> atomic { assert(seenEnd > at && seenEnd <= length); at = seenEnd; place++ }
    :: else -> atomic { assert(seenEnd == at + 1 && at < length && line[at] == seen); at++; place++ }
    fi
}
#ifdef FAULT_UNCHECKED
#define IS_WHOLE true
#else
#ifdef FAULT_CHECKED_LATE
#define IS_WHOLE (attempts - place <= ATTEMPTS)
#else
#define IS_WHOLE (attempts - place < ATTEMPTS)
#endif
#endif
/* By the ring to its end; or by the file, up to what counts. */
inline follow() {
    do
    :: atomic { place == NO_PLACE -> at = end; break }
    :: atomic { place == attempts -> break }
    :: atomic { place != NO_PLACE && place != attempts ->
#ifdef FAULT_CHECKED_FIRST
       has = IS_WHOLE;
#endif
       seen = ring[place % ATTEMPTS].what };
       seenEnd = ring[place % ATTEMPTS].end;
#ifndef FAULT_CHECKED_FIRST
       has = IS_WHOLE;
#endif
       if
       :: has -> has = 0; followRecord()
       :: else -> place = NO_PLACE
       fi;
       atomic { seen = 0; seenEnd = 0; has = 0 }
    od
}
inline findPlace() {
    if
    :: place != NO_PLACE
#ifdef FAULT_NO_RECORD
    :: place == NO_PLACE -> place = attempts
#else
    :: place == NO_PLACE && attempts > 0 && ring[(attempts - 1) % ATTEMPTS].end == end -> place = attempts
    :: place == NO_PLACE && !(attempts > 0 && ring[(attempts - 1) % ATTEMPTS].end == end) -> put(IN_FILE)
#endif
    fi
}
inline catchUp() {
    follow();
    if
    :: atomic { place != NO_PLACE && at != end -> assert(at < end); place = NO_PLACE; at = end } /* nothing that was followed is taken back */
    :: else
    fi;
#ifdef FAULT_NO_LOOK
    stolen = 0;
#endif
    if
    :: stolen -> stolen = 0;
        torn = 0;
        if
        :: length > end -> at = length;
            end = at;
#ifndef FAULT_MENDED_UNSAID
            place = NO_PLACE
#endif
        :: else
        fi
    :: else
    fi;
    findPlace();
    assert(at == end && length == end && !torn)
}
inline append() {
#ifdef FAULT_RECORD_FIRST
    at++;
    put(me + 1);
    torn = 1;
    atomic { torn = 0; line[length] = me + 1; length++ }
#else
    torn = 1;
    atomic { torn = 0; line[length] = me + 1; length++ };
    at++;
    put(me + 1)
#endif
}
proctype P(byte me) {
    byte at, place = NO_PLACE, seen, seenEnd, rounds; bool has, stolen;
    {
        do
        :: rounds < ROUNDS -> rounds++;
            follow();
            if
            :: atomic { owner == 0 -> owner = me + 1 }
            :: atomic { owner != 0 && !alive[owner - 1] -> owner = me + 1; stolen = 1 }
            fi;
            catchUp();
            append();
            owner = 0
        :: else -> break
        od
    } unless { !alive[me] }
}
#if KILLS > 0
active proctype Killer() {
    byte v;
    do
    :: deaths < KILLS -> if :: v = 0 :: v = 1 :: v = 2 fi;
        atomic { if :: alive[v] -> alive[v] = 0; deaths++ :: else fi; v = 0 }
    :: break
    od
}
#endif
init { atomic { run P(0); run P(1); run P(2) } }
