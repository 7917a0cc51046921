/* The C monitor's part of the bench, and the clock. */
#include "wanzoche_monitor.h"

#include <string.h>

static wanzoche_monitor monitor;

int turn_open(const char *text, size_t length, uint32_t room) {
    return wanzoche_monitor_open(&monitor, text, length, room, NULL, 0).code == WANZOCHE_OPENED;
}

void turn_close(void) {
    wanzoche_monitor_close(&monitor);
}

/* So many turns of one operation. */
int turn_turns(uint32_t worker, uint32_t operation, uint32_t turns) {
    for (uint32_t n = 0; n < turns; n++) {
        wanzoche_answer a = wanzoche_enter(&monitor, worker, operation, -1);
        if (a.code != WANZOCHE_STARTED) return 0;
        wanzoche_leave(&monitor, worker, a.number);
    }
    return 1;
}

/* The processor time of all threads of this program, in nanoseconds. */
double turn_time(void) {
    struct timespec t;
    clock_gettime(CLOCK_PROCESS_CPUTIME_ID, &t);
    return (double)t.tv_sec * 1e9 + (double)t.tv_nsec;
}
