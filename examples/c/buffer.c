/* A bounded buffer with four producers and four consumers: at most eight items are in it, one thread deposits at a time, and one
** removes. The buffer has no lock and no condition of its own: the declaration says it all. */
#include "wanzoche_monitor.h"

#include <stdio.h>
#include <string.h>

#define PLACES 8
#define THREADS 4
#ifndef EACH
#define EACH 25000
#endif

static const char DECLARATION[] = "resource buffer cell\n"
                                  "operation deposit, remove\n"
                                  "path { deposit ; remove : 8 } end\n"
                                  "path deposit end\n"
                                  "path remove end\n"
                                  "end\n";
enum { DEPOSIT, REMOVE };

static wanzoche_monitor monitor;
static unsigned buffer[PLACES], first, after;
static unsigned long long in_sum, out_sum;

static void *produce(void *at) {
    uint32_t me = *(uint32_t *)at;
    for (unsigned n = 0; n < EACH; n++) {
        wanzoche_answer a = wanzoche_enter(&monitor, me, DEPOSIT, -1);
        if (a.code != WANZOCHE_STARTED) return "not admitted";
        buffer[after++ % PLACES] = me * EACH + n;
        in_sum += me * EACH + n;
        wanzoche_leave(&monitor, me, a.number);
    }
    return NULL;
}

static void *consume(void *at) {
    uint32_t me = *(uint32_t *)at;
    for (unsigned n = 0; n < EACH; n++) {
        wanzoche_answer a = wanzoche_enter(&monitor, me, REMOVE, -1);
        if (a.code != WANZOCHE_STARTED) return "not admitted";
        out_sum += buffer[first++ % PLACES];
        wanzoche_leave(&monitor, me, a.number);
    }
    return NULL;
}

int main(void) {
    char why[WANZOCHE_MESSAGE];
    pthread_t threads[2 * THREADS];
    uint32_t workers[2 * THREADS];
    void *wrong;
    int failed = 0;
    if (wanzoche_monitor_open(&monitor, DECLARATION, strlen(DECLARATION), 65536, why, sizeof why).code != WANZOCHE_OPENED) {
        printf("the declaration: %s\n", why);
        return 1;
    }
    for (uint32_t n = 0; n < 2 * THREADS; n++) {
        workers[n] = n;
        pthread_create(&threads[n], NULL, n % 2 ? consume : produce, &workers[n]);
    }
    for (int n = 0; n < 2 * THREADS; n++) {
        pthread_join(threads[n], &wrong);
        failed |= wrong != NULL;
    }
    printf("%u items in, %u out, nothing lost: %s\n", after, first, in_sum == out_sum ? "yes" : "no");
    wanzoche_monitor_close(&monitor);
    return failed || in_sum != out_sum || after != THREADS * EACH || first != THREADS * EACH;
}
