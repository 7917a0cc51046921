/* Whether two workers who take two locks crosswise can hang: every schedule is looked at, and a shortest that stalls is shown. */
#include "wanzoche.h"

#include <stdio.h>
#include <stdlib.h>
#include <string.h>

static const char LOCKS[] = "resource ledger cell operation hold_ledger path hold_ledger end end\n"
                            "resource till cell operation hold_till path hold_till end end\n";
static const char SCRIPT[] = "process sale\nenter hold_ledger\nenter hold_till\nuse put 120\nleave\nleave\nend\n"
                             "process refund\nenter hold_till\nenter hold_ledger\nuse put 80\nleave\nleave\nend\n";

static int look_at_all(const char *script) {
    size_t size = wanzoche_explore(LOCKS, strlen(LOCKS), script, strlen(script), 100000, NULL, 0, NULL, 0).number + 1;
    char *journal = malloc(size), told[WANZOCHE_STANDINGS];
    if (journal == NULL) return 1;
    wanzoche_answer a = wanzoche_explore(LOCKS, strlen(LOCKS), script, strlen(script), 100000, journal, size, told, sizeof told);
    if (a.code == WANZOCHE_STALLS) printf("after these lines nobody can go on:\n%s%s", journal, told);
    free(journal);
    return a.code != WANZOCHE_STALLS;
}

int main(void) {
    return look_at_all(SCRIPT);
}
