/* A door interlock without threads: of two doors one is open at most, and the machine runs only while both are shut. Each refused
** request says which rule is in its way. */
#include "wanzoche.h"

#include <stdio.h>
#include <string.h>

static const char DECLARATION[] = "resource cabin cell operation front, rear, machine path front , rear , machine end end";
static const char *RULE[] = {"one door, or the machine, at a time"};

static wanzoche_answer ask(wanzoche *cabin, const char *what) {
    wanzoche_answer a = wanzoche_start(cabin, 1, (uint32_t)wanzoche_operation(cabin, what, strlen(what)));
    if (a.code == WANZOCHE_BLOCKED)
        printf("%s: no, %s\n", what, RULE[a.number]);
    else
        printf("%s: %s\n", what, wanzoche_words(a.code));
    return a;
}

int main(void) {
    wanzoche cabin = WANZOCHE_CLOSED_HANDLE;
    char why[WANZOCHE_MESSAGE], lines[512];
    if (wanzoche_open(&cabin, DECLARATION, strlen(DECLARATION), 64, why, sizeof why).code != WANZOCHE_OPENED) {
        printf("the declaration: %s\n", why);
        return 1;
    }
    wanzoche_answer front = ask(&cabin, "front");
    ask(&cabin, "machine");
    wanzoche_finish(&cabin, 1, front.number);
    wanzoche_answer machine = ask(&cabin, "machine");
    ask(&cabin, "rear");
    wanzoche_finish(&cabin, 1, machine.number);
    if (wanzoche_journal(&cabin, lines, sizeof lines).code == WANZOCHE_WRITTEN) printf("the log:\n%s", lines);
    wanzoche_close(&cabin);
    return 0;
}
