// refused: ignoring return value .*(warn_unused_result)
#include "wanzoche_monitor.h"

int main(void) {
    static wanzoche_monitor m;
    wanzoche_enter(&m, 1, 0, -1);
    return 0;
}
