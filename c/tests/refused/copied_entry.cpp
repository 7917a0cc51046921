// refused: (use of|call to) deleted .*entry
#include "wanzoche.hpp"

int main() {
    wanzoche::paths slot("resource slot cell operation deposit path deposit end end");
    const wanzoche::entry one = slot.enter("deposit");
    const wanzoche::entry other = one;
}
