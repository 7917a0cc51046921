// refused: ignoring return(ed)? value .*(nodiscard|enter)
#include "wanzoche.hpp"

int main() {
    wanzoche::paths slot("resource slot cell operation deposit path deposit end end");
    slot.enter("deposit");
}
