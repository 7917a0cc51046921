// refused: no (matching|member).*enter|too few arguments
// flags: -fno-exceptions
#include "wanzoche.hpp"

int main() {
    std::error_code code;
    wanzoche::paths slot("resource slot cell operation deposit path deposit end end", code);
    const wanzoche::entry one = slot.enter("deposit");
}
