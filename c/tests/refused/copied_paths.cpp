// refused: (use of|call to) deleted .*paths
#include "wanzoche.hpp"

int main() {
    const wanzoche::paths one("resource slot cell operation deposit path deposit end end");
    const wanzoche::paths other = one;
}
