// refused: include wanzoche\.hpp before wanzoche\.h
#include "wanzoche.h"

#include "wanzoche.hpp"

int main() {}
