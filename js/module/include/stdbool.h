/* What wanzoche.h takes of the C library, which this target has none of. */
#define bool _Bool
#define true 1
#define false 0
