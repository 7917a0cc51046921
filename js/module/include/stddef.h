/* What wanzoche.h takes of the C library, which this target has none of. */
typedef __SIZE_TYPE__ size_t;
#define NULL ((void *)0)
#define offsetof(type, field) __builtin_offsetof(type, field)
