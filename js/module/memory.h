/*
** Memory of the module, for the proved code and for what JavaScript puts there.
*/
#ifndef MEMORY_H
#define MEMORY_H

#include <stddef.h>

/*
** Memory for so many bytes, at an address that 16 divides; null if there is
** none. Takes time for the blocks of like size that are free.
*/
void *take_memory(size_t size);

/*
** The same memory with another size, at the same place or at another. If there
** is none it answers null, and the memory stays as it was.
*/
void *resize_memory(void *at, size_t size);

/*
** Gives memory back, for later calls. The module's memory never becomes
** smaller.
*/
void give_memory(void *at);

#endif
