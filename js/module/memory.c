/*
** Memory of the module: blocks that lie one behind the other, from where the
** linker's data ends up to the end of the memory. This file is trusted: it
** is C, and js/test/memory.test.js tests it.
**
** A block has a head of 16 bytes, and 16 divides its address and its size. A
** free block is in the list of its class: all whose size has the same highest
** bit. Two free blocks never lie beside each other, since they become one.
** The last block is a head alone, which is in use.
*/
#include "memory.h"

#include <stdbool.h>
#include <stdint.h>

#define PAGE 65536
#define CLASSES 32
/* Above this no block is asked for, so that sums of sizes stay within 32 bits. */
#define MOST ((size_t)0xffff0000u)

typedef struct block {
    uint32_t before; /* the size of the block before this one; 0 if there is none */
    uint32_t size;   /* of this one with its head; its lowest bit says that it is in use */
    uint32_t next;   /* of a free block: the addresses of its neighbours in the list, or 0 */
    uint32_t last;
} block;

/* Where the linker's data ends, by its own name for that. */
extern unsigned char __heap_base;

static uint32_t lists[CLASSES];
static block *end_block; /* null until memory is asked for first */

static block *at_address(uint32_t address) {
    return (block *)(uintptr_t)address;
}

static uint32_t address_of(const block *it) {
    return (uint32_t)(uintptr_t)it;
}

static uint32_t size_of(const block *it) {
    return it->size & ~(uint32_t)1;
}

static bool in_use(const block *it) {
    return (it->size & 1) != 0;
}

static block *behind(block *it) {
    return (block *)((unsigned char *)it + size_of(it));
}

static block *head_of(void *at) {
    return (block *)((unsigned char *)at - sizeof(block));
}

static void *memory_of(block *it) {
    return (unsigned char *)it + sizeof(block);
}

/* The class of a size, which isn't 0. */
static unsigned class_of(uint32_t size) {
    return 31u - (unsigned)__builtin_clz(size);
}

static void set_size(block *it, uint32_t size, bool used) {
    it->size = size | used;
    behind(it)->before = size;
}

static void list(block *it) {
    uint32_t *first = &lists[class_of(size_of(it))];
    it->last = 0;
    it->next = *first;
    if (it->next != 0) at_address(it->next)->last = address_of(it);
    *first = address_of(it);
}

static void unlist(block *it) {
    if (it->last != 0) at_address(it->last)->next = it->next;
    else lists[class_of(size_of(it))] = it->next;
    if (it->next != 0) at_address(it->next)->last = it->last;
}

/* A free block becomes one with the free ones beside it, and is listed. */
static void join(block *it) {
    uint32_t size = size_of(it);
    block *other = behind(it);
    if (!in_use(other)) {
        unlist(other);
        size += size_of(other);
    }
    if (it->before != 0) {
        other = (block *)((unsigned char *)it - it->before);
        if (!in_use(other)) {
            unlist(other);
            size += size_of(other);
            it = other;
        }
    }
    set_size(it, size, false);
    list(it);
}

/* Makes the memory larger: whether it could. With addresses of 32 bits the answer has so many, too, all of them set if it couldn't. */
static bool grow_memory(size_t pages) {
    return (uint32_t)__builtin_wasm_memory_grow(0, pages) != (uint32_t)-1;
}

/* The first block, from the linker's data to the end of a memory that is one page larger: whether there was that page. */
static bool begin(void) {
    uintptr_t base = ((uintptr_t)&__heap_base + 15) / 16 * 16;
    block *first = (block *)base;
    if (!grow_memory(1)) return false;
    end_block = (block *)(__builtin_wasm_memory_size(0) * PAGE - sizeof(block));
    end_block->size = 1;
    first->before = 0;
    set_size(first, (uint32_t)((unsigned char *)end_block - (unsigned char *)first), false);
    list(first);
    return true;
}

/* Grows the memory by at least so many bytes, which become a free block: whether it could. */
static bool grow(size_t size) {
    size_t pages = (size + sizeof(block) + PAGE - 1) / PAGE;
    block *fresh = end_block;
    if (!grow_memory(pages)) return false;
    end_block = (block *)(__builtin_wasm_memory_size(0) * PAGE - sizeof(block));
    end_block->size = 1;
    set_size(fresh, (uint32_t)((unsigned char *)end_block - (unsigned char *)fresh), false);
    join(fresh);
    return true;
}

/* A free block of at least this size, or null. */
static block *found(uint32_t size) {
    unsigned class = class_of(size);
    uint32_t at = lists[class];
    while (at != 0 && size_of(at_address(at)) < size) at = at_address(at)->next;
    while (at == 0 && ++class < CLASSES) at = lists[class];
    return at == 0 ? NULL : at_address(at);
}

/* Uses the front of a block that is in no list, and gives the rest back if that can be a block. */
static void use(block *it, uint32_t size) {
    uint32_t rest = size_of(it) - size;
    if (rest < 2 * sizeof(block)) {
        set_size(it, size_of(it), true);
        return;
    }
    set_size(it, size, true);
    set_size(behind(it), rest, false);
    join(behind(it));
}

/* The size of a block for so many bytes. */
static uint32_t block_size(size_t size) {
    size_t most = size < sizeof(block) ? sizeof(block) : size;
    return (uint32_t)((most + sizeof(block) + 15) / 16 * 16);
}

void *take_memory(size_t size) {
    block *it;
    if (size > MOST || (end_block == NULL && !begin())) return NULL;
    it = found(block_size(size));
    if (it == NULL) {
        if (!grow(block_size(size))) return NULL;
        it = found(block_size(size));
    }
    unlist(it);
    use(it, block_size(size));
    return memory_of(it);
}

void *resize_memory(void *at, size_t size) {
    block *it = head_of(at), *other = behind(it);
    size_t kept = size_of(it) - sizeof(block);
    void *to;
    if (size <= MOST && !in_use(other) && (size_t)size_of(it) + size_of(other) >= block_size(size)) {
        unlist(other);
        set_size(it, size_of(it) + size_of(other), true);
    }
    if (size <= size_of(it) - sizeof(block)) {
        use(it, block_size(size));
        return at;
    }
    to = take_memory(size);
    if (to == NULL) return NULL;
    __builtin_memcpy(to, at, kept < size ? kept : size);
    give_memory(at);
    return to;
}

void give_memory(void *at) {
    block *it = head_of(at);
    set_size(it, size_of(it), false);
    join(it);
}

/*
** What the proved code asks for, as dist/system.c answers it: whether there
** was memory, and where, which is never null. An alignment is at most 16.
*/
typedef struct allocation {
    bool is_there;
    void *at;
} allocation;

allocation rattle_alloc(size_t size, size_t alignment);
allocation rattle_realloc(void *at, size_t kept, size_t size, size_t alignment);
void rattle_dealloc(void *at);

static unsigned char no_memory;

static allocation answer(void *at) {
    allocation it = {at != NULL, at != NULL ? at : &no_memory};
    return it;
}

allocation rattle_alloc(size_t size, size_t alignment) {
    (void)alignment;
    return answer(take_memory(size));
}

allocation rattle_realloc(void *at, size_t kept, size_t size, size_t alignment) {
    (void)kept;
    (void)alignment;
    return answer(resize_memory(at, size));
}

void rattle_dealloc(void *at) {
    give_memory(at);
}
