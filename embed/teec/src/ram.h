/* Which pages of the core's RAM are taken. */
#ifndef RAM_H
#define RAM_H

#include "live.h"

enum { PAGE = 4096, RAM_PAGES = LIVE_RAM_BYTES / PAGE };

struct ram {
    bool is_taken[RAM_PAGES];
};

/* The address of so many pages, the lowest ones that follow each other, or 0 where there are none. */
uint32_t ram_take(struct ram *ram, size_t pages);
/* The addresses of so many pages, the highest free ones in rising order: all of them, or none. */
bool ram_take_any(struct ram *ram, size_t pages, uint32_t *addresses);
void ram_give(struct ram *ram, uint32_t address, size_t pages);

#endif
