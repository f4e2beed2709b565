/* Blocks of calls are taken from below, and pages of shared memory from above. */
#include "ram.h"

uint32_t ram_take(struct ram *ram, size_t pages) {
    for (size_t start = 0, length = 0; start + length < RAM_PAGES;) {
        if (ram->is_taken[start + length]) {
            start += length + 1, length = 0;
        } else if (++length == pages) {
            for (size_t i = start; i < start + pages; i++) ram->is_taken[i] = true;
            return LIVE_RAM_START + (uint32_t)start * PAGE;
        }
    }
    return 0;
}

bool ram_take_any(struct ram *ram, size_t pages, uint32_t *addresses) {
    size_t left = pages;
    for (size_t i = RAM_PAGES; i-- > 0 && left > 0;)
        if (!ram->is_taken[i]) addresses[--left] = LIVE_RAM_START + (uint32_t)i * PAGE;
    if (left > 0) return false;
    for (size_t i = 0; i < pages; i++) ram->is_taken[(addresses[i] - LIVE_RAM_START) / PAGE] = true;
    return true;
}

void ram_give(struct ram *ram, uint32_t address, size_t pages) {
    for (size_t i = 0; i < pages; i++) ram->is_taken[(address - LIVE_RAM_START) / PAGE + i] = false;
}
