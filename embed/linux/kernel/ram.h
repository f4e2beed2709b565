/* RAM, as the conduit sees it. For the shim alone. */
#ifndef KERNEL_RAM_H
#define KERNEL_RAM_H

enum { RAM_PAGES = 1024 };
#define RAM_SIZE (RAM_PAGES * PAGE_SIZE)
#define RAM_PHYSICAL 0x40000000ul
#define RAM_AT 0x1000000000ul      /* where the kernel has it */
#define OBJECTS_AT 0x2000000000ul
#define OBJECTS_SIZE 0x4000000ul
#define MIRRORS_AT 0x2800000000ul
#define USER_AT 0x3000000000ul
#define USER_SIZE 0x10000000ul

extern struct page page_table[RAM_PAGES];
void memory_begin(void);

#endif
