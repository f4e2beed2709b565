/*
 * Pages stand in the 4 MiB of RAM that the core sees too; objects stand elsewhere, since the driver tells the core no address
 * of one. User space has pages of RAM, mapped a second time. Fresh memory has bytes that nobody should rely on, and what was
 * freed is looked at when it is given out again.
 */
#include "tasks.h"
#include "ram.h"

enum { FRESH = 0xa5, FREED = 0x6b };

struct page page_table[RAM_PAGES];
static unsigned int objects, fail_after;
static bool failed;

/* ---- Allocations that fail */

void fail_allocation(unsigned int n)
{
	fail_after = n;
	failed = false;
}

int allocation_failed(void)
{
	return failed;
}

static bool fails(gfp_t gfp)
{
	if (!(gfp & GFP_ATOMIC))
		might_sleep_at("allocation");
	if (!fail_after || --fail_after)
		return false;
	failed = true;
	return true;
}

/* ---- Pages */

static unsigned long frame_of(const struct page *page)
{
	return page - page_table;
}

void *page_address(const struct page *page)
{
	return (void *)(RAM_AT + frame_of(page) * PAGE_SIZE);
}

phys_addr_t page_to_phys(const struct page *page)
{
	return RAM_PHYSICAL + frame_of(page) * PAGE_SIZE;
}

bool virt_addr_valid(const void *at)
{
	return (unsigned long)at >= RAM_AT && (unsigned long)at < RAM_AT + RAM_SIZE;
}

phys_addr_t virt_to_phys(const void *at)
{
	if (!virt_addr_valid(at))
		stop("virt_to_phys of %p, which is no address of RAM", at);
	return RAM_PHYSICAL + ((unsigned long)at - RAM_AT);
}

static struct page *page_of(const void *at)
{
	if (!virt_addr_valid(at))
		stop("%p is no address of RAM", at);
	return page_table + ((unsigned long)at - RAM_AT) / PAGE_SIZE;
}

struct page *virt_to_page(const void *at)
{
	return page_of(at);
}

static void take_frame(struct page *page, bool of_user)
{
	page->in_use = true;
	page->of_user = of_user;
	page->references = 1;
	page->pins = 0;
	memset(page_address(page), FRESH, PAGE_SIZE);
}

void get_page(struct page *page)
{
	if (!page->in_use)
		stop("get_page of a page that is free");
	page->references++;
}

void put_page(struct page *page)
{
	if (!page->in_use || page->references <= 0)
		stop("put_page of a page that is free");
	if (--page->references > 0)
		return;
	if (page->pins)
		stop("a pinned page is freed");
	page->in_use = false;
	memset(page_address(page), FREED, PAGE_SIZE);
}

static bool all_free(unsigned long frame, unsigned long count)
{
	for (unsigned long i = 0; i < count; i++)
		if (page_table[frame + i].in_use)
			return false;
	return true;
}

/* As many frames in a row, aligned to their number, which is a power of two. */
static struct page *free_frames(unsigned long count)
{
	unsigned long places = RAM_PAGES / count, from = world_has_seed() ? world_random(places) : 0;

	for (unsigned long i = 0; i < places; i++) {
		unsigned long frame = (from + i) % places * count;

		if (all_free(frame, count))
			return page_table + frame;
	}
	return NULL;
}

struct page *alloc_pages(gfp_t gfp, unsigned int order)
{
	unsigned long count = 1ul << order;
	struct page *page = fails(gfp) || count > RAM_PAGES ? NULL : free_frames(count);

	for (unsigned long i = 0; page && i < count; i++) {
		take_frame(page + i, false);
		if (gfp & __GFP_ZERO)
			memset(page_address(page + i), 0, PAGE_SIZE);
	}
	return page;
}

void free_pages(unsigned long address, unsigned int order)
{
	struct page *page = page_of((void *)address);

	for (unsigned long i = 0; i < 1ul << order; i++)
		put_page(page + i);
}

int get_order(unsigned long size)
{
	int order = 0;

	if (size == 0)
		return BITS_PER_LONG - PAGE_SHIFT;
	while (order < BITS_PER_LONG - PAGE_SHIFT && PAGE_SIZE << order < size)
		order++;
	return order;
}

void *alloc_pages_exact(size_t size, gfp_t gfp)
{
	unsigned long count = DIV_ROUND_UP(size, PAGE_SIZE);
	int order = get_order(size);
	struct page *page = alloc_pages(gfp, order);

	for (unsigned long i = count; page && i < 1ul << order; i++)
		put_page(page + i);
	return page ? page_address(page) : NULL;
}

void free_pages_exact(void *at, size_t size)
{
	for (size_t offset = 0; offset < size; offset += PAGE_SIZE)
		put_page(page_of((char *)at + offset));
}

bool is_vmalloc_addr(const void *at)
{
	return false; /* there is no vmalloc */
}

struct page *vmalloc_to_page(const void *at)
{
	stop("vmalloc_to_page: there is no vmalloc");
}

int get_kernel_pages(const struct kvec *pieces, int count, int write, struct page **pages)
{
	for (int i = 0; i < count; i++) {
		if (pieces[i].iov_len != PAGE_SIZE)
			return i;
		pages[i] = page_of(pieces[i].iov_base);
		get_page(pages[i]);
	}
	return count;
}

unsigned int kernel_pages_in_use(void)
{
	unsigned int count = 0;

	for (int frame = 0; frame < RAM_PAGES; frame++)
		count += page_table[frame].in_use && !page_table[frame].of_user;
	return count;
}

/* ---- Memory of user space */

enum { VMAS = 256 };
static struct vma_slot {
	struct vm_area_struct vma;
	struct file *file;
	bool in_use;
} vmas[VMAS];
static unsigned long user_top = USER_AT;

static struct vma_slot *vma_at(unsigned long at)
{
	for (int i = 0; i < VMAS; i++)
		if (vmas[i].in_use && at >= vmas[i].vma.vm_start && at < vmas[i].vma.vm_end)
			return vmas + i;
	return NULL;
}

struct vm_area_struct *next_vma(struct vma_iterator *iterator, unsigned long end)
{
	struct vma_slot *first = NULL;

	for (int i = 0; i < VMAS; i++)
		if (vmas[i].in_use && vmas[i].vma.vm_end > iterator->at && vmas[i].vma.vm_start < end)
			if (!first || vmas[i].vma.vm_start < first->vma.vm_start)
				first = vmas + i;
	if (!first)
		return NULL;
	iterator->at = first->vma.vm_end;
	return &first->vma;
}

void mmap_read_lock(struct mm_struct *mm)
{
	might_sleep_at("mmap_read_lock");
	mm->readers++;
}

void mmap_read_unlock(struct mm_struct *mm)
{
	if (mm->readers-- <= 0)
		stop("mmap_read_unlock without its lock");
}

/* Room in user space, with a page between neighbours that nobody has. */
static struct vma_slot *new_vma(unsigned long size, u64 type)
{
	struct vma_slot *slot = vmas;

	while (slot < vmas + VMAS && slot->in_use)
		slot++;
	if (slot == vmas + VMAS || user_top + size + PAGE_SIZE > USER_AT + USER_SIZE)
		stop("no room in user space");
	memset(slot, 0, sizeof(*slot));
	slot->vma.vm_start = user_top;
	slot->vma.vm_end = user_top + size;
	slot->vma.vm_page_prot.pgprot = PTE_ATTRINDX(type);
	slot->in_use = true;
	user_top += size + PAGE_SIZE;
	return slot;
}

/* Frames that user space has, by its pages: the frame's number and 1, or 0. */
static unsigned short user_frames[USER_SIZE / PAGE_SIZE];

static void map_frame(unsigned long at, unsigned long frame)
{
	ram_map_again(at, frame * PAGE_SIZE, PAGE_SIZE);
	user_frames[(at - USER_AT) / PAGE_SIZE] = frame + 1;
}

static struct page *user_page(unsigned long at)
{
	unsigned long number = (at - USER_AT) / PAGE_SIZE;

	if (at < USER_AT || number >= ARRAY_SIZE(user_frames) || !user_frames[number])
		return NULL;
	return page_table + user_frames[number] - 1;
}

/* A free frame that isn't beside the one before. */
static struct page *lone_frame(void)
{
	static unsigned long last = RAM_PAGES - 1;

	for (unsigned long i = 0; i < RAM_PAGES; i++) {
		unsigned long frame = (last + RAM_PAGES - 3 + i * 5) % RAM_PAGES;

		if (!page_table[frame].in_use) {
			last = frame;
			return page_table + frame;
		}
	}
	stop("no RAM for user space");
}

static void *allocate_for_user(unsigned long size, u64 type)
{
	unsigned long rounded = round_up(size ? size : 1, PAGE_SIZE);
	struct vma_slot *slot = new_vma(rounded, type);

	for (unsigned long at = slot->vma.vm_start; at < slot->vma.vm_end; at += PAGE_SIZE) {
		struct page *page = lone_frame();

		take_frame(page, true);
		memset(page_address(page), 0, PAGE_SIZE);
		map_frame(at, frame_of(page));
	}
	return (void *)slot->vma.vm_start;
}

void *user_allocate(unsigned long size)
{
	return allocate_for_user(size, MT_NORMAL);
}

void *user_device_memory(unsigned long size)
{
	return allocate_for_user(size, MT_DEVICE_nGnRnE);
}

int remap_pfn_range(struct vm_area_struct *vma, unsigned long at, unsigned long frame, unsigned long size,
		    pgprot_t protection)
{
	unsigned long first = frame - RAM_PHYSICAL / PAGE_SIZE;

	if (at != vma->vm_start || size != vma->vm_end - vma->vm_start)
		stop("remap_pfn_range of a part of a mapping");
	if (frame < RAM_PHYSICAL / PAGE_SIZE || first + size / PAGE_SIZE > RAM_PAGES)
		stop("remap_pfn_range of what isn't RAM");
	for (unsigned long i = 0; i < size / PAGE_SIZE; i++)
		map_frame(at + i * PAGE_SIZE, first + i);
	return 0;
}

/* A mapping of a file, whose file decides what stands there. */
long map_file(struct file *file, unsigned long size)
{
	struct vma_slot *slot;
	int rc;

	if (!file->operations->mmap)
		return -ENODEV;
	slot = new_vma(round_up(size, PAGE_SIZE), MT_NORMAL);
	slot->file = file;
	rc = file->operations->mmap(file, &slot->vma);
	if (rc) {
		slot->in_use = false;
		return rc;
	}
	return slot->vma.vm_start;
}

void put_file(struct file *file);

void user_unmap(void *at, unsigned long size)
{
	struct vma_slot *slot = vma_at((unsigned long)at);
	struct file *file;

	if (!slot || slot->vma.vm_start != (unsigned long)at || slot->vma.vm_end - slot->vma.vm_start != round_up(size, PAGE_SIZE))
		stop("user_unmap of what isn't one mapping");
	for (unsigned long page = slot->vma.vm_start; page < slot->vma.vm_end; page += PAGE_SIZE) {
		if (!slot->file)
			put_page(user_page(page));
		user_frames[(page - USER_AT) / PAGE_SIZE] = 0;
	}
	ram_unmap_again(slot->vma.vm_start, slot->vma.vm_end - slot->vma.vm_start);
	file = slot->file;
	slot->in_use = false;
	if (file)
		put_file(file);
}

bool access_ok(const void *at, unsigned long size)
{
	unsigned long from = (unsigned long)at;

	/* As on arm64 the range has to be one of user space's addresses, whether anything is there or not. */
	return size <= USER_AT + USER_SIZE && from <= USER_AT + USER_SIZE - size;
}

static bool user_has(unsigned long at, unsigned long size)
{
	for (unsigned long page = round_down(at, PAGE_SIZE); page < at + size; page += PAGE_SIZE)
		if (!vma_at(page) || !user_page(page))
			return false;
	return true;
}

unsigned long copy_from_user(void *to, const void *from, unsigned long size)
{
	might_sleep_at("copy_from_user");
	if (!user_has((unsigned long)from, size))
		return size;
	memcpy(to, from, size);
	return 0;
}

unsigned long copy_to_user(void *to, const void *from, unsigned long size)
{
	might_sleep_at("copy_to_user");
	if (!user_has((unsigned long)to, size))
		return size;
	memcpy(to, from, size);
	return 0;
}

int pin_user_pages_fast(unsigned long start, int count, unsigned int flags, struct page **pages)
{
	might_sleep_at("pin_user_pages_fast");
	for (int i = 0; i < count; i++) {
		struct page *page = user_page(start + i * PAGE_SIZE);
		struct vma_slot *slot = vma_at(start + i * PAGE_SIZE);

		/* Mappings of frames, as of a device file, have no pages to be pinned. */
		if (!page || !slot || slot->file)
			return i ? i : -EFAULT;
		get_page(page);
		page->pins++;
		pages[i] = page;
	}
	return count;
}

void unpin_user_pages(struct page **pages, unsigned long count)
{
	for (unsigned long i = 0; i < count; i++) {
		if (pages[i]->pins-- <= 0)
			stop("a page is unpinned that isn't pinned");
		put_page(pages[i]);
	}
}

void iov_iter_ubuf(struct iov_iter *iterator, unsigned int direction, void *at, size_t count)
{
	*iterator = (struct iov_iter){ true, (unsigned long)at, count };
}

void iov_iter_kvec(struct iov_iter *iterator, unsigned int direction, const struct kvec *pieces, unsigned long number,
		   size_t count)
{
	if (number != 1 || pieces->iov_len != count)
		stop("iov_iter_kvec of more than one piece");
	*iterator = (struct iov_iter){ false, (unsigned long)pieces->iov_base, count };
}

int iov_iter_npages(const struct iov_iter *iterator, int most)
{
	unsigned long count = DIV_ROUND_UP(iterator->at % PAGE_SIZE + iterator->count, PAGE_SIZE);

	if (!iterator->count)
		return 0;
	return count < (unsigned long)most ? (int)count : most;
}

/* Pages of user space are pinned, those of the kernel are not. */
ssize_t iov_iter_extract_pages(struct iov_iter *iterator, struct page ***pages, size_t most, unsigned int most_pages,
			       unsigned int flags, size_t *offset)
{
	unsigned long start = round_down(iterator->at, PAGE_SIZE);
	int count = iov_iter_npages(iterator, most_pages);

	*offset = iterator->at - start;
	if (iterator->of_user)
		count = pin_user_pages_fast(start, count, FOLL_WRITE, *pages);
	else
		for (int i = 0; i < count; i++)
			(*pages)[i] = page_of((void *)(start + i * PAGE_SIZE));
	if (count <= 0)
		return count;
	return min_t(size_t, min_t(size_t, most, iterator->count), count * PAGE_SIZE - *offset);
}

/* ---- Objects */

enum { OBJECT_MAGIC = 0x6f626a31, FREE_MAGIC = 0x66726565, SIZES = 23 };

struct object {
	u32 magic;
	u32 room;             /* bytes behind this head, a power of two */
	struct object *next;  /* of those that are free */
};

static struct object *free_objects[SIZES];
static unsigned long objects_top = OBJECTS_AT;

unsigned int objects_in_use(void)
{
	return objects;
}

static struct object *fresh_object(size_t room)
{
	struct object *object = (struct object *)objects_top;

	if (objects_top + sizeof(*object) + room > OBJECTS_AT + OBJECTS_SIZE)
		stop("no room for objects");
	objects_top += sizeof(*object) + room;
	object->room = room;
	return object;
}

static void must_be_untouched(const struct object *object)
{
	const unsigned char *bytes = (const unsigned char *)(object + 1);

	for (u32 i = 0; i < object->room; i++)
		if (bytes[i] != FREED)
			stop("byte %u of an object at %p was written after it was freed", i, (void *)bytes);
}

void *kmalloc(size_t size, gfp_t gfp)
{
	struct object *object;
	int order = 4;

	while ((1ul << order) < size)
		order++;
	if (order >= SIZES || fails(gfp))
		return NULL;
	object = free_objects[order];
	if (object) {
		free_objects[order] = object->next;
		must_be_untouched(object);
	} else {
		object = fresh_object(1ul << order);
	}
	object->magic = OBJECT_MAGIC;
	memset(object + 1, FRESH, object->room);
	objects++;
	return object + 1;
}

void kfree(const void *at)
{
	struct object *object = (struct object *)at - 1;
	int order = 4;

	if (!at)
		return;
	if ((unsigned long)at < OBJECTS_AT || (unsigned long)at >= objects_top)
		stop("kfree of %p, which is no object", at);
	if (object->magic != OBJECT_MAGIC)
		stop("kfree of %p, which is %s", at, object->magic == FREE_MAGIC ? "free" : "no object");
	object->magic = FREE_MAGIC;
	memset(object + 1, FREED, object->room);
	while ((1ul << order) < object->room)
		order++;
	object->next = free_objects[order];
	free_objects[order] = object;
	objects--;
}

void *kzalloc(size_t size, gfp_t gfp)
{
	void *at = kmalloc(size, gfp);

	if (at)
		memset(at, 0, size);
	return at;
}

void *kmalloc_array(size_t count, size_t size, gfp_t gfp)
{
	size_t all = size_mul(count, size);

	return all == (size_t)-1 ? NULL : kmalloc(all, gfp);
}

void *kcalloc(size_t count, size_t size, gfp_t gfp)
{
	size_t all = size_mul(count, size);

	return all == (size_t)-1 ? NULL : kzalloc(all, gfp);
}

unsigned long *bitmap_zalloc(unsigned int bits, gfp_t gfp)
{
	return kcalloc(BITS_TO_LONGS(bits), sizeof(unsigned long), gfp);
}

void bitmap_free(const unsigned long *map)
{
	kfree(map);
}

void memory_begin(void)
{
	ram_map(RAM_AT, RAM_SIZE);
	memory_map(OBJECTS_AT, OBJECTS_SIZE);
}

/* ---- Reserved memory, of which this core has none */

void *memremap(phys_addr_t at, size_t size, unsigned long flags)
{
	stop("memremap: there is no reserved memory");
}

void memunmap(void *at)
{
	stop("memunmap: there is no reserved memory");
}

unsigned long gen_pool_first_fit_align(unsigned long *map, unsigned long size, unsigned long start, unsigned int nr,
				       void *data, struct gen_pool *pool, unsigned long start_addr)
{
	stop("gen_pool: there is no reserved memory");
}

struct gen_pool *gen_pool_create(int order, int node)
{
	stop("gen_pool: there is no reserved memory");
}

int gen_pool_add_virt(struct gen_pool *pool, unsigned long at, phys_addr_t phys, size_t size, int node)
{
	stop("gen_pool: there is no reserved memory");
}

void gen_pool_destroy(struct gen_pool *pool)
{
	stop("gen_pool: there is no reserved memory");
}

unsigned long gen_pool_alloc_algo(struct gen_pool *pool, size_t size, genpool_algo_t algo, void *data)
{
	stop("gen_pool: there is no reserved memory");
}

void gen_pool_free(struct gen_pool *pool, unsigned long at, size_t size)
{
	stop("gen_pool: there is no reserved memory");
}

phys_addr_t gen_pool_virt_to_phys(struct gen_pool *pool, unsigned long at)
{
	stop("gen_pool: there is no reserved memory");
}
