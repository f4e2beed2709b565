/* Pages, which stand in the RAM that the core shares, and objects, which don't. */
#ifndef KERNEL_MEMORY_H
#define KERNEL_MEMORY_H

#define PAGE_SHIFT 12
#define PAGE_SIZE 4096UL
#define PAGE_MASK (~(PAGE_SIZE - 1))

#define __GFP_ZERO 1u
#define GFP_ATOMIC 2u
#define GFP_KERNEL 4u

struct page { int references; int pins; bool in_use; bool of_user; };

struct page *alloc_pages(gfp_t gfp, unsigned int order);
void free_pages(unsigned long address, unsigned int order);
void *alloc_pages_exact(size_t size, gfp_t gfp);
void free_pages_exact(void *at, size_t size);
void *page_address(const struct page *page);
phys_addr_t page_to_phys(const struct page *page);
phys_addr_t virt_to_phys(const void *at);
struct page *virt_to_page(const void *at);
bool virt_addr_valid(const void *at);
bool is_vmalloc_addr(const void *at);
struct page *vmalloc_to_page(const void *at);
void get_page(struct page *page);
void put_page(struct page *page);
int get_order(unsigned long size);

struct kvec { void *iov_base; size_t iov_len; };
int get_kernel_pages(const struct kvec *pieces, int count, int write, struct page **pages);
#define FOLL_WRITE 1u
int pin_user_pages_fast(unsigned long start, int count, unsigned int flags, struct page **pages);
void unpin_user_pages(struct page **pages, unsigned long count);

/* A range of user space, or of the kernel. */
enum { ITER_DEST };
struct iov_iter { bool of_user; unsigned long at; size_t count; };
void iov_iter_ubuf(struct iov_iter *iterator, unsigned int direction, void *at, size_t count);
void iov_iter_kvec(struct iov_iter *iterator, unsigned int direction, const struct kvec *pieces, unsigned long number,
		   size_t count);
#define iov_iter_is_kvec(iterator) (!(iterator)->of_user)
#define iter_iov_addr(iterator) ((void *)(iterator)->at)
int iov_iter_npages(const struct iov_iter *iterator, int most);
ssize_t iov_iter_extract_pages(struct iov_iter *iterator, struct page ***pages, size_t most, unsigned int most_pages,
			       unsigned int flags, size_t *offset);

void *kmalloc(size_t size, gfp_t gfp);
void *kzalloc(size_t size, gfp_t gfp);
void *kcalloc(size_t count, size_t size, gfp_t gfp);
void *kmalloc_array(size_t count, size_t size, gfp_t gfp);
void kfree(const void *at);
unsigned long *bitmap_zalloc(unsigned int bits, gfp_t gfp);
void bitmap_free(const unsigned long *map);
#define kmemleak_not_leak(at) ((void)(at))

/* Memory that is reserved for the core, of which this core has none. */
#define MEMREMAP_WB 1ul
void *memremap(phys_addr_t at, size_t size, unsigned long flags);
void memunmap(void *at);
struct gen_pool { int min_alloc_order; };
struct genpool_data_align { int align; };
typedef unsigned long (*genpool_algo_t)(unsigned long *, unsigned long, unsigned long, unsigned int, void *,
					struct gen_pool *, unsigned long);
unsigned long gen_pool_first_fit_align(unsigned long *map, unsigned long size, unsigned long start, unsigned int nr,
				       void *data, struct gen_pool *pool, unsigned long start_addr);
struct gen_pool *gen_pool_create(int order, int node);
int gen_pool_add_virt(struct gen_pool *pool, unsigned long at, phys_addr_t phys, size_t size, int node);
void gen_pool_destroy(struct gen_pool *pool);
unsigned long gen_pool_alloc_algo(struct gen_pool *pool, size_t size, genpool_algo_t algo, void *data);
void gen_pool_free(struct gen_pool *pool, unsigned long at, size_t size);
phys_addr_t gen_pool_virt_to_phys(struct gen_pool *pool, unsigned long at);

/* Memory of user space, of which every page is one of RAM. */
#define untagged_addr(address) (address)
bool access_ok(const void *at, unsigned long size);
unsigned long copy_from_user(void *to, const void *from, unsigned long size);
unsigned long copy_to_user(void *to, const void *from, unsigned long size);
#define get_user(value, from) (copy_from_user(&(value), from, sizeof(value)) ? -EFAULT : 0)
#define put_user(value, to) ({ \
	typeof(*(to)) _put = (value); \
	copy_to_user(to, &_put, sizeof(_put)) ? -EFAULT : 0; \
})
#define u64_to_user_ptr(number) ((void *)(uintptr_t)(number))

typedef struct { u64 pgprot; } pgprot_t;
#define pgprot_val(protection) ((protection).pgprot)
#define MT_NORMAL 0
#define MT_NORMAL_TAGGED 1
#define MT_DEVICE_nGnRnE 3
#define PTE_ATTRINDX(type) ((u64)(type) << 2)
#define PTE_ATTRINDX_MASK ((u64)7 << 2)

struct vm_area_struct {
	unsigned long vm_start, vm_end, vm_pgoff;
	pgprot_t vm_page_prot;
	struct vm_area_struct *next;
};
struct vma_iterator { unsigned long at; };
#define VMA_ITERATOR(name, mm, start) struct vma_iterator name = { (start) }
struct vm_area_struct *next_vma(struct vma_iterator *iterator, unsigned long end);
#define for_each_vma_range(iterator, vma, end) while (((vma) = next_vma(&(iterator), end)) != NULL)
void mmap_read_lock(struct mm_struct *mm);
void mmap_read_unlock(struct mm_struct *mm);
static inline unsigned long vma_pages(struct vm_area_struct *vma)
{
	return (vma->vm_end - vma->vm_start) >> PAGE_SHIFT;
}
int remap_pfn_range(struct vm_area_struct *vma, unsigned long at, unsigned long frame, unsigned long size,
		    pgprot_t protection);

#endif
