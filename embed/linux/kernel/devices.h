/* Devices, buses, files, credentials and hashes, as far as the driver uses them. */
#ifndef KERNEL_DEVICES_H
#define KERNEL_DEVICES_H

/* Numbers for pointers, the lowest free one first. */
struct idr { struct idr_entry *entries; int capacity; };
void idr_init(struct idr *idr);
void idr_destroy(struct idr *idr);
int idr_alloc(struct idr *idr, void *pointer, int start, int end, gfp_t gfp);
void *idr_remove(struct idr *idr, unsigned long id);
void *idr_find(const struct idr *idr, unsigned long id);
void *idr_replace(struct idr *idr, void *pointer, unsigned long id);
void *idr_get_next(struct idr *idr, int *id);
#define idr_for_each_entry(idr, entry, id) \
	for ((id) = 0; ((entry) = idr_get_next(idr, &(id))) != NULL; (id)++)

/* Devices. */
struct device;
struct device_driver { const char *name; const struct of_device_id *of_match_table; };
struct kobj_uevent_env { char text[256]; };
struct bus_type {
	const char *name;
	int (*match)(struct device *device, CONST_SINCE_6_12 struct device_driver *driver);
	int (*uevent)(CONST_SINCE_6_12 struct device *device, struct kobj_uevent_env *env);
};
struct attribute { const char *name; };
struct attribute_group { struct attribute **attrs; };
struct class { const char *name; const struct attribute_group **dev_groups; };
struct device_attribute {
	struct attribute attr;
	ssize_t (*show)(struct device *device, struct device_attribute *attribute, char *text);
};
struct class_interface { const struct class *class; int (*add_dev)(struct device *device); };
struct device {
	struct device *parent;
	const struct class *class;
	const struct bus_type *bus;
	const struct attribute_group **groups;
	void (*release)(struct device *device);
	dev_t devt;
	void *driver_data;
	char name[64];
	int references;
	bool added;
	struct device *next;
	struct device_attribute *file;
};
#define DEVICE_ATTR_RO(attribute) \
	struct device_attribute dev_attr_##attribute = { { #attribute }, attribute##_show }
#define ATTRIBUTE_GROUPS(attributes) \
	static const struct attribute_group attributes##_group = { attributes##_attrs }; \
	static const struct attribute_group *attributes##_groups[] = { &attributes##_group, NULL }

int dev_set_name(struct device *device, const char *format, ...);
const char *dev_name(const struct device *device);
void dev_set_drvdata(struct device *device, void *data);
void *dev_get_drvdata(const struct device *device);
void device_initialize(struct device *device);
int device_add(struct device *device);
void device_del(struct device *device);
int device_register(struct device *device);
void device_unregister(struct device *device);
int device_create_file(struct device *device, const struct device_attribute *attribute);
void put_device(struct device *device);
int class_register(const struct class *class);
void class_unregister(const struct class *class);
struct class *shim_class_create(const char *name);
#define class_create(owner, name) ((void)(owner), shim_class_create(name))
void class_destroy(struct class *class);
struct device *class_find_device(const struct class *class, struct device *start, const void *data,
				 int (*match)(struct device *device, const void *data));
int bus_register(const struct bus_type *bus);
void bus_unregister(const struct bus_type *bus);
int bus_for_each_dev(const struct bus_type *bus, struct device *start, void *data,
		     int (*function)(struct device *device, void *data));
int add_uevent_var(struct kobj_uevent_env *env, const char *format, ...);
int device_property_read_string(struct device *device, const char *name, const char **value);

struct platform_device { struct device dev; };
struct platform_driver {
	int (*probe)(struct platform_device *device);
	int (*remove)(struct platform_device *device);
	void (*remove_new)(struct platform_device *device);
	void (*shutdown)(struct platform_device *device);
	struct device_driver driver;
};
int platform_driver_register(struct platform_driver *driver);
void platform_driver_unregister(struct platform_driver *driver);
int platform_get_irq(struct platform_device *device, unsigned int number);
#define platform_set_drvdata(device, data) dev_set_drvdata(&(device)->dev, data)
#define platform_get_drvdata(device) dev_get_drvdata(&(device)->dev)
extern const unsigned int nr_cpu_ids;
#define is_kdump_kernel() false

/* Files. */
#define MKDEV(major, minor) ((dev_t)((major) << 20 | (minor)))
#define MAJOR(device) ((unsigned int)((device) >> 20))
#define MINOR(device) ((unsigned int)((device) & 0xfffff))
#define O_RDWR 2
struct cdev { struct module *owner; const struct file_operations *ops; };
struct inode { struct cdev *i_cdev; };
struct file { const struct file_operations *operations; void *private_data; struct inode *inode; int references; };
struct file_operations {
	struct module *owner;
	int (*open)(struct inode *inode, struct file *file);
	int (*release)(struct inode *inode, struct file *file);
	long (*unlocked_ioctl)(struct file *file, unsigned int command, unsigned long argument);
	long (*compat_ioctl)(struct file *file, unsigned int command, unsigned long argument);
	int (*mmap)(struct file *file, struct vm_area_struct *vma);
};
long compat_ptr_ioctl(struct file *file, unsigned int command, unsigned long argument);
int alloc_chrdev_region(dev_t *first, unsigned int from, unsigned int count, const char *name);
void unregister_chrdev_region(dev_t first, unsigned int count);
void cdev_init(struct cdev *cdev, const struct file_operations *operations);
int cdev_device_add(struct cdev *cdev, struct device *device);
void cdev_device_del(struct cdev *cdev, struct device *device);
int anon_inode_getfd(const char *name, const struct file_operations *operations, void *data, int flags);

/* Who calls. */
struct user_namespace;
typedef struct { uid_t val; } kuid_t;
typedef struct { gid_t val; } kgid_t;
#define INVALID_GID ((kgid_t){ (gid_t)-1 })
kuid_t current_euid(void);
#define current_user_ns() ((struct user_namespace *)0)
#define make_kgid(namespace, group) ((kgid_t){ ((void)(namespace), group) })
#define gid_valid(group) ((group).val != (gid_t)-1)
bool in_egroup_p(kgid_t group);

#define SHA1_DIGEST_SIZE 20
struct crypto_shash { int algorithm; };
struct shash_desc { struct crypto_shash *tfm; void *state[] __attribute__((aligned(8))); };
struct crypto_shash *crypto_alloc_shash(const char *name, u32 type, u32 mask);
void crypto_free_shash(struct crypto_shash *hash);
unsigned int crypto_shash_descsize(struct crypto_shash *hash);
int crypto_shash_init(struct shash_desc *desc);
int crypto_shash_update(struct shash_desc *desc, const u8 *bytes, unsigned int size);
int crypto_shash_final(struct shash_desc *desc, u8 *digest);

/* Trace points, which write nothing. */
#define TP_PROTO(...) __VA_ARGS__
#define TP_ARGS(...)
#define TP_STRUCT__entry(...)
#define TP_fast_assign(...)
#define TP_printk(...)
#define TRACE_EVENT(name, prototype, ...) static inline void trace_##name(prototype) {}

/* What only the other ABI, by FF-A, uses: it isn't enabled, and these stop. */
struct rhash_head { struct rhash_head *next; };
struct rhashtable { int unused; };
struct rhashtable_params { size_t head_offset, key_len, key_offset; bool automatic_shrinking; };
int rhashtable_init(struct rhashtable *table, const struct rhashtable_params *params);
void *rhashtable_lookup_fast(struct rhashtable *table, const void *key, struct rhashtable_params params);
int rhashtable_lookup_insert_fast(struct rhashtable *table, struct rhash_head *head, struct rhashtable_params params);
int rhashtable_remove_fast(struct rhashtable *table, struct rhash_head *head, struct rhashtable_params params);
void rhashtable_free_and_destroy(struct rhashtable *table, void (*function)(void *, void *), void *data);
struct scatterlist { int unused; };
struct sg_table { struct scatterlist *sgl; };
int sg_alloc_table_from_pages(struct sg_table *table, struct page **pages, unsigned int count, unsigned int offset,
			      unsigned long size, gfp_t gfp);
void sg_free_table(struct sg_table *table);

#endif
