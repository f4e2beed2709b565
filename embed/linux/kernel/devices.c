/* Devices, classes, one bus and one platform device, and numbers for pointers. */
#include "tasks.h"

/* ---- Numbers for pointers */

struct idr_entry { void *pointer; bool in_use; };

void idr_init(struct idr *idr)
{
	idr->entries = NULL;
	idr->capacity = 0;
}

void idr_destroy(struct idr *idr)
{
	for (int id = 0; id < idr->capacity; id++)
		if (idr->entries[id].in_use)
			log_line(LEVEL_ERROR, "WARNING: number %d is still in use in an idr that is destroyed", id);
	kfree(idr->entries);
	idr_init(idr);
}

static int grow(struct idr *idr, gfp_t gfp)
{
	int capacity = idr->capacity ? 2 * idr->capacity : 8;
	struct idr_entry *entries = kcalloc(capacity, sizeof(*entries), gfp);

	if (!entries)
		return -ENOMEM;
	if (idr->capacity)
		memcpy(entries, idr->entries, idr->capacity * sizeof(*entries));
	kfree(idr->entries);
	idr->entries = entries;
	idr->capacity = capacity;
	return 0;
}

int idr_alloc(struct idr *idr, void *pointer, int start, int end, gfp_t gfp)
{
	int id = start;

	if (end)
		stop("idr_alloc with an end");
	while (id < idr->capacity && idr->entries[id].in_use)
		id++;
	if (id >= idr->capacity) {
		int rc = grow(idr, gfp);

		if (rc)
			return rc;
	}
	idr->entries[id] = (struct idr_entry){ pointer, true };
	this_task()->requests = idr;
	this_task()->request = id;
	return id;
}

static struct idr_entry *entry_of(const struct idr *idr, unsigned long id)
{
	if (id >= (unsigned long)idr->capacity || !idr->entries[id].in_use)
		return NULL;
	return idr->entries + id;
}

void *idr_remove(struct idr *idr, unsigned long id)
{
	struct idr_entry *entry = entry_of(idr, id);

	if (!entry)
		return NULL;
	entry->in_use = false;
	request_is_over(idr, id);
	return entry->pointer;
}

void *idr_find(const struct idr *idr, unsigned long id)
{
	struct idr_entry *entry = entry_of(idr, id);

	return entry ? entry->pointer : NULL;
}

void *idr_replace(struct idr *idr, void *pointer, unsigned long id)
{
	struct idr_entry *entry = entry_of(idr, id);
	void *old;

	if (!entry)
		return ERR_PTR(-ENOENT);
	old = entry->pointer;
	entry->pointer = pointer;
	return old;
}

void *idr_get_next(struct idr *idr, int *id)
{
	for (; *id < idr->capacity; (*id)++)
		if (idr->entries[*id].in_use && idr->entries[*id].pointer)
			return idr->entries[*id].pointer;
	return NULL;
}

/* ---- Devices */

static struct device *devices;

int dev_set_name(struct device *device, const char *format, ...)
{
	va_list args;

	va_start(args, format);
	vsnprintf(device->name, sizeof(device->name), format, args);
	va_end(args);
	return 0;
}

const char *dev_name(const struct device *device)
{
	return device->name;
}

void dev_set_drvdata(struct device *device, void *data)
{
	device->driver_data = data;
}

void *dev_get_drvdata(const struct device *device)
{
	return device->driver_data;
}

void device_initialize(struct device *device)
{
	device->references = 1;
	device->next = NULL;
	device->added = false;
	device->file = NULL;
}

static struct device *get_device(struct device *device)
{
	if (device->references <= 0)
		stop("get_device of a device that is gone");
	device->references++;
	return device;
}

void put_device(struct device *device)
{
	if (!device)
		return;
	if (device->references <= 0)
		stop("put_device of a device that is gone");
	if (--device->references > 0)
		return;
	if (device->added)
		stop("the last reference to a device goes while it is registered");
	if (!device->release)
		stop("device %s has no release", device->name);
	device->release(device);
}

int device_add(struct device *device)
{
	struct device **at = &devices;

	for (; *at; at = &(*at)->next)
		if (!strcmp((*at)->name, device->name))
			return -EEXIST;
	*at = get_device(device);
	device->added = true;
	return 0;
}

void device_del(struct device *device)
{
	struct device **at = &devices;

	while (*at && *at != device)
		at = &(*at)->next;
	if (!*at)
		stop("device %s isn't registered", device->name);
	*at = device->next;
	device->added = false;
	put_device(device);
}

int device_register(struct device *device)
{
	device_initialize(device);
	return device_add(device);
}

void device_unregister(struct device *device)
{
	device_del(device);
	put_device(device);
}

int device_create_file(struct device *device, const struct device_attribute *attribute)
{
	device->file = (struct device_attribute *)attribute;
	return 0;
}

static struct device *device_of(const char *name)
{
	struct device *device = devices;

	while (device && strcmp(device->name, name))
		device = device->next;
	return device;
}

int device_is_there(const char *name)
{
	return device_of(name) != NULL;
}

static struct device_attribute *attribute_in(const struct attribute_group **groups, const char *name)
{
	for (const struct attribute_group **group = groups; group && *group; group++)
		for (struct attribute **at = (*group)->attrs; *at; at++)
			if (!strcmp((*at)->name, name))
				return container_of(*at, struct device_attribute, attr);
	return NULL;
}

static struct device_attribute *attribute_of(struct device *device, const char *name)
{
	struct device_attribute *found = attribute_in(device->groups, name);

	if (!found && device->class)
		found = attribute_in(device->class->dev_groups, name);
	if (!found && device->file && !strcmp(device->file->attr.name, name))
		found = device->file;
	return found;
}

const char *device_shows(const char *name, const char *attribute)
{
	static char text[PAGE_SIZE];
	struct device *device = device_of(name);
	struct device_attribute *found = device ? attribute_of(device, attribute) : NULL;

	if (!found)
		return NULL;
	text[found->show(device, found, text)] = 0;
	return text;
}

/* ---- Classes and buses */

struct class *shim_class_create(const char *name)
{
	struct class *class = kzalloc(sizeof(*class), GFP_KERNEL);

	if (!class)
		return ERR_PTR(-ENOMEM);
	class->name = name;
	return class;
}

int class_register(const struct class *class)
{
	return 0;
}

void class_unregister(const struct class *class)
{
	for (struct device *device = devices; device; device = device->next)
		if (device->class == class)
			stop("class %s goes while %s is there", class->name, device->name);
}

void class_destroy(struct class *class)
{
	class_unregister(class);
	kfree(class);
}

struct device *class_find_device(const struct class *class, struct device *start, const void *data,
				 int (*match)(struct device *device, const void *data))
{
	for (struct device *device = start ? start->next : devices; device; device = device->next)
		if (device->class == class && match(device, data))
			return get_device(device);
	return NULL;
}

int bus_register(const struct bus_type *bus)
{
	return 0;
}

void bus_unregister(const struct bus_type *bus)
{
	for (struct device *device = devices; device; device = device->next)
		if (device->bus == bus)
			stop("bus %s is unregistered while %s is there", bus->name, device->name);
}

int bus_for_each_dev(const struct bus_type *bus, struct device *start, void *data,
		     int (*function)(struct device *device, void *data))
{
	struct device *next;
	int rc = 0;

	if (start)
		stop("bus_for_each_dev with a start");
	for (struct device *device = devices; device && !rc; device = next) {
		next = device->next;
		if (device->bus == bus)
			rc = function(device, data);
	}
	return rc;
}

int add_uevent_var(struct kobj_uevent_env *env, const char *format, ...)
{
	va_list args;

	va_start(args, format);
	vsnprintf(env->text, sizeof(env->text), format, args);
	va_end(args);
	return 0;
}

/* ---- The platform device "optee" */

static struct platform_driver *platform_driver;
static struct platform_device optee_device;
static const char *method = "smc";
static int interrupt = 1, probe_result = -ENODEV;
static bool bound;

void device_method(const char *name)
{
	method = name;
}

void device_interrupt(int number)
{
	interrupt = number;
}

int device_property_read_string(struct device *device, const char *name, const char **value)
{
	if (device != &optee_device.dev || strcmp(name, "method"))
		stop("property %s isn't of this shim", name);
	if (!method)
		return -EINVAL;
	*value = method;
	return 0;
}

int platform_get_irq(struct platform_device *device, unsigned int number)
{
	if (device != &optee_device || number)
		stop("interrupt %u isn't of this shim", number);
	return interrupt;
}

static void release_nothing(struct device *device)
{
}

int bind_optee(void)
{
	if (!platform_driver || bound)
		return -ENODEV;
	memset(&optee_device, 0, sizeof(optee_device));
	device_initialize(&optee_device.dev);
	optee_device.dev.release = release_nothing;
	dev_set_name(&optee_device.dev, "optee");
	probe_result = platform_driver->probe(&optee_device);
	bound = !probe_result;
	return probe_result;
}

int unbind_optee(void)
{
	if (!bound)
		return -ENODEV;
	bound = false;
	if (platform_driver->remove)
		return platform_driver->remove(&optee_device);
	platform_driver->remove_new(&optee_device);
	return 0;
}

void shut_optee_down(void)
{
	if (bound)
		platform_driver->shutdown(&optee_device);
}

int platform_driver_register(struct platform_driver *driver)
{
	if (strcmp(driver->driver.of_match_table->compatible, "linaro,optee-tz"))
		stop("the driver isn't of this device");
	platform_driver = driver;
	bind_optee();
	return 0;
}

void platform_driver_unregister(struct platform_driver *driver)
{
	unbind_optee();
	platform_driver = NULL;
}

/* ---- Modules */

void finish_shared_work(void);
int module_init_tee_init(void);
int module_init_optee_core_init(void);
void module_exit_tee_exit(void);
void module_exit_optee_core_exit(void);

struct module module_tee = { "tee", 0 }, module_optee = { "optee", 0 };
const unsigned int nr_cpu_ids = PROCESSORS;
const uuid_t uuid_null;

bool try_module_get(struct module *module)
{
	module->users++;
	return true;
}

void module_put(struct module *module)
{
	if (module->users-- <= 0)
		stop("module %s is put once too often", module->name);
}

int load_tee(void)
{
	return module_init_tee_init();
}

int load_optee(void)
{
	int rc = module_init_optee_core_init();

	return rc ? rc : probe_result;
}

int unload_optee(void)
{
	if (module_optee.users)
		return -EAGAIN;
	module_exit_optee_core_exit();
	finish_shared_work();
	return 0;
}

unsigned int kernel_version(void)
{
	return KERNEL;
}

void unload_tee(void)
{
	if (module_tee.users)
		stop("module tee is in use");
	module_exit_tee_exit();
}

/* ---- Of the ABI by FF-A, which isn't enabled */

int rhashtable_init(struct rhashtable *table, const struct rhashtable_params *params)
{
	stop("FF-A isn't enabled");
}

void *rhashtable_lookup_fast(struct rhashtable *table, const void *key, struct rhashtable_params params)
{
	stop("FF-A isn't enabled");
}

int rhashtable_lookup_insert_fast(struct rhashtable *table, struct rhash_head *head, struct rhashtable_params params)
{
	stop("FF-A isn't enabled");
}

int rhashtable_remove_fast(struct rhashtable *table, struct rhash_head *head, struct rhashtable_params params)
{
	stop("FF-A isn't enabled");
}

void rhashtable_free_and_destroy(struct rhashtable *table, void (*function)(void *, void *), void *data)
{
	stop("FF-A isn't enabled");
}

int sg_alloc_table_from_pages(struct sg_table *table, struct page **pages, unsigned int count, unsigned int offset,
			      unsigned long size, gfp_t gfp)
{
	stop("FF-A isn't enabled");
}

void sg_free_table(struct sg_table *table)
{
	stop("FF-A isn't enabled");
}
