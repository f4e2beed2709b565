/* Files of user space: those of the devices, and anonymous ones. And SHA-1, by which clients get their UUIDs. */
#include "tasks.h"

enum { FILES = 64, DEVICES = 4 };

static struct file *table[FILES];
static struct opened { struct cdev *cdev; struct device *device; } opened[DEVICES];
static dev_t first_device;

int alloc_chrdev_region(dev_t *first, unsigned int from, unsigned int count, const char *name)
{
	first_device = *first = MKDEV(240, from);
	return 0;
}

void unregister_chrdev_region(dev_t first, unsigned int count)
{
}

void cdev_init(struct cdev *cdev, const struct file_operations *operations)
{
	cdev->ops = operations;
}

int cdev_device_add(struct cdev *cdev, struct device *device)
{
	int rc = 0;

	for (int i = 0; i < DEVICES; i++) {
		if (opened[i].cdev)
			continue;
		/* As device_add does; what it adds is taken away by cdev_device_del. */
		opened[i] = (struct opened){ cdev, device };
		rc = device_add(device);
		if (rc)
			opened[i].cdev = NULL;
		return rc;
	}
	stop("too many devices");
}

void cdev_device_del(struct cdev *cdev, struct device *device)
{
	for (int i = 0; i < DEVICES; i++)
		if (opened[i].cdev == cdev)
			opened[i].cdev = NULL;
	device_del(device);
}

long compat_ptr_ioctl(struct file *file, unsigned int command, unsigned long argument)
{
	stop("a program of 32 bits isn't of this shim");
}

/* ---- Files */

static int free_number(void)
{
	for (int number = 3; number < FILES; number++)
		if (!table[number])
			return number;
	return -EMFILE;
}

static struct file *new_file(const struct file_operations *operations)
{
	struct file *file = kzalloc(sizeof(*file), GFP_KERNEL);

	if (!file)
		return NULL;
	file->operations = operations;
	file->references = 1;
	return file;
}

void put_file(struct file *file)
{
	struct module *owner = file->inode ? file->inode->i_cdev->owner : NULL;
	struct module *operations_owner = file->operations->owner;

	if (--file->references > 0)
		return;
	if (file->operations->release)
		file->operations->release(file->inode, file);
	kfree(file->inode);
	kfree(file);
	module_put(operations_owner);
	if (owner)
		module_put(owner);
}

int anon_inode_getfd(const char *name, const struct file_operations *operations, void *data, int flags)
{
	int number = free_number();
	struct file *file;

	if (number < 0)
		return number;
	file = new_file(operations);
	if (!file)
		return -ENOMEM;
	try_module_get(operations->owner);
	file->private_data = data;
	table[number] = file;
	return number;
}

static struct cdev *cdev_of(const char *name)
{
	for (int i = 0; i < DEVICES; i++)
		if (opened[i].cdev && !strcmp(dev_name(opened[i].device), name))
			return opened[i].cdev;
	return NULL;
}

static int open_cdev(struct cdev *cdev, struct file *file)
{
	int rc;

	file->inode = kzalloc(sizeof(*file->inode), GFP_KERNEL);
	if (!file->inode)
		return -ENOMEM;
	file->inode->i_cdev = cdev;
	try_module_get(cdev->owner);
	try_module_get(cdev->ops->owner);
	rc = cdev->ops->open(file->inode, file);
	if (rc) {
		module_put(cdev->ops->owner);
		module_put(cdev->owner);
	}
	return rc;
}

int user_open(const char *device)
{
	struct cdev *cdev = cdev_of(device);
	int number = free_number(), rc;
	struct file *file;

	if (!cdev)
		return -ENOENT;
	if (number < 0)
		return number;
	file = new_file(cdev->ops);
	if (!file)
		return -ENOMEM;
	table[number] = file;
	rc = open_cdev(cdev, file);
	if (rc) {
		table[number] = NULL;
		kfree(file->inode);
		kfree(file);
		return rc;
	}
	return number;
}

static struct file *file_of(int number)
{
	return number >= 0 && number < FILES ? table[number] : NULL;
}

long user_ioctl(int number, unsigned int command, void *argument)
{
	struct file *file = file_of(number);
	long rc;

	if (!file)
		return -EBADF;
	if (!file->operations->unlocked_ioctl)
		return -ENOTTY;
	may_be_preempted();
	file->references++;
	rc = file->operations->unlocked_ioctl(file, command, (unsigned long)argument);
	put_file(file);
	return rc;
}

int user_close(int number)
{
	struct file *file = file_of(number);

	if (!file)
		return -EBADF;
	table[number] = NULL;
	put_file(file);
	return 0;
}

unsigned int user_files(void)
{
	unsigned int count = 0;

	for (int number = 0; number < FILES; number++)
		count += table[number] != NULL;
	return count;
}

long map_file(struct file *file, unsigned long size);

void *user_map(int number, unsigned long size)
{
	struct file *file = file_of(number);
	long at;

	if (!file)
		return (void *)-EBADF;
	file->references++;
	at = map_file(file, size);
	if (at < 0)
		put_file(file);
	return (void *)at;
}

/* ---- SHA-1 (RFC 3174) */

struct sha1 { u32 state[5]; u64 size; u8 block[64]; };

static u32 rotate(u32 x, int n)
{
	return x << n | x >> (32 - n);
}

static void hash_block(struct sha1 *hash)
{
	u32 w[80], a = hash->state[0], b = hash->state[1], c = hash->state[2], d = hash->state[3], e = hash->state[4];

	for (int i = 0; i < 16; i++)
		w[i] = (u32)hash->block[4 * i] << 24 | hash->block[4 * i + 1] << 16 | hash->block[4 * i + 2] << 8 |
		       hash->block[4 * i + 3];
	for (int i = 16; i < 80; i++)
		w[i] = rotate(w[i - 3] ^ w[i - 8] ^ w[i - 14] ^ w[i - 16], 1);
	for (int i = 0; i < 80; i++) {
		u32 f = i < 20 ? ((b & c) | (~b & d)) : i < 40 || i >= 60 ? b ^ c ^ d : ((b & c) | (b & d) | (c & d));
		u32 k = i < 20 ? 0x5a827999 : i < 40 ? 0x6ed9eba1 : i < 60 ? 0x8f1bbcdc : 0xca62c1d6;
		u32 next = rotate(a, 5) + f + e + k + w[i];

		e = d;
		d = c;
		c = rotate(b, 30);
		b = a;
		a = next;
	}
	hash->state[0] += a;
	hash->state[1] += b;
	hash->state[2] += c;
	hash->state[3] += d;
	hash->state[4] += e;
}

struct crypto_shash *crypto_alloc_shash(const char *name, u32 type, u32 mask)
{
	struct crypto_shash *hash;

	if (strcmp(name, "sha1"))
		stop("hash %s isn't of this shim", name);
	hash = kzalloc(sizeof(*hash), GFP_KERNEL);
	return hash ? hash : ERR_PTR(-ENOMEM);
}

void crypto_free_shash(struct crypto_shash *hash)
{
	kfree(hash);
}

unsigned int crypto_shash_descsize(struct crypto_shash *hash)
{
	return sizeof(struct sha1);
}

int crypto_shash_init(struct shash_desc *desc)
{
	struct sha1 *hash = (struct sha1 *)desc->state;

	*hash = (struct sha1){ { 0x67452301, 0xefcdab89, 0x98badcfe, 0x10325476, 0xc3d2e1f0 }, 0, { 0 } };
	return 0;
}

int crypto_shash_update(struct shash_desc *desc, const u8 *bytes, unsigned int size)
{
	struct sha1 *hash = (struct sha1 *)desc->state;

	for (unsigned int i = 0; i < size; i++) {
		hash->block[hash->size++ % 64] = bytes[i];
		if (hash->size % 64 == 0)
			hash_block(hash);
	}
	return 0;
}

int crypto_shash_final(struct shash_desc *desc, u8 *digest)
{
	struct sha1 *hash = (struct sha1 *)desc->state;
	u64 bits = hash->size * 8;
	u8 end = 0x80, length[8];

	crypto_shash_update(desc, &end, 1);
	end = 0;
	while (hash->size % 64 != 56)
		crypto_shash_update(desc, &end, 1);
	for (int i = 0; i < 8; i++)
		length[i] = bits >> (56 - 8 * i);
	crypto_shash_update(desc, length, 8);
	for (int i = 0; i < 20; i++)
		digest[i] = hash->state[i / 4] >> (24 - 8 * (i % 4));
	return 0;
}
