/* A driver of two disks, each with a block of its own. It forgets to clear the pointer to a block that it has released. */
typedef unsigned long u64;

struct disk;
struct disk_ops {
    int (*read)(struct disk *disk, u64 sector, unsigned char *to);
    int (*close)(struct disk *disk);
};
struct disk { struct disk_ops *ops; void *priv; };

extern void *alloc(u64 size);
extern void release(void *block);
extern struct disk *disk_add(struct disk_ops *ops);
extern void disk_private(struct disk *disk, void *priv);

struct cache { u64 reads; u64 sector; unsigned char bytes[16]; };

static int disk_read(struct disk *disk, u64 sector, unsigned char *to)
{
    struct cache *cache = disk->priv;
    if (!cache) {
        cache = alloc(sizeof *cache);
        if (!cache)
            return -12;
        disk_private(disk, cache);
    }
    cache->reads++;
    cache->sector = sector;
    for (int i = 0; i < 16; i++)
        to[i] = cache->bytes[i] = (unsigned char)(sector + i);
    return 16;
}

static int disk_close(struct disk *disk)
{
    if (disk->priv)
        release(disk->priv);
    return 0;
}

static struct disk_ops ops = { disk_read, disk_close };

int init(void)
{
    return disk_add(&ops) && disk_add(&ops) ? 0 : -12;
}
