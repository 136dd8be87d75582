/* A kernel with up to four disks, which are numbered. */
typedef unsigned long u64;

struct disk;
struct disk_ops {
    int (*read)(struct disk *disk, u64 sector, unsigned char *to);
    int (*close)(struct disk *disk);
};
struct disk { struct disk_ops *ops; void *priv; };

extern void *k_alloc(u64 size) __asm__("k.alloc");
extern void k_free(void *block) __asm__("k.free");
extern void k_note(long value) __asm__("k.note");
extern int k_slot_read(void *slot, struct disk *disk, u64 sector, unsigned char *to) __asm__("k.slot.read");
extern int k_slot_close(void *slot, struct disk *disk) __asm__("k.slot.close");

static struct disk disks[4];
static u64 count;
static unsigned char buffer[16];

/* For drivers. */
void *alloc(u64 size) { return k_alloc(size); }
void release(void *block) { k_free(block); }
struct disk *disk_add(struct disk_ops *ops)
{
    if (count == 4)
        return 0;
    disks[count].ops = ops;
    return &disks[count++];
}
void disk_private(struct disk *disk, void *priv) { disk->priv = priv; }

/* For cases. */
int do_read(u64 number, u64 sector)
{
    struct disk *disk = &disks[number];
    int read = k_slot_read(&disk->ops->read, disk, sector, buffer);
    k_note(buffer[0]);
    return read;
}
int do_close(u64 number)
{
    struct disk *disk = &disks[number];
    return k_slot_close(&disk->ops->close, disk);
}
