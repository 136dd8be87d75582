/* A ring buffer of bytes: one producer, one consumer, no lock. */
typedef unsigned char u8;
typedef unsigned int u32;

struct ring {
    u8 bytes[16];
    u32 head; /* where the next byte is put */
    u32 tail; /* where the next byte is taken */
};

static struct ring ring;

static u32 used(const struct ring *r) { return (r->head - r->tail) & 15; }

int ring_put(u8 byte)
{
    if (used(&ring) == 15)
        return -1;
    ring.bytes[ring.head] = byte;
    ring.head = (ring.head + 1) & 15;
    return 0;
}

int ring_take(void)
{
    u8 byte;
    if (used(&ring) == 0)
        return -1;
    byte = ring.bytes[ring.tail];
    ring.tail = (ring.tail + 1) & 15;
    return byte;
}

/* Puts n bytes, takes as many, and sums what it took. */
int ring_sum(int n)
{
    int sum = 0;
    for (int i = 0; i < n; i++) {
        ring_put((u8)(3 * i + 1));
        sum += ring_take();
    }
    return sum;
}
