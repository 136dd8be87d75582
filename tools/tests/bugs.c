/*
 * Drivers' bugs over the kernel that lxfi brings along, a function each: its line with the comment `here` is the one that tools/where has to
 * tell of a call of the function. (tools/tests/where --run compiles the file and calls each.)
 */
typedef unsigned long u64;

struct packet {
    unsigned char *data;
    u64 length;
    u64 mark;
};

extern void *kmalloc(u64 size);
extern void kfree(void *block);
extern void dev_zero(void *bytes, u64 size);
extern struct packet *skb_new(u64 size);
extern int netif_rx(struct packet *packet);

static u64 *kept;
static const char name[8] = "card";

/* one element too many */
void too_far(void)
{
    u64 i, *table = kmalloc(4 * sizeof *table);
    for (i = 0; i <= 4; i++)
        table[i] = i; /* here */
}

/* in a function that another one calls */
static void set(u64 *to, u64 value)
{
    *to = value; /* here: set_freed */
}

void set_freed(void)
{
    u64 *block = kmalloc(16);
    set(block, 1);
    kfree(block);
    set(block + 1, 2);
}

void free_twice(void)
{
    void *block = kmalloc(16);
    kfree(block);
    kfree(block); /* here */
}

void send_twice(void)
{
    struct packet *packet = skb_new(4);
    netif_rx(packet);
    netif_rx(packet); /* here */
}

/* no memory, and nobody looks */
void not_looked(void)
{
    u64 *block = kmalloc(0);
    block[1] = 3; /* here */
}

u64 read_null(void)
{
    struct packet *packet = skb_new(0);
    return packet->length; /* here */
}

int divide(void)
{
    u64 *block = kmalloc(8);
    *block = 0;
    return 100 / *block; /* here */
}

/* a pointer to what is no more */
static void keep(void)
{
    u64 local = 1;
    kept = &local;
}

void use_kept(void)
{
    keep();
    *kept = 2; /* here */
}

/* an address out of nowhere */
void call_number(void)
{
    void (*function)(void) = (void (*)(void))0x10000;
    function(); /* here */
}

void write_constant(void)
{
    *(char *)name = 'C'; /* here */
}

/* the kernel is asked to do it */
void let_zero(void)
{
    u64 *block = kmalloc(16);
    dev_zero(block, 24); /* here */
}

int deep(int more)
{
    return more + deep(more + 1); /* here */
}

/* a switch, whose lines are several */
void choose(u64 which)
{
    switch (which) {
    case 0:
        kept = kmalloc(8);
        break;
    case 1:
        kept = (u64 *)0x1000000;
        *kept = 5; /* here */
        break;
    }
}
