/*
 * A driver of a network card, over the kernel that lxfi brings along. It registers a table of operations; the kernel
 * calls it once for each device, and once for each packet that is to be sent.
 *
 * Compiled as it stands it is sound. Each of PAST, AFTER and BENT gives it one bug:
 *   PAST   it writes a byte behind the packet's data;
 *   AFTER  it writes into a packet that it has handed on;
 *   BENT   it lets its table name a function of the kernel that it may not call.
 */
typedef unsigned long u64;

struct device {
    void *ops;
    u64 index;
    void *priv;
};

struct packet {
    unsigned char *data;
    u64 length;
    u64 mark;
};

struct dev_ops {
    int (*probe)(struct device *device);
    int (*xmit)(struct packet *packet, struct device *device);
};

struct card {
    u64 sent;
    u64 sum;
};

extern void *kzalloc(u64 size);
extern struct device *dev_register(struct dev_ops *ops);
extern void dev_set_priv(struct device *device, void *priv);
extern int netif_rx(struct packet *packet);

static int card_probe(struct device *device)
{
    struct card *card = kzalloc(sizeof *card);
    if (!card)
        return -12;
    dev_set_priv(device, card);
    return 0;
}

static int card_xmit(struct packet *packet, struct device *device)
{
    struct card *card = device->priv;
    u64 i;
    card->sent++;
    for (i = 0; i < packet->length; i++)
        card->sum += packet->data[i];
    packet->mark = card->sum;
#ifdef PAST
    packet->data[packet->length] = 0;
#endif
    netif_rx(packet);
#ifdef AFTER
    packet->mark = 0;
#endif
    return 0;
}

static struct dev_ops card_ops = { card_probe, card_xmit };

int card_init(void)
{
    struct device *device = dev_register(&card_ops);
    return device ? 0 : -12;
}

#ifdef BENT
void card_bend(void)
{
    card_ops.probe = (int (*)(struct device *))0x10100;
}
#endif
