/*
 * A driver of two network cards, over the kernel that lxfi brings along. It has one bug, which nobody sees as long as there is one card:
 * it counts the packets of each card in the state of the card that was probed last.
 */
typedef unsigned long u64;

struct device {
    void *ops;
    u64 index;
    void *priv;
};

struct packet {
    unsigned char *data;
    u64 length;
    u64 mark;
};

struct dev_ops {
    int (*probe)(struct device *device);
    int (*xmit)(struct packet *packet, struct device *device);
};

struct card {
    u64 sent;
    u64 bytes;
};

extern void *kzalloc(u64 size);
extern struct device *dev_register(struct dev_ops *ops);
extern void dev_set_priv(struct device *device, void *priv);
extern int netif_rx(struct packet *packet);

/* the state of the card that was probed last */
static struct card *card;

static int card_probe(struct device *device)
{
    card = kzalloc(sizeof *card);
    if (!card)
        return -12;
    dev_set_priv(device, card);
    return 0;
}

static int card_xmit(struct packet *packet, struct device *device)
{
    card->sent++;
    card->bytes += packet->length;
    return netif_rx(packet);
}

static struct dev_ops card_ops = { card_probe, card_xmit };

int card_init(void)
{
    if (!dev_register(&card_ops) || !dev_register(&card_ops))
        return -12;
    return 0;
}
