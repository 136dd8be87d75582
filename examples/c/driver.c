/* A tiny driver: a device with a table of operations, which its kernel calls. */
#include "../device.h"

static int driver_open(struct device *device)
{
    device->users++;
    return 0;
}

static long driver_write(struct device *device, const char *bytes, u64 length)
{
    u64 i;
    for (i = 0; i < length; i++)
        device->last[i % 8] = bytes[i];
    device->written += length;
    return (long)length;
}

static void driver_close(struct device *device)
{
    switch (device->users) {
    case 0:
        return;
    case 1:
        device->written = 0;
        /* fall through */
    default:
        device->users--;
    }
}

static const struct device_ops ops = { driver_open, driver_write, driver_close };

int driver_init(void)
{
    struct device *device = kmalloc(sizeof *device);
    if (!device)
        return -12;
    device->ops = &ops;
    device->users = 0;
    device->written = 0;
    int error = device_register(device);
    if (error)
        kfree(device);
    return error;
}
