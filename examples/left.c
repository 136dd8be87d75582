/*
 * A driver that sends by way of a queue, for the kernel in left_kernel.ll. It has one bug: for a message that is too long it goes back
 * early, and leaves the queue's lock and its reference to the device. No call is refused for that: each later one finds the queue busy.
 */
typedef unsigned long u64;

struct device;

extern int queue_lock(void);
extern void queue_unlock(void);
extern struct device *device_get(u64 number);
extern void device_put(struct device *device);
extern void device_send(struct device *device, u64 length);

int send(u64 length)
{
    struct device *device;
    if (!queue_lock())
        return -16;
    device = device_get(0);
    if (length > 1500)
        return -90;
    device_send(device, length);
    device_put(device);
    queue_unlock();
    return 0;
}
