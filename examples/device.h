/*
 * The interface of the kernel in driver_kernel.ll, as the C files of its drivers see it. To a compiler LXFI(..) says
 * nothing; `tools/module --prototypes examples/device.h` writes what it says to device.txt.
 */
#ifndef DEVICE_H
#define DEVICE_H

#ifndef LXFI
#define LXFI(...)
#endif

typedef unsigned int u32;
typedef unsigned long u64;

struct device;

/* What a driver does for its device: each is a slot, and no annotation is needed. */
struct device_ops {
    int (*open)(struct device *device) LXFI();
    long (*write)(struct device *device, const char *bytes, u64 length) LXFI();
    void (*close)(struct device *device) LXFI();
};

/* No interface speaks of what it holds, so it is left out. */
struct device {
    const struct device_ops *ops;
    u32 users;
    u64 written;
    char last[8];
};

/* A block is handed out, and taken back. */
void *kmalloc(u64 size) LXFI(post(if (return != 0) transfer(write, return, size)));
void kfree(void *block) LXFI(pre(transfer(write, block, 32)));

int device_register(struct device *device) LXFI();

#endif
