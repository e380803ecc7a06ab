/* concurrent_device.h: a device for concurrent.c, by io_uring: it pins pages to
 * write, as a registered buffer, and moves bytes between them and a file of its
 * own, one request at a time. One thread uses a device. Each function answers
 * false and sets errno where the kernel refuses.
 */
#ifndef CONCURRENT_DEVICE_H
#define CONCURRENT_DEVICE_H

#include <linux/io_uring.h>
#include <stdatomic.h>
#include <stdbool.h>
#include <stddef.h>

struct device {
    int ring, file;
    void *rings;
    size_t rings_bytes, requests_bytes;
    _Atomic unsigned *submit_tail, *complete_head, *complete_tail;
    unsigned submit_mask, complete_mask;
    unsigned *submit_array;
    struct io_uring_sqe *requests;
    struct io_uring_cqe *completions;
};

bool device_open(struct device *device, size_t file_bytes);
void device_close(struct device *device);

/* A device has one pin at a time. */
bool device_pin(struct device *device, void *address, size_t bytes);
bool device_unpin(struct device *device);

/* Between pinned memory and the start of the file: out of memory, into memory. */
bool device_move_out(struct device *device, void *address, size_t bytes);
bool device_move_in(struct device *device, void *address, size_t bytes);

#endif
