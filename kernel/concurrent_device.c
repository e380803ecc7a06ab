/* concurrent_device.c: see concurrent_device.h. Raw system calls, since libc has
 * no wrappers for io_uring's.
 */
#include "concurrent_device.h"

#include <errno.h>
#include <stdint.h>
#include <sys/mman.h>
#include <sys/syscall.h>
#include <sys/uio.h>
#include <unistd.h>

enum { RING_ENTRIES = 4 };

static void *map_ring(int ring, size_t bytes, off_t part) {
    return mmap(NULL, bytes, PROT_READ | PROT_WRITE, MAP_SHARED | MAP_POPULATE, ring, part);
}

bool device_open(struct device *device, size_t file_bytes) {
    struct io_uring_params parameters = {0};
    device->file = memfd_create("device", MFD_CLOEXEC);
    if (device->file < 0 || ftruncate(device->file, (off_t)file_bytes) != 0)
        return false;
    device->ring = (int)syscall(SYS_io_uring_setup, RING_ENTRIES, &parameters);
    if (device->ring < 0)
        return false;
    if (!(parameters.features & IORING_FEAT_SINGLE_MMAP)) {
        errno = ENOSYS;
        return false;
    }
    const struct io_sqring_offsets *submit = &parameters.sq_off;
    const struct io_cqring_offsets *complete = &parameters.cq_off;
    size_t submit_bytes = submit->array + parameters.sq_entries * sizeof(unsigned);
    size_t complete_bytes = complete->cqes + parameters.cq_entries * sizeof(struct io_uring_cqe);
    device->rings_bytes = submit_bytes > complete_bytes ? submit_bytes : complete_bytes;
    device->requests_bytes = parameters.sq_entries * sizeof(struct io_uring_sqe);
    device->rings = map_ring(device->ring, device->rings_bytes, IORING_OFF_SQ_RING);
    device->requests = map_ring(device->ring, device->requests_bytes, IORING_OFF_SQES);
    if (device->rings == MAP_FAILED || device->requests == MAP_FAILED)
        return false;
    char *rings = device->rings;
    device->submit_tail = (_Atomic unsigned *)(rings + submit->tail);
    device->submit_mask = *(unsigned *)(rings + submit->ring_mask);
    device->submit_array = (unsigned *)(rings + submit->array);
    device->complete_head = (_Atomic unsigned *)(rings + complete->head);
    device->complete_tail = (_Atomic unsigned *)(rings + complete->tail);
    device->complete_mask = *(unsigned *)(rings + complete->ring_mask);
    device->completions = (struct io_uring_cqe *)(rings + complete->cqes);
    return true;
}

void device_close(struct device *device) {
    munmap(device->requests, device->requests_bytes);
    munmap(device->rings, device->rings_bytes);
    close(device->ring);
    close(device->file);
}

bool device_pin(struct device *device, void *address, size_t bytes) {
    struct iovec buffer = {address, bytes};
    return syscall(SYS_io_uring_register, device->ring, IORING_REGISTER_BUFFERS, &buffer, 1) == 0;
}

bool device_unpin(struct device *device) {
    return syscall(SYS_io_uring_register, device->ring, IORING_UNREGISTER_BUFFERS, NULL, 0) == 0;
}

static bool transfer(struct device *device, unsigned char operation, void *address, size_t bytes) {
    unsigned tail = atomic_load_explicit(device->submit_tail, memory_order_relaxed);
    unsigned head = atomic_load_explicit(device->complete_head, memory_order_relaxed);
    unsigned place = tail & device->submit_mask;
    long unsubmitted = 1;
    device->requests[place] = (struct io_uring_sqe){
        .opcode = operation,
        .fd = device->file,
        .addr = (uint64_t)(uintptr_t)address,
        .len = (unsigned)bytes,
    };
    device->submit_array[place] = place;
    atomic_store_explicit(device->submit_tail, tail + 1, memory_order_release);
    while (atomic_load_explicit(device->complete_tail, memory_order_acquire) == head) {
        long submitted = syscall(SYS_io_uring_enter, device->ring, unsubmitted, 1, IORING_ENTER_GETEVENTS, NULL, 0);
        if (submitted < 0 && errno != EINTR)
            return false;
        if (submitted > 0)
            unsubmitted -= submitted;
    }
    int result = device->completions[head & device->complete_mask].res;
    atomic_store_explicit(device->complete_head, head + 1, memory_order_release);
    if (result >= 0 && (size_t)result == bytes)
        return true;
    errno = result < 0 ? -result : EIO;
    return false;
}

bool device_move_out(struct device *device, void *address, size_t bytes) {
    return transfer(device, IORING_OP_WRITE_FIXED, address, bytes);
}

bool device_move_in(struct device *device, void *address, size_t bytes) {
    return transfer(device, IORING_OP_READ_FIXED, address, bytes);
}
