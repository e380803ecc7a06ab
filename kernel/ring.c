/* A ring of io_uring whose registered buffer pins pages to write them, by bare system calls. */
#include "ring.h"
#include "fail.h"
#include "script.h"

#include <errno.h>
#include <linux/io_uring.h>
#include <string.h>
#include <sys/mman.h>
#include <sys/syscall.h>
#include <sys/uio.h>
#include <unistd.h>

static int setup(struct io_uring_params *parameters)
{
	memset(parameters, 0, sizeof *parameters);
	return (int)syscall(SYS_io_uring_setup, MOST_PARTS, parameters);
}

int ring_probe(void)
{
	struct io_uring_params parameters;
	int file = setup(&parameters);

	if (file < 0)
		return errno;
	close(file);
	return parameters.features & IORING_FEAT_SINGLE_MMAP ? 0 : ENOSYS;
}

/* The child of a fork doesn't get the ring's memory: it isn't the ring's process. */
static void *map_ring(int file, size_t bytes, uint64_t offset)
{
	void *memory = mmap(NULL, bytes, PROT_READ | PROT_WRITE, MAP_SHARED | MAP_POPULATE, file, (off_t)offset);

	if (memory == MAP_FAILED || madvise(memory, bytes, MADV_DONTFORK))
		fail(FAILED, "the ring's memory: %s", strerror(errno));
	return memory;
}

void ring_open(struct ring *ring)
{
	struct io_uring_params parameters;
	size_t submit_bytes, complete_bytes;
	char *memory;

	ring->file = setup(&parameters);
	if (ring->file < 0)
		fail(FAILED, "io_uring_setup: %s", strerror(errno));
	submit_bytes = parameters.sq_off.array + parameters.sq_entries * sizeof(unsigned);
	complete_bytes = parameters.cq_off.cqes + parameters.cq_entries * sizeof(struct io_uring_cqe);
	ring->rings_bytes = submit_bytes > complete_bytes ? submit_bytes : complete_bytes;
	ring->rings = map_ring(ring->file, ring->rings_bytes, IORING_OFF_SQ_RING);
	ring->entries_bytes = parameters.sq_entries * sizeof(struct io_uring_sqe);
	ring->entries = map_ring(ring->file, ring->entries_bytes, IORING_OFF_SQES);
	memory = ring->rings;
	ring->submit_tail = (unsigned *)(memory + parameters.sq_off.tail);
	ring->submit_mask = (unsigned *)(memory + parameters.sq_off.ring_mask);
	ring->submit_array = (unsigned *)(memory + parameters.sq_off.array);
	ring->complete_head = (unsigned *)(memory + parameters.cq_off.head);
	ring->complete_tail = (unsigned *)(memory + parameters.cq_off.tail);
	ring->complete_mask = (unsigned *)(memory + parameters.cq_off.ring_mask);
	ring->completions = (struct io_uring_cqe *)(memory + parameters.cq_off.cqes);
}

int ring_register(struct ring *ring, void *address, size_t bytes)
{
	struct iovec buffer = {address, bytes};

	return syscall(SYS_io_uring_register, ring->file, IORING_REGISTER_BUFFERS, &buffer, 1) ? errno : 0;
}

static void move_one(struct ring *ring, int file, bool to_buffer, const struct movement *movement)
{
	unsigned tail = *ring->submit_tail, head = *ring->complete_head;
	struct io_uring_sqe *entry = &ring->entries[tail & *ring->submit_mask];
	const struct io_uring_cqe *completion = &ring->completions[head & *ring->complete_mask];
	int moved;

	memset(entry, 0, sizeof *entry);
	entry->opcode = to_buffer ? IORING_OP_READ_FIXED : IORING_OP_WRITE_FIXED;
	entry->fd = file;
	entry->off = movement->offset;
	entry->addr = (uint64_t)movement->address;
	entry->len = movement->bytes;
	ring->submit_array[tail & *ring->submit_mask] = tail & *ring->submit_mask;
	__atomic_store_n(ring->submit_tail, tail + 1, __ATOMIC_RELEASE);
	while (syscall(SYS_io_uring_enter, ring->file, 1, 1, IORING_ENTER_GETEVENTS, NULL, 0) < 0)
		if (errno != EINTR)
			fail(FAILED, "io_uring_enter: %s", strerror(errno));
	if (__atomic_load_n(ring->complete_tail, __ATOMIC_ACQUIRE) == head)
		fail(FAILED, "a transfer didn't complete");
	moved = completion->res;
	__atomic_store_n(ring->complete_head, head + 1, __ATOMIC_RELEASE);
	if (moved != (int)movement->bytes)
		fail(FAILED, "a transfer: %s", moved < 0 ? strerror(-moved) : "it was short");
}

void ring_move(struct ring *ring, int file, bool to_buffer, const struct movement *movements, unsigned count)
{
	for (unsigned k = 0; k < count; k++)
		move_one(ring, file, to_buffer, &movements[k]);
}

/* The pages are given back by the call, not only when the ring's last work is over. */
void ring_close(struct ring *ring)
{
	if (syscall(SYS_io_uring_register, ring->file, IORING_UNREGISTER_BUFFERS, NULL, 0) && errno != ENXIO)
		fail(FAILED, "the buffers aren't given back: %s", strerror(errno));
	munmap(ring->rings, ring->rings_bytes);
	munmap(ring->entries, ring->entries_bytes);
	close(ring->file);
	ring->file = -1;
}

void ring_forget(struct ring *ring)
{
	if (ring->file >= 0)
		close(ring->file);
	ring->file = -1;
}
