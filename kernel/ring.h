/* A ring of io_uring whose registered buffer pins pages to write them, for long (FOLL_LONGTERM | FOLL_WRITE). */
#ifndef RING_H
#define RING_H

#include <stdbool.h>
#include <stddef.h>
#include <stdint.h>

struct io_uring_sqe;
struct io_uring_cqe;

struct ring {
	int file; /* -1: no ring */
	void *rings;
	size_t rings_bytes;
	struct io_uring_sqe *entries;
	size_t entries_bytes;
	unsigned *submit_tail, *submit_mask, *submit_array;
	unsigned *complete_head, *complete_tail, *complete_mask;
	struct io_uring_cqe *completions;
};

/* A move of bytes between a file and the registered buffer. */
struct movement {
	uint64_t offset;
	void *address;
	unsigned bytes;
};

/* 0, or the error for which the kernel has no rings for this program. */
int ring_probe(void);

void ring_open(struct ring *ring);

/* Pins the range: 0, or the error of the kernel's refusal. */
int ring_register(struct ring *ring, void *address, size_t bytes);

/* Moves them all, one after the other, to the buffer or from it. */
void ring_move(struct ring *ring, int file, bool to_buffer, const struct movement *movements, unsigned count);

/* Gives the pages back, if there are any, and the ring. */
void ring_close(struct ring *ring);

/* A ring that a fork has copied from the parent isn't this process's: only its file is closed. */
void ring_forget(struct ring *ring);

#endif
