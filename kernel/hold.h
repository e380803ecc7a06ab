/*
 * Short pins to read: process_vm_readv pins pages of a process and copies them to memory of the runner, where a
 * userfault holds it before the first byte. So the pages stay pinned, until they are read for once.
 */
#ifndef HOLD_H
#define HOLD_H

#include <stddef.h>
#include <stdint.h>
#include <sys/types.h>

struct hold;

/* 0, or the error for which the kernel has no userfaults for this program. */
int hold_probe(void);

/* Pins the range to read, up to its first page that isn't mapped; NULL: it is the first one. */
struct hold *hold_begin(pid_t process, void *address, size_t bytes);

/* Lets the copy of the pinned pages go on, of as many bytes as are said to be pinned; they are the hold's until it ends. */
const uint64_t *hold_read(struct hold *hold, size_t pinned);

void hold_end(struct hold *hold);

#endif
