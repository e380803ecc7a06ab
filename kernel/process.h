/* A process of a script: it waits at a socket for operations, and carries them out in its own memory. */
#ifndef PROCESS_H
#define PROCESS_H

#include "script.h"

#include <sys/types.h>

enum answer { OK, MISSING, FORBIDDEN, NOFRAME, NOTHELD, RANGE, OVERLAP, FULL, UNBORN, CANNOT, WAITS };

struct reply {
	enum answer answer;
	uint64_t value;    /* a load's word, how many pages are pinned, or the new process */
	enum answer cause; /* of a pin that got some of its pages */
	char failure[200]; /* why the process gave up, or nothing */
};

/* Where the page is in the memory of each process. */
void *address_of(uint64_t page);

/* Starts a process of the script, with these files as the devices' stores, and answers its number. */
pid_t process_start(int socket, const int *stores);

/* Sends an operation, for a fork with the socket of the new process, and waits for what came of it. */
struct reply process_ask(int socket, const struct operation *operation, int new_socket, const char *name);

#endif
