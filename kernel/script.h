/* A script of version 1, as the runner needs it, and the lines that `gup run` printed for it. */
#ifndef SCRIPT_H
#define SCRIPT_H

#include <stdbool.h>
#include <stddef.h>
#include <stdint.h>

enum {
	PAGE_BYTES = 4096,
	PAGE_WORDS = 512,
	WORD_BYTES = 8,
	STORE_WORDS = 4096,
	MOST_NAME = 16,
	MOST_PROCESSES = 16,
	MOST_DEVICES = 16,
	MOST_ACTORS = 64 + MOST_DEVICES + 1,
	MOST_HANDLES = 1024,
	MOST_OPERATIONS = 16384,
	MOST_PARTS = 8,
	MOST_PINNED = 16,
	MOST_MAPPED = 1024,
	PAGES_WITHIN_REACH = 1 << 24,
};

enum kind {
	MAP, UNMAP, PROTECT, DISCARD, LOAD, STORE, EXIT, FORK, PIN, UNPIN, GIVE, TAKE, GET, PUT, OUT, IN, MIRROR, LOOK, MOVE,
};

enum role { THREAD, DEVICE, MOVER };

/* Words of a pin, from the one with this index on. */
struct part {
	uint32_t index, count;
};

/* An `on` line. It has no pointers: it is sent to the process that carries it out. */
struct operation {
	enum kind kind;
	int actor;
	int process; /* of a thread, else -1 */
	int child;
	int handle;
	int reference;
	int to;
	uint64_t page, count;
	unsigned word;
	uint64_t value;
	bool write;
	bool for_long;
	int store; /* the number of the device whose store it is */
	uint32_t slot;
	unsigned parts;
	struct part part[MOST_PARTS];
};

struct process_line {
	char name[MOST_NAME + 1];
	bool born;
};

struct actor_line {
	char name[MOST_NAME + 1];
	enum role role;
	int process;
	int store;
	unsigned slots;
	unsigned operations;
	unsigned *operation; /* their places in the script's list */
};

struct script {
	unsigned processes, actors, devices, handles, references, operations;
	struct process_line process[MOST_PROCESSES];
	struct actor_line actor[MOST_ACTORS];
	struct operation operation[MOST_OPERATIONS];
	unsigned outs[MOST_HANDLES]; /* how many lines `out` and `outv` name the handle */
};

/* A line that `gup run` printed. */
struct answer_line {
	int actor;
	unsigned number;
	const struct operation *operation;
	bool ok;
};

struct answers {
	unsigned lines;
	struct answer_line line[MOST_OPERATIONS];
};

/* Both end the program with status 3 where the file is none that the runner can do. */
struct script *read_script(const char *path);
struct answers *read_answers(const char *path, const struct script *script);

#endif
