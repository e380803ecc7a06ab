/*
 * Runs a script of gup on the kernel of the machine.
 *
 * usage: kernel/run SCRIPT ANSWERS
 *
 * SCRIPT is a script of version 1 that `gup run` accepts, ANSWERS what it printed. The operations are carried out one
 * after the other, each to its end, in the order of ANSWERS. For each it prints `actor number answer`, from what the
 * kernel did, or `actor number ?` for what it can't do: moves, mirrors, looks, pins to read with `long`, and what comes
 * of such a pin later. Who holds a pin or a reference, and how far a transfer may go, is no matter of the kernel's: it
 * is kept here. A pin to write, short or long, is a registered buffer of io_uring; a short one to read is a call of
 * process_vm_readv that a userfault holds; a reference is a page in a pipe.
 *
 * Status 0: done; 1: an error; 2: wrong usage; 3: a script that it can't run; 77: the kernel or the rights are wanting.
 */
#include "fail.h"
#include "hold.h"
#include "process.h"
#include "ring.h"
#include "script.h"

#include <errno.h>
#include <signal.h>
#include <stdio.h>
#include <stdlib.h>
#include <string.h>
#include <sys/mman.h>
#include <sys/prctl.h>
#include <sys/resource.h>
#include <sys/socket.h>
#include <sys/wait.h>
#include <unistd.h>

enum state { UNMADE, HELD, GIVEN, GONE };

/* A process of the script. Before its fork, and after a fork that failed, it has no number. */
struct process {
	pid_t number;
	int socket;
	bool failed;
};

/* A handle. One that the kernel couldn't make has an owner all the same, but nothing moves through it. */
struct handle {
	enum state state;
	int actor;
	int process;
	bool write;
	bool unknown;
	uint64_t pages;
	unsigned holds; /* of a pin to read: one for each reading that is to come, and one that stays till the unpin */
	struct hold **hold;
};

/* What an operation answered: `words` are those of a load or a transfer. */
struct outcome {
	enum answer answer;
	bool some;             /* a pin of `pages`, and of no more for `cause` */
	uint64_t pages, wanted;
	enum answer cause;
	unsigned words;
	uint64_t word[64];
};

static const struct script *script;
static struct process processes[MOST_PROCESSES];
static struct handle handles[MOST_HANDLES];
static int reference_of[MOST_OPERATIONS]; /* the actor that has it and one more, or 0 */
static int stores[MOST_DEVICES];

static const char *const answer_words[] = {
	[OK] = "ok", [MISSING] = "missing", [FORBIDDEN] = "forbidden", [NOFRAME] = "noframe", [NOTHELD] = "notheld",
	[RANGE] = "range", [OVERLAP] = "overlap", [FULL] = "full", [UNBORN] = "unborn", [CANNOT] = "?", [WAITS] = "waits",
};

/* Whoever is still there is ended and waited for: forks of forks come to the runner when their parents are gone. */
static void end_processes(void)
{
	for (unsigned k = 0; k < MOST_PROCESSES; k++)
		if (processes[k].number > 0)
			kill(processes[k].number, SIGKILL);
	while (wait(NULL) > 0 || errno == EINTR)
		;
}

static _Noreturn void end_with_error(int status, const char *text)
{
	fflush(stdout);
	end_processes();
	fprintf(stderr, "kernel/run: %s\n", text);
	_exit(status);
}

static struct reply ask(int process, const struct operation *operation, int new_socket)
{
	return process_ask(processes[process].socket, operation, new_socket, script->process[process].name);
}

/* The file that a device's words are in. */
static int make_store(void)
{
	int file = memfd_create("store", MFD_CLOEXEC);

	if (file < 0 || ftruncate(file, STORE_WORDS * WORD_BYTES))
		fail(FAILED, "a device's store: %s", strerror(errno));
	return file;
}

static void make_sockets(int ends[2])
{
	if (socketpair(AF_UNIX, SOCK_SEQPACKET | SOCK_CLOEXEC, 0, ends))
		fail(FAILED, "socketpair: %s", strerror(errno));
}

static void start(void)
{
	for (unsigned k = 0; k < script->devices; k++)
		stores[k] = make_store();
	for (unsigned k = 0; k < script->processes; k++) {
		int ends[2];

		if (!script->process[k].born)
			continue;
		make_sockets(ends);
		processes[k].number = process_start(ends[1], stores);
		processes[k].socket = ends[0];
		close(ends[1]);
	}
}

static bool holds(const struct operation *operation)
{
	const struct handle *handle = &handles[operation->handle];

	return handle->state == HELD && handle->actor == operation->actor;
}

static void fork_process(const struct operation *operation, struct outcome *outcome)
{
	struct process *child = &processes[operation->child];
	struct reply reply;
	int ends[2];

	make_sockets(ends);
	reply = ask(operation->process, operation, ends[1]);
	close(ends[1]);
	outcome->answer = reply.answer;
	child->failed = reply.answer != OK;
	child->number = (pid_t)reply.value;
	child->socket = ends[0];
}

/*
 * A pin to read is held as often as its words are read later, for each hold reads them once. Whether there is any page
 * to pin is the kernel's answer, too, and not only that of the process.
 */
static void hold_pages(const struct operation *operation, struct handle *handle, enum answer expected)
{
	size_t bytes = operation->count * PAGE_BYTES;

	handle->holds = expected == OK ? script->outs[operation->handle] + 1 : 1;
	handle->hold = allocate(handle->holds, sizeof *handle->hold);
	for (unsigned k = 0; k < handle->holds; k++) {
		handle->hold[k] = hold_begin(processes[operation->process].number, address_of(operation->page), bytes);
		if (!handle->hold[k] != (expected != OK))
			fail(FAILED, "a pin to read has other pages than are mapped");
	}
}

static const uint64_t *read_once(struct handle *handle)
{
	return hold_read(handle->hold[handle->holds - 1], handle->pages * PAGE_BYTES);
}

static void end_once(struct handle *handle)
{
	hold_end(handle->hold[--handle->holds]);
}

static void pin(const struct operation *operation, bool said_ok, struct outcome *outcome)
{
	struct handle *handle = &handles[operation->handle];
	struct reply reply = {.answer = CANNOT};

	handle->unknown = !operation->write && operation->for_long;
	if (!handle->unknown) {
		reply = ask(operation->process, operation, -1);
		if (!operation->write)
			hold_pages(operation, handle, reply.answer);
	}
	outcome->answer = reply.answer;
	outcome->some = reply.answer == OK;
	outcome->pages = reply.value;
	outcome->wanted = operation->count;
	outcome->cause = reply.cause;
	if (handle->unknown ? !said_ok : reply.answer != OK)
		return;
	handle->state = HELD;
	handle->actor = operation->actor;
	handle->process = operation->process;
	handle->write = operation->write;
	handle->pages = reply.value;
}

static enum answer unpin(const struct operation *operation)
{
	struct handle *handle = &handles[operation->handle];

	if (!holds(operation))
		return NOTHELD;
	handle->state = GONE;
	if (handle->unknown)
		return CANNOT;
	if (handle->write)
		return ask(handle->process, operation, -1).answer;
	while (handle->holds) {
		read_once(handle);
		end_once(handle);
	}
	free(handle->hold);
	return OK;
}

static enum answer give(const struct operation *operation)
{
	struct handle *handle = &handles[operation->handle];

	if (!holds(operation))
		return NOTHELD;
	handle->state = GIVEN;
	handle->actor = operation->to;
	return OK;
}

static enum answer take(const struct operation *operation)
{
	struct handle *handle = &handles[operation->handle];

	if (handle->state != GIVEN || handle->actor != operation->actor)
		return WAITS;
	handle->state = HELD;
	return OK;
}

static enum answer put(const struct operation *operation)
{
	int *reference = &reference_of[operation->reference];

	if (*reference != operation->actor + 1)
		return NOTHELD;
	*reference = 0;
	return ask(operation->process, operation, -1).answer;
}

static enum answer may_transfer(const struct operation *operation, unsigned words)
{
	const struct handle *handle = &handles[operation->handle];

	if (!holds(operation))
		return NOTHELD;
	if (operation->kind == IN && !handle->write)
		return FORBIDDEN;
	if (handle->unknown)
		return CANNOT;
	for (unsigned k = 0; k < operation->parts; k++)
		if ((uint64_t)operation->part[k].index + operation->part[k].count > handle->pages * PAGE_WORDS)
			return RANGE;
	if ((uint64_t)operation->slot + words > script->actor[operation->actor].slots)
		return RANGE;
	return OK;
}

/* The device reads the words through the pin to read, and puts them into its store. */
static void read_through(const struct operation *operation, struct handle *handle)
{
	const uint64_t *pages = read_once(handle);
	off_t offset = (off_t)operation->slot * WORD_BYTES;

	for (unsigned k = 0; k < operation->parts; k++) {
		size_t bytes = operation->part[k].count * WORD_BYTES;

		if (pwrite(stores[operation->store], pages + operation->part[k].index, bytes, offset) != (ssize_t)bytes)
			fail(FAILED, "a device's store can't be written");
		offset += (off_t)bytes;
	}
	end_once(handle);
}

static void transfer(const struct operation *operation, struct outcome *outcome)
{
	struct handle *handle = &handles[operation->handle];
	unsigned words = 0;
	size_t bytes;

	for (unsigned k = 0; k < operation->parts; k++)
		words += operation->part[k].count;
	bytes = words * WORD_BYTES;
	if (bytes > sizeof outcome->word)
		fail(WRONG_SCRIPT, "a transfer of more than 64 words");
	outcome->answer = may_transfer(operation, words);
	if (outcome->answer != OK)
		return;
	if (handle->write)
		ask(handle->process, operation, -1);
	else
		read_through(operation, handle);
	outcome->words = words;
	if (pread(stores[operation->store], outcome->word, bytes, (off_t)operation->slot * WORD_BYTES) != (ssize_t)bytes)
		fail(FAILED, "a device's store can't be read");
}

static void load(const struct operation *operation, struct outcome *outcome)
{
	struct reply reply = ask(operation->process, operation, -1);

	outcome->answer = reply.answer;
	outcome->words = reply.answer == OK;
	outcome->word[0] = reply.value;
}

static void carry_out(const struct operation *operation, bool said_ok, struct outcome *outcome)
{
	if (operation->process >= 0 && processes[operation->process].failed) {
		outcome->answer = UNBORN;
		return;
	}
	if (operation->process >= 0 && !processes[operation->process].number)
		fail(WRONG_SCRIPT, "the answers name an operation of a process that isn't there yet");
	switch (operation->kind) {
	case FORK:
		fork_process(operation, outcome);
		break;
	case PIN:
		pin(operation, said_ok, outcome);
		break;
	case UNPIN:
		outcome->answer = unpin(operation);
		break;
	case GIVE:
		outcome->answer = give(operation);
		break;
	case TAKE:
		outcome->answer = take(operation);
		break;
	case PUT:
		outcome->answer = put(operation);
		break;
	case OUT:
	case IN:
		transfer(operation, outcome);
		break;
	case LOAD:
		load(operation, outcome);
		break;
	case GET:
		outcome->answer = ask(operation->process, operation, -1).answer;
		reference_of[operation->reference] = outcome->answer == OK ? operation->actor + 1 : 0;
		break;
	case MIRROR:
	case LOOK:
	case MOVE:
		outcome->answer = CANNOT;
		break;
	default:
		outcome->answer = ask(operation->process, operation, -1).answer;
	}
}

static void print(const struct answer_line *line, const struct outcome *outcome)
{
	printf("%s %u %s", script->actor[line->actor].name, line->number, answer_words[outcome->answer]);
	if (outcome->some) {
		printf(" %llu", (unsigned long long)outcome->pages);
		if (outcome->pages < outcome->wanted)
			printf(" of %llu %s", (unsigned long long)outcome->wanted, answer_words[outcome->cause]);
	}
	for (unsigned k = 0; k < outcome->words; k++)
		printf(" %llu", (unsigned long long)outcome->word[k]);
	putchar('\n');
}

/* Each pin has a ring, each reference a pipe: as many files as the machine lets one have. */
static void raise_limits(void)
{
	struct rlimit files;

	if (!getrlimit(RLIMIT_NOFILE, &files)) {
		files.rlim_cur = files.rlim_max;
		setrlimit(RLIMIT_NOFILE, &files);
	}
}

static void expect_kernel(void)
{
	int error;

	if (geteuid())
		fail(WANTING, "it wants root");
	error = ring_probe();
	if (error)
		fail(WANTING, "this kernel has no io_uring for it: %s", strerror(error));
	error = hold_probe();
	if (error)
		fail(WANTING, "this kernel has no userfaults for it: %s", strerror(error));
}

int main(int count, char **arguments)
{
	const struct answers *answers;

	if (count != 3)
		fail(WRONG_USAGE, "usage: kernel/run SCRIPT ANSWERS");
	script = read_script(arguments[1]);
	answers = read_answers(arguments[2], script);
	expect_kernel();
	raise_limits();
	if (prctl(PR_SET_CHILD_SUBREAPER, 1))
		fail(FAILED, "prctl: %s", strerror(errno));
	fail_otherwise = end_with_error;
	start();
	for (unsigned k = 0; k < answers->lines; k++) {
		const struct answer_line *line = &answers->line[k];
		struct outcome outcome = {.answer = OK};

		carry_out(line->operation, line->ok, &outcome);
		print(line, &outcome);
	}
	if (fflush(stdout))
		fail(FAILED, "the answers can't be written: %s", strerror(errno));
	end_processes();
	_exit(DONE);
}
