/*
 * A process of a script. It waits at its socket for operations, carries each out by its system call or its access, and
 * replies. The runner ends it when the script is over, and it dies with its parent if that comes first.
 */
#include "process.h"
#include "fail.h"
#include "ring.h"

#include <errno.h>
#include <fcntl.h>
#include <setjmp.h>
#include <signal.h>
#include <stdio.h>
#include <stdlib.h>
#include <string.h>
#include <sys/mman.h>
#include <sys/prctl.h>
#include <sys/socket.h>
#include <sys/uio.h>
#include <unistd.h>

/* Far below all that the kernel places itself, and far above the program. */
#define BASE 0x100000000000ull

enum { AREAS_TEXT = 1 << 19 };

/* A handle whose pages this process has pinned. */
struct pin {
	struct ring ring;
	char *start;
};

static int own_socket;
static const int *stores;
static struct pin pins[MOST_HANDLES];
static int references[MOST_OPERATIONS]; /* the reading end of a pipe that has the page, or -1 */

static sigjmp_buf behind_access;
static volatile sig_atomic_t accesses, fault_code;

void *address_of(uint64_t page)
{
	return (void *)(BASE + page * PAGE_BYTES);
}

static void send_reply(const struct reply *reply)
{
	if (send(own_socket, reply, sizeof *reply, MSG_NOSIGNAL) != (ssize_t)sizeof *reply)
		_exit(FAILED);
}

static _Noreturn void give_up(int status, const char *text)
{
	struct reply reply = {.answer = CANNOT};

	snprintf(reply.failure, sizeof reply.failure, "%s", text);
	send_reply(&reply);
	_exit(status);
}

static void on_fault(int signal_number, siginfo_t *information, void *context)
{
	(void)context;
	if (!accesses) {
		/* A fault of the runner itself: back at the instruction it ends the process. */
		signal(signal_number, SIG_DFL);
		return;
	}
	accesses = 0;
	fault_code = information->si_code;
	siglongjmp(behind_access, 1);
}

static enum answer access_word(const struct operation *operation, uint64_t *value)
{
	volatile uint64_t *place = (uint64_t *)address_of(operation->page) + operation->word;

	if (sigsetjmp(behind_access, 0)) {
		if (fault_code != SEGV_MAPERR && fault_code != SEGV_ACCERR)
			fail(FAILED, "a fault with the code %d", (int)fault_code);
		return fault_code == SEGV_MAPERR ? MISSING : FORBIDDEN;
	}
	accesses = 1;
	if (operation->kind == STORE)
		*place = operation->value;
	else
		*value = *place;
	accesses = 0;
	return OK;
}

/* The part of a page range that one of the kernel's areas has. */
struct area {
	uint64_t page, end;
	bool write;
};

/* Calls `each` for what /proc tells of the pages from `page` on that are mapped, in their order. */
static void for_areas(uint64_t page, uint64_t count, void (*each)(const struct area *, void *), void *argument)
{
	static char text[AREAS_TEXT];
	int file = open("/proc/self/maps", O_RDONLY | O_CLOEXEC);
	size_t length = 0;
	ssize_t got;
	char *rest = text, *line;

	if (file < 0)
		fail(FAILED, "/proc/self/maps: %s", strerror(errno));
	while ((got = read(file, text + length, sizeof text - 1 - length)) > 0)
		length += (size_t)got;
	close(file);
	if (got < 0 || length == sizeof text - 1)
		fail(FAILED, "/proc/self/maps can't be read");
	text[length] = 0;
	while ((line = strsep(&rest, "\n")) && line[0]) {
		unsigned long start, end;
		char may_read, may_write;
		struct area area;

		if (sscanf(line, "%lx-%lx %c%c", &start, &end, &may_read, &may_write) != 4)
			fail(FAILED, "/proc/self/maps has another form");
		if (start < BASE || start >= BASE + (uint64_t)PAGES_WITHIN_REACH * PAGE_BYTES)
			continue;
		area.page = (start - BASE) / PAGE_BYTES;
		area.end = (end - BASE) / PAGE_BYTES;
		area.write = may_write == 'w';
		if (area.page < page)
			area.page = page;
		if (area.end > page + count)
			area.end = page + count;
		if (area.page < area.end)
			each(&area, argument);
	}
}

static void add_pages(const struct area *area, void *sum)
{
	*(uint64_t *)sum += area->end - area->page;
}

static uint64_t mapped_pages(uint64_t page, uint64_t count)
{
	uint64_t sum = 0;

	for_areas(page, count, add_pages, &sum);
	return sum;
}

static int protection(const struct operation *operation)
{
	return operation->write ? PROT_READ | PROT_WRITE : PROT_READ;
}

/* The kernel says whether a page is mapped already; how many there may be is the script's rule, and not Linux's. */
static enum answer map_pages(const struct operation *operation)
{
	size_t bytes = operation->count * PAGE_BYTES;
	int flags = MAP_PRIVATE | MAP_ANONYMOUS | MAP_FIXED_NOREPLACE;
	void *wanted = address_of(operation->page);
	void *memory = mmap(wanted, bytes, protection(operation), flags, -1, 0);

	if (memory == MAP_FAILED && errno == EEXIST)
		return OVERLAP;
	if (memory != wanted)
		fail(FAILED, "mmap: %s", memory == MAP_FAILED ? strerror(errno) : "another address");
	if (madvise(memory, bytes, MADV_NOHUGEPAGE) && errno != EINVAL)
		fail(FAILED, "madvise: %s", strerror(errno));
	if (mapped_pages(0, PAGES_WITHIN_REACH) <= MOST_MAPPED)
		return OK;
	munmap(memory, bytes);
	return FULL;
}

static void unmap_pages(uint64_t page, uint64_t count)
{
	if (munmap(address_of(page), count * PAGE_BYTES))
		fail(FAILED, "munmap: %s", strerror(errno));
}

/* Linux changes what comes before a hole. The script's rule is all or nothing, so holes are looked for first. */
static enum answer protect_pages(const struct operation *operation)
{
	if (mapped_pages(operation->page, operation->count) < operation->count)
		return MISSING;
	if (mprotect(address_of(operation->page), operation->count * PAGE_BYTES, protection(operation)))
		fail(FAILED, "mprotect: %s", strerror(errno));
	return OK;
}

static void discard_area(const struct area *area, void *nothing)
{
	(void)nothing;
	if (madvise(address_of(area->page), (area->end - area->page) * PAGE_BYTES, MADV_DONTNEED))
		fail(FAILED, "madvise: %s", strerror(errno));
}

static void keep_area(const struct area *area, void *kept)
{
	*(struct area *)kept = *area;
}

/* Why the kernel wouldn't pin this page to write it. */
static enum answer cause_of_refusal(uint64_t page)
{
	struct area area = {0};

	for_areas(page, 1, keep_area, &area);
	if (area.page < area.end && area.write)
		fail(FAILED, "a page that is mapped and writable isn't pinned");
	return area.page < area.end ? FORBIDDEN : MISSING;
}

/* A refused registration holds nothing, so fewer and fewer pages are tried. */
static void pin_to_write(const struct operation *operation, struct reply *reply)
{
	struct pin *pin = &pins[operation->handle];
	uint64_t count = operation->count;
	int error = 0;

	pin->start = address_of(operation->page);
	ring_open(&pin->ring);
	while (count && (error = ring_register(&pin->ring, pin->start, count * PAGE_BYTES)) == EFAULT)
		count--;
	if (count && error)
		fail(FAILED, "the registration of buffers: %s", strerror(error));
	reply->value = count;
	if (count < operation->count)
		reply->cause = cause_of_refusal(operation->page + count);
	if (count)
		return;
	ring_close(&pin->ring);
	reply->answer = reply->cause;
}

/* How many pages a pin to read can have: the pin itself is the runner's, from outside (hold.h). */
static void find_readable(const struct operation *operation, struct reply *reply)
{
	while (reply->value < operation->count && mapped_pages(operation->page + reply->value, 1))
		reply->value++;
	if (reply->value < operation->count)
		reply->cause = MISSING;
	if (!reply->value)
		reply->answer = MISSING;
}

static void transfer(const struct operation *operation)
{
	struct pin *pin = &pins[operation->handle];
	struct movement movements[MOST_PARTS];
	uint64_t offset = (uint64_t)operation->slot * WORD_BYTES;

	for (unsigned k = 0; k < operation->parts; k++) {
		movements[k].offset = offset;
		movements[k].address = pin->start + (uint64_t)operation->part[k].index * WORD_BYTES;
		movements[k].bytes = operation->part[k].count * WORD_BYTES;
		offset += movements[k].bytes;
	}
	ring_move(&pin->ring, stores[operation->store], operation->kind == IN, movements, operation->parts);
}

static enum answer get_page(const struct operation *operation)
{
	struct iovec word = {address_of(operation->page), WORD_BYTES};
	int ends[2];
	ssize_t got;

	if (pipe2(ends, O_CLOEXEC))
		fail(FAILED, "pipe: %s", strerror(errno));
	got = vmsplice(ends[1], &word, 1, 0);
	if (got < 0 && errno != EFAULT)
		fail(FAILED, "vmsplice: %s", strerror(errno));
	close(ends[1]);
	if (got < 0) {
		close(ends[0]);
		return MISSING;
	}
	references[operation->reference] = ends[0];
	return OK;
}

static void put_page(const struct operation *operation)
{
	close(references[operation->reference]);
	references[operation->reference] = -1;
}

static void die_with(pid_t parent)
{
	if (prctl(PR_SET_PDEATHSIG, SIGKILL) || getppid() != parent)
		_exit(FAILED);
}

/* The parent's pins and references are no longer this process's: its files would keep them. */
static void forget_inherited(void)
{
	for (int k = 0; k < MOST_HANDLES; k++)
		ring_forget(&pins[k].ring);
	for (int k = 0; k < MOST_OPERATIONS; k++)
		if (references[k] >= 0) {
			close(references[k]);
			references[k] = -1;
		}
}

/* True in the child, which has nothing to reply. */
static bool fork_process(int new_socket, struct reply *reply)
{
	pid_t parent = getpid();
	pid_t child = fork();

	if (child == 0) {
		die_with(parent);
		forget_inherited();
		close(own_socket);
		own_socket = new_socket;
		return true;
	}
	close(new_socket);
	if (child < 0 && errno != ENOMEM && errno != EAGAIN)
		fail(FAILED, "fork: %s", strerror(errno));
	reply->answer = child < 0 ? NOFRAME : OK;
	reply->value = child < 0 ? 0 : (uint64_t)child;
	return false;
}

static void carry_out(const struct operation *operation, int new_socket)
{
	struct reply reply = {.answer = OK};

	switch (operation->kind) {
	case MAP:
		reply.answer = map_pages(operation);
		break;
	case UNMAP:
		unmap_pages(operation->page, operation->count);
		break;
	case PROTECT:
		reply.answer = protect_pages(operation);
		break;
	case DISCARD:
		for_areas(operation->page, operation->count, discard_area, NULL);
		break;
	case LOAD:
	case STORE:
		reply.answer = access_word(operation, &reply.value);
		break;
	case EXIT:
		unmap_pages(0, PAGES_WITHIN_REACH);
		break;
	case FORK:
		if (fork_process(new_socket, &reply))
			return;
		break;
	case PIN:
		if (operation->write)
			pin_to_write(operation, &reply);
		else
			find_readable(operation, &reply);
		break;
	case UNPIN:
		ring_close(&pins[operation->handle].ring);
		break;
	case OUT:
	case IN:
		transfer(operation);
		break;
	case GET:
		reply.answer = get_page(operation);
		break;
	case PUT:
		put_page(operation);
		break;
	default:
		fail(FAILED, "an operation that no process does");
	}
	send_reply(&reply);
}

/* A message with at most one file. */
union control {
	struct cmsghdr header;
	char room[CMSG_SPACE(sizeof(int))];
};

static bool receive(struct operation *operation, int *new_socket)
{
	union control control;
	struct iovec body = {operation, sizeof *operation};
	struct msghdr message = {.msg_iov = &body, .msg_iovlen = 1, .msg_control = &control, .msg_controllen = sizeof control};
	ssize_t got;

	do {
		got = recvmsg(own_socket, &message, MSG_CMSG_CLOEXEC);
	} while (got < 0 && errno == EINTR);
	if (got != (ssize_t)sizeof *operation)
		return false;
	*new_socket = -1;
	if (CMSG_FIRSTHDR(&message))
		memcpy(new_socket, CMSG_DATA(CMSG_FIRSTHDR(&message)), sizeof *new_socket);
	return true;
}

static _Noreturn void serve(void)
{
	struct sigaction action = {.sa_sigaction = on_fault, .sa_flags = SA_SIGINFO | SA_NODEFER};
	struct operation operation;
	int new_socket;

	fail_otherwise = give_up;
	if (sigaction(SIGSEGV, &action, NULL))
		fail(FAILED, "sigaction: %s", strerror(errno));
	for (int k = 0; k < MOST_HANDLES; k++)
		pins[k].ring.file = -1;
	memset(references, -1, sizeof references);
	while (receive(&operation, &new_socket))
		carry_out(&operation, new_socket);
	_exit(DONE);
}

pid_t process_start(int socket, const int *store_files)
{
	pid_t parent = getpid();
	pid_t child = fork();

	if (child < 0)
		fail(FAILED, "fork: %s", strerror(errno));
	if (child)
		return child;
	die_with(parent);
	own_socket = socket;
	stores = store_files;
	serve();
}

struct reply process_ask(int socket, const struct operation *operation, int new_socket, const char *name)
{
	union control control = {.header = {.cmsg_len = CMSG_LEN(sizeof(int)), .cmsg_level = SOL_SOCKET, .cmsg_type = SCM_RIGHTS}};
	struct iovec body = {(void *)operation, sizeof *operation};
	struct msghdr message = {.msg_iov = &body, .msg_iovlen = 1};
	struct reply reply;

	if (new_socket >= 0) {
		memcpy(CMSG_DATA(&control.header), &new_socket, sizeof new_socket);
		message.msg_control = &control;
		message.msg_controllen = sizeof control;
	}
	if (sendmsg(socket, &message, MSG_NOSIGNAL) != (ssize_t)sizeof *operation
	    || recv(socket, &reply, sizeof reply, 0) != (ssize_t)sizeof reply)
		fail(FAILED, "the process %s has ended", name);
	if (reply.failure[0])
		fail(FAILED, "the process %s: %s", name, reply.failure);
	return reply;
}
