/* Short pins to read, by process_vm_readv in a thread that a userfault holds. */
#include "hold.h"
#include "fail.h"

#include <errno.h>
#include <fcntl.h>
#include <linux/userfaultfd.h>
#include <poll.h>
#include <pthread.h>
#include <stdlib.h>
#include <string.h>
#include <sys/eventfd.h>
#include <sys/ioctl.h>
#include <sys/mman.h>
#include <sys/syscall.h>
#include <sys/uio.h>
#include <unistd.h>

enum { STACK_BYTES = 1 << 16, HELD_MILLISECONDS = 60000 };

struct hold {
	pthread_t thread;
	pid_t process;
	void *address;
	size_t bytes;
	void *copy;
	ssize_t copied;
	int error;
};

static int faults = -1, endings = -1; /* the userfaults, and how many threads have come to their end */

int hold_probe(void)
{
	struct uffdio_api interface = {.api = UFFD_API};

	faults = (int)syscall(SYS_userfaultfd, O_CLOEXEC | O_NONBLOCK);
	if (faults < 0 || ioctl(faults, UFFDIO_API, &interface))
		return errno;
	endings = eventfd(0, EFD_CLOEXEC | EFD_NONBLOCK);
	return endings < 0 ? errno : 0;
}

static void *copy_pages(void *argument)
{
	struct hold *hold = argument;
	struct iovec local = {hold->copy, hold->bytes}, remote = {hold->address, hold->bytes};
	uint64_t one = 1;

	hold->copied = process_vm_readv(hold->process, &local, 1, &remote, 1, 0);
	hold->error = hold->copied < 0 ? errno : 0;
	if (write(endings, &one, sizeof one) != (ssize_t)sizeof one)
		abort();
	return NULL;
}

static void start_thread(struct hold *hold)
{
	pthread_attr_t attributes;
	int error;

	pthread_attr_init(&attributes);
	pthread_attr_setstacksize(&attributes, STACK_BYTES);
	error = pthread_create(&hold->thread, &attributes, copy_pages, hold);
	if (error)
		fail(FAILED, "a thread: %s", strerror(error));
	pthread_attr_destroy(&attributes);
}

static void join_thread(struct hold *hold)
{
	uint64_t ended;

	pthread_join(hold->thread, NULL);
	if (read(endings, &ended, sizeof ended) != (ssize_t)sizeof ended || ended != 1)
		fail(FAILED, "a pin to read ended unasked");
}

static void unmap_copy(struct hold *hold)
{
	munmap(hold->copy, hold->bytes);
	free(hold);
}

/* True once the thread is held in a userfault, false if it ended before. */
static int is_held(const struct hold *hold)
{
	struct pollfd either[] = {{.fd = faults, .events = POLLIN}, {.fd = endings, .events = POLLIN}};
	struct uffd_msg message;

	if (poll(either, 2, HELD_MILLISECONDS) <= 0)
		fail(FAILED, "a pin to read neither holds nor ends");
	if (!either[0].revents)
		return 0;
	if (read(faults, &message, sizeof message) != (ssize_t)sizeof message || message.event != UFFD_EVENT_PAGEFAULT
	    || message.arg.pagefault.address != (uint64_t)hold->copy)
		fail(FAILED, "a userfault that isn't understood");
	return 1;
}

struct hold *hold_begin(pid_t process, void *address, size_t bytes)
{
	struct hold *hold = allocate(1, sizeof *hold);
	struct uffdio_register missing = {.mode = UFFDIO_REGISTER_MODE_MISSING};

	hold->process = process;
	hold->address = address;
	hold->bytes = bytes;
	hold->copy = mmap(NULL, bytes, PROT_READ | PROT_WRITE, MAP_PRIVATE | MAP_ANONYMOUS, -1, 0);
	if (hold->copy == MAP_FAILED)
		fail(FAILED, "mmap: %s", strerror(errno));
	missing.range.start = (uint64_t)hold->copy;
	missing.range.len = bytes;
	if (ioctl(faults, UFFDIO_REGISTER, &missing))
		fail(FAILED, "UFFDIO_REGISTER: %s", strerror(errno));
	start_thread(hold);
	if (is_held(hold))
		return hold;
	join_thread(hold);
	if (hold->error != EFAULT)
		fail(FAILED, "process_vm_readv: %s", hold->error ? strerror(hold->error) : "it wasn't held");
	unmap_copy(hold);
	return NULL;
}

/* Without userfaults in the range the thread goes on, to the end of what is pinned. */
const uint64_t *hold_read(struct hold *hold, size_t pinned)
{
	struct uffdio_range range = {(uint64_t)hold->copy, hold->bytes};

	if (ioctl(faults, UFFDIO_UNREGISTER, &range))
		fail(FAILED, "UFFDIO_UNREGISTER: %s", strerror(errno));
	join_thread(hold);
	if (hold->copied < (ssize_t)pinned)
		fail(FAILED, "a pin to read had %zd bytes in place of %zu", hold->copied, pinned);
	return hold->copy;
}

void hold_end(struct hold *hold)
{
	unmap_copy(hold);
}
