/* concurrent.c: what the model promises of concurrent programs, tried on the
 * running kernel with real threads, and every broken promise counted.
 *
 *   concurrent SECONDS [SEED] [--break NAME]
 *
 * The seconds are shared out to four kinds of rounds, one after the other, each
 * in a process of its own (so "has pinned" is not yet set where nothing pins):
 *
 *   stores    threads store rising numbers while another thread forks
 *   device    a pinned page is written and read by a device (io_uring's
 *             READ_FIXED and WRITE_FIXED between a registered buffer and a
 *             memfd), beside stores, loads and forks
 *   pins      two threads register and unregister all the time, with transfers
 *             in between, beside stores and forks
 *   discards  pages are discarded, unmapped and mapped over under a pin, beside
 *             forks
 *
 * SEED, 1 if it isn't given, seeds the threads' choices (not their timing).
 *
 * Every word says who made it and carries a number that rises, so what is read
 * can be judged: a word is right if its number lies between what the parent's
 * own load saw before the call and what it saw after it.
 *
 * --break NAME makes a wrong world on purpose, so that a check must fail; the names
 * are in concurrent_break.h.
 *
 * Status: 0 no violation, 1 violations, 2 wrong usage, 3 a system call failed
 * or a kind did not end, 77 the kernel or the rights are wanting.
 */
#include "concurrent_break.h"
#include "concurrent_device.h"
#include "concurrent_findings.h"
#include "concurrent_words.h"

#include <errno.h>
#include <getopt.h>
#include <inttypes.h>
#include <pthread.h>
#include <signal.h>
#include <stdatomic.h>
#include <stdbool.h>
#include <stdint.h>
#include <stdio.h>
#include <stdlib.h>
#include <string.h>
#include <sys/mman.h>
#include <sys/prctl.h>
#include <sys/utsname.h>
#include <sys/wait.h>
#include <time.h>
#include <unistd.h>

enum {
    PAGE_BYTES = 4096,
    PAGE_WORDS = 512,
    PAGES = 4,
    WORDS = PAGES * PAGE_WORDS,
    LANES = 8, /* a page is cut into lanes; each has one writer */
    LANE_WORDS = PAGE_WORDS / LANES,
    THREADS = 4,
    CHILDREN = 4, /* that live at one time */
    DISCARDERS = 2,
    DISCARDER_PAGES = PAGES / DISCARDERS,
    DISCARDER_WORDS = DISCARDER_PAGES * PAGE_WORDS,
    PATIENCE_SECONDS = 60,
};

enum { STATUS_RIGHT, STATUS_VIOLATIONS, STATUS_USAGE, STATUS_FAILURE, STATUS_WANTING = 77 };

/* The pages are at one fixed place, far below where mmap puts things, so that
 * nothing else lands in the hole of an unmapping. */
static _Atomic uint64_t *const memory = (_Atomic uint64_t *)0x200000000;

/* A child and its parent share one of these. */
struct child_report {
    _Atomic bool told;      /* by the parent: look once more and end */
    uint64_t words[WORDS];  /* what the child saw first */
    uint64_t changes;       /* words that changed afterwards */
    uint64_t changed_from, changed_to;
};

static struct child_report *reports; /* one for each child that lives */
static _Atomic bool stop;

/* In round r a discarder tells 4r, stores 2r, tells 4r + 1, loses a page or two,
 * stores 2r + 1, and tells 4r + 2. Each is told before what it stands for begins. */
static _Atomic uint64_t discard_stages[DISCARDERS];
enum { STAGES = 4, STAGE_OLDER = 0, STAGE_LOST = 1, STAGE_NEWER = 2 };

static _Noreturn void fail(const char *what) {
    dprintf(STDERR_FILENO, "concurrent: %s: %s\n", what, strerror(errno));
    _exit(STATUS_FAILURE);
}

static uint64_t next_random(uint64_t *state) {
    uint64_t mixed = (*state += 0x9e3779b97f4a7c15);
    mixed = (mixed ^ (mixed >> 30)) * 0xbf58476d1ce4e5b9;
    mixed = (mixed ^ (mixed >> 27)) * 0x94d049bb133111eb;
    return mixed ^ (mixed >> 31);
}

static uint64_t load(size_t index) { return atomic_load_explicit(&memory[index], memory_order_acquire); }

static void store(size_t index, uint64_t word) { atomic_store_explicit(&memory[index], word, memory_order_release); }

/* ---- Kinds ---- */

struct thread {
    pthread_t handle;
    int number;
    uint64_t random;
};

typedef void *thread_role(void *thread);

static thread_role store_words, load_device_words, run_device, pin_and_unpin, discard_pages, fork_children;

struct kind {
    const char *name;
    enum author authors[LANES]; /* who makes the words of a lane */
    int owners[LANES];          /* the thread that stores or transfers them */
    bool discards;              /* pages can be empty or missing */
    thread_role *roles[THREADS];
};

enum { KINDS = 4 };

static const struct kind kinds[KINDS] = {
    {"stores",
     {BY_PARENT, BY_PARENT, BY_PARENT, BY_PARENT, BY_PARENT, BY_PARENT, BY_PARENT, BY_PARENT},
     {0, 1, 2, 0, 1, 2, 0, 1},
     false,
     {store_words, store_words, store_words, fork_children}},
    {"device",
     {BY_PARENT, BY_DEVICE, BY_PARENT, BY_DEVICE, BY_PARENT, BY_DEVICE, BY_PARENT, BY_DEVICE},
     {0, 1, 0, 1, 0, 1, 0, 1},
     false,
     {store_words, run_device, load_device_words, fork_children}},
    {"pins",
     {BY_PARENT, BY_PARENT, BY_DEVICE, BY_PARENT, BY_DEVICE, BY_PARENT, BY_PARENT, BY_PARENT},
     {0, 1, 1, 2, 2, 0, 0, 0},
     false,
     {store_words, pin_and_unpin, pin_and_unpin, fork_children}},
    {"discards",
     {BY_PARENT, BY_PARENT, BY_PARENT, BY_PARENT, BY_PARENT, BY_PARENT, BY_PARENT, BY_PARENT},
     {0, 0, 0, 0, 0, 0, 0, 0},
     true,
     {discard_pages, discard_pages, fork_children, NULL}},
};

static const struct kind *kind; /* the running one */

static size_t lane_of(size_t index) { return index % PAGE_WORDS / LANE_WORDS; }

static void *page_address(size_t page) { return (void *)&memory[page * PAGE_WORDS]; }

static void map_pages(size_t first, size_t pages, int flags) {
    void *address = page_address(first);
    int share = broken == BREAK_SHARED_PAGES ? MAP_SHARED : MAP_PRIVATE;
    if (mmap(address, pages * PAGE_BYTES, PROT_READ | PROT_WRITE, share | MAP_ANONYMOUS | flags, -1, 0) != address)
        fail("mmap");
    /* A kernel without huge pages refuses the advice, and needs none. */
    if (madvise(address, pages * PAGE_BYTES, MADV_NOHUGEPAGE) != 0 && errno != EINVAL)
        fail("madvise");
}

/* The numbers that the parent's loads see now. */
static void observe(size_t first, size_t words, uint64_t *numbers) {
    for (size_t offset = 0; offset < words; offset++) {
        uint64_t word = load(first + offset);
        if (!read_word(word, kind->authors[lane_of(first + offset)], &numbers[offset]))
            violated(CHECK_PARENT_STORED, word, 0, 0);
    }
    judged(CHECK_PARENT_STORED, words);
}

/* The word of a page without contents or without a mapping. */
static bool is_empty(uint64_t word) { return word == 0 || word == missing_word; }

/* Judges words that were seen between two observations. */
static void judge_words(enum check stored, enum check oldest, enum check newest, size_t first, size_t words,
                        const uint64_t *low, const uint64_t *saw, const uint64_t *high) {
    size_t empty = 0;
    for (size_t offset = 0; offset < words; offset++) {
        uint64_t number;
        if (kind->discards && is_empty(saw[offset])) {
            empty++; /* judged apart */
            continue;
        }
        if (!read_word(saw[offset], kind->authors[lane_of(first + offset)], &number))
            violated(stored, saw[offset], low[offset], high[offset]);
        else if (number < low[offset])
            violated(oldest, number, low[offset], high[offset]);
        else if (number > high[offset])
            violated(newest, number, low[offset], high[offset]);
    }
    judged(stored, words - empty);
    judged(oldest, words - empty);
    judged(newest, words - empty);
}

/* ---- Transfers ---- */

/* A device, and what its thread knows of it. */
struct watched {
    struct device device;
    uint64_t written;     /* the number that it wrote last */
    uint64_t seen[WORDS]; /* the numbers that it read last */
};

static void open_watched(struct watched *watched) {
    memset(watched, 0, sizeof *watched);
    watched->written = 1;
    if (!device_open(&watched->device, 2 * PAGE_BYTES))
        fail("io_uring");
}

static void pin(struct watched *watched, size_t first_page, size_t pages) {
    if (!device_pin(&watched->device, page_address(first_page), pages * PAGE_BYTES))
        fail("registering a buffer");
    count(COUNT_PINS);
}

static void unpin(struct watched *watched) {
    if (!device_unpin(&watched->device))
        fail("unregistering a buffer");
}

/* The device reads words into its store, and they are handed out from there. */
static void fetch(struct watched *watched, size_t first, size_t words, uint64_t *saw) {
    size_t bytes = words * sizeof(uint64_t);
    if (!device_move_out(&watched->device, (void *)&memory[first], bytes))
        fail("WRITE_FIXED");
    if (pread(watched->device.file, saw, bytes, 0) != (ssize_t)bytes)
        fail("pread");
    count(COUNT_TRANSFERS);
}

/* The device's store gets one number's words, and they are written from there. */
static void deliver(struct watched *watched, size_t first, size_t words, uint64_t number) {
    uint64_t given[PAGE_WORDS];
    size_t bytes = words * sizeof(uint64_t);
    for (size_t offset = 0; offset < words; offset++)
        given[offset] = make_word(BY_DEVICE, number);
    if (pwrite(watched->device.file, given, bytes, 0) != (ssize_t)bytes)
        fail("pwrite");
    if (!device_move_in(&watched->device, (void *)&memory[first], bytes))
        fail("READ_FIXED");
    count(COUNT_TRANSFERS);
}

/* ---- Threads that store and load ---- */

static void *store_words(void *argument) {
    struct thread *self = argument;
    for (uint64_t number = 2; !atomic_load_explicit(&stop, memory_order_relaxed); number++) {
        uint64_t word = make_word(BY_PARENT, number);
        if (broken == BREAK_STRANGE_WORD && number % 256 == 0)
            word ^= (uint64_t)1 << 45;
        for (size_t index = 0; index < WORDS; index++)
            if (kind->owners[lane_of(index)] == self->number && kind->authors[lane_of(index)] == BY_PARENT)
                store(index, word);
        count(COUNT_PASSES);
    }
    return NULL;
}

static void *load_device_words(void *argument) {
    uint64_t before[WORDS], now[WORDS];
    (void)argument;
    observe(0, WORDS, before);
    while (!atomic_load_explicit(&stop, memory_order_relaxed)) {
        observe(0, WORDS, now);
        for (size_t index = 0; index < WORDS; index++)
            if (kind->authors[lane_of(index)] == BY_DEVICE && now[index] < before[index])
                violated(CHECK_PARENT_RISES, now[index], before[index], before[index]);
        judged(CHECK_PARENT_RISES, WORDS / 2);
        memcpy(before, now, sizeof before);
    }
    return NULL;
}

/* ---- Threads that pin and transfer ---- */

/* Some of the transfers give what an older one of as many bytes or more gave. */
static void fetch_old_words(struct thread *self, struct watched *watched, size_t first, size_t words, uint64_t *saw) {
    size_t bytes = words * sizeof(uint64_t);
    if (next_random(&self->random) % 64 != 0)
        fetch(watched, first, words, saw);
    else if (pread(watched->device.file, saw, bytes, PAGE_BYTES) != (ssize_t)bytes)
        fail("pread");
    if (pwrite(watched->device.file, saw, bytes, PAGE_BYTES) != (ssize_t)bytes)
        fail("pwrite");
}

/* The device reads words that the parent had seen as `low` before the pin or
 * before the transfer. It must find these or newer ones, and none from later. */
static void judge_fetch(struct thread *self, struct watched *watched, size_t first, size_t words, uint64_t *low) {
    uint64_t saw[PAGE_WORDS], high[PAGE_WORDS];
    if (broken == BREAK_EARLY_AFTER)
        observe(first, words, high);
    if (broken != BREAK_DEVICE_OLD_WORD)
        fetch(watched, first, words, saw);
    else
        fetch_old_words(self, watched, first, words, saw);
    if (broken != BREAK_EARLY_AFTER)
        observe(first, words, high);
    if (broken == BREAK_LATE_BEFORE)
        observe(first, words, low);
    for (size_t offset = 0; offset < words; offset++)
        if (low[offset] < watched->seen[first + offset])
            low[offset] = watched->seen[first + offset];
    judge_words(CHECK_DEVICE_STORED, CHECK_DEVICE_OLDEST, CHECK_DEVICE_NEWEST, first, words, low, saw, high);
    for (size_t offset = 0; offset < words; offset++)
        read_word(saw[offset], kind->authors[lane_of(first + offset)], &watched->seen[first + offset]);
}

/* The device writes its next number into the words of one lane; nobody else
 * writes there, so the parent must load that very number. */
static void judge_deliver(struct thread *self, struct watched *watched, size_t first) {
    uint64_t number = ++watched->written;
    if (broken == BREAK_FALLING_WORD && number > 3)
        deliver(watched, first, LANE_WORDS, number - 3);
    if (broken != BREAK_LOST_WRITE || next_random(&self->random) % 64 != 0)
        deliver(watched, first, LANE_WORDS, number);
    for (size_t offset = 0; offset < LANE_WORDS; offset++) {
        uint64_t word = load(first + offset);
        if (word != make_word(BY_DEVICE, number))
            violated(CHECK_PARENT_SEES, word, number, number);
    }
    judged(CHECK_PARENT_SEES, LANE_WORDS);
}

static void *run_device(void *argument) {
    struct thread *self = argument;
    struct watched watched;
    uint64_t low[PAGE_WORDS];
    open_watched(&watched);
    pin(&watched, 0, PAGES);
    while (!atomic_load_explicit(&stop, memory_order_relaxed)) {
        size_t words = 1 + next_random(&self->random) % PAGE_WORDS;
        size_t first = next_random(&self->random) % (WORDS - words + 1);
        observe(first, words, low);
        judge_fetch(self, &watched, first, words, low);
        size_t page = next_random(&self->random) % PAGES, lane = next_random(&self->random) % (LANES / 2) * 2 + 1;
        judge_deliver(self, &watched, page * PAGE_WORDS + lane * LANE_WORDS);
    }
    unpin(&watched);
    device_close(&watched.device);
    return NULL;
}

static void *pin_and_unpin(void *argument) {
    struct thread *self = argument;
    struct watched watched;
    uint64_t low[PAGE_WORDS];
    size_t own_lane = 0;
    open_watched(&watched);
    while (kind->owners[own_lane] != self->number)
        own_lane++;
    for (uint64_t number = 2; !atomic_load_explicit(&stop, memory_order_relaxed); number += 2) {
        size_t pages = 1 + next_random(&self->random) % PAGES;
        size_t first = next_random(&self->random) % (PAGES - pages + 1);
        size_t page = first + next_random(&self->random) % pages;
        size_t stored = page * PAGE_WORDS + own_lane * LANE_WORDS, delivered = stored + LANE_WORDS;
        for (size_t index = stored; index < stored + LANE_WORDS; index++)
            store(index, make_word(BY_PARENT, number));
        observe(page * PAGE_WORDS, PAGE_WORDS, low);
        pin(&watched, first, pages);
        judge_fetch(self, &watched, page * PAGE_WORDS, PAGE_WORDS, low);
        judge_deliver(self, &watched, delivered);
        for (size_t index = stored; index < stored + LANE_WORDS; index++)
            store(index, make_word(BY_PARENT, number + 1));
        observe(page * PAGE_WORDS, PAGE_WORDS, low);
        judge_fetch(self, &watched, page * PAGE_WORDS, PAGE_WORDS, low);
        unpin(&watched);
    }
    device_close(&watched.device);
    return NULL;
}

/* ---- Discards and unmaps under a pin ---- */

static void store_number(size_t first, size_t words, uint64_t number) {
    for (size_t offset = 0; offset < words; offset++)
        store(first + offset, make_word(BY_PARENT, number));
}

static void expect_loads(enum check check, size_t first, size_t words, uint64_t expected) {
    for (size_t offset = 0; offset < words; offset++)
        if (load(first + offset) != expected)
            violated(check, load(first + offset), expected, expected);
    judged(check, words);
}

static void expect_words(enum check check, const uint64_t *saw, size_t words, uint64_t expected) {
    for (size_t offset = 0; offset < words; offset++)
        if (saw[offset] != expected)
            violated(check, saw[offset], expected, expected);
    judged(check, words);
}

/* One page loses its contents: discarded, unmapped and mapped again with a hole
 * in between, or mapped over. */
static void lose_page(struct thread *self, size_t page) {
    void *address = page_address(page);
    uint64_t way = next_random(&self->random) % 3;
    if (broken == BREAK_DISCARD_KEEPS)
        return;
    if (way == 0) {
        if (madvise(address, PAGE_BYTES, MADV_DONTNEED) != 0)
            fail("MADV_DONTNEED");
        count(COUNT_DISCARDS);
        return;
    }
    if (way == 1 && munmap(address, PAGE_BYTES) != 0)
        fail("munmap");
    map_pages(page, 1, way == 1 ? MAP_FIXED_NOREPLACE : MAP_FIXED);
    count(COUNT_UNMAPS);
}

static void tell_stage(struct thread *self, uint64_t round, uint64_t stage) {
    atomic_store(&discard_stages[self->number], STAGES * round + stage);
}

static void *discard_pages(void *argument) {
    struct thread *self = argument;
    struct watched watched;
    uint64_t saw[PAGE_WORDS];
    size_t first_page = (size_t)self->number * DISCARDER_PAGES, first = first_page * PAGE_WORDS;
    open_watched(&watched);
    for (uint64_t round = 1; !atomic_load_explicit(&stop, memory_order_relaxed); round++) {
        uint64_t older = make_word(BY_PARENT, 2 * round), newer = make_word(BY_PARENT, 2 * round + 1);
        uint64_t lost = 1 + next_random(&self->random) % ((1 << DISCARDER_PAGES) - 1); /* a set of pages */
        tell_stage(self, round, STAGE_OLDER);
        store_number(first, DISCARDER_WORDS, 2 * round);
        pin(&watched, first_page, DISCARDER_PAGES);
        tell_stage(self, round, STAGE_LOST);
        for (size_t page = 0; page < DISCARDER_PAGES; page++)
            if (lost >> page & 1)
                lose_page(self, first_page + page);
        if (broken == BREAK_PIN_FOLLOWS) {
            unpin(&watched);
            pin(&watched, first_page, DISCARDER_PAGES);
        }
        for (size_t page = 0; page < DISCARDER_PAGES; page++) {
            size_t place = first + page * PAGE_WORDS, lane = next_random(&self->random) % LANES * LANE_WORDS;
            if (!(lost >> page & 1)) {
                expect_loads(CHECK_PARENT_STORED, place, PAGE_WORDS, older);
                fetch(&watched, place, PAGE_WORDS, saw);
                expect_words(CHECK_PIN_KEEPS, saw, PAGE_WORDS, older);
                store_number(place, PAGE_WORDS, 2 * round + 1);
                fetch(&watched, place, PAGE_WORDS, saw);
                expect_words(CHECK_DEVICE_OLDEST, saw, PAGE_WORDS, newer);
                continue;
            }
            /* Half of the time the pin is looked at before anything fills the new page. */
            if (next_random(&self->random) % 2 == 0)
                expect_loads(CHECK_NEW_ZEROS, place, PAGE_WORDS, 0);
            fetch(&watched, place, PAGE_WORDS, saw);
            expect_words(CHECK_PIN_KEEPS, saw, PAGE_WORDS, older);
            deliver(&watched, place + lane, LANE_WORDS, round);
            expect_loads(CHECK_NEW_APART, place, PAGE_WORDS, 0);
            store_number(place, PAGE_WORDS, 2 * round + 1);
            fetch(&watched, place, PAGE_WORDS, saw);
            expect_words(CHECK_PIN_KEEPS, saw, lane, older);
            expect_words(CHECK_PIN_KEEPS, saw + lane, LANE_WORDS, make_word(BY_DEVICE, round));
            expect_words(CHECK_PIN_KEEPS, saw + lane + LANE_WORDS, PAGE_WORDS - lane - LANE_WORDS, older);
            expect_loads(CHECK_PARENT_STORED, place, PAGE_WORDS, newer);
        }
        tell_stage(self, round, STAGE_NEWER);
        unpin(&watched);
    }
    device_close(&watched.device);
    return NULL;
}

/* ---- Forks ---- */

static void short_sleep(long microseconds) {
    struct timespec pause = {.tv_sec = microseconds / 1000000, .tv_nsec = microseconds % 1000000 * 1000};
    nanosleep(&pause, NULL);
}

/* The parent dies with its threads, and no child outlives the thread that made it. */
static void die_with(pid_t parent) {
    if (prctl(PR_SET_PDEATHSIG, SIGKILL) != 0 || getppid() != parent)
        _exit(STATUS_FAILURE);
}

/* A child: looks at all words at once, stores its own numbers into every second
 * one, and looks on until it is told to end, once more after that. */
static _Noreturn void be_child(struct child_report *report, pid_t parent, bool early) {
    uint64_t kept[WORDS];
    unsigned char resident;
    bool told;
    die_with(parent);
    for (size_t index = 0; index < WORDS; index++) {
        bool hole = kind->discards && mincore(page_address(index / PAGE_WORDS), PAGE_BYTES, &resident) != 0;
        report->words[index] = kept[index] = hole ? missing_word : load(index);
    }
    for (size_t index = 1; index < WORDS; index += 2)
        if (kept[index] != missing_word)
            store(index, kept[index] = make_word(BY_CHILD, index));
    if (early)
        _exit(STATUS_FAILURE);
    do {
        told = atomic_load(&report->told);
        if (told && broken == BREAK_CHILD_CHANGES && kept[0] != missing_word)
            store(0, make_word(BY_CHILD, 0));
        for (size_t index = 0; index < WORDS; index++) {
            if (kept[index] == missing_word || load(index) == kept[index])
                continue;
            if (report->changes++ == 0) {
                report->changed_from = kept[index];
                report->changed_to = load(index);
            }
            kept[index] = load(index);
        }
        if (!told)
            short_sleep(200);
    } while (!told);
    _exit(STATUS_RIGHT);
}

struct child {
    pid_t process;
    struct child_report *report;
    uint64_t low[WORDS], high[WORDS];                          /* numbers before and after the fork */
    uint64_t stage_before[DISCARDERS], stage_after[DISCARDERS];
};

/* Where pages are discarded, the numbers follow from the stages: the loads of a
 * forking thread could end in a hole. */
static void observe_before_fork(struct child *child) {
    for (size_t number = 0; number < DISCARDERS; number++)
        child->stage_before[number] = atomic_load(&discard_stages[number]);
    if (!kind->discards)
        observe(0, WORDS, child->low);
    for (size_t index = 0; index < WORDS && kind->discards; index++) {
        uint64_t told = child->stage_before[index / DISCARDER_WORDS], round = told / STAGES, stage = told % STAGES;
        child->low[index] = told < STAGES ? 0 : 2 * round + stage - 1;
    }
}

static void observe_after_fork(struct child *child) {
    for (size_t number = 0; number < DISCARDERS; number++)
        child->stage_after[number] = atomic_load(&discard_stages[number]);
    if (!kind->discards)
        observe(0, WORDS, child->high);
    for (size_t index = 0; index < WORDS && kind->discards; index++) {
        uint64_t told = child->stage_after[index / DISCARDER_WORDS], round = told / STAGES, stage = told % STAGES;
        child->high[index] = 2 * round + (stage != STAGE_OLDER);
    }
}

/* The parent's pages are empty until its first stores and while they are lost. */
static bool could_be_empty(uint64_t before, uint64_t after) {
    for (uint64_t stage = before; stage <= after; stage++)
        if (stage <= STAGES || stage % STAGES == STAGE_LOST)
            return true;
    return false;
}

static void judge_empty_words(const struct child *child) {
    for (size_t index = 0; index < WORDS; index++) {
        uint64_t before = child->stage_before[index / DISCARDER_WORDS];
        uint64_t after = child->stage_after[index / DISCARDER_WORDS];
        if (is_empty(child->report->words[index]) && !could_be_empty(before, after))
            violated(CHECK_CHILD_EMPTY, child->report->words[index], before, after);
    }
    judged(CHECK_CHILD_EMPTY, WORDS);
}

/* What a fork must not do: the parent gets the copies, and its pins stay with the
 * old pages. */
static void give_parent_copies(void) {
    for (size_t page = 0; page < PAGES; page++) {
        void *copy = mmap(NULL, PAGE_BYTES, PROT_READ | PROT_WRITE, MAP_PRIVATE | MAP_ANONYMOUS, -1, 0);
        if (copy == MAP_FAILED)
            fail("mmap");
        memcpy(copy, page_address(page), PAGE_BYTES);
        if (mremap(copy, PAGE_BYTES, PAGE_BYTES, MREMAP_MAYMOVE | MREMAP_FIXED, page_address(page)) == MAP_FAILED)
            fail("mremap");
    }
}

static void start_child(struct thread *self, struct child *child) {
    pid_t parent = getpid();
    bool early = broken == BREAK_CHILD_DIES && next_random(&self->random) % 16 == 0;
    child->report->changes = 0;
    atomic_store(&child->report->told, false);
    observe_before_fork(child);
    if (broken == BREAK_EARLY_AFTER)
        observe_after_fork(child);
    child->process = fork();
    if (child->process < 0)
        fail("fork");
    if (child->process == 0)
        be_child(child->report, parent, early);
    if (broken == BREAK_PARENT_COPIED && !kind->discards)
        give_parent_copies();
    if (broken != BREAK_EARLY_AFTER)
        observe_after_fork(child);
    if (broken == BREAK_LATE_BEFORE)
        observe_before_fork(child);
    count(COUNT_FORKS);
}

/* A storing thread goes through its words in one order. If a child's words are of
 * one moment, the first of them have one number and the others that less one. No
 * promise is made of that; it is counted to show how forks copy. */
static bool is_of_one_moment(const uint64_t *words) {
    for (int storer = 0; storer < THREADS; storer++) {
        uint64_t first = 0, last = 0, number;
        if (kind->roles[storer] != store_words)
            continue;
        for (size_t index = 0; index < WORDS; index++) {
            if (kind->owners[lane_of(index)] != storer || kind->authors[lane_of(index)] != BY_PARENT)
                continue;
            read_word(words[index], BY_PARENT, &number);
            if (last != 0 && number > last)
                return false;
            if (first == 0)
                first = number;
            last = number;
        }
        if (first > last + 1)
            return false;
    }
    return true;
}

static void end_child(struct child *child) {
    const struct child_report *report = child->report;
    int status;
    atomic_store(&child->report->told, true);
    while (waitpid(child->process, &status, 0) != child->process)
        if (errno != EINTR)
            fail("waitpid");
    child->process = 0;
    judged(CHECK_CHILD_ENDS, 1);
    if (!WIFEXITED(status) || WEXITSTATUS(status) != STATUS_RIGHT) {
        violated(CHECK_CHILD_ENDS, (uint64_t)status, 0, 0);
        return;
    }
    judge_words(CHECK_CHILD_STORED, CHECK_CHILD_OLDEST, CHECK_CHILD_NEWEST, 0, WORDS, child->low, report->words,
                child->high);
    if (kind->discards)
        judge_empty_words(child);
    judged(CHECK_CHILD_KEEPS, WORDS);
    for (uint64_t change = 0; change < report->changes; change++)
        violated(CHECK_CHILD_KEEPS, report->changed_to, report->changed_from, report->changed_from);
    if (kind->roles[0] == store_words && !is_of_one_moment(report->words))
        count(COUNT_MIXED);
}

static void *fork_children(void *argument) {
    struct thread *self = argument;
    static struct child children[CHILDREN]; /* each kind has one forking thread */
    for (size_t number = 0; number < CHILDREN; number++)
        children[number] = (struct child){.report = &reports[number]};
    while (!atomic_load_explicit(&stop, memory_order_relaxed)) {
        struct child *child = &children[next_random(&self->random) % CHILDREN];
        if (child->process != 0)
            end_child(child);
        start_child(self, child);
    }
    for (size_t number = 0; number < CHILDREN; number++)
        if (children[number].process != 0)
            end_child(&children[number]);
    return NULL;
}

/* ---- The program ---- */

static _Noreturn void run_kind(pid_t parent, uint64_t seed, long milliseconds) {
    struct thread threads[THREADS];
    die_with(parent);
    map_pages(0, PAGES, MAP_FIXED_NOREPLACE);
    for (size_t index = 0; index < WORDS && !kind->discards; index++)
        store(index, make_word(kind->authors[lane_of(index)], 1));
    for (int number = 0; number < THREADS; number++) {
        threads[number] = (struct thread){.number = number, .random = seed * THREADS + (uint64_t)number};
        if (kind->roles[number] == NULL)
            continue;
        errno = pthread_create(&threads[number].handle, NULL, kind->roles[number], &threads[number]);
        if (errno != 0)
            fail("pthread_create");
    }
    struct timespec duration = {.tv_sec = milliseconds / 1000, .tv_nsec = milliseconds % 1000 * 1000000};
    while (nanosleep(&duration, &duration) != 0)
        continue;
    atomic_store(&stop, true);
    for (int number = 0; number < THREADS; number++)
        if (kind->roles[number] != NULL && (errno = pthread_join(threads[number].handle, NULL)) != 0)
            fail("pthread_join");
    _exit(STATUS_RIGHT);
}

/* Waits for a kind's process; one that hangs is ended, and its children with it. */
static bool wait_for_kind(pid_t process, long milliseconds) {
    int status;
    for (long waited = 0;; waited += 10) {
        pid_t ended = waitpid(process, &status, WNOHANG);
        if (ended < 0)
            fail("waitpid");
        if (ended == process)
            return WIFEXITED(status) && WEXITSTATUS(status) == STATUS_RIGHT;
        if (waited == milliseconds + PATIENCE_SECONDS * 1000)
            kill(process, SIGKILL);
        short_sleep(10000);
    }
}

/* Tries all that is needed once. */
static void look_for_wanting(void) {
    struct device device;
    const char *wanting = NULL;
    map_pages(0, 1, MAP_FIXED_NOREPLACE);
    if (!device_open(&device, PAGE_BYTES))
        wanting = "io_uring or memfd_create";
    else if (!device_pin(&device, page_address(0), PAGE_BYTES))
        wanting = "registering a buffer";
    else if (!device_move_in(&device, page_address(0), PAGE_BYTES) ||
             !device_move_out(&device, page_address(0), PAGE_BYTES))
        wanting = "READ_FIXED or WRITE_FIXED";
    if (wanting != NULL) {
        fprintf(stderr, "concurrent: the kernel or the rights are wanting: %s: %s\n", wanting, strerror(errno));
        exit(STATUS_WANTING);
    }
    device_close(&device);
    munmap(page_address(0), PAGE_BYTES);
}

static _Noreturn void wrong_usage(void) {
    fprintf(stderr, "usage: concurrent SECONDS [SEED] [--break NAME]\n");
    exit(STATUS_USAGE);
}

static uint64_t read_number(const char *text, uint64_t least, uint64_t most) {
    char *end;
    errno = 0;
    unsigned long long number = strtoull(text, &end, 10);
    if (*text < '0' || *text > '9' || *end != '\0' || errno != 0 || number < least || number > most)
        wrong_usage();
    return number;
}

int main(int arguments, char **texts) {
    static const struct option options[] = {{"break", required_argument, NULL, 'b'}, {0}};
    for (int option; (option = getopt_long(arguments, texts, "", options, NULL)) != -1;) {
        if (option != 'b')
            exit(STATUS_USAGE);
        if (!break_world(optarg))
            wrong_usage();
    }
    if (arguments - optind < 1 || arguments - optind > 2)
        wrong_usage();
    uint64_t seconds = read_number(texts[optind], 1, 86400);
    uint64_t seed = arguments - optind == 2 ? read_number(texts[optind + 1], 0, UINT64_MAX) : 1;
    long milliseconds = (long)(seconds * 1000 / KINDS);

    look_for_wanting();
    reports = mmap(NULL, CHILDREN * sizeof *reports, PROT_READ | PROT_WRITE, MAP_SHARED | MAP_ANONYMOUS, -1, 0);
    if (reports == MAP_FAILED || !findings_open(KINDS))
        fail("mmap");
    struct utsname system;
    uname(&system);
    printf("kernel %s, %ld processors, %" PRIu64 " seconds, seed %" PRIu64 ", broken: %s\n", system.release,
           sysconf(_SC_NPROCESSORS_ONLN), seconds, seed, break_name());
    fflush(stdout);
    for (size_t number = 0; number < KINDS; number++) {
        pid_t parent = getpid();
        kind = &kinds[number];
        findings_choose(number);
        pid_t process = fork();
        if (process < 0)
            fail("fork");
        if (process == 0)
            run_kind(parent, seed * KINDS + number, milliseconds);
        if (!wait_for_kind(process, milliseconds)) {
            fprintf(stderr, "concurrent: the rounds of kind %s did not end well\n", kind->name);
            exit(STATUS_FAILURE);
        }
    }
    const char *names[KINDS];
    for (size_t number = 0; number < KINDS; number++)
        names[number] = kinds[number].name;
    return findings_print(names) == 0 ? STATUS_RIGHT : STATUS_VIOLATIONS;
}
