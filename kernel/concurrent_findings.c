/* concurrent_findings.c: see concurrent_findings.h. */
#include "concurrent_findings.h"

#include <inttypes.h>
#include <stdatomic.h>
#include <stdio.h>
#include <sys/mman.h>

static const char *const check_names[CHECKS] = {
    [CHECK_CHILD_STORED] = "a child's word was stored by its parent or device",
    [CHECK_CHILD_OLDEST] = "a child's word is no older than its fork",
    [CHECK_CHILD_NEWEST] = "a child's word is no newer than its fork",
    [CHECK_CHILD_EMPTY] = "a child's page is empty only as its parent's was",
    [CHECK_CHILD_KEEPS] = "a child's word does not change afterwards",
    [CHECK_CHILD_ENDS] = "a child ends as it is told",
    [CHECK_PARENT_STORED] = "a word that the parent loads was stored there",
    [CHECK_PARENT_RISES] = "a device's word rises under the parent's loads",
    [CHECK_PARENT_SEES] = "the parent loads what the device just wrote",
    [CHECK_DEVICE_STORED] = "a word that the device reads was stored there",
    [CHECK_DEVICE_OLDEST] = "the device reads the newest store of before",
    [CHECK_DEVICE_NEWEST] = "the device reads nothing from after",
    [CHECK_NEW_ZEROS] = "after a discard or unmap new loads find zeros",
    [CHECK_PIN_KEEPS] = "after it the pin keeps the old page",
    [CHECK_NEW_APART] = "after it the device's words do not show",
};

static const char *const count_names[COUNTS] = {
    [COUNT_PASSES] = "passes of stores",
    [COUNT_FORKS] = "forks",
    [COUNT_MIXED] = "children with words of no one moment",
    [COUNT_TRANSFERS] = "transfers",
    [COUNT_PINS] = "pins",
    [COUNT_DISCARDS] = "discards",
    [COUNT_UNMAPS] = "unmaps",
};

struct tally {
    _Atomic uint64_t judged, violations;
    uint64_t saw, low, high; /* of the first violation */
};

struct findings {
    struct tally tallies[CHECKS];
    _Atomic uint64_t counts[COUNTS];
};

static struct findings *all, *chosen;
static size_t kinds;

bool findings_open(size_t wanted_kinds) {
    kinds = wanted_kinds;
    all = mmap(NULL, kinds * sizeof *all, PROT_READ | PROT_WRITE, MAP_SHARED | MAP_ANONYMOUS, -1, 0);
    return all != MAP_FAILED;
}

void findings_choose(size_t kind) { chosen = &all[kind]; }

void count(enum count which) { atomic_fetch_add_explicit(&chosen->counts[which], 1, memory_order_relaxed); }

void judged(enum check check, uint64_t times) {
    atomic_fetch_add_explicit(&chosen->tallies[check].judged, times, memory_order_relaxed);
}

void violated(enum check check, uint64_t saw, uint64_t low, uint64_t high) {
    struct tally *tally = &chosen->tallies[check];
    if (atomic_fetch_add(&tally->violations, 1) == 0) {
        tally->saw = saw;
        tally->low = low;
        tally->high = high;
    }
}

uint64_t findings_print(const char *const *kind_names) {
    uint64_t total = 0;
    printf("\n%-52s", "counted");
    for (size_t kind = 0; kind < kinds; kind++)
        printf("%13s", kind_names[kind]);
    for (size_t which = 0; which < COUNTS; which++) {
        printf("\n%-52s", count_names[which]);
        for (size_t kind = 0; kind < kinds; kind++)
            printf("%13" PRIu64, all[kind].counts[which]);
    }
    printf("\n\n%-52s", "judged");
    for (size_t kind = 0; kind < kinds; kind++)
        printf("%13s", kind_names[kind]);
    for (size_t check = 0; check < CHECKS; check++) {
        printf("\n%-52s", check_names[check]);
        for (size_t kind = 0; kind < kinds; kind++)
            printf("%13" PRIu64, all[kind].tallies[check].judged);
        for (size_t kind = 0; kind < kinds; kind++) {
            const struct tally *tally = &all[kind].tallies[check];
            total += tally->violations;
            if (tally->violations != 0)
                printf("\n  VIOLATED in %s: %" PRIu64 " times; first: saw %#" PRIx64 ", expected %#" PRIx64
                       " to %#" PRIx64,
                       kind_names[kind], tally->violations, tally->saw, tally->low, tally->high);
        }
    }
    printf("\n\n%" PRIu64 " violations\n", total);
    return total;
}
