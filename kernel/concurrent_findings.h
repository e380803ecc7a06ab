/* concurrent_findings.h: what concurrent.c checks and counts. The numbers lie in
 * memory that all processes share, apart for each kind of rounds.
 */
#ifndef CONCURRENT_FINDINGS_H
#define CONCURRENT_FINDINGS_H

#include <stdbool.h>
#include <stddef.h>
#include <stdint.h>

enum check {
    CHECK_CHILD_STORED,
    CHECK_CHILD_OLDEST,
    CHECK_CHILD_NEWEST,
    CHECK_CHILD_EMPTY,
    CHECK_CHILD_KEEPS,
    CHECK_CHILD_ENDS,
    CHECK_PARENT_STORED,
    CHECK_PARENT_RISES,
    CHECK_PARENT_SEES,
    CHECK_DEVICE_STORED,
    CHECK_DEVICE_OLDEST,
    CHECK_DEVICE_NEWEST,
    CHECK_NEW_ZEROS,
    CHECK_PIN_KEEPS,
    CHECK_NEW_APART,
    CHECKS,
};

enum count {
    COUNT_PASSES,
    COUNT_FORKS,
    COUNT_MIXED,
    COUNT_TRANSFERS,
    COUNT_PINS,
    COUNT_DISCARDS,
    COUNT_UNMAPS,
    COUNTS,
};

/* Before any process is made; false where memory is wanting. */
bool findings_open(size_t kinds);

/* From here on this process and its children count for this kind. */
void findings_choose(size_t kind);

void count(enum count which);
void judged(enum check check, uint64_t times);
void violated(enum check check, uint64_t saw, uint64_t low, uint64_t high);

/* Prints the table of all kinds, and answers how many violations there are. */
uint64_t findings_print(const char *const *kind_names);

#endif
