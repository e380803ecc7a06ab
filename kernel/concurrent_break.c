/* concurrent_break.c: see concurrent_break.h. */
#include "concurrent_break.h"

#include <string.h>

static const char *const names[BREAKS] = {
    [BREAK_NOTHING] = "nothing",
    [BREAK_SHARED_PAGES] = "shared-pages",
    [BREAK_PARENT_COPIED] = "parent-copied",
    [BREAK_LATE_BEFORE] = "late-before",
    [BREAK_EARLY_AFTER] = "early-after",
    [BREAK_STRANGE_WORD] = "strange-word",
    [BREAK_CHILD_CHANGES] = "child-changes",
    [BREAK_CHILD_DIES] = "child-dies",
    [BREAK_DEVICE_OLD_WORD] = "device-old-word",
    [BREAK_LOST_WRITE] = "lost-write",
    [BREAK_FALLING_WORD] = "falling-word",
    [BREAK_DISCARD_KEEPS] = "discard-keeps",
    [BREAK_PIN_FOLLOWS] = "pin-follows",
};

enum broken broken = BREAK_NOTHING;

bool break_world(const char *name) {
    for (enum broken candidate = BREAK_NOTHING; candidate < BREAKS; candidate++)
        if (strcmp(names[candidate], name) == 0) {
            broken = candidate;
            return true;
        }
    return false;
}

const char *break_name(void) { return names[broken]; }
