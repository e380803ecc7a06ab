/* concurrent_break.h: the wrong worlds that concurrent.c can make on purpose, to
 * show that each of its checks can fail.
 *
 *   shared-pages     the pages are shared by parent and children
 *   parent-copied    a fork gives the parent the copies, not the child
 *   late-before      what was seen "before" a call is looked at after it
 *   early-after      what was seen "after" a call is looked at before it
 *   strange-word     some stores store what nobody may store
 *   child-changes    a child's word changes behind its back
 *   child-dies       some children end before they are told to
 *   device-old-word  some transfers give the words of an older one
 *   lost-write       some words that the device writes don't arrive
 *   falling-word     the device writes an older number before a new one
 *   discard-keeps    discards and unmaps keep the contents
 *   pin-follows      a pin follows the page to its new contents
 */
#ifndef CONCURRENT_BREAK_H
#define CONCURRENT_BREAK_H

#include <stdbool.h>

enum broken {
    BREAK_NOTHING,
    BREAK_SHARED_PAGES,
    BREAK_PARENT_COPIED,
    BREAK_LATE_BEFORE,
    BREAK_EARLY_AFTER,
    BREAK_STRANGE_WORD,
    BREAK_CHILD_CHANGES,
    BREAK_CHILD_DIES,
    BREAK_DEVICE_OLD_WORD,
    BREAK_LOST_WRITE,
    BREAK_FALLING_WORD,
    BREAK_DISCARD_KEEPS,
    BREAK_PIN_FOLLOWS,
    BREAKS,
};

/* What is broken; set once, before any thread is made. */
extern enum broken broken;

/* Answers false, and breaks nothing, if there is no such name. */
bool break_world(const char *name);

const char *break_name(void);

#endif
