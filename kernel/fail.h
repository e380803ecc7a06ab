/* How the runner, and the processes that it starts, end with an error. */
#ifndef FAIL_H
#define FAIL_H

enum { DONE = 0, FAILED = 1, WRONG_USAGE = 2, WRONG_SCRIPT = 3, WANTING = 77 };

/* Names the error in one line on standard error, and ends with the status. */
_Noreturn void fail(int status, const char *format, ...) __attribute__((format(printf, 2, 3)));

/* Takes the text and ends the program in place of the line, for whoever has more to do then. */
extern void (*fail_otherwise)(int status, const char *text);

void *allocate(unsigned long count, unsigned long bytes);

#endif
