/* How the runner, and the processes that it starts, end with an error. */
#include "fail.h"

#include <stdarg.h>
#include <stdio.h>
#include <stdlib.h>

void (*fail_otherwise)(int status, const char *text);

_Noreturn void fail(int status, const char *format, ...)
{
	char text[256];
	va_list rest;

	va_start(rest, format);
	vsnprintf(text, sizeof text, format, rest);
	va_end(rest);
	if (fail_otherwise)
		fail_otherwise(status, text);
	else
		fprintf(stderr, "kernel/run: %s\n", text);
	exit(status);
}

void *allocate(unsigned long count, unsigned long bytes)
{
	void *memory = calloc(count, bytes);

	if (!memory)
		fail(FAILED, "memory ran out");
	return memory;
}
