/*
 * Reads a script of version 1, and the lines that `gup run` printed for it. `gup run` has accepted the script, so what
 * would be a fault of its grammar is only refused here where the runner would be misled by it.
 */
#include "script.h"
#include "fail.h"

#include <errno.h>
#include <stdio.h>
#include <stdlib.h>
#include <string.h>

enum { MOST_WORDS = 16, NAME_PLACES = 1 << 16 };

enum name_kind { PROCESS_NAME, ACTOR_NAME, HANDLE_NAME, REFERENCE_NAME };

struct name {
	char text[MOST_NAME + 1];
	enum name_kind kind;
	int number;
};

/* What is known while a file is read: it is no part of the script. */
struct reader {
	const char *path;
	unsigned line;
	char *word[MOST_WORDS];
	unsigned words;
	struct script *script;
	struct name *names; /* an open hash table */
};

static _Noreturn void refuse(const struct reader *reader, const char *reason)
{
	fail(WRONG_SCRIPT, "%s: line %u: %s", reader->path, reader->line, reason);
}

static char *read_file(const char *path)
{
	size_t room = 1 << 22;
	FILE *file = fopen(path, "r");
	char *text = allocate(room, 1);
	size_t length;

	if (!file)
		fail(WRONG_USAGE, "%s: %s", path, strerror(errno));
	length = fread(text, 1, room - 1, file);
	if (ferror(file))
		fail(FAILED, "%s: %s", path, strerror(errno));
	if (length == room - 1)
		fail(WRONG_SCRIPT, "%s: it is too long", path);
	fclose(file);
	return text;
}

static struct name *place_of(const struct reader *reader, const char *text)
{
	uint32_t hash = 2166136261u;
	struct name *place;

	for (const char *letter = text; *letter; letter++)
		hash = (hash ^ (unsigned char)*letter) * 16777619u;
	do {
		place = &reader->names[hash++ % NAME_PLACES];
	} while (place->text[0] && strcmp(place->text, text));
	return place;
}

static void declare(const struct reader *reader, const char *text, enum name_kind kind, unsigned number, unsigned most)
{
	struct name *place;

	if (!text[0] || strlen(text) > MOST_NAME || number >= most)
		refuse(reader, "a name, or one too many");
	place = place_of(reader, text);
	if (place->text[0])
		refuse(reader, "a name that is declared twice");
	strcpy(place->text, text);
	place->kind = kind;
	place->number = (int)number;
}

static int named(const struct reader *reader, const char *text, enum name_kind kind)
{
	const struct name *place = place_of(reader, text);

	if (!place->text[0] || place->kind != kind)
		refuse(reader, "a name that isn't declared so");
	return place->number;
}

static uint64_t number(const struct reader *reader, const char *text, char **end)
{
	char *after;
	uint64_t value;

	errno = 0;
	value = strtoull(text, &after, 10);
	if (after == text || *text < '0' || *text > '9' || errno || (!end && *after))
		refuse(reader, "a number");
	if (end)
		*end = after;
	return value;
}

static uint64_t number_at(const struct reader *reader, unsigned word)
{
	if (word >= reader->words)
		refuse(reader, "too few words");
	return number(reader, reader->word[word], NULL);
}

static bool is(const struct reader *reader, unsigned word, const char *text)
{
	return word < reader->words && !strcmp(reader->word[word], text);
}

static void expect_words(const struct reader *reader, unsigned least, unsigned most)
{
	if (reader->words < least || reader->words > most)
		refuse(reader, "too few words or too many");
}

static void read_range(const struct reader *reader, struct operation *operation, unsigned word)
{
	operation->page = number_at(reader, word);
	operation->count = number_at(reader, word + 1);
	if (operation->page >= PAGES_WITHIN_REACH || operation->count > PAGES_WITHIN_REACH - operation->page)
		refuse(reader, "too far: a page above 2^24");
}

static void read_page(const struct reader *reader, struct operation *operation, const char *text, char **end)
{
	operation->page = number(reader, text, end);
	operation->count = 1;
	if (operation->page >= PAGES_WITHIN_REACH)
		refuse(reader, "too far: a page above 2^24");
}

static void read_address(const struct reader *reader, struct operation *operation, unsigned word)
{
	char *end;

	if (word >= reader->words)
		refuse(reader, "too few words");
	read_page(reader, operation, reader->word[word], &end);
	if (*end != '.')
		refuse(reader, "an address");
	operation->word = (unsigned)number(reader, end + 1, NULL);
	if (operation->word >= PAGE_WORDS)
		refuse(reader, "an address");
}

static bool read_choice(const struct reader *reader, unsigned word, const char *no, const char *yes)
{
	if (!is(reader, word, no) && !is(reader, word, yes))
		refuse(reader, "a word that isn't known here");
	return is(reader, word, yes);
}

static uint32_t read_part(const struct reader *reader, const char *text, char **end)
{
	uint64_t value = number(reader, text, end);

	if (value >> 32)
		refuse(reader, "a number");
	return (uint32_t)value;
}

static void read_mapping(const struct reader *reader, struct operation *operation)
{
	operation->kind = is(reader, 2, "map") ? MAP : PROTECT;
	expect_words(reader, 6, 6);
	read_range(reader, operation, 3);
	operation->write = read_choice(reader, 5, "r", "rw");
}

static void read_unmapping(const struct reader *reader, struct operation *operation)
{
	operation->kind = is(reader, 2, "unmap") ? UNMAP : DISCARD;
	expect_words(reader, 5, 5);
	read_range(reader, operation, 3);
}

static void read_access(const struct reader *reader, struct operation *operation)
{
	operation->kind = is(reader, 2, "load") ? LOAD : STORE;
	expect_words(reader, operation->kind == LOAD ? 4 : 5, operation->kind == LOAD ? 4 : 5);
	read_address(reader, operation, 3);
	if (operation->kind == STORE)
		operation->value = number_at(reader, 4);
}

static void read_exit(const struct reader *reader, struct operation *operation)
{
	operation->kind = EXIT;
	expect_words(reader, 3, 3);
}

static void read_fork(const struct reader *reader, struct operation *operation)
{
	operation->kind = FORK;
	expect_words(reader, 4, 4);
	operation->child = named(reader, reader->word[3], PROCESS_NAME);
}

static void read_pin(const struct reader *reader, struct operation *operation)
{
	operation->kind = PIN;
	expect_words(reader, 7, 8);
	declare(reader, reader->word[3], HANDLE_NAME, reader->script->handles, MOST_HANDLES);
	operation->handle = (int)reader->script->handles++;
	read_range(reader, operation, 4);
	if (!operation->count || operation->count > MOST_PINNED)
		refuse(reader, "a count of pages");
	operation->write = read_choice(reader, 6, "read", "write");
	operation->for_long = reader->words == 8 && read_choice(reader, 7, "long", "long");
}

static void read_holding(const struct reader *reader, struct operation *operation)
{
	operation->kind = is(reader, 2, "unpin") ? UNPIN : is(reader, 2, "give") ? GIVE : TAKE;
	expect_words(reader, operation->kind == GIVE ? 5 : 4, operation->kind == GIVE ? 5 : 4);
	operation->handle = named(reader, reader->word[3], HANDLE_NAME);
	if (operation->kind == GIVE)
		operation->to = named(reader, reader->word[4], ACTOR_NAME);
}

static void read_get(const struct reader *reader, struct operation *operation)
{
	operation->kind = GET;
	expect_words(reader, 5, 5);
	declare(reader, reader->word[3], REFERENCE_NAME, reader->script->references, MOST_OPERATIONS);
	operation->reference = (int)reader->script->references++;
	read_page(reader, operation, reader->word[4], NULL);
}

static void read_put(const struct reader *reader, struct operation *operation)
{
	operation->kind = PUT;
	expect_words(reader, 4, 4);
	operation->reference = named(reader, reader->word[3], REFERENCE_NAME);
}

static void read_transfer(const struct reader *reader, struct operation *operation)
{
	bool vector = is(reader, 2, "outv") || is(reader, 2, "inv");

	operation->kind = is(reader, 2, "out") || is(reader, 2, "outv") ? OUT : IN;
	expect_words(reader, vector ? 6 : 7, vector ? 5 + MOST_PARTS : 7);
	operation->handle = named(reader, reader->word[3], HANDLE_NAME);
	operation->slot = read_part(reader, reader->word[vector ? 4 : 5], NULL);
	if (vector) {
		operation->parts = reader->words - 5;
		for (unsigned k = 0; k < operation->parts; k++) {
			char *end;

			operation->part[k].index = read_part(reader, reader->word[5 + k], &end);
			if (*end != ':')
				refuse(reader, "a part");
			operation->part[k].count = read_part(reader, end + 1, NULL);
		}
	} else {
		operation->parts = 1;
		operation->part[0].index = read_part(reader, reader->word[4], NULL);
		operation->part[0].count = read_part(reader, reader->word[6], NULL);
	}
	if (operation->kind == OUT)
		reader->script->outs[operation->handle]++;
}

/* What a mirror, a look and a move name isn't read: the runner answers `?` to all of them. */
static void read_other(const struct reader *reader, struct operation *operation)
{
	operation->kind = is(reader, 2, "mirror") ? MIRROR : is(reader, 2, "look") ? LOOK : MOVE;
}

static const struct {
	const char *word;
	void (*read)(const struct reader *, struct operation *);
} readers[] = {
	{"map", read_mapping}, {"protect", read_mapping}, {"unmap", read_unmapping}, {"discard", read_unmapping},
	{"load", read_access}, {"store", read_access}, {"exit", read_exit}, {"fork", read_fork},
	{"pin", read_pin}, {"pinfast", read_pin}, {"unpin", read_holding}, {"give", read_holding},
	{"take", read_holding}, {"get", read_get}, {"put", read_put}, {"out", read_transfer},
	{"outv", read_transfer}, {"in", read_transfer}, {"inv", read_transfer}, {"mirror", read_other},
	{"look", read_other}, {"move", read_other},
};

static void read_operation(const struct reader *reader)
{
	struct script *script = reader->script;
	struct operation *operation = &script->operation[script->operations];
	struct actor_line *actor;

	expect_words(reader, 3, MOST_WORDS);
	if (script->operations == MOST_OPERATIONS)
		refuse(reader, "too many operations");
	operation->actor = named(reader, reader->word[1], ACTOR_NAME);
	actor = &script->actor[operation->actor];
	operation->process = actor->process;
	operation->store = actor->store;
	for (size_t k = 0; k < sizeof readers / sizeof readers[0]; k++)
		if (is(reader, 2, readers[k].word)) {
			readers[k].read(reader, operation);
			actor->operation = realloc(actor->operation, (actor->operations + 1) * sizeof *actor->operation);
			if (!actor->operation)
				fail(FAILED, "memory ran out");
			actor->operation[actor->operations++] = script->operations++;
			return;
		}
	refuse(reader, "an operation that isn't known");
}

static void read_process(const struct reader *reader)
{
	struct script *script = reader->script;
	struct process_line *process = &script->process[script->processes];

	expect_words(reader, 2, 2);
	declare(reader, reader->word[1], PROCESS_NAME, script->processes, MOST_PROCESSES);
	strcpy(process->name, reader->word[1]);
	process->born = is(reader, 0, "process");
	script->processes++;
}

static void read_actor(const struct reader *reader, enum role role)
{
	struct script *script = reader->script;
	struct actor_line *actor = &script->actor[script->actors];

	expect_words(reader, role == MOVER ? 2 : 3, role == MOVER ? 2 : 3);
	declare(reader, reader->word[1], ACTOR_NAME, script->actors, MOST_ACTORS);
	strcpy(actor->name, reader->word[1]);
	actor->role = role;
	actor->process = role == THREAD ? named(reader, reader->word[2], PROCESS_NAME) : -1;
	actor->store = -1;
	if (role == DEVICE) {
		if (script->devices == MOST_DEVICES)
			refuse(reader, "too many devices");
		actor->store = (int)script->devices++;
		actor->slots = (unsigned)number_at(reader, 2);
		if (actor->slots > STORE_WORDS)
			refuse(reader, "a number");
	}
	script->actors++;
}

/* Turns and draws are passed over: the answers tell the order. */
static bool is_passed_over(const char *line)
{
	static const char *const words[] = {"gup ", "frames ", "seed ", "turns ", "random "};

	if (!line[0] || line[0] == '#')
		return true;
	for (size_t k = 0; k < sizeof words / sizeof words[0]; k++)
		if (!strncmp(line, words[k], strlen(words[k])))
			return true;
	return false;
}

static void split(struct reader *reader, char *line)
{
	char *rest = NULL;

	reader->words = 0;
	for (char *word = strtok_r(line, " ", &rest); word; word = strtok_r(NULL, " ", &rest)) {
		if (reader->words == MOST_WORDS)
			refuse(reader, "too many words");
		reader->word[reader->words++] = word;
	}
}

static void read_line(struct reader *reader, char *line)
{
	if (is_passed_over(line))
		return;
	split(reader, line);
	if (is(reader, 0, "process") || is(reader, 0, "child"))
		read_process(reader);
	else if (is(reader, 0, "thread"))
		read_actor(reader, THREAD);
	else if (is(reader, 0, "device"))
		read_actor(reader, DEVICE);
	else if (is(reader, 0, "mover"))
		read_actor(reader, MOVER);
	else if (is(reader, 0, "on"))
		read_operation(reader);
	else
		refuse(reader, "a line that isn't known");
}

struct script *read_script(const char *path)
{
	struct reader reader = {.path = path, .names = allocate(NAME_PLACES, sizeof *reader.names)};
	char *text = read_file(path), *rest = text, *line;

	reader.script = allocate(1, sizeof *reader.script);
	while ((line = strsep(&rest, "\n"))) {
		reader.line++;
		read_line(&reader, line);
	}
	free(text);
	free(reader.names);
	return reader.script;
}

static int actor_named(const struct reader *reader, const struct script *script, const char *name)
{
	for (unsigned k = 0; k < script->actors; k++)
		if (!strcmp(script->actor[k].name, name))
			return (int)k;
	refuse(reader, "no actor of the script has this name");
}

struct answers *read_answers(const char *path, const struct script *script)
{
	struct reader reader = {.path = path};
	struct answers *answers = allocate(1, sizeof *answers);
	unsigned told[MOST_ACTORS] = {0};
	char *text = read_file(path), *rest = text, *line;

	while ((line = strsep(&rest, "\n"))) {
		struct answer_line *answer = &answers->line[answers->lines];
		char *actor = strsep(&line, " "), *said = strsep(&line, " ");

		reader.line++;
		if (!actor[0] || !strcmp(actor, "stuck"))
			continue;
		answer->actor = actor_named(&reader, script, actor);
		if (!said || !line)
			refuse(&reader, "no answer");
		answer->number = (unsigned)number(&reader, said, NULL);
		if (answer->number != ++told[answer->actor] || answer->number > script->actor[answer->actor].operations)
			refuse(&reader, "it isn't the actor's next operation");
		answer->operation = &script->operation[script->actor[answer->actor].operation[answer->number - 1]];
		answer->ok = !strncmp(line, "ok", 2);
		answers->lines++;
	}
	free(text);
	return answers;
}
