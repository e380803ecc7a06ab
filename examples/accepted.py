#!/usr/bin/env python3
"""A judge of traces: says whether the notes of a trace are accepted for its script, and else which is the first wrong one.

usage: accepted.py [RULE..] < TRACE prints `yes`, `open` or `no N` as `gup check` does. The rules that are named are left out; they can
be turns, values, denials, passing and waits.

It is a second reading of one definition: written from the rules in words, and not from the proved one (`Accepted`
in crates/gup_spec_accepted). Each refusal is by one of seven rules:
  turns    numbers rise by 0 or 1 from 1, a turn is of one actor, a written turn of the actor that was written
  shapes   events and answers are those of the actor's operations, in their shapes (docs/TRACE.md)
  events   an event can happen in the plain state, its value aside
  values   what is read is what was written last, and an answer has the value of its event
  denials  an operation is denied exactly where the plain state denies it
  passing  an unmap or a discard passes only what wasn't mapped at some moment
  waits    who waits has a reason for it, and who idles has finished
Where the rules can be read in two ways the judge is strict, or generous if it is told to be (`doubt`). Two rules are this project's own
(docs/DECISIONS.md): no operation ends while its process is yet to be born, and a silent turn is one of an operation."""
import copy
import sys
from typing import NamedTuple

from plain import BORN, FAILED, GROWING, UNBORN, WORDS, Plain, Rules, Wrong, read_trace

LEFT_OUT = ("turns", "values", "denials", "passing", "waits")  # the rules without which a judge can still go on
# What the plain state can deny, and which refusals an operation has beside `unborn` (docs/SCRIPT.md).
DENIALS = {"unborn", "missing", "forbidden", "overlap", "full", "notheld", "range"}
REFUSALS = {
    "map": {"overlap", "full"},
    "protect": {"missing"},
    "load": {"missing", "noframe"},
    "store": {"missing", "forbidden", "noframe"},
    "pin": {"missing", "forbidden", "noframe", "unmovable"},
    "unpin": {"notheld"},
    "give": {"notheld"},
    "put": {"notheld"},
    "get": {"missing", "noframe"},
    "fork": {"noframe"},
    "move": {"missing", "noframe", "busy", "untouched"},
    "mirror": {"missing", "noframe"},
    "look": {"stale"},
    "out": {"notheld", "range"},
    "in": {"notheld", "forbidden", "range"},
}
NEED_NO_LOCK = {"unpin", "put", "give", "take", "look", "out", "in"}


# Where an actor stands in its operation


class Answer(NamedTuple):
    """An answer by its kind: plain, value, pinned, short, words, or a refusal. A short pin's number is `got`."""

    kind: str
    number: int = 0
    wanted: int = 0
    cause: str = ""


def refusals(operation):
    """The refusals of an operation. Of pins, those for long alone move pages; who is of no process is never unborn."""
    of_kind = REFUSALS.get(operation.kind, set()) | ({"unborn"} if operation.process else set())
    return of_kind if operation.long else of_kind - {"unmovable"}


def read_answer(operation, fields):
    match fields:
        case ("words",):
            return Answer("words")
        case ("ok",):
            return Answer("plain")
        case ("ok", value):
            return Answer("pinned" if operation.kind == "pin" and value <= 255 else "value", value)
        case ("ok", got, "of", wanted, cause, *_):
            return Answer("short", got, wanted, cause)
    return Answer(fields[0])


class Course:
    """How far an operation is: whether an event came, what denied it before the first, and what is left, by its kind."""

    def __init__(self, operation, actor):
        self.operation, self.actor, self.begun, self.denied = operation, actor, False, None

    def event(self, judge, what, fields):
        """An event comes: it must be the next of the operation's."""
        raise Wrong("shapes", "the operation has no event")

    def answer(self, judge, answer):
        """The answer comes: it must be the operation's now."""
        if answer.kind in refusals(self.operation):
            judge.shape(not self.begun, "it is refused behind its event")
            judge.denied(judge.denial(self.actor, self.operation), answer.kind)
        else:
            denial = None if self.begun else judge.denial(self.actor, self.operation)
            self.end(judge, answer)
            judge.denied(denial, answer.kind)

    def end(self, judge, answer):
        """The answer isn't a refusal."""
        judge.shape(answer.kind == "plain", "the operation has no such answer")


class OneEvent(Course):
    """A load, store, map, protect, give, take, unpin, mirror or look: one event, and the answer."""

    def __init__(self, operation, actor):
        super().__init__(operation, actor)
        it = operation
        rights = "rw" if it.write else "r"
        page = it.pages[0] if it.pages else None
        self.value, self.wanted = None, {
            "load": (it.process, page, it.word),
            "store": (it.process, page, it.word, it.value),
            "map": (it.process, page, len(it.pages), rights),
            "protect": (it.process, page, len(it.pages), rights),
            "give": (it.handle, it.to),
            "take": (it.handle,),
            "unpin": (it.handle,),
            "mirror": (it.mirror, it.process, page),
            "look": (it.mirror, it.word),
        }[it.kind]

    def event(self, judge, what, fields):
        judge.shape(not self.begun, "the operation has one event only")
        judge.shape(what == self.operation.kind, "it is another operation's event")
        if what in ("load", "look"):
            *fields, self.value = fields
        judge.shape(tuple(fields) == self.wanted, "the event says otherwise than its operation")

    def end(self, judge, answer):
        judge.shape(self.begun, "it ends without its event")
        reads = self.operation.kind in ("load", "look")
        judge.shape(answer.kind == ("value" if reads else "plain"), "the operation has no such answer")
        if reads:
            judge.rules.require(answer.number == self.value, "values", "the answer has another value than its event")


class NoEvent(Course):
    """A get, put or move: the answer alone."""

    def end(self, judge, answer):
        super().end(judge, answer)
        if self.operation.kind == "get":
            judge.got.add((self.actor, self.operation.handle))
        elif self.operation.kind == "put":
            judge.got.discard((self.actor, self.operation.handle))


class Range(Course):
    """An unmap or a discard: the event of each page in rising order, and what is passed by the rule of passing."""

    def __init__(self, operation, actor):
        super().__init__(operation, actor)
        self.next = operation.pages[0]

    def event(self, judge, what, fields):
        judge.shape(what == self.operation.kind, "it is another operation's event")
        process, page = fields
        judge.shape(process == self.operation.process, "it is another process's page")
        judge.shape(page in self.operation.pages, "the page isn't of the operation's range")
        judge.shape(page >= self.next, "the pages don't rise")
        self.pass_to(judge, page)
        self.next = page + 1

    def end(self, judge, answer):
        super().end(judge, answer)
        self.pass_to(judge, self.operation.pages[-1] + 1)

    def pass_to(self, judge, end):
        process = judge.plain.processes[self.operation.process]
        for page in range(self.next, end):
            judge.rules.require(process.birth == BORN, "passing", "it passes a page of a process that isn't born")
            found = process.pages.get(page)
            judge.rules.require(found is None or found.since > judge.earlier, "passing", "it passes a page that was mapped all the time")


class Exit(Course):
    """Takes down the lowest page, again and again, until there is none."""

    def event(self, judge, what, fields):
        judge.shape(what == "unmap", "it is another operation's event")
        judge.shape(fields[0] == self.operation.process, "it is another process's page")
        judge.shape(fields[1] == min(judge.pages(self.operation), default=None), "an exit takes the lowest page")

    def end(self, judge, answer):
        super().end(judge, answer)
        judge.shape(not judge.pages(self.operation), "an exit ends where a page is left")
        judge.rules.doubt(judge.birth(self.operation.process) == BORN, "an exit ends in a process that isn't born")


class Transfer(Course):
    """Moves its words one by one."""

    def __init__(self, operation, actor):
        super().__init__(operation, actor)
        self.moved = 0

    def event(self, judge, what, fields):
        judge.shape(self.moved < len(self.operation.moves), "all words were moved")
        wanted = (self.operation.kind, self.operation.handle, *self.operation.moves[self.moved])
        judge.shape((what, *fields[:3]) == wanted, "it isn't the transfer's next word")
        self.moved += 1

    def end(self, judge, answer):
        judge.shape(answer.kind == "words", "the operation has no such answer")
        judge.shape(self.moved == len(self.operation.moves), "it ends before its last word")


class Pin(Course):
    """A pin has taken so many of its pages, in one of these modes: its `walk`, in which it keeps them; `slow`, where it takes one
    after the other to the end; `stopped`, behind a page that its walk dropped; `dropping` all that its walk kept, `left` of them."""

    def __init__(self, operation, actor):
        super().__init__(operation, actor)
        self.mode, self.taken, self.left, self.made = "walk" if operation.fast else "slow", 0, 0, False

    def event(self, judge, what, fields):
        judge.shape(not self.made, "the pin is made")
        first, count = self.operation.pages[0], len(self.operation.pages)
        match what:
            case "pintry":
                judge.shape(self.mode != "dropping", "the pin drops its pages")
                access = "write" if self.operation.write else "read"
                judge.shape(fields == (self.operation.process, first + self.taken, access), "it isn't the pin's next page")
                judge.shape(self.taken < count, "the pin has all its pages")
                self.taken += 1
                self.mode = "walk" if self.mode == "walk" else "slow"
            case "pindrop":
                self.drop(judge, fields[0] - first)
            case "pinok":
                judge.shape(self.mode != "dropping", "the pin drops its pages")
                judge.shape(fields == (self.operation.handle,), "it is another pin's")
                self.made = True
            case _:
                raise Wrong("shapes", "it is another operation's event")

    def drop(self, judge, place):
        """Where the walk stopped at its last page, that page goes. Where it was all in vain, all go, the first one first."""
        if self.mode == "dropping":
            judge.shape(place == self.taken - self.left, "it isn't the next page to be dropped")
            self.left -= 1
        elif self.mode == "walk" and self.taken > 1 and place == self.taken - 1:
            self.mode, self.taken = "stopped", self.taken - 1
            return
        else:
            judge.shape(self.mode != "slow", "a slow pin drops no page")
            judge.shape(self.taken > 0 and place == 0, "it isn't the next page to be dropped")
            self.mode, self.left = "dropping", self.taken - 1
        if self.left == 0:
            self.mode, self.taken = "slow", 0

    def answer(self, judge, answer):
        count = len(self.operation.pages)
        judge.shape(self.made or self.mode != "dropping", "the pin drops its pages")
        judge.shape(self.made or self.taken == 0, "the pin has pages and isn't made")
        if self.made and self.taken == count:
            judge.shape(answer == Answer("pinned", count), "the pin has all its pages")
            return
        if self.made:
            judge.shape(answer.kind == "short", "the pin lacks pages")
            judge.shape((answer.number, answer.wanted) == (self.taken, count), "a short pin says how many it got, and wanted")
        refusal = answer.cause if self.made else answer.kind
        judge.shape(refusal in refusals(self.operation), "the operation has no such answer")
        process = judge.plain.processes[self.operation.process]
        judge.denied(judge.plain.page_denial(process, self.operation.pages[self.taken], self.operation.write), refusal)


class Fork(Course):
    """A fork has begun, is behind the page `last`, has copied so many words of the next, and has ended or failed."""

    def __init__(self, operation, actor):
        super().__init__(operation, actor)
        self.last, self.copied, self.over = -1, 0, ""

    def next_page(self, judge):
        return min((page for page in judge.plain.processes[self.operation.process].pages if page > self.last), default=None)

    def event(self, judge, what, fields):
        names = (self.operation.process, self.operation.child)
        judge.shape(not self.over, "the fork has ended")
        judge.shape(fields[: len(names)] == names or what == "forkfail" and fields == names[1:], "it is another fork's event")
        match what:
            case "forkbegin":
                judge.shape(not self.begun, "the fork was begun before")
            case "forkpage" | "forkword":
                judge.shape(self.begun, "the fork isn't begun")
                judge.shape(fields[2] == self.next_page(judge), "it isn't the fork's next page")
                judge.shape(what == "forkword" or self.copied == 0, "some words of the page were copied")
                judge.shape(what == "forkpage" or fields[3] == self.copied, "it isn't the page's next word")
                self.copied = 0 if what == "forkpage" or self.copied == WORDS - 1 else self.copied + 1
                self.last = self.last if self.copied else fields[2]
            case "forkend":
                judge.shape(self.begun, "the fork isn't begun")
                judge.shape(self.copied == 0 and self.next_page(judge) is None, "a page is left")
                self.over = "plain"
            case "forkfail":
                judge.shape(self.copied == 0, "a fork fails within a page")
                if self.begun:
                    judge.rules.doubt(self.next_page(judge) is not None, "a fork fails behind its last page")
                self.over = "noframe" if self.begun else "unborn"
            case _:
                raise Wrong("shapes", "it is another operation's event")

    def answer(self, judge, answer):
        judge.shape(self.over, "it ends without its event")
        judge.shape(answer.kind == self.over, "the fork has another end")
        judge.denied(self.denied, answer.kind)


COURSES = {
    "get": NoEvent,
    "put": NoEvent,
    "move": NoEvent,
    "unmap": Range,
    "discard": Range,
    "exit": Exit,
    "out": Transfer,
    "in": Transfer,
    "pin": Pin,
    "fork": Fork,
}  # and all others OneEvent


class Standing:
    """An actor: the number of its operation and how far that is, whether it had notes, and the moment of the last event or answer."""

    def __init__(self):
        self.number, self.course, self.stirred, self.waited, self.last = 1, None, False, False, 0

    def copy(self):
        other = copy.copy(self)
        other.course = copy.copy(self.course)
        return other


# The judge


class Judge:
    """Takes notes one by one, until one is wrong. A moment is the number of notes so far."""

    def __init__(self, script, rules=Rules()):
        self.script, self.rules = script, rules
        self.plain, self.got = Plain(script, rules), set()
        self.standings = {name: Standing() for name in script.actors}
        self.moment, self.turn, self.turn_of, self.earlier = 0, 0, None, 0

    def copy(self, rules=None):
        other = copy.copy(self)
        other.rules = self.rules if rules is None else rules
        other.plain, other.got = self.plain.copy(other.rules), set(self.got)
        other.standings = {name: it.copy() for name, it in self.standings.items()}
        return other

    def shape(self, condition, why):
        self.rules.require(condition, "shapes", why)

    def birth(self, process):
        return self.plain.processes[process].birth

    def pages(self, operation):
        process = self.plain.processes[operation.process]
        return process.pages if process.birth == BORN else ()

    def present(self, actor):
        """The operation that the actor is at, or None if it has finished."""
        operations, number = self.script.actors[actor].operations, self.standings[actor].number
        return operations[number - 1] if number <= len(operations) else None

    def all_ended(self):
        return not any(self.present(actor) for actor in self.script.actors)

    def denial(self, actor, operation):
        return self.plain.denial(actor, operation, self.got)

    def denied(self, denial, answer):
        """A denial is answered exactly where the plain state gives it."""
        if denial:
            self.rules.require(answer == denial, "denials", "another denial is due")
        else:
            self.rules.require(answer not in DENIALS, "denials", "nothing denies it")

    def accept(self, note):
        """Takes the next note, or says what is wrong with it; then the judge is of no more use."""
        self.moment += 1
        self.take_turn(note)
        standing = self.standings[note.actor]
        if note.what == "silent":
            self.shape(self.present(note.actor) is not None, "the actor has finished")
            standing.stirred = True
        elif note.what == "idle":
            self.rules.require(self.present(note.actor) is None, "waits", "it idles and hasn't finished")
        elif note.what == "wait":
            self.wait(note.actor, *note.fields)
            standing.waited = True
        else:
            operation = self.present(note.actor)
            if operation is None:
                raise Wrong("shapes", "the actor has finished")
            self.shape(note.number == standing.number, "another operation is due")
            if standing.course is None:
                standing.course = COURSES.get(operation.kind, OneEvent)(operation, note.actor)
            self.earlier = standing.last
            if note.what == "done":
                process = operation.process
                self.shape(process is None or self.birth(process) in (BORN, FAILED), "its process is yet to be born")
                standing.course.answer(self, read_answer(operation, note.fields))
                standing.number += 1
                standing.course, standing.stirred, standing.waited = None, False, False
            else:
                self.event(note, operation, standing.course)
                standing.stirred = True
            standing.last = self.moment

    def take_turn(self, note):
        again = note.turn == self.turn
        self.rules.require(again or note.turn == self.turn + 1, "turns", "turns rise one by one")
        self.rules.require(not again or note.actor == self.turn_of, "turns", "a turn is of one actor")
        if 0 < note.turn <= len(self.script.turns):
            self.rules.require(note.actor == self.script.turns[note.turn - 1], "turns", "the turn is written for another")
        self.turn, self.turn_of = note.turn, note.actor

    def event(self, note, operation, course):
        failed = operation.process is not None and self.birth(operation.process) == FAILED
        self.shape(not failed or note.what == "forkfail", "an operation of a failed process has no event")
        course.event(self, note.what, note.fields)
        if not course.begun and operation.kind != "pin":
            course.denied = self.denial(note.actor, operation)
        first, course.begun = not course.begun, True
        self.plain.happen(self.moment, note.actor, note.what, note.fields)
        if first and operation.kind != "pin":
            alone = "unborn" if note.what == "forkfail" else None
            self.rules.doubt(course.denied == alone, "the first event stands where the plain state denies it or doesn't")

    def wait(self, actor, what, name):
        operation = self.present(actor)
        if operation is None:
            self.rules.require(False, "waits", "it waits and has finished")
            return
        process = operation.process
        unborn = process is not None and self.birth(process) in (UNBORN, GROWING)
        if what == "process":
            self.rules.require(unborn and name == process, "waits", "it waits for a process and needn't")
        elif what == "handle":
            self.rules.require(operation.kind == "take" and operation.handle == name, "waits", "it waits for a handle that it doesn't take")
            self.rules.require(not self.plain.is_given(name, actor), "waits", "it waits for a handle that it is given")
            born = self.script.actors[actor].process is None or self.birth(process) == BORN
            self.rules.require(born, "waits", "it waits for a handle in a process that isn't born")
            self.rules.doubt(self.standings[actor].course is None, "it waits for a handle that it has taken")
        else:
            self.holder(actor, operation, name)

    def holder(self, actor, operation, holder):
        """It waits for the holder of a lock, who is amid a fork, a move or a long pin of the same process."""
        held, standing = self.present(holder), self.standings[holder]
        holds = held is not None and (held.kind in ("fork", "move") or held.long) and held.process == operation.process
        self.rules.require(holds, "waits", "it waits for an actor that needs no lock of its process for long")
        self.rules.require(standing.stirred or standing.waited, "waits", "it waits for an actor that hasn't begun")
        self.rules.doubt(standing.stirred, "it waits for an actor that waits itself")
        self.rules.doubt(holder != actor, "it waits for itself")
        self.rules.doubt(operation.kind not in NEED_NO_LOCK, "it waits for a lock that it doesn't need")


def judged(judge, notes):
    """The first wrong note of these, and what was wrong, or two times None. The judge has taken those in front of it."""
    for note in notes:
        try:
            judge.accept(note)
        except Wrong as wrong:
            return judge.moment, wrong
    return None, None


def first_wrong(script, notes, rules=Rules()):
    """The number of the first note that isn't accepted, from 1, or None."""
    return judged(Judge(script, rules), notes)[0]


def verdict(judge, wrong):
    return f"no {wrong}" if wrong else "yes" if judge.all_ended() else "open"


def main():
    text = sys.stdin.read()
    if not set(sys.argv[1:]) <= set(LEFT_OUT) or "journal" not in text.splitlines():
        print(__doc__, file=sys.stderr)
        return 2
    script, notes = read_trace(text)
    judge = Judge(script, Rules(frozenset(sys.argv[1:])))
    number, wrong = judged(judge, notes)
    print(verdict(judge, number))
    if wrong:
        print(f"{wrong.rule}: {wrong.why}", file=sys.stderr)
    return 8 if wrong else 0


if __name__ == "__main__":
    sys.exit(main())
