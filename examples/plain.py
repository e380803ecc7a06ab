"""Scripts, notes of traces, and the plain state: what the judge of accepted.py stands on, written from the rules in words."""
import copy
from dataclasses import dataclass, field
from typing import NamedTuple

UNBORN, GROWING, BORN, FAILED = "unborn", "growing", "born", "failed"
WORDS, MOST_PAGES = 512, 1024


class Wrong(Exception):
    """A note isn't accepted: the rule that it breaks, and how."""

    def __init__(self, rule, why):
        super().__init__(why)
        self.rule, self.why = rule, why


class Rules(NamedTuple):
    """Which rules are left out, and whether a doubt is decided for the trace."""

    without: frozenset = frozenset()
    generous: bool = False

    def require(self, condition, rule, why):
        if not condition and rule not in self.without:
            raise Wrong(rule, why)

    def doubt(self, condition, why):
        if not condition and not self.generous:
            raise Wrong("doubt", why)


# Scripts and notes


class Operation(NamedTuple):
    """A line `on`. `pages` are those of its range, `moves` a transfer's pairs of an index and a slot."""

    kind: str
    process: str | None
    handle: str = ""
    pages: range = range(0)
    write: bool = False
    fast: bool = False
    long: bool = False
    word: int = 0
    value: int = 0
    to: str = ""
    child: str = ""
    mirror: str = ""
    moves: tuple = ()


@dataclass
class Actor:
    """An actor as it is declared: the process of a thread, the number of a device's slots, its operations."""

    process: str | None = None
    slots: int = 0
    operations: list = field(default_factory=list)


@dataclass
class Script:
    """What a script declares. `processes` says of each whether it is born at the start."""

    processes: dict = field(default_factory=dict)
    actors: dict = field(default_factory=dict)
    turns: list = field(default_factory=list)


class Note(NamedTuple):
    """A line behind `journal`. Among its fields a number is an int, and an address is two of them."""

    turn: int
    actor: str
    number: int
    what: str
    fields: tuple


def from_page(page, count="1"):
    return range(int(page), int(page) + int(count))


def read_operation(process, kind, fields):
    """The operation that these words are, of a thread of this process, or of a device or a mover where it is None."""
    match kind, fields:
        case ("map" | "protect", [page, count, rights]):
            return Operation(kind, process, pages=from_page(page, count), write=rights == "rw")
        case ("unmap" | "discard", [page, count]):
            return Operation(kind, process, pages=from_page(page, count))
        case ("load" | "store", [address, *value]):
            page, word = address.split(".")
            return Operation(kind, process, pages=from_page(page), word=int(word), value=int(value[0]) if value else 0)
        case ("pin" | "pinfast", [handle, page, count, access, *long]):
            return Operation("pin", process, handle, from_page(page, count), access == "write", kind == "pinfast", bool(long))
        case ("unpin" | "take" | "put", [handle]):
            return Operation(kind, process, handle)
        case ("give", [handle, to]):
            return Operation(kind, process, handle, to=to)
        case ("get", [handle, page]):
            return Operation(kind, process, handle, from_page(page))
        case ("fork", [child]):
            return Operation(kind, process, child=child)
        case ("exit", []):
            return Operation(kind, process)
        case ("out" | "in", [handle, index, slot, count]):
            return Operation(kind, process, handle, moves=tuple(zip(from_page(index, count), from_page(slot, count))))
        case ("outv" | "inv", [handle, slot, *parts]):
            indices = [index for part in parts for index in from_page(*part.split(":"))]
            return Operation(kind[:-1], process, handle, moves=tuple(zip(indices, range(int(slot), int(slot) + len(indices)))))
        case ("mirror", [mirror, named, page]):
            return Operation(kind, named, pages=from_page(page), mirror=mirror)
        case ("look", [mirror, word]):
            return Operation(kind, None, word=int(word), mirror=mirror)
        case ("move", [named, page, _zone]):
            return Operation(kind, named, pages=from_page(page))
    raise ValueError(f"no operation: {kind} {' '.join(fields)}")


def drawn(seed, count, actors):
    """The turns of a line `random`."""
    for _ in range(count):
        seed = (seed * 6364136223846793005 + 1442695040888963407) % 2**64
        yield actors[(seed >> 33) % len(actors)]


def read_script(lines):
    """The script of these lines, which must be right."""
    script = Script()
    for line in lines:
        match line.split(" "):
            case ["process" | "child" as kind, name]:
                script.processes[name] = kind == "process"
            case ["thread", name, process]:
                script.actors[name] = Actor(process)
            case ["device", name, slots]:
                script.actors[name] = Actor(slots=int(slots))
            case ["mover", name]:
                script.actors[name] = Actor()
            case ["on", name, kind, *fields]:
                actor = script.actors[name]
                actor.operations.append(read_operation(actor.process, kind, fields))
            case ["turns", *words]:
                for word in words:
                    name, _, count = word.partition("*")
                    script.turns += [name] * int(count or 1)
            case ["random", seed, count]:
                script.turns += drawn(int(seed), int(count), list(script.actors))
    return script


def read_note(line):
    turn, actor, number, what, *words = line.split(" ")
    fields = []
    for word in words:
        fields += (int(part) for part in word.split(".")) if word[0].isdigit() else (word,)
    return Note(int(turn), actor, int(number), what, tuple(fields))


def read_trace(text):
    """The script of a trace, and its notes."""
    lines = text.splitlines()
    front = lines.index("journal")
    return read_script(lines[:front]), [read_note(line) for line in lines[front + 1 :]]


# The plain state, its events and its denials


class Page(NamedTuple):
    """A page of a process, and by which note it was mapped; -1 if it came with a fork, and so was never unmapped in a born process."""

    content: int
    write: bool
    since: int


class Handle(NamedTuple):
    """A pin, held by its actor, or given to it and not taken yet."""

    actor: str
    given: bool
    objects: tuple
    write: bool


class Process:
    def __init__(self, birth):
        self.birth, self.parent, self.pages, self.copied = birth, None, {}, set()

    def copy(self):
        other = copy.copy(self)
        other.pages, other.copied = dict(self.pages), set(self.copied)
        return other

    def named(self, page):
        """The page, if the process is born and has it."""
        return self.pages.get(page) if self.birth == BORN else None


class Plain:
    """The plain state. Objects are numbers, and `words` has those of their words that aren't 0. A handle is None where it is gone."""

    def __init__(self, script, rules):
        self.rules = rules
        self.slots_of = {name: actor.slots for name, actor in script.actors.items()}
        self.processes = {name: Process(BORN if born else UNBORN) for name, born in script.processes.items()}
        self.objects, self.words, self.handles = 0, {}, {}
        self.pending = {name: () for name in script.actors}
        self.stores, self.mirrors = {}, {}

    def copy(self, rules):
        other = copy.copy(self)
        other.rules = rules
        other.processes = {name: it.copy() for name, it in self.processes.items()}
        for name in ("words", "handles", "pending", "stores", "mirrors"):
            setattr(other, name, dict(getattr(self, name)))
        return other

    def fresh(self):
        self.objects += 1
        return self.objects

    def can(self, condition, why):
        self.rules.require(condition, "events", why)

    def reads(self, value, content, word):
        self.rules.require(value == self.words.get((content, word), 0), "values", "another word is there")

    def write_word(self, content, word, value):
        self.words[content, word] = value

    def happen(self, moment, actor, what, fields):
        """The event of this note happens, or it can't."""
        getattr(self, "happen_" + what)(moment, actor, *fields)

    def page_of(self, process, page):
        found = self.processes[process].named(page)
        if found is None:
            raise Wrong("events", "the page isn't mapped")
        return found

    def held(self, handle, actor):
        found = self.handles.get(handle)
        if found is None or found.given or found.actor != actor:
            raise Wrong("events", "the actor doesn't hold the handle")
        return found

    def happen_map(self, moment, _actor, process, page, count, rights):
        it = self.processes[process]
        self.can(it.birth == BORN, "it maps pages of a process that isn't born")
        self.can(page + count <= 2**35, "it maps past the last page")
        self.can(all(page + k not in it.pages for k in range(count)), "one of the pages is mapped already")
        self.can(len(it.pages) + count <= MOST_PAGES, "it maps too many pages")
        for k in range(count):
            it.pages[page + k] = Page(self.fresh(), rights == "rw", moment)

    def happen_unmap(self, _moment, _actor, process, page):
        self.page_of(process, page)
        del self.processes[process].pages[page]

    def happen_discard(self, _moment, _actor, process, page):
        self.processes[process].pages[page] = self.page_of(process, page)._replace(content=self.fresh())

    def happen_protect(self, _moment, _actor, process, page, count, rights):
        for k in range(count):
            self.processes[process].pages[page + k] = self.page_of(process, page + k)._replace(write=rights == "rw")

    def happen_load(self, _moment, _actor, process, page, word, value):
        self.reads(value, self.page_of(process, page).content, word)

    def happen_store(self, _moment, _actor, process, page, word, value):
        found = self.page_of(process, page)
        self.can(found.write, "the page isn't writable")
        self.write_word(found.content, word, value)

    def happen_pintry(self, _moment, actor, process, page, access):
        found, write = self.page_of(process, page), access == "write"
        self.can(found.write or not write, "the page isn't writable")
        self.can(page not in (it for it, _, _ in self.pending[actor]), "the page is pending already")
        self.pending[actor] += ((page, found.content, write),)

    def happen_pindrop(self, _moment, actor, page):
        self.can(page in (it for it, _, _ in self.pending[actor]), "the page isn't pending")
        self.pending[actor] = tuple(it for it in self.pending[actor] if it[0] != page)

    def happen_pinok(self, _moment, actor, handle):
        pending = self.pending[actor]
        self.can(len({write for _, _, write in pending}) == 1, "no page is pending")
        self.can(handle not in self.handles, "the handle was made before")
        self.handles[handle] = Handle(actor, False, tuple(content for _, content, _ in pending), pending[0][2])
        self.pending[actor] = ()

    def happen_unpin(self, _moment, actor, handle):
        self.held(handle, actor)
        self.handles[handle] = None

    def happen_give(self, _moment, actor, handle, to):
        self.handles[handle] = self.held(handle, actor)._replace(actor=to, given=True)

    def is_given(self, handle, actor):
        found = self.handles.get(handle)
        return found is not None and found.given and found.actor == actor

    def happen_take(self, _moment, actor, handle):
        self.can(self.is_given(handle, actor), "the handle isn't given to the actor")
        self.handles[handle] = self.handles[handle]._replace(given=False)

    def moved(self, actor, handle, index, slot):
        """The handle, and the object and the word of a transfer's step."""
        found = self.held(handle, actor)
        if index >= WORDS * len(found.objects) or slot >= self.slots_of[actor]:
            raise Wrong("events", "the word or the slot isn't there")
        return found, found.objects[index // WORDS], index % WORDS

    def happen_out(self, _moment, actor, handle, index, slot, value):
        _, content, word = self.moved(actor, handle, index, slot)
        self.reads(value, content, word)
        self.stores[actor, slot] = value

    def happen_in(self, _moment, actor, handle, index, slot, value):
        found, content, word = self.moved(actor, handle, index, slot)
        self.can(found.write, "the pin isn't writable")
        self.rules.require(value == self.stores.get((actor, slot), 0), "values", "another word is in the slot")
        self.write_word(content, word, value)

    def happen_mirror(self, _moment, _actor, mirror, process, page):
        self.mirrors[mirror] = process, page, self.page_of(process, page).content

    def happen_look(self, _moment, _actor, mirror, word, value):
        if mirror not in self.mirrors:
            raise Wrong("events", "the slot is empty")
        process, page, content = self.mirrors[mirror]
        found = self.processes[process].named(page)
        self.can(found is not None and found.content == content, "the slot's page has another object")
        self.reads(value, content, word)

    def happen_forkbegin(self, _moment, _actor, parent, child):
        old, new = self.processes[parent], self.processes[child]
        self.can(old.birth == BORN, "the parent isn't born")
        self.can(new.birth == UNBORN, "the child was begun before")
        new.birth, new.parent = GROWING, parent
        new.pages = {page: Page(self.fresh(), it.write, -1) for page, it in old.pages.items()}

    def fork_pages(self, parent, child, page):
        """The page of the parent and of the child."""
        new = self.processes[child]
        if new.birth != GROWING or new.parent != parent:
            raise Wrong("events", "the child isn't growing")
        if page not in self.processes[parent].pages or page not in new.pages:
            raise Wrong("events", "one of the two hasn't the page")
        return self.processes[parent].pages[page], new.pages[page]

    def copy_word(self, parent, child, page, word):
        old, new = self.fork_pages(parent, child, page)
        self.can((page, word) not in self.processes[child].copied, "the word was copied before")
        self.write_word(new.content, word, self.words.get((old.content, word), 0))
        self.processes[child].copied.add((page, word))

    def happen_forkword(self, _moment, _actor, parent, child, page, word):
        self.copy_word(parent, child, page, word)

    def happen_forkpage(self, _moment, _actor, parent, child, page):
        for word in range(WORDS):
            self.copy_word(parent, child, page, word)

    def happen_forkend(self, _moment, _actor, parent, child):
        new = self.processes[child]
        self.can(new.birth == GROWING and new.parent == parent, "the child isn't growing")
        self.can(len(new.copied) == WORDS * len(new.pages), "a word of the child wasn't copied")
        new.birth = BORN

    def happen_forkfail(self, _moment, _actor, child):
        new = self.processes[child]
        self.can(new.birth in (UNBORN, GROWING), "the child was born, or failed before")
        new.birth, new.pages = FAILED, {}

    def denial(self, actor, operation, got):
        """What denies an operation that is no pin in this state, or None. `got` has the references that the actor has got."""
        it = operation
        process = self.processes.get(it.process)
        if process is not None and process.birth == FAILED:
            return "unborn"
        match it.kind:
            case "load" | "get" | "mirror" | "move" | "protect":
                return None if all(process.named(page) for page in it.pages) else "missing"
            case "store":
                return self.page_denial(process, it.pages[0], True)
            case "map":
                named = [page for page in it.pages if process.named(page)]
                return "overlap" if named else "full" if len(process.pages) + len(it.pages) > MOST_PAGES else None
            case "put":
                return None if (actor, it.handle) in got else "notheld"
            case "unpin" | "give" | "out" | "in":
                found = self.handles.get(it.handle)
                if found is None or found.given or found.actor != actor:
                    return "notheld"
                if it.kind == "in" and not found.write:
                    return "forbidden"
                indices, slots = WORDS * len(found.objects), self.slots_of[actor]
                return "range" if any(index >= indices or slot >= slots for index, slot in it.moves) else None
        return None

    @staticmethod
    def page_denial(process, page, write):
        """What denies one page of a store or a pin."""
        if process.birth == FAILED:
            return "unborn"
        found = process.named(page)
        return "missing" if found is None else "forbidden" if write and not found.write else None
