"""What the sources of this repository define, and what a name in them means. For tools/trust and tools/places.

A name is looked up by its spelling: among the names that the file's imports bring, and then among the file's own. For a
variable, and for what the kit defines, this gives None.
"""
import re
import sys
from dataclasses import dataclass
from functools import cache, cached_property
from pathlib import Path

home = Path(__file__).resolve().parent.parent

NAME = r'[^\s(){}.;,@"«»]+'
PATH = re.compile(rf'\.?{NAME}(?:\.{NAME})*')
IMPORT = rf'use ([^\s{{}};]+?)(?:\.\{{([^}}]*)\}})?(?: as ({NAME}))?'
SIGNATURE = re.compile(
    rf'(?:(?:pattern|unfoldable|abbrev|axiom|pub) )*(?:(data|record) )?({NAME})(?: \{{[^}}]*\}})?( :(?:\s|$))?')
PART = re.compile(rf'(?:pub )?({NAME}) :(?:\s|$)')
HEADER = re.compile(r'(?:(?:unfoldable|pub) )*(?:use|mod|ruleset|open|infix[lr]?) ')

ITEM = re.compile(r'^(?:pub(?:\([^)]*\))? )?(?:unsafe )?(struct|enum|union|trait|type|const|static) (?!fn\b)(\w+)', re.M)
FUNCTION = re.compile(
    r'^(?:(?:pub )?(?:unsafe )?(?:trait|impl)\b([^{]*)|( *)(pub(?:\([^)]*\))? )?(?:const |unsafe )*fn (\w+))', re.M)
CLAUSE = re.compile(r'\b(requires|ensures)\b\W*?(\w*)\s*\{|[{;(\[]')
RUST_USE = re.compile(r'^(?:pub(?:\([^)]*\))? )?use ([^;]+);', re.M)


class Unfound(Exception):
    """A name of this repository leads nowhere."""


def fail(why):
    sys.exit(f'tools/{Path(sys.argv[0]).name}: {why}')


def blank(found):
    return re.sub(r'[^\n]', ' ', found[0])


@dataclass(eq=False, frozen=True)
class Definition:
    source: 'Source'
    name: str
    kind: str  # data, record, the word of an item of Rust, or nothing
    line: int  # of its signature
    rows: list  # the numbers of its lines, with those of the comment above it, and without blank ones
    code: str  # without comments and texts, with the headers of the blocks around it; of Rust without the names of parts
    parts: dict  # its constructors, fields or variants, each with its line


class Source:
    """A file. Its code is its text with spaces in place of comments and quoted texts."""

    def __init__(self, path):
        self.path, self.file = path, str(path.relative_to(home))
        self.crate = path.relative_to(home).parts[1]
        self.text = path.read_text()
        self.lines = self.text.split('\n')
        self.code = self.unsaid.sub(blank, self.text)

    def line_of(self, offset):
        return self.code.count('\n', 0, offset) + 1

    def rows_above(self, line):
        """The lines of the comment, and of Rust's attributes, that stand directly above this line."""
        first = line
        while first > 1 and re.match(r'\s*(//|--|#\[)', self.lines[first - 2]):
            first -= 1
        return list(range(first, line))

    def rows_between(self, first, last):
        return [row for row in range(first, last + 1) if self.lines[row - 1].strip()]

    @cached_property
    def imports(self):
        """The names of definitions and those of modules that imports bring, each with the path and the import's line."""
        names, modules = {}, {}
        for found in self.import_line.finditer(self.code):
            path, items, other = found.groups()
            words, line = path.removeprefix('package.').split('.'), self.line_of(found.start(1))
            if words[-1] == '*' or words[0] not in ('Rattle', 'Prim'):
                fail(f'{self.file}:{line}: an import of a form that tools/definitions.py does not read')
            if items is None:
                modules.setdefault(other or words[-1], (words, line))
                continue
            for item in filter(None, map(str.strip, items.split(','))):
                end, _, other = item.partition(' as ')
                spell(names, other or end.split('.')[-1], (words + end.split('.'), line))
        return names, modules

    def meaning(self, words, line):
        """The definition that a path in this file means."""
        names, modules = self.imports
        path = words[1:] if words[0] == 'package' else words
        if len(words) > 1 and words[0] in modules:
            path = modules[words[0]][0] + words[1:]
        elif words[0] in names:
            path, line = names[words[0]]
        try:
            return find(tuple(path)) if path[0] in ('Rattle', 'Prim') else self.local(path)
        except Unfound as why:
            fail(f'{self.file}:{line}: {why}')

    def check_imports(self):
        """Refuses an import from this repository of what isn't there, even where nothing here names it."""
        for name, (_, line) in self.imports[0].items():
            self.meaning([name], line)

    def named(self, code, line):
        """The definitions that a piece of this file's code names, in order."""
        paths = [path.split('.') for path in PATH.findall(code) if path[0] != '.']
        for words in paths:
            # A `do` block stands for these operators.
            for path in [['◌>>=◌'], ['◌>>◌']] if words == ['do'] else [words]:
                if definition := self.meaning(path, line):
                    yield definition


def spell(names, name, thing):
    """Enters a name, and an operator's also as it stands between its arguments."""
    names.setdefault(name, thing)
    if '◌' in name:
        names.setdefault(next(filter(None, name.split('◌'))), thing)


class Antt(Source):
    unsaid = re.compile(r'"(?:\\.|[^"\\\n])*"|--(?<![^\s(){}.;,@"«»]--)[^\n]*')
    import_line = re.compile(rf'^(?:(?:unfoldable|pub) )*{IMPORT} *$', re.M)

    @cached_property
    def definitions(self):
        """The definitions at the left edge of the file, and of the blocks `module _` in it."""
        begun, fixities, blocks, last = {}, {}, [], None
        code = self.code.split('\n')
        for row, text in enumerate(code, 1):
            line = text.strip()
            if not line:
                continue
            indent = len(text) - len(text.lstrip())
            while blocks and indent < blocks[-1][0]:
                blocks.pop()
            edge = blocks[-1][0] if blocks else 0
            if indent == edge and re.match(r'(module|mutual)\b', line):
                last = None
                blocks.append([edge + 2, line])
            elif indent == edge and HEADER.match(line):
                last = None
                if line.startswith('infix'):
                    fixities.setdefault(line.split()[-1], []).extend([*self.rows_above(row), row])
            elif indent == edge and (found := SIGNATURE.match(line)) and (found[1] or found[3]):
                last = begun[found[2]] = [found[1] or '', row, row, {}, [block for _, block in blocks]]
            elif last:
                last[2] = row
                if last[0] and indent == edge + 2 and (found := PART.match(line)):
                    last[3].setdefault(found[1], row)
            elif blocks:
                blocks[-1][1] += ' ' + line
        made = {}
        for name, (kind, first, end, parts, around) in begun.items():
            rows = [*self.rows_above(first), *self.rows_between(first, end), *fixities.get(name, [])]
            made[name] = Definition(self, name, kind, first, rows, '\n'.join(code[first - 1:end] + around), parts)
        return made

    @cached_property
    def own(self):
        names = {}
        for definition in self.definitions.values():
            spell(names, definition.name, definition)
        for definition in self.definitions.values():
            for name in definition.parts if definition.kind == 'data' else []:
                spell(names, name, definition)
        return names

    def local(self, words):
        return self.own.get(words[0])


class Rust(Source):
    unsaid = re.compile(r'''"(?:\\[\s\S]|[^"\\])*"|'\\?["/(){}\[\]]'|//[^\n]*''')
    import_line = re.compile(rf'^ *ghost {IMPORT}; *$', re.M)

    def closing(self, opening):
        """Where the bracket is closed that is opened at this offset."""
        depth = 0
        for found in re.compile(r'([(\[{])|[)\]}]').finditer(self.code, opening):
            depth += 1 if found[1] else -1
            if depth == 0:
                return found.start()
        fail(f'{self.file}:{self.line_of(opening)}: a bracket is not closed')

    def end_of(self, at, kind):
        """Where the item of this kind ends whose name ends at this offset."""
        while found := re.compile(r'[;(\[{]').search(self.code, at):
            if found[0] == ';':
                return found.start()
            at = self.closing(found.start())
            if found[0] == '{' and kind not in ('type', 'const', 'static'):
                return at
        return at

    @cached_property
    def definitions(self):
        made = {}
        for found in ITEM.finditer(self.code):
            kind, name = found.groups()
            line, end = self.line_of(found.start()), self.end_of(found.end(), kind)
            code, parts, depth = re.sub(r'#\[[^\]]*\]', blank, self.code[found.end():end]), {}, 0
            for word in re.finditer(r'([(\[{])|([)\]}])|\w+', code) if kind == 'enum' else ():
                depth += bool(word[1]) - bool(word[2])
                if depth == 1 and not word[1] and not word[2]:
                    parts[word[0]] = line + code.count('\n', 0, word.start())
                    code = code[:word.start()] + blank(word) + code[word.end():]
            code = re.sub(r'(?<!:)\b\w+\s*:(?!:)', blank, code)
            rows = [*self.rows_above(line), *self.rows_between(line, self.line_of(end))]
            made[name] = Definition(self, name, kind, line, rows, code, parts)
        return made

    @cached_property
    def uses(self):
        """The names that Rust's own `use` lines bring, each with its path."""
        return dict(leaf for found in RUST_USE.finditer(self.code) for leaf in leaves(found[1]))

    def module(self, word):
        """The file of the module or crate that a path from here begins with, or None."""
        top = self.path.parent.name == 'src'
        if word == 'self':
            return self
        if word == 'super' and not top:
            return source(self.path.parent.with_suffix('.rt'))
        if word in ('crate', 'super'):
            return root(self.crate)
        below = self.path.parent if top and self.path.stem in ('lib', 'main') else self.path.with_suffix('')
        if (below / f'{word}.rt').exists():
            return source(below / f'{word}.rt')
        return root(word) if word in crates()[0] else None

    def item(self, words, within_use=False):
        """The item that a Rust path means in this file: None for a function, too."""
        first, *rest = words
        if first in self.definitions:
            return self.definitions[first]
        if first in self.uses and not within_use:
            return self.item([*self.uses[first], *rest], within_use=True)
        module = self.module(first) if rest else None
        if not module:
            return None
        found = module.item(rest)
        if not found and rest[0] not in module.uses and not module.module(rest[0]) \
                and not re.search(rf'\b(fn|macro_rules!) {rest[0]}\b', module.code):
            raise Unfound(f'{module.file} has no {rest[0]}, as {"::".join(words)} has it')
        return found

    def local(self, words):
        return self.item(words[:1])

    def named(self, code, line):
        yield from super().named(code, line)
        for path in re.findall(r'\w+(?:::\w+)*', code):
            try:
                definition = self.item(path.split('::'))
            except Unfound as why:
                fail(f'{self.file}:{line}: {why}')
            if definition:
                yield definition

    @cached_property
    def functions(self):
        """The functions: of each its name, its type or trait, its line, whether it is public, and where its name ends."""
        made, owner = [], None
        for found in FUNCTION.finditer(self.code):
            header, edge, public, name = found.groups()
            if name:
                made.append((name, owner if edge else None, self.line_of(found.end()), public == 'pub ', found.end()))
                continue
            while '<' in header and header != (header := re.sub(r'<[^<>]*>', '', header)):
                pass
            owner = re.split(r'(?<!:):(?!:)| where ', header)[0].split()[-1]
        return made

    def clauses(self, at):
        """The clauses of the function whose name ends at this offset: of each its keyword, name, line and code."""
        while (found := CLAUSE.search(self.code, at)) and found[0] not in ('{', ';'):
            at = self.closing(found.end() - 1)
            if found[1]:
                yield found[1], found[2], self.line_of(found.start()), self.code[found.end():at]


def leaves(tree, before=()):
    """The names that a Rust `use` tree brings, each with its path. What a `*` brings has no name here."""
    found = re.fullmatch(r'((?:\w+::)*)(?:\{(.*)\}|(\w+|\*)(?:\s+as\s+(\w+))?)', tree.strip(), re.S)
    path = [*before, *found[1].split('::')[:-1]]
    if found[2] is not None:
        for part in re.findall(r'(?:[^,{}]|\{[^{}]*\})+', found[2]):
            if part.strip():
                yield from leaves(part, path)
    elif found[3] == 'self':
        yield found[4] or path[-1], path
    elif found[3] != '*':
        yield found[4] or found[3], [*path, found[3]]


@cache
def source(path):
    return (Rust if path.suffix == '.rt' else Antt)(path)


@cache
def crates():
    """The crates of this repository, and those of the kit that they name."""
    lines = [line.partition('#')[0].partition(':') for line in (home / 'crates.txt').read_text().split('\n')]
    ours = {crate.split()[0] for crate, colon, _ in lines if colon}
    return ours, {'std', *(word for _, _, named in lines for word in named.split())} - ours


def root(crate):
    files = [home / 'crates' / crate / 'src' / f'{name}.rt' for name in ('lib', 'main')]
    return source(next((file for file in files if file.exists()), files[0]))


@cache
def find(words):
    """The definition that a path from the top means, wherever it stands."""
    path, (ours, others) = '.'.join(words), crates()
    if words[0] == 'Prim' or words[1] in others:
        return None
    if words[1] not in ours:
        raise Unfound(f'crates.txt has no crate of {path}')
    if words[2:4] == ('specs', 'declared'):
        found = root(words[1]).item(words[4:])
        if not found or found.kind == 'enum' and words[-1] not in (found.name, *found.parts):
            raise Unfound(f'there is no {path} in crates/{words[1]}/src')
        return found
    at, folder = 3, home.joinpath('crates', *words[1:3])
    while at < len(words) and (folder.joinpath(words[at] + '.antt').exists() or folder.joinpath(words[at]).is_dir()):
        folder, at = folder / words[at], at + 1
    files = [file for file in (folder.with_suffix('.antt'), folder / 'Lib.antt') if file.exists()]
    if not files or at == len(words):
        raise Unfound(f'there is no file of {path}')
    module, name = source(files[0]), words[at]
    if name in module.own:
        return module.own[name]
    if name in module.imports[0]:
        return find(tuple(module.imports[0][name][0]))
    records = [made for made in module.definitions.values() if name in made.parts]
    if not records:
        raise Unfound(f'{module.file} has no {name}, as {path} has it')
    return records[0]
