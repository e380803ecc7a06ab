"""What crates.txt says, the wrong bodies beside each crate, and copies of crates. For the scripts beside this one."""
import os
import shutil
import subprocess
from dataclasses import dataclass
from functools import cache, cached_property
from pathlib import Path

from definitions import home

LIST = home / 'crates.txt'
KIT = Path(os.path.realpath(shutil.which('rt') or '/opt/rattle/bin/rt')).parents[1]
# A crate's wrong bodies: those that the gate tries, and those that tools/wrong tries.
GATE, OTHERS = 'must-fail', 'wrong'


@cache
def lists():
    """The crates that each crate of crates.txt lists, of this repository and of the kit, in the file's order."""
    rows = [line.partition('#')[0].partition(':') for line in LIST.read_text().splitlines()]
    return {head.split()[0]: names.split() for head, colon, names in rows if colon}


@cache
def below(crate):
    """The crates of this repository that a crate stands on."""
    return frozenset().union(*({name} | below(name) for name in lists()[crate] if name in lists()))


def paths():
    """How many paths crates.txt has: from each crate to each that it reaches, one for every way to get there."""
    @cache
    def from_crate(crate):
        return sum(1 + from_crate(name) for name in lists()[crate] if name in lists())

    return sum(map(from_crate, lists()))


def files(crate, *parts):
    """The files in these folders of a crate."""
    folders = [home / 'crates' / crate / part for part in parts]
    return [file for folder in folders for file in sorted(folder.rglob('*')) if file.is_file()]


@dataclass(frozen=True)
class Edit:
    """A wrong body: which texts of which files it changes into which others, one after the other."""
    path: Path

    @property
    def crate(self):
        return self.path.parts[-3]

    @property
    def name(self):
        return self.path.stem

    @cached_property
    def pairs(self):
        found, file, old = [], None, None
        for line in self.path.read_text().splitlines():
            key, _, text = line.partition(':')
            text = text.removeprefix(' ')
            if key == 'file':
                file = text.strip()
            elif key == 'old':
                old = text
            elif key == 'new':
                found.append((file, old, text))
        return found

    def misfits(self):
        """The old texts that don't stand once in their file, changed by the pairs before them, and how often they do."""
        changed = {}
        for file, old, new in self.pairs:
            text = changed.get(file) or (home / 'crates' / self.crate / file).read_text()
            if (times := text.count(old)) != 1:
                yield times, old
            changed[file] = text.replace(old, new)


def edits(folder, crate='*'):
    return [Edit(path) for path in sorted(home.glob(f'crates/{crate}/{folder}/*.edit'))]


def copy_crates(crates, to):
    """Makes a repository of these crates in the folder, without their wrong bodies."""
    (to / '.git').mkdir(parents=True)
    shutil.copyfile(home / 'HANDLES', to / 'HANDLES')
    (to / 'crates.txt').write_text(''.join(f'{crate}: {" ".join(names)}\n' for crate, names in lists().items() if crate in crates))
    for crate in crates:
        shutil.copytree(home / 'crates' / crate, to / 'crates' / crate, ignore=shutil.ignore_patterns('out', GATE, OTHERS))


def run_gate(folder):
    """Starts `rt ci` there. It takes what was proved of the same crates on this machine."""
    return subprocess.Popen([KIT / 'bin/rt', 'ci'], cwd=folder, stdin=subprocess.DEVNULL, stdout=subprocess.PIPE, stderr=subprocess.STDOUT, text=True)
