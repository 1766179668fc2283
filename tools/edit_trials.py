"""Tries must-fail edits: checks copies of crates in which an edit has been made, and gives what rt says of each.

rt tries each edit itself, as `rt ci` and `rt must-fail`, and keeps one line of what it found. What is read here is the whole of it."""
import concurrent.futures
import os
import pathlib
import shutil
import subprocess
import tempfile
import threading
import time
from typing import NamedTuple

# So many checks run side by side, of which each takes a processor or two and some GB.
SIDE_BY_SIDE = 3
# What a check of the crate does not read.
ASIDE = ('out', 'must-fail')


class Trial(NamedTuple):
    """An edit to be tried: the crate, a label that no other one of the crate has, and its lines `file:`, `old:` and `new:`."""
    crate: str
    label: str
    lines: list


class Unfit(Exception):
    """An edit that does not fit the crate's files."""


def edited(lines, text_of):
    """The files that an edit changes, by path, with their new texts; text_of gives the text of a file as it stands. Each replacement applies to
    what those before it have made, as rt has it."""
    texts, path, old = {}, '', None
    for line in lines:
        if line.startswith('file: '):
            path = line[len('file: '):].strip()
        elif line.startswith('old: '):
            old = line[len('old: '):]
        elif line.startswith('new:') and old is not None:
            text = texts[path] if path in texts else text_of(path)
            if text is None or text.count(old) != 1:
                raise Unfit(f'an old text stands {0 if text is None else text.count(old)} times in {path}, and not once: {old}')
            texts[path], old = text.replace(old, line[len('new:'):].removeprefix(' ')), None
    if not texts:
        raise Unfit('it replaces nothing')
    return texts


def checked(folder):
    """What `rt check` says of the crate in a folder, and its exit status."""
    run = subprocess.run(['rt', 'check'], cwd=folder, stdin=subprocess.DEVNULL, stdout=subprocess.PIPE, stderr=subprocess.STDOUT, errors='replace', check=False)
    return run.stdout, run.returncode


class Room:
    """A copy of the crates in which one check runs at a time. Of what rt has kept of a crate it takes what serves it, from the repository too."""

    def __init__(self, root, folder):
        self.root, self.folder, self.seeds = root, folder, {}
        folder.mkdir()
        # rt looks for crates.txt at the top of a repository.
        (folder / '.git').mkdir()
        shutil.copy2(root / 'crates.txt', folder)
        shutil.copytree(root / 'crates', folder / 'crates', ignore=shutil.ignore_patterns(*ASIDE))

    def seed(self, crate):
        """What is wrong with the crate as it stands, or nothing. What its check has proved the checks of its edits start from."""
        if crate not in self.seeds:
            said, status = checked(self.folder / 'crates' / crate)
            self.seeds[crate] = '' if status == 0 else f'the crate itself is not proved, so that its edits cannot be tried:\n{said[-2000:]}'
        return self.seeds[crate]

    def tried(self, trial):
        """What rt says of the crate with an edit made in it; a fault in words where that could not be tried, or where the crate is still proved."""
        crate = self.folder / 'crates' / trial.crate
        fault = self.seed(trial.crate)
        if fault:
            return '', fault
        try:
            texts = edited(trial.lines, lambda path: (crate / path).read_text() if (crate / path).is_file() else None)
        except Unfit as unfit:
            return '', str(unfit)
        before = {path: (crate / path).read_text() for path in texts}
        try:
            for path, text in texts.items():
                (crate / path).write_text(text)
            said, status = checked(crate)
        finally:
            for path, text in before.items():
                (crate / path).write_text(text)
        said = said.replace(f'{crate}{os.sep}', '')
        return said, '' if status == 1 else 'it is not refused' if status == 0 else f'rt ends with {status}, and that is no refusal'


def tried(root, trials):
    """For each trial, by crate and label, what rt says of it, and what is wrong with that, or nothing. Several are tried side by side, and each is
    named as it is done; a copy takes those of one crate one behind the other, since it has done most of what the next one needs."""
    found, rooms, lock = {}, [], threading.Lock()
    waiting = sorted(trials, key=lambda trial: trial.crate)

    def serve(room):
        while True:
            with lock:
                if not waiting:
                    return
                crates = [trial.crate for trial in waiting]
                own = [place for place, crate in enumerate(crates) if crate in room.seeds]
                trial = waiting.pop(own[0] if own else max(range(len(crates)), key=lambda place: crates.count(crates[place])))
            began = time.monotonic()
            result = room.tried(trial)
            with lock:
                found[trial.crate, trial.label] = result
                print(f'{trial.crate}/{trial.label}: tried in {round(time.monotonic() - began)} s', flush=True)

    with tempfile.TemporaryDirectory(prefix='edits-') as folder:
        rooms = [Room(root, pathlib.Path(folder) / f'copy{number}') for number in range(min(SIDE_BY_SIDE, len(trials)))]
        with concurrent.futures.ThreadPoolExecutor(max(1, len(rooms))) as pool:
            for done in [pool.submit(serve, room) for room in rooms]:
                done.result()
    return found


# Edits of a file `src/a.rt` with the text 'one two two', and what it is then; nothing where the edit does not fit.
EDITS = [
    (['file: src/a.rt', 'old: one', 'new: 1'], '1 two two'),
    (['file: src/a.rt', 'old: one', 'new: 1', 'old: 1 two', 'new:'], ' two'),
    (['file: src/a.rt', 'old: two', 'new: 2'], None),
    (['file: src/a.rt', 'old: three', 'new: 3'], None),
    (['file: src/b.rt', 'old: one', 'new: 1'], None),
    (['file: src/a.rt', 'old: one'], None),
    (['old: one', 'new: 1'], None),
    ([], None),
]


def tells_its_samples():
    for lines, wanted in EDITS:
        try:
            found = edited(lines, {'src/a.rt': 'one two two'}.get).get('src/a.rt')
        except Unfit:
            found = None
        if found != wanted:
            return False
    return True
