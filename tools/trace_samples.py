"""The samples of tools/trace: a small docs/trace.toml, changes to it, and texts of the papers, each with all that has to be found in it."""
import tomllib

from repository_names import Repository


AMENDED = '# 01, amended\n\nAs asked.\n\n## Request 7: Pages\n\nA word is\nnew. It is so.\n- **Off**: to Break; and\n  on.\n'


class Sample(Repository):
    """A repository with one name of each kind, and four files."""

    def __init__(self, amended=AMENDED):
        self.definitions = {'page/Word.odd': ('crates/page/specs/Word.antt', 2), 'page/Word.Both': ('crates/page/specs/Word.antt', 5),
                            'page/Word.Both.one': ('crates/page/specs/Word.antt', 6)}
        self.calls = {'page::get': ('crates/page/src/lib.rt', 3)}
        self.theorems = {'page/proofs/Laws.got': ('crates/page/proofs/Laws.antt', 4)}
        self.wrong_answers = {'page/odd_is_even': ('crates/page/must-fail/word.edit', 1)}
        self.files = {'tests/a.rs': '#[test]\nfn holds() {}\nfn assists() {}', 'tools/a': 'def checks(x):', 'docs/A.md': '',
                      'docs/AMENDMENTS.md': amended}

    def text(self, path):
        return self.files.get(path)


DATA = '''title = "Any title"
introduction = "As `page/Word.odd` in `docs/A.md`, by `tools/a --against FILE`, or `odd`."
[[section]]
number = "1"
title = "The page"
count = 3
[[section.sentence]]
number = "1.1"
words = "A word is"
replaced = ["A7.3", "A7.2"]
extended = ["R7"]
definitions = ["page/Word.odd", "page/Word.Both.one"]
calls = ["page::get"]
theorems = ["page/proofs/Laws.got"]
tests = ["tests/a.rs:holds", "tools/a:checks"]
wrong_answers = ["page/odd_is_even"]
[[section.sentence]]
number = "1.2"
words = "Off: all but"
note = "scope: `docs/A.md`"
[[section.sentence]]
number = "1.3"
words = "2^47 it has"
note = "source"
[[section]]
number = "A7"
title = "Request 7: Pages"
count = 4
[[section.sentence]]
number = "A7.1"
words = "A word is"
tests = ["tests/a.rs"]
[[section.sentence]]
number = "A7.2"
words = "It is"
note = "scope"
[[section.sentence]]
number = "A7.3"
words = "Off: to Break"
note = "scope"
[[section.sentence]]
number = "A7.4"
words = "and on"
note = "scope"
[[section]]
number = "R7"
title = "Wish 7. Pages, put right"
count = 2
[[section.sentence]]
number = "R7.1"
words = "A word is"
note = "scope"
[[section.sentence]]
number = "R7.2"
words = "Now it"
note = "scope"
[[section]]
number = "B"
title = "What stands beside 01"
note = "None of `docs/A.md`."
count = 1
[[section.sentence]]
number = "B.1"
what = "Numbers"
definitions = ["page/Word.Both"]
tests = ["tests/a.rs"]
note = "as a list"
'''
# The page that is made of it.
DOCUMENT = '''# Any title

<!-- `tools/trace --write` makes this file from docs/trace.toml. Change that one. -->

As [`page/Word.odd`](../crates/page/specs/Word.antt#L2) in [`docs/A.md`](../docs/A.md), by [`tools/a --against FILE`](../tools/a), or `odd`.

## 1. The page

### 1.1 "A word is"

- Replaced by: A7.3 "Off: to Break", A7.2 "It is"
- Extended by: R7 Wish 7. Pages, put right
- Definitions: [`page/Word.odd`](../crates/page/specs/Word.antt#L2), [`page/Word.Both.one`](../crates/page/specs/Word.antt#L6)
- Calls: [`page::get`](../crates/page/src/lib.rt#L3)
- Theorems: [`page/proofs/Laws.got`](../crates/page/proofs/Laws.antt#L4)
- Tests: [`tests/a.rs:holds`](../tests/a.rs#L2), [`tools/a:checks`](../tools/a#L1)
- Wrong answers: [`page/odd_is_even`](../crates/page/must-fail/word.edit#L1)

### 1.2 "Off: all but"

- scope: [`docs/A.md`](../docs/A.md)

### 1.3 "2^47 it has"

- source

## A7. Request 7: Pages

### A7.1 "A word is"

- Tests: [`tests/a.rs`](../tests/a.rs)

### A7.2 "It is"

- scope

### A7.3 "Off: to Break"

- scope

### A7.4 "and on"

- scope

## R7. Wish 7. Pages, put right

### R7.1 "A word is"

- scope

### R7.2 "Now it"

- scope

## B. What stands beside 01

None of [`docs/A.md`](../docs/A.md).

### B.1 Numbers

- Definitions: [`page/Word.Both`](../crates/page/specs/Word.antt#L5)
- Tests: [`tests/a.rs`](../tests/a.rs)
- as a list
'''
REQUESTS = '# Requests\n\nOne by one.\n\n**Wish 7. Pages, put right.** A word is new. Now\nit is.\n\n**Wish 8. More.** All of it.\n'
TEXT = '# Title\n## The page\nA word is `x`. Then so. \n\n| No. | Name |\n|---|---|\n- **Off**: all but "this", and 2^47 it has.\n'
# One more request.
R6 = '[[section]]\nnumber = "R6"\ntitle = "Wish 6. More"\ncount = 0\nsentence = []\n'
# What stands in the data, what is put in its place, and how each fault begins that is then found.
EDITS = [
    ('', '', []),
    ('"1.2"', '"1.4"', ['the sentences of section 1 are not']),
    ('count = 3', 'count = 4', ['section 1 has 3 sentences, and']),
    ('number = "1"', 'number = "2"', ['the sections are not', 'the sentences of section 2 are not']),
    ('number = "B"', 'number = "C"', ['the sections are not', 'the sentences of section C are not']),
    ('number = "R7"', 'number = "R8"', ['there is section A7, and no', 'the sentences of section R8 are not', '1.1: extended has R7']),
    ('number = "R7"', 'number = "R"',
     ['the sections are not', 'there is section A7, and no', 'the sentences of section R are not', '1.1: extended has R7']),
    ('[[section]]\nnumber = "R7"', R6 + '[[section]]\nnumber = "R7"', []),
    ('[[section]]\nnumber = "R7"', 2 * R6 + '[[section]]\nnumber = "R7"', ['the sections are not']),
    ('[[section]]\nnumber = "B"', R6 + '[[section]]\nnumber = "B"', ['the sections are not']),
    ('[[section]]\nnumber = "B"', R6.replace('R6', 'R10') + '[[section]]\nnumber = "B"', []),
    ('[[section]]\nnumber = "A7"', R6 + '[[section]]\nnumber = "A7"', ['the sections are not']),
    ('[[section]]\nnumber = "R7"', R6.replace('R6', 'A6') + '[[section]]\nnumber = "R7"',
     ['there is section A6, and no', 'the sections of the amendments have not']),
    ('replaced = ["A7.3", "A7.2"]', 'replaced = ["A7.3", "A7.5"]', ['1.1: replaced has A7.5']),
    ('replaced = ["A7.3", "A7.2"]', 'replaced = ["A7.3", "B.1"]', ['1.1: replaced has B.1']),
    ('replaced = ["A7.3", "A7.2"]', 'replaced = ["A7.3", "B"]', ['1.1: replaced has B, which']),
    ('replaced = ["A7.3", "A7.2"]', 'replaced = ["A7.3", "A7.3"]', ['1.1: replaced has A7.3 twice']),
    ('replaced = ["A7.3", "A7.2"]', 'replaced = "A7.3"', ['1.1: replaced is no list']),
    ('extended = ["R7"]', 'extended = ["R8"]', ['1.1: extended has R8']),
    ('note = "source"', 'replaced = ["A7"]', []),
    ('note = "source"', 'extended = ["A7"]', ['1.3: it leads nowhere']),
    ('"A7.4"\n', '"A7.4"\nextended = ["R7"]\n', []),
    ('"A7.4"\n', '"A7.4"\nextended = ["A7.1"]\n', ['A7.4: extended has A7.1']),
    ('"A7.4"\n', '"A7.4"\nreplaced = ["A7"]\n', ['A7.4: replaced has A7, which']),
    ('"R7.1"\n', '"R7.1"\nreplaced = ["A7"]\n', ['R7.1: only a sentence of 01']),
    ('"B.1"\n', '"B.1"\nreplaced = ["A7"]\n', ['B.1: only a sentence of 01']),
    ('"Request 7: Pages"', '"Request 7: Page"', ['the sections of the amendments have not']),
    ('"It is"', '"It was"', ['A7.2: "It was" does not', 'section A7: there is no "It is so."']),
    ('"It is"', '"A word is"', ['A7.1: its words are', 'A7.2: its words are', 'A7.2: "A word is" does not', 'section A7: there is no "It is']),
    ('"Now it"', '"A word is"', ['R7.1: its words are', 'R7.2: its words are']),
    ('calls = ["page::get"]\n', '', ['the function page::get is cited by no']),
    ('wrong_answers = ["page/odd_is_even"]\n', '', ['the wrong answer page/odd_is_even is cited by no']),
    ('"page/Word.odd", ', '', ['the definition page/Word.odd is cited by no']),
    ('"page/Word.odd",', '"page/Word.odd", "page/Word.even",', ['1.1: definitions has page/Word.even']),
    ('"page/Word.odd",', '"page/Word.odd", "page/Word.odd",', ['1.1: definitions has page/Word.odd twice']),
    ('"page::get"', '"page::get", "page::set"', ['1.1: calls has page::set']),
    ('Laws.got', 'Laws.lost', ['1.1: theorems has page/proofs/Laws.lost']),
    ('a.rs:holds', 'a.rs:assists', ['1.1: tests has tests/a.rs:assists']),
    ('tools/a:checks', 'tools/b', ['1.1: tests has tools/b']),
    ('"page/odd_is_even"', '"page/odd_is_even", "page/gone"', ['1.1: wrong_answers has page/gone']),
    ('scope: `docs/A.md`', 'scope: `docs/B.md`', ['1.2: its words have docs/B.md']),
    ('in `docs/A.md`', 'in `docs/B.md`', ['before the sentences: its words have docs/B.md']),
    ('None of `docs/A.md`', 'None of `docs/B.md`', ['before the sentences: its words have docs/B.md']),
    ('As `page/Word.odd`', 'As `page::odd`', ['before the sentences: its words have page::odd']),
    ('scope: `docs/A.md`', 'scope: 1.1, A7.4, (R7.1), B.1. So 7.512 by 98.2.4.3', []),
    ('scope: `docs/A.md`', 'scope: 1.4, A7.5, (R8.1), B.12.',
     ['1.2: its words have 1.4', '1.2: its words have A7.5', '1.2: its words have R8.1', '1.2: its words have B.12']),
    ('None of `docs/A.md`', 'None of A8.1', ['before the sentences: its words have A8.1']),
    ('note = "scope: `docs/A.md`"\n', '', ['1.2: it leads nowhere']),
    ('note = "source"', 'note = "sourly"', ['1.3: it leads nowhere']),
    ('note = "source"', 'note = "source"\ntests = []', ['1.3: tests is no list']),
    ('note = "source"', 'note = "source"\ntests = "tools/a"', ['1.3: tests is no list']),
    ('note = "source"', 'note = "source"\nproofs = ["a"]', ['1.3: it has proofs, which']),
    ('"2^47 it has"', '"A word is"', ['1.1: its words are', '1.3: its words are']),
    ('words = "2^47 it has"\n', '', ['1.3: it has to have words']),
    ('what = "Numbers"', 'words = "Numbers"', ['B.1: it has to have what']),
]
# Texts of docs/AMENDMENTS.md to which the data is held as it stands.
AMENDMENTS = [
    ('', ['the sections of the amendments have not', 'A7.1: "A word is" does not', 'A7.2: "It is" does not', 'A7.3: "Off: to', 'A7.4: "and on"']),
    (AMENDED.replace('new.', 'new. Then so.'), ['section A7: there is no "Then so."']),
    (AMENDED.replace('Break', 'Ack'), ['A7.3: "Off: to Break" does not', 'A7.4: "and on" does not', 'section A7: there is no "Off: to Ack']),
    (AMENDED + '\n## Request 4: Modes\n', ['the sections of the amendments have not']),
]
DIFFER = 'docs/AMENDMENTS.md, section A7, and its paper differ: '
# Papers to which the data is held as it stands.
TEXTS = [
    (TEXT.replace(' Then so.', ''), []),
    (TEXT, ['section 1: there is no "Then so."']),
    (TEXT.replace(' Then so.', '').replace('The page', 'The line'), ['the sections of 01 have not']),
    (TEXT.replace(' Then so.', '').replace('A word', 'One word'), ['1.1: "A word is" does not', 'section 1: there is no "One word']),
    (TEXT.replace(' Then so.', '') + '- more\n', ['section 1: there is no "more"']),
    (TEXT.replace(' Then so.', '') + '## More\n', ['the sections of 01 have not']),
    (TEXT.replace(' Then so.', '').replace('2^47', '2^46'), ['1.3: "2^47 it has" does not']),
    ('', ['the sections of 01 have not', '1.1: "A word is" does not', '1.2: "Off: all but" does not', '1.3: "2^47 it has" does not']),
    (REQUESTS, []),
    (REQUESTS.replace('put right', 'put left'), ['the sections of 02 have not']),
    (REQUESTS.replace('Wish 7', 'Wish 9'), ['the sections of 02 have not', 'R7.1: "A word is" does not', 'R7.2: "Now it" does not']),
    (REQUESTS.replace('it is.', 'it is. So.'), ['section R7: there is no "So."']),
    (REQUESTS.replace('A word', 'One word'), ['R7.1: "A word is" does not', 'section R7: there is no "One word']),
    (AMENDED + '\n## Request 4: Modes\n\nMore.\n', []),
    (AMENDED.replace('7: ', '9: '), ['the sections of the amendments have not', 'A7.1: ', 'A7.2: ', 'A7.3: ', 'A7.4: ',
                                     DIFFER + '"A word is new."', DIFFER + '"It is so."', DIFFER + '"Off: to Break; and on."']),
    (AMENDED.replace('is so', 'is not so'), [DIFFER + '"It is so."', DIFFER + '"It is not so."']),
    (AMENDED.replace('new. It', 'new. Now. It'), ['section A7: there is no "Now."', DIFFER + '"Now."']),
]
# The list that a name belongs in.
KINDS = {'page/Word.odd': 'definitions', 'page::get': 'calls', 'page/proofs/Laws.got': 'theorems', 'tests/a.rs:holds': 'tests',
         'tests/a.rs:assists': None, 'page/odd_is_even': 'wrong_answers', 'page/gone': None}
# What is changed in the page, and whether it is then still what the data makes.
PAGES = [('', '', True), ('#L2', '#L3', False), ('- source\n', '', False), ('- as a list\n', '- as a list\n\n', False)]


def as_expected(found, beginnings):
    return len(found) == len(beginnings) and all(any(fault.startswith(start) for fault in found) for start in beginnings)


def samples_told(checks, made, of_data):
    """The first sample of which these do not find just what they should, in words; nothing if there is none."""
    def faults(*given):
        return [fault for found in checks(*given) for fault in found]
    for old, new, beginnings in EDITS:
        if not as_expected(faults(tomllib.loads(DATA.replace(old, new, 1)), Sample()), beginnings):
            return f'with {new!r} for {old!r}'
    for text, beginnings in AMENDMENTS:
        if not as_expected(faults(tomllib.loads(DATA), Sample(text)), beginnings):
            return f'with docs/AMENDMENTS.md\n{text}'
    for text, beginnings in TEXTS:
        if not as_expected(faults(tomllib.loads(DATA), Sample(), [text]), beginnings):
            return f'against\n{text}'
    for name, kind in KINDS.items():
        if Sample().kind(name) != kind:
            return f'of the list of {name}'
    if of_data(tomllib.loads(DATA), Sample()) != DOCUMENT:
        return 'as a page'
    for old, new, same in PAGES:
        if (not list(made(DOCUMENT.replace(old, new, 1), tomllib.loads(DATA), Sample()))) != same:
            return f'as a page with {new!r} for {old!r}'
    return ''
