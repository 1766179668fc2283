"""The papers whose sentences docs/trace.toml has: 01, its amendments, the requests of 02. Each is cut into sections, and these into sentences.

    1, 2, ..  a section of 01: what stands below a heading '## ..'
    A7        a section of docs/AMENDMENTS.md, or of the paper that it is taken from: what stands below '## Request 7: ..'
    R7        a request of 02: the paragraph that begins with '**Wish 7. ..**'"""
import re

AMENDMENT = re.compile(r'Request (\d+): ')
REQUEST = re.compile(r'\*\*(Wish (\d+)\. .*?)\.?\*\* (.*)')
# A full stop, perhaps in brackets, before a new sentence.
SENTENCE_END = re.compile(r'(?:(?<=\.)|(?<=\.\))) (?=["(`*]*[A-Z0-9])')
# The end of a line that may go on in the next, which begins neither an item nor a row of a table.
GOES_ON = re.compile(r'(?<=\S)[ \t]*\n(?!- |\|)[ \t]*')


def paper_of(number):
    """The paper that a section is of, by its number: '' for 01, 'A' or 'R'; nothing for a section of no paper."""
    found = re.fullmatch(r'([AR]?)\d+', str(number))
    return found[1] if found else None


def plain(text):
    """Text without the marks of a list, a table, quotes and type."""
    return ' '.join(re.sub(r'^- |[*`"]', '', text).replace('|', ' ').split())


def lines_of(text):
    """The paragraphs and items of a text on a line each, the rows of its tables but their heads, and the lines of its listings."""
    for place, part in enumerate(re.split(r'^```.*\n', text, flags=re.M)):
        whole = part if place % 2 else GOES_ON.sub(' ', re.sub(r'^\|.*\n\|---.*\n', '', part, flags=re.M))
        yield from (line for line in whole.splitlines() if line.strip())


def sentences_of(text):
    return [plain(piece) for line in lines_of(text) for piece in SENTENCE_END.split(line)]


def sections_of(text):
    """The sections of a paper, in order: the number of each, its title, its sentences."""
    requests = [found for found in map(REQUEST.match, lines_of(text)) if found]
    if requests:
        return [(f'R{found[2]}', found[1], sentences_of(found[3])) for found in requests]
    parts = [part.partition('\n') for part in re.split(r'^## ', text, flags=re.M)[1:]]
    amended = [AMENDMENT.match(title) for title, _, _ in parts]
    numbers = [f'A{found[1]}' if found else str(place) for place, found in enumerate(amended, 1)]
    return [(number, title.strip(), sentences_of(body)) for number, (title, _, body) in zip(numbers, parts)]


# A paper of each kind, with its sections.
SAMPLES = [
    ('# Title\nBefore. It all.\n## The page\nA `word` is\nx (so.) Then "so". \n\n| No. | Name |\n|---|---|\n| 1, 2 | Gap |\n| 3 | Cut |\n'
     '- **Off**: one\n  two.\n- 3\n\n## Next\n```\na b\nc\n```\n',
     [('1', 'The page', ['A word is x (so.)', 'Then so.', '1, 2 Gap', '3 Cut', 'Off: one two.', '3']), ('2', 'Next', ['a b', 'c'])]),
    ('# 01, amended\n\n## Request 7: Pages\n\nIt has\n*two*.\n\n## Request 4: Modes\n\nMore.\n',
     [('A7', 'Request 7: Pages', ['It has two.']), ('A4', 'Request 4: Modes', ['More.'])]),
    ('# Requests\n\nLand these.\n\n**Wish 5. How far?** So far. Or\nso.\n\n**Wish 7. Pages, put right.** By 98.2.4.3. Now.\n',
     [('R5', 'Wish 5. How far?', ['So far.', 'Or so.']), ('R7', 'Wish 7. Pages, put right', ['By 98.2.4.3.', 'Now.'])]),
    ('', []),
]
NUMBERS = {'12': '', 'A7': 'A', 'R10': 'R', 'B': None, 'R': None, 'A7.1': None, None: None}


def tells_its_samples():
    return all(sections_of(text) == sections for text, sections in SAMPLES) and all(paper_of(number) == paper for number, paper in NUMBERS.items())
