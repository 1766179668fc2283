"""Makes docs/TRACE.md out of docs/trace.toml: the same sentences, with a link to file and line for each name."""
import re

# The lists of a sentence, in the order of the document, with the word for each.
LISTS = {'definitions': 'Definitions', 'calls': 'Calls', 'theorems': 'Theorems', 'tests': 'Tests', 'wrong_answers': 'Wrong answers'}
# What the sentences that came later do to one of 01.
CHANGES = {'replaced': 'Replaced by', 'extended': 'Extended by'}
MADE = '<!-- `tools/trace --write` makes this file from docs/trace.toml. Change that one. -->'


def is_name(cited):
    """Whether words in back ticks are one of the names of repository_names.py; a word without a slash or two colons is none."""
    return re.search('/|::', cited.split()[0]) is not None


def linked(cited, place):
    """A name in back ticks, as a link where its place is known. The document stands in docs/."""
    if place is None:
        return f'`{cited}`'
    path, line = place
    return f'[`{cited}`](../{path}{f"#L{line}" if line else ""})'


def with_links(words, repository):
    """Words with a link for each name in back ticks."""
    def one(found):
        cited = found[1]
        return linked(cited, repository.place_in_words(cited.split()[0]) if is_name(cited) else None)
    return re.sub(r'`([^`]+)`', one, words)


def called(entry):
    """The number of a sentence, or of a section, and what it begins with."""
    return f'{entry["number"]} ' + (f'"{entry["words"]}"' if 'words' in entry else entry.get('what', entry.get('title', '')))


def of_sentence(sentence, repository, entries):
    """The lines of one sentence. Entries are the sentences and sections by their numbers."""
    yield f'### {called(sentence)}'
    yield ''
    for kind, word in CHANGES.items():
        numbers = sentence.get(kind, [])
        if numbers:
            yield f'- {word}: ' + ', '.join(called(entries[number]) if number in entries else number for number in numbers)
    for kind, word in LISTS.items():
        names = sentence.get(kind, [])
        if names:
            yield f'- {word}: ' + ', '.join(linked(name, repository.place(kind, name)) for name in names)
    if 'note' in sentence:
        yield '- ' + with_links(sentence['note'], repository)
    yield ''


def of_data(data, repository):
    """The whole document."""
    entries = {entry['number']: entry for section in data['section'] for entry in (section, *section['sentence'])}
    lines = [f'# {data["title"]}', '', MADE, '', with_links(data['introduction'].strip(), repository), '']
    for section in data['section']:
        lines += [f'## {section["number"]}. {section["title"]}', '']
        if 'note' in section:
            lines += [with_links(section['note'], repository), '']
        for sentence in section['sentence']:
            lines += of_sentence(sentence, repository, entries)
    return '\n'.join(lines).rstrip('\n') + '\n'
