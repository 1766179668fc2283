"""Reads the public functions out of Rattle code: what tools/no-requires, tools/contract-forms and tools/repository_names.py share.

A function is public if it is `pub` without a restriction: `pub fn`, `pub extern "C" fn`, also in an impl block; and so is a method of a trait that a type implements, but for
`fmt`, of which no contract can say what it prints. The owner of such a method has the name that Rattle gives the impl: `impl From<Refusal> for u8` is `U8FromRefusal`."""
import collections
import re

PUBLIC = re.compile(r'\bpub\s+(?:const\s+)?(?:unsafe\s+)?(?:extern\s+"[^"]*"\s+)?fn\s+(\w+)')
METHOD = re.compile(r'\bfn\s+(?!fmt\b)(\w+)')
# An impl of a type's own, or of a trait for a type.
IMPL = re.compile(r'^impl(?:<[^{]*?>)? (?:([^{]*?) for )?([^{]*?) \{', re.M)
CLAUSE = re.compile(r'\b(requires|ensures|ghost|decreases)\b|[{;]')

# owner is the type whose method it is, or ''; has_result tells whether it gives one; clauses are the words of its contract, in order, and statements what stands between the
# brackets of each.
PublicFunction = collections.namedtuple('PublicFunction', 'owner name line has_result clauses statements')


def sources_below(folder):
    """The files of code below a folder; what rt makes of them, in out/, has such files too."""
    return sorted(path for path in folder.rglob('*.rt') if 'out' not in path.relative_to(folder).parts)


def without_comments(source):
    """The source with its comments gone and its lines where they were."""
    return re.sub(r'//[^\n]*', '', source)


def closing(text, start, brackets='{}'):
    """The place after the bracket that closes the first one from start on."""
    depth = 0
    for place in range(text.index(brackets[0], start), len(text)):
        depth += (text[place] == brackets[0]) - (text[place] == brackets[1])
        if depth == 0:
            return place + 1
    return len(text)


def clauses(text, place):
    """The words of the contract of a function whose parameters open from place on, each with its statement."""
    place = closing(text, place, '()')
    while True:
        found = CLAUSE.search(text, place)
        if not found or found[0] in '{;':
            return
        place = closing(text, found.end())
        yield found[0], text[text.index('{', found.end()) + 1:place - 1].strip()


def has_result(text, place):
    """Whether a function whose parameters open from place on gives a result."""
    return text[closing(text, place, '()'):].lstrip().startswith('->')


def impl_name(trait, type_name):
    """The name that Rattle gives an impl of a trait for a type: the type's words, then the trait's, each with a capital."""
    return ''.join(word[0].upper() + word[1:] for word in re.findall(r'\w+', f'{type_name} {trait}'))


def functions(source):
    """The public functions of a file, in order."""
    text = without_comments(source)
    impls, found_at = [], list(PUBLIC.finditer(text))
    for found in IMPL.finditer(text):
        start, end = found.start(), closing(text, found.end() - 1)
        impls.append((start, end, impl_name(found[1], found[2]) if found[1] else re.match(r'\w*', found[2])[0]))
        if found[1]:
            found_at += METHOD.finditer(text, found.end(), end)
    for found in sorted(found_at, key=lambda each: each.start()):
        owners = [name for start, end, name in impls if start < found.start() < end]
        line = text.count('\n', 0, found.start()) + 1
        contract = list(clauses(text, found.end()))
        yield PublicFunction(owners[0] if owners else '', found[1], line, has_result(text, found.end()), [word for word, _ in contract], [statement for _, statement in contract])


def exported(sources):
    """What a crate makes public, from its files by name: the functions of lib itself, those that lib passes on, the methods of such
    types, and what traits ask of types that are not the crate's own alone. Each name with its file and line."""
    if 'lib' not in sources:
        return {}
    lib = without_comments(sources['lib'])
    passed_on = re.findall(r'\bpub use (?:crate::)?(\w+)::(?:(\w+)|\{([\w,\s]*)\});', lib)
    if len(passed_on) != len(re.findall(r'\bpub use\b', lib)) or re.search(r'\bpub mod\b', lib):
        raise ValueError(f'it cannot be told what this file makes public:\n{lib}')
    shown = {('lib', function.name) for function in functions(sources['lib']) if not function.owner}
    shown |= {('lib', name) for name in re.findall(r'\bpub (?:struct|enum) (\w+)', lib)}
    for file, single, several in passed_on:
        shown |= {(file, name.strip()) for name in (single or several).split(',') if name.strip()}
    types = {name for file, name in shown}
    hidden = {name for source in sources.values() for name in re.findall(r'^(?:pub\(crate\) )?(?:struct|enum) (\w+)', source, re.M)}
    for source in sources.values():
        impls = [each for each in IMPL.finditer(without_comments(source)) if each[1]]
        types |= {impl_name(each[1], each[2]) for each in impls if not hidden & set(re.findall(r'\w+', each[1] + ' ' + each[2]))}
    found = {}
    for file, source in sources.items():
        for function in functions(source):
            if function.owner in types:
                found[f'{function.owner}::{function.name}'] = (file, function.line)
            elif not function.owner and (file, function.name) in shown:
                found[function.name] = (file, function.line)
    return found
