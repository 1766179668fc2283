"""The certificate as a page of plain text: made of the facts alone (certificate_facts.py), in lines of at most 100 columns."""
import textwrap

from certificate_facts import built, edits_refused, kept, kit, proved, whole_sums

PASSED = 'MASTSTEP: CERTIFICATE. THE GATE PASSED'
FAILED = 'MASTSTEP: NO CERTIFICATE. THE GATE FAILED'
WIDTH = 100
# How many columns a label has.
LABEL = 22
# What the words mean by which rt says that it trusted something.
TRUST = {
    'logic-built=trusted': "the kit's own logic is taken as its makers built and checked it; this run did not check it again.",
    'libraries-built=trusted': "each crate takes those below it as proved: Maststep's own as this run proved them or kept them (part 3); those of "
                               'the kit are taken as its makers built and checked them.',
    'statements=trusted': 'of a crate below it each takes the statements alone, without the proofs, which were checked with that crate.',
    'incremental=trusted': 'the C library, and the programs as they were built again, were proved on top of what earlier checks on this machine saved.',
    'native=nat,char,string': 'the checker computes with numbers, letters and texts by ordinary code of its own, which no proof covers.',
}
NOT_SAID = [
    'Nothing about the module around this core: its firmware, its electronics, the cable, its random numbers, whether it hands over each '
    'edge with the right clock reading and sends each page that is ordered (docs/INTEGRATING.md).',
    'Not that the definitions (part 3) say what the scope document ("01") says: people judge that, with docs/AUDITING.md and docs/TRACE.md.',
    'Not that a module conforms to IEEE 802.3: Maststep follows 01, and docs/DIFFERENCES.md tells where 01 parts from the standards.',
    'Not that what the programs drive and listing print is proved: they are proved safe and to end; what they print is tested.',
    'Nothing about speed, and nothing about any file with another SHA-256 than those in part 6. (The program unmade is a test of the gate and is not delivered.)',
    'Nothing about who ran it: this page has no signature. Whoever files it vouches for where it comes from.',
]


def paragraph(words, first='', rest=None):
    """Words in lines, with what stands before the first line and before the others."""
    rest = ' ' * len(first) if rest is None else rest
    return textwrap.fill(words, WIDTH, initial_indent=first, subsequent_indent=rest, break_long_words=False, break_on_hyphens=False)


def entry(label, words):
    return paragraph(words, f'   {label:<{LABEL}}')


def item(words):
    return paragraph(words, '   - ')


def plural(count, word):
    return f'{count} {word}' if count == 1 else f'{count} {word}s'


def counts_of(step):
    words = f'{step.passed} passed, {step.failed} failed' + (f', {step.skipped} skipped' if step.skipped else '')
    return words if step.passed + step.failed + step.skipped else 'not tried'


def failures(facts):
    """Why this run is no pass: nothing, where it is one."""
    found = []
    if facts.failed():
        found.append(f'{plural(facts.failed(), "check")} failed; part 3 tells in which step.')
    if not facts.passed() or not proved(facts) and not kept(facts):
        found.append('There is no record that anything was proved.')
    used, logic = whole_sums(facts), kit(facts)[1].split()[-1]
    if len(used) != 1 or not used[0].startswith(logic):
        found.append(f'The logic that was used, {", ".join(used) or "not known"}, is not that of the kit, {logic}.')
    if any(facts.begun[key] != facts.ended[key] for key in ('commit', 'changes')):
        found.append('The files were changed while the gate ran, so that it looked at no one state of them.')
    missing = [name for name, value in facts.sums.items() if value is None]
    if missing:
        found.append(f'Not there: {", ".join(missing)}.')
    return found


def reservations(facts):
    """What somebody who files a pass has to know first."""
    if facts.ended['commit'] is None:
        yield 'No commit is known: nothing says which version this was.'
    if facts.ended['changes']:
        yield 'The files were not those of the commit (part 1): nobody else can get this version by its commit.'
    yield from (f'Note: {note}.' for note in kit(facts)[2])
    if kept(facts):
        yield 'Not all was proved in this run (part 3).'
    if facts.skipped:
        yield 'Something could not be tried (part 5).'


def head(facts):
    """The first lines: nobody may take a failure for a pass."""
    faults, warnings = failures(facts), list(reservations(facts))
    # A page that is no pass although no check failed is itself the one failure of the gate.
    counts = f'{facts.passed()} checks passed, {facts.failed() or min(1, len(faults))} failed.'
    if faults:
        yield f'{FAILED}\n'
        yield paragraph(f'THIS PAGE CERTIFIES NOTHING AND MUST NOT BE FILED AS A PASS. {counts}')
        yield from map(item, faults)
    else:
        yield f'{PASSED}\n'
        yield paragraph(counts + (' With these reservations:' if warnings else ' Without reservation.'))
    yield from map(item, warnings)
    yield '\n' + paragraph(
        'The gate is the command .ci/run, which proves and tests the Maststep core. It wrote this page at its end. A check is one '
        'thing that holds or does not; the steps in part 3 count them. Names such as docs/AUDITING.md are files of the repository.')


def changes_of(tree):
    """The files that are not as the commit has them, the first five by name."""
    if tree['commit'] is None:
        return 'not known'
    names = [name for name, _ in tree['changes']]
    more = ' ..' if len(names) > 5 else ''
    return f'{plural(len(names), "file")}: {", ".join(names[:5])}{more}' if names else 'none'


def looked_at(facts):
    yield '1. What was looked at\n'
    yield entry('Commit', f'{facts.ended["commit"] or "not known"} (the name of the version, in git)')
    yield entry('Uncommitted changes', changes_of(facts.ended))
    yield entry('Begun', facts.begun['time'])
    yield entry('Ended', facts.ended['time'])


def made_with(facts):
    pinned, here, _ = kit(facts)
    yield '2. With what\n'
    yield entry('Kit', f'{here} (prover, its logic, compiler; the command rt version prints this)')
    yield entry('Pinned kit', f'{pinned} (kit.txt): ' + ('the same' if pinned == here else 'NOT THE SAME'))
    yield entry('Sum of the logic', ', '.join(whole_sums(facts)) or 'not known')
    for label, words in facts.machine:
        yield entry(label, words)


def functions(facts):
    now, earlier = proved(facts), kept(facts)
    count = sum(verdict.functions for verdict in now.values())
    by_crate = ', '.join(f'{name} {verdict.functions}' for name, verdict in sorted(now.items())) or 'none'
    words = (f'the code has {facts.functions}, in {facts.crates} crates (the parts of the program). Each is proved to meet its contract, to be safe and to '
             f'end; no public one asks anything of its caller. Proved in this run: {count}, in {plural(len(now), "crate")}: {by_crate}')
    if earlier:
        words += (f'. Kept, {plural(len(earlier), "crate")}: rt took them as an earlier run on this machine proved them, from the same files over the same '
                  f'libraries, by its own record of that: {", ".join(earlier)}')
    return words


def edits(facts):
    refusals = facts.step('tools/refusals')
    how = 'each refused at the fact that it breaks' if refusals.passed and not refusals.failed else 'NOT ALL OF THEM REFUSED AS THEY SHOULD BE'
    return (f'{edits_refused(facts)} refused by the prover. They are wrong programs that it must refuse; there are {facts.wrong_answers} wrong answers in '
            f'them, {how}')


def found(facts):
    yield '3. What was found\n'
    yield entry('Functions proved', functions(facts))
    yield entry('Definitions', f'{facts.definitions} lines, in crates/*/specs/*.antt. They say what the contracts mean, and are for people to read')
    yield entry('Must-fail edits', edits(facts))
    yield '\n   The steps of the gate:\n'
    width = max((len(counts_of(step)) for step in facts.steps), default=0)
    for step in facts.steps:
        yield paragraph(f'{"FAILED: " if step.failed else ""}{step.title}', f'   {counts_of(step):<{width}}   ')


def assumed(facts):
    made = built(facts)
    trusted = sorted({word for verdict in [*proved(facts).values(), *made.values()] if verdict for word in verdict.trusted})
    yield '4. What was assumed\n'
    for name, verdict in made.items():
        words = 'not known' if verdict is None else ', '.join(verdict.assumed) or "nothing of the C library"
        yield item(f'By {name}: {words}' + (', which are taken to do what the kit states of them.' if verdict and verdict.assumed else '.'))
    for word in trusted:
        yield item(f'{word}: {TRUST.get(word, "rt said this, and this page has no explanation of it.")}')
    yield item('The toolchain: that the checker, its reading of the code, the compiler and the linker of the kit are right, and the processor.')
    yield item('Room for the stack: the proofs do not count it. Whoever builds the core in has to leave enough.')
    yield item('Of whoever calls the C library: that a pointer and its count belong together, and that nobody else writes there meanwhile.')


def skipped(facts):
    yield '5. What was skipped\n'
    if facts.skipped:
        yield paragraph("What could not be tried here, in the gate's own words. It counts neither as passed nor as failed.", '   ') + '\n'
    yield from map(item, facts.skipped or ['nothing'])


def sums(facts):
    twice = facts.step('tools/built-twice')
    how = 'and got the same bytes' if twice.passed and not twice.failed else 'and DID NOT GET THE SAME BYTES, or could not build them'
    yield '6. The files, by SHA-256\n'
    yield from (f'{value or "not there":<64}  {name}' for name, value in facts.sums.items())
    yield '\n' + paragraph(
        f'The first three are for Linux on x86-64. The gate built them twice, in two folders, {how} (the last step; tools/built-twice tells what '
        'that shows).')


def not_said(_):
    yield '7. What this page does not say\n'
    yield from map(item, NOT_SAID)


def checked(_):
    yield '8. How to check this page\n'
    yield item('All of it: check out the commit of part 1 on a machine with the kit of part 2 and run .ci/run. It writes this page anew, as '
               'target/certificate.txt. Times, machine and compilers may differ, and what was skipped, with the number of checks: a machine may lack what '
               'another has.')
    yield item('Part 6: in the folder of the repository, sha256sum --check PAGE compares the files there with this page, PAGE being its file. It '
               'also warns of the lines that are no sums: those are the other parts.')
    yield item('Parts 4 and 7: docs/AUDITING.md tells what has to be believed, and how to read what is claimed.')


def page(facts):
    """The whole page."""
    parts = [head, looked_at, made_with, found, assumed, skipped, sums, not_said, checked]
    return '\n\n'.join('\n'.join(part(facts)) for part in parts) + '\n'
