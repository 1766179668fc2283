"""What tools/list must tell of each attempt, by the second opinion: numbers and places are taken out of its words and compared."""
import re

import plain_reader
from bench_tools import nanoseconds, told, without_words

GAP = re.compile(r'edge (?P<edge>\d+), (?P<place>[^:,]+): it came (?P<gap>\d+) ns after the one before, which is (?P<counted>[^;]+); '
                 r'the nearest window that fits a page there is (?P<low>\d+)-(?P<high>\d+) ns \((?P<fits>(?P<count>\d) positions?)\), '
                 r'so it is (?P<off>\d+) ns too (?P<way>long|short)')
CUT = re.compile(r'came to position (?P<position>\d+) of 157, (?P<place>[^:,]+), with (?P<edges>\d+ edges?), '
                 r'(?:then the line was quiet for (?P<quiet>[^,]+)|then no edge came for (?P<silence>[^,]+), up to the end of the capture'
                 r'|where the capture ends)')
CHECK = re.compile(r'read (?P<word>[0-9a-f]{12}) with check bits (?P<check>[0-9a-f]{4}), and that word has (?P<own>[0-9a-f]{4}); (?P<cause>.*)')
RATES = {6: '25GBASE-T1', 5: '10GBASE-T1', 4: '5GBASE-T1', 3: '2.5GBASE-T1', 2: '1000BASE-T1', 0: '100BASE-T1', 1: '10BASE-T1S full duplex',
         9: '10BASE-T1L', 22: '10BASE-T1S half duplex'}
# By D10, which is C0, PAUSE, and D11, which is C1, ASM_DIR.
PAUSE = {(0, 0): 'no pause', (1, 0): 'pause symmetric (D10)', (0, 1): 'pause asymmetric (D11)', (1, 1): 'pause symmetric and asymmetric (D10, D11)'}
MESSAGES = {1: '1 (Null message)', 5: '5 (OUI tag)', 6: '6 (device identifier)', 10: '10 (EEE)'}


def counted(number, thing):
    return f'{number} {thing}' if number == 1 else f'{number} {thing}s'


def place_in_words(place):
    """What stands at a place of a page. A clock is told as the bit behind it."""
    if place <= 26:
        return 'in the delimiter'
    if place >= 155:
        return 'at the end of the page'
    return f'at {"check bit " if place >= 123 else ""}{plain_reader.BIT_AT[place + place % 2]}'


def assert_gap(mode, attempt, words):
    """The edge and where it stands, the gap and what it counts as, and a window of those that fit there which it misses by least."""
    found = GAP.fullmatch(words)
    assert found, words
    assert (int(found['edge']), int(found['gap'])) == (attempt.edges, attempt.gap)
    # The edge came behind the last place that was reached, and no place further on is known.
    assert found['place'] == place_in_words(attempt.place + 1), (attempt.place, words)
    positions = plain_reader.positions_in(mode, attempt.gap)
    assert found['counted'] == (counted(positions, 'position') if positions else 'no whole number of positions'), words
    missed = {step: max(mode.window(step)[0] - attempt.gap, attempt.gap - mode.window(step)[1]) for step in attempt.steps}
    step = int(found['count'])
    assert missed[step] == min(missed.values()) == int(found['off'])
    assert (int(found['low']), int(found['high'])) == mode.window(step) and found['fits'] == counted(step, 'position')
    assert found['way'] == ('long' if attempt.gap > mode.window(step)[1] else 'short')


def assert_cut(attempt, words, edges, end):
    """How far it came, and how long the line was quiet, where that can be known: up to the next edge, or up to the end of the capture."""
    found = CUT.fullmatch(words)
    assert found, words
    assert (int(found['position']), found['edges']) == (attempt.place, counted(attempt.edges, 'edge'))
    assert found['place'] == place_in_words(attempt.place), words
    silence = end - edges[-1] if attempt.gap is None and end is not None and end > edges[-1] else None
    assert [nanoseconds(found[name]) if found[name] else None for name in ('quiet', 'silence')] == [attempt.gap, silence], words


def causes_of(attempt):
    """The single transitions that explain wrong check bits: one that was read was added, and where none was read, one was lost."""
    word, check = attempt.word, attempt.check
    changed = [(f'D{bit}', word >> bit & 1, word ^ 1 << bit, check) for bit in range(48)]
    changed += [(f'check bit S{bit}', check >> bit & 1, word, check ^ 1 << bit) for bit in range(16)]
    return [f'one transition {"added" if was_read else "lost"} at {name} would explain it'
            for name, was_read, other_word, other_check in changed if plain_reader.check_of(other_word) == other_check]


def assert_check(attempt, words):
    """The word and the check bits that were read, those that belong to the word, and the cause where there is a single one."""
    found = CHECK.fullmatch(words)
    assert found, words
    assert (int(found['word'], 16), int(found['check'], 16)) == (attempt.word, attempt.check)
    assert int(found['own'], 16) == plain_reader.check_of(attempt.word)
    assert found['cause'] in (causes_of(attempt) or ['no single transition explains it']), words


def rates_of(word):
    """The rates that a base page offers, in the order of 01."""
    return [name for bit, name in RATES.items() if word >> 21 + bit & 1]


def base_page_in_words(word):
    """What 01 says that the bits of a base page mean."""
    kind = 'base page' if word & 31 == 1 else f'base page of selector {word & 31}, which is refused (only 1 is taken)'
    role = 'role not forced' if not word >> 12 & 1 else 'forced master' if word >> 20 & 1 else 'forced slave'
    others = [f'A{bit}' for bit in range(27) if word >> 21 + bit & 1 and bit not in RATES]
    rates = ', '.join(rates_of(word))
    fields = [f'nonce {word >> 16 & 31}', f'echo {word >> 5 & 31}', f'Ack {word >> 14 & 1}', f'NP {word >> 15 & 1}', role,
              PAUSE[word >> 10 & 1, word >> 11 & 1], 'remote fault' if word >> 13 & 1 else 'no fault', f'rates {rates}' if rates else 'no rate']
    return f'{kind}: {", ".join(fields)}' + (f'; other abilities {", ".join(others)}' if others else '')


def next_page_in_words(word):
    """What the bits of a Next Page mean: D13 tells a message page, whose D0-10 are the number of a message, from an unformatted one."""
    low = word & 0x7FF
    flags = f'toggle {word >> 11 & 1}, Ack {word >> 14 & 1}, Ack2 {word >> 12 & 1}, NP {word >> 15 & 1}'
    content = f'message {MESSAGES.get(low, low)}, {flags}' if word >> 13 & 1 else f'unformatted, {flags}, D0-10 {low:03x}'
    return f'Next Page: {content}, D16-47 {word >> 16:08x}'


def assert_told(text, mode, edges, origin=0, end=None):
    """A listing is that of the second opinion, and each attempt is told as that one has read it."""
    attempts = plain_reader.read(mode, edges)
    assert without_words(text) == plain_reader.text(mode, edges, attempts)
    for attempt, line in zip(attempts, told(text)):
        assert line.began == edges[attempt.first] - origin, line
        assert line.dropped == attempt.behind - attempt.first - attempt.edges, line
        if attempt.ending == 'gap':
            assert_gap(mode, attempt, line.words)
        elif attempt.ending == 'cut':
            assert_cut(attempt, line.words, edges, end)
        elif attempt.ending == 'check':
            assert_check(attempt, line.words)
