"""The fields of a page in words, as 01, "The page", and its amendments on Next Pages have them: for tools/list, tools/show and tools/messages."""
import functools

SELECTOR_802_3 = 1
ACK2, TOGGLE, MESSAGE_PAGE, ACK, NEXT_PAGE = 1 << 12, 1 << 11, 1 << 13, 1 << 14, 1 << 15
MESSAGES = {1: 'Null message', 5: 'OUI tag', 6: 'device identifier', 10: 'EEE'}
# The rates that 01 chooses from, in its order, by ability bit.
RATES = {6: '25GBASE-T1', 5: '10GBASE-T1', 4: '5GBASE-T1', 3: '2.5GBASE-T1', 2: '1000BASE-T1', 0: '100BASE-T1', 1: '10BASE-T1S full duplex',
         9: '10BASE-T1L', 22: '10BASE-T1S half duplex'}
# The two pause bits: D10 is C0, PAUSE, and D11 is C1, ASM_DIR.
PAUSE = {0: 'no pause', 1: 'pause symmetric (D10)', 2: 'pause asymmetric (D11)', 3: 'pause symmetric and asymmetric (D10, D11)'}
# A page's fields by their bits: the name, the lowest bit, how many bits.
BASE_FIELDS = (('S', 0, 5), ('E', 5, 5), ('pause', 10, 2), ('M/S', 12, 1), ('RF', 13, 1), ('Ack', 14, 1), ('NP', 15, 1), ('T', 16, 5),
               ('abilities A0-A26', 21, 27))
NEXT_FIELDS = (('code', 0, 11), ('toggle', 11, 1), ('Ack2', 12, 1), ('MP', 13, 1), ('Ack', 14, 1), ('NP', 15, 1), ('D16-47', 16, 32))


def field(word, lowest, count):
    return word >> lowest & (1 << count) - 1


def role_words(word):
    if not word & 1 << 12:
        return 'role not forced'
    return 'forced master' if word & 1 << 20 else 'forced slave'


def rate_words(word):
    """The rates that a base page offers, and the ability bits that name none."""
    abilities = field(word, 21, 27)
    named = [name for bit, name in RATES.items() if abilities >> bit & 1]
    others = [f'A{bit}' for bit in range(27) if abilities >> bit & 1 and bit not in RATES]
    return (('rates ' + ', '.join(named)) if named else 'no rate') + (f'; other abilities {", ".join(others)}' if others else '')


def base_words(word):
    """A base page's fields in words."""
    selector = field(word, 0, 5)
    parts = ['base page'] if selector == SELECTOR_802_3 else [f'base page of selector {selector}, which is refused (only 1 is taken)']
    parts += [f'nonce {field(word, 16, 5)}', f'echo {field(word, 5, 5)}', f'Ack {field(word, 14, 1)}', f'NP {field(word, 15, 1)}', role_words(word),
              PAUSE[field(word, 10, 2)], 'remote fault' if word & 1 << 13 else 'no fault', rate_words(word)]
    return f'{parts[0]}: {", ".join(parts[1:])}'


def message_name(code):
    return f'{code} ({MESSAGES[code]})' if code in MESSAGES else f'{code}'


def next_words(word):
    """A Next Page's fields in words."""
    flags = f'toggle {field(word, 11, 1)}, Ack {field(word, 14, 1)}, Ack2 {field(word, 12, 1)}, NP {field(word, 15, 1)}'
    if word & MESSAGE_PAGE:
        return f'Next Page: message {message_name(field(word, 0, 11))}, {flags}, D16-47 {word >> 16:08x}'
    return f'Next Page: unformatted, {flags}, D0-10 {field(word, 0, 11):03x}, D16-47 {word >> 16:08x}'


@functools.lru_cache(4096)
def words_of(word, is_next):
    return next_words(word) if is_next else base_words(word)


class Kinds:
    """Tells base pages from Next Pages, which a word alone does not say. Next Pages come once base pages with NP and Ack one have passed; then
    a page with the selector, nonce and abilities of such a base page is that page again, and any other page is a Next Page. A page with
    another selector ahead of all base pages is taken for a Next Page too: a capture may begin amid them. Silence of 4 ms begins a new
    negotiation, since no end is silent for so long but in Break, which takes 8 ms."""
    SILENCE = 4_000_000

    def __init__(self):
        self.bases, self.is_open, self.last = set(), False, None

    def is_next(self, word, time):
        """Whether the page is a Next Page, given all pages before it; time is that of its first transition in ns."""
        if self.last is not None and time - self.last >= self.SILENCE:
            self.bases, self.is_open = set(), False
        self.last = time
        is_base_like = field(word, 0, 5) == SELECTOR_802_3
        if self.is_open and not (is_base_like and word >> 16 in self.bases):
            return True
        if not is_base_like and not self.bases:
            return True
        self.bases.add(word >> 16)
        self.is_open = self.is_open or word & (ACK | NEXT_PAGE) == ACK | NEXT_PAGE
        return False
