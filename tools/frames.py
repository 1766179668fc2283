"""The symbols of 1000BASE-T1 frames: how a file has them, how they are printed, and what a frame is at the powers of alpha.

A file that has a byte of value 0 or 1 is binary: two bytes a symbol, low byte first. The high byte of every symbol is one of these two, and
ordinary text has no such bytes; so every other file is text. That is numbers between blanks, commas and ends of lines, each decimal, or hexadecimal with 0x ahead
of it; # begins a comment, up to the end of its line."""
import re
import struct

DATA, PARITY = 406, 44
# A symbol has nine bits. What a product has beyond them is reduced by x^9 + x^4 + 1.
SYMBOLS, FIELD, ALPHA = 0x200, 0x211, 2
# So many stand in a row, which makes four rows of the 44.
IN_A_ROW = 11
NUMBER = re.compile(r'0[xX]0*([0-9a-fA-F]+)|0*([0-9]+)')
WORD = re.compile(r'[^\s,]+')
LINE_END = re.compile(r'\r\n|\r|\n')
# What text begins with that has two bytes for each letter, and so many bytes that are zero.
UTF_16 = b'\xff\xfe', b'\xfe\xff'
A_SYMBOL_IS = 'a symbol is 0 to 511 (0x1ff)'


class WrongInput(Exception):
    """What is wrong with an input, in words."""


def binary_symbols(content):
    """The symbols of a binary file."""
    if content.startswith(UTF_16):
        raise WrongInput('it is text with two bytes for each letter (UTF-16); save it as ASCII or UTF-8')
    if len(content) % 2:
        raise WrongInput(f'it is binary, since it has a byte of value 0 or 1, and its bytes are an odd number, {len(content)}; a symbol is two bytes, low byte first')
    symbols = list(struct.unpack(f'<{len(content) // 2}H', content))
    for place, symbol in enumerate(symbols, 1):
        if symbol >= SYMBOLS:
            raise WrongInput(f'it is binary, since it has a byte of value 0 or 1, and at place {place} (bytes {2 * place - 1} and {2 * place}, low byte first) '
                             f'stands {symbol:#06x}; {A_SYMBOL_IS}')
    return symbols


def symbol_of(word, where):
    """The symbol that a word of a text is."""
    number = NUMBER.fullmatch(word)
    shown = ascii(word) if len(word) <= 20 else f'{ascii(word[:20])}..'
    if not number:
        raise WrongInput(f'{where} stands {shown}, which is no number; one is decimal, or hexadecimal with 0x ahead of it, as 346 or 0x15a, and they stand between blanks, commas and ends of lines')
    digits, base = (number[1], 16) if number[1] else (number[2], 10)
    # A number of more digits is too large, and may be too long to be worked out.
    symbol = int(digits, base) if len(digits) <= 3 else SYMBOLS
    if symbol >= SYMBOLS:
        raise WrongInput(f'{where} stands {shown}; {A_SYMBOL_IS}')
    return symbol


def text_symbols(content):
    """The symbols of a text. Letters that are none in UTF-8 may stand in its comments."""
    symbols = []
    for line_number, line in enumerate(LINE_END.split(content.decode('utf-8-sig', 'replace')), 1):
        for word in WORD.findall(line.partition('#')[0]):
            symbols.append(symbol_of(word, f'on line {line_number}, at place {len(symbols) + 1},'))
    return symbols


def symbols_of(content):
    """The symbols of a file: the data of a frame, or all of it."""
    if not content:
        raise WrongInput(f'it is empty; {DATA} or {DATA + PARITY} symbols are wanted')
    is_binary = 0 in content or 1 in content
    symbols = binary_symbols(content) if is_binary else text_symbols(content)
    if len(symbols) not in (DATA, DATA + PARITY):
        read_as = 'is binary, since it has a byte of value 0 or 1, and ' if is_binary else ''
        raise WrongInput(f'it {read_as}has {len(symbols)} symbols; {DATA} are wanted, the data of a frame, or {DATA + PARITY}, its data and its parity')
    return symbols


def in_rows(words):
    """Words as lines."""
    return ''.join(' '.join(words[start:start + IN_A_ROW]) + '\n' for start in range(0, len(words), IN_A_ROW))


def parity_text(parity):
    """Parity symbols as they are printed, which is in the form of a text: behind the text of the data it makes that of a frame."""
    return '# the parity, first sent first\n' + in_rows([f'0x{symbol:03x}' for symbol in parity])


def product(one, other):
    """The product of two symbols: the sum of the other, times alpha as often as each bit of the one says."""
    total = 0
    while one:
        if one & 1:
            total ^= other
        one >>= 1
        other <<= 1
        if other >= SYMBOLS:
            other ^= FIELD
    return total


def value_at(point, symbols):
    """What symbols are as a polynomial, the first with the highest power, at a point: by Horner's rule."""
    value = 0
    for symbol in symbols:
        value = product(value, point) ^ symbol
    return value


def values_at_powers(symbols):
    """What symbols are as a polynomial at each of alpha^0 to alpha^43."""
    powers = [1]
    while len(powers) < PARITY:
        powers.append(product(powers[-1], ALPHA))
    return [value_at(power, symbols) for power in powers]
