"""Base pages and Next Pages, which a word alone does not tell apart: which of them tools/list takes a page for, what it says of the fields of a
Next Page, and its note on them."""
import re

import pytest

import plain_reader
from bench_tools import SAMPLES, ran, result, told
from expected_words import base_page_in_words, next_page_in_words
from made_captures import own_bytes, pages_apart, seeded
from plain_reader import LSM, MODES

ACK, NEXT_PAGE = 1 << 14, 1 << 15
# Nonce 5 and 1000BASE-T1. With NP and Ack one, Next Pages may follow it.
BASE = 0x850001
LAST_BASE = BASE | ACK | NEXT_PAGE
# Another nonce, and other abilities: no base page of the same negotiation.
OTHER = 0xA90001
# A page with this word is no base page that an end sends, but the message 6.
MESSAGE = 0x123400002006
NEAR, FAR = 100_000, 10_000_000


def told_words(edges, mode=LSM):
    return [line.words for line in told(result(own_bytes(mode, edges)).text)]


def next_words():
    chance = seeded(61)
    messages = [0x2000 | code for code in (0, 1, 2, 5, 6, 7, 10, 11, 0x400, 0x7FF)]
    # D11 toggle, D12 Ack2, D14 Ack and D15 NP, in each kind of page.
    flags = [kind | 1 << bit for kind in (0x2006, 0) for bit in (11, 12, 14, 15)]
    unformatted = [0, 0x3FF, 0x400, 0x7FF, *(1 << bit for bit in range(48))]
    return messages + flags + unformatted + [chance.getrandbits(48) for _ in range(60)]


@pytest.mark.parametrize('mode', MODES, ids=lambda mode: mode.name)
def test_the_fields_of_a_next_page_are_told_in_words(mode):
    words = next_words()
    assert told_words(pages_apart(mode, [LAST_BASE, *words], NEAR), mode) == [base_page_in_words(LAST_BASE), *map(next_page_in_words, words)]


@pytest.mark.parametrize('code, name', [(1, '1 (Null message)'), (5, '5 (OUI tag)'), (6, '6 (device identifier)'), (10, '10 (EEE)'), (2, '2'),
                                        (1029, '1029')])
def test_a_message_is_told_by_its_number_and_its_name_where_it_has_one(code, name):
    assert told_words(pages_apart(LSM, [LAST_BASE, 0x2000 | code], NEAR))[1].startswith(f'Next Page: message {name}, toggle 0,')


@pytest.mark.parametrize('bit, words', [
    (10, 'toggle 0, Ack 0, Ack2 0, NP 0, D0-10 400, D16-47 00000000'), (11, 'toggle 1, Ack 0, Ack2 0, NP 0, D0-10 000, D16-47 00000000'),
    (12, 'toggle 0, Ack 0, Ack2 1, NP 0, D0-10 000, D16-47 00000000'), (14, 'toggle 0, Ack 1, Ack2 0, NP 0, D0-10 000, D16-47 00000000'),
    (15, 'toggle 0, Ack 0, Ack2 0, NP 1, D0-10 000, D16-47 00000000'), (16, 'toggle 0, Ack 0, Ack2 0, NP 0, D0-10 000, D16-47 00000001')])
def test_a_single_bit_of_an_unformatted_page_is_told_as_what_it_is(bit, words):
    assert told_words(pages_apart(LSM, [LAST_BASE, 1 << bit], NEAR))[1] == f'Next Page: unformatted, {words}'


@pytest.mark.parametrize('flags', [0, ACK, NEXT_PAGE, ACK | NEXT_PAGE], ids=['neither', 'Ack', 'NP', 'both'])
def test_next_pages_come_behind_a_base_page_with_both_ack_and_np(flags):
    words = told_words(pages_apart(LSM, [BASE | flags, OTHER], NEAR))
    assert words == [base_page_in_words(BASE | flags), (next_page_in_words if flags == ACK | NEXT_PAGE else base_page_in_words)(OTHER)]


def test_a_base_page_that_is_heard_again_amid_next_pages_is_told_as_a_base_page():
    """The other end may still send it, with and without Ack."""
    words = [LAST_BASE, MESSAGE, BASE, LAST_BASE, OTHER]
    expected = [(next_page_in_words if word in (MESSAGE, OTHER) else base_page_in_words)(word) for word in words]
    assert told_words(pages_apart(LSM, words, NEAR)) == expected


@pytest.mark.parametrize('silence, is_new', [(1_000_000, False), (3_800_000, False), (4_000_000, True), (8_000_000, True), (30_000_000, True)])
def test_a_silence_of_4_ms_begins_a_new_negotiation(silence, is_new):
    """That is lost, after which an end that knows Next Pages gives up; break takes twice as long."""
    assert told_words(pages_apart(LSM, [LAST_BASE, OTHER], silence))[1] == (base_page_in_words if is_new else next_page_in_words)(OTHER)


def test_a_new_negotiation_has_base_pages_of_its_own():
    """Behind a silence the base page of before counts no longer: neither for what follows it, nor for being known again."""
    first = pages_apart(LSM, [LAST_BASE, MESSAGE], NEAR)
    edges = first + pages_apart(LSM, [OTHER | ACK | NEXT_PAGE, BASE], NEAR, first[-1] + FAR)
    assert told_words(edges)[2:] == [base_page_in_words(OTHER | ACK | NEXT_PAGE), next_page_in_words(BASE)]


@pytest.mark.parametrize('before', [[], [BASE]], ids=['a capture', 'a negotiation'])
def test_pages_with_another_selector_that_begin_a_capture_or_a_negotiation_are_taken_for_next_pages(before):
    """A capture may begin amid them, and the selectors of base pages that are known are all 1."""
    first = pages_apart(LSM, before, NEAR)
    edges = first + pages_apart(LSM, [MESSAGE, 0x800, BASE], NEAR, first[-1] + FAR if first else 1000)
    assert told_words(edges)[len(before):] == [next_page_in_words(MESSAGE), next_page_in_words(0x800), base_page_in_words(BASE)]


@pytest.mark.parametrize('selector', [0, 2, 3, 6, 16, 31])
def test_a_page_with_another_selector_behind_a_base_page_is_told_to_be_refused(selector):
    words = told_words(pages_apart(LSM, [BASE, OTHER & ~31 | selector], NEAR))[1]
    assert words.startswith(f'base page of selector {selector}, which is refused (only 1 is taken): nonce 9, ')
    assert words == base_page_in_words(OTHER & ~31 | selector)


def notes_on_next_pages(found):
    return [note for note in found.notes if 'Next Page' in note]


def test_a_note_tells_which_attempts_are_next_pages():
    """A bad attempt and a base page amid them are none."""
    edges = pages_apart(LSM, [BASE, LAST_BASE, MESSAGE, MESSAGE, OTHER, LAST_BASE, MESSAGE], NEAR)
    edges += [edges[-1] + NEAR + time for time in plain_reader.page(LSM, MESSAGE)[:50]]
    edges += plain_reader.page(LSM, MESSAGE, edges[-1] + NEAR)
    found = result(own_bytes(LSM, edges))
    note, = notes_on_next_pages(found)
    assert re.match(r'Next Pages: attempts 3-5 7 9;', note) and 'tools/messages' in note
    assert result(own_bytes(LSM, edges), plain=True).notes == []


def test_the_command_says_which_attempts_are_next_pages():
    model, = [sample for sample in SAMPLES if sample.stem == 'model-lsm']
    assert re.fullmatch(r'tools/list: Next Pages: attempts 6-19; [^\n]+\n', ran('list', model).err)


def test_where_their_numbers_would_fill_the_line_next_pages_are_only_counted():
    edges = plain_reader.page(LSM, LAST_BASE, 1000)
    for _ in range(60):
        edges += pages_apart(LSM, [MESSAGE, LAST_BASE], NEAR, edges[-1] + NEAR)
    note, = notes_on_next_pages(result(own_bytes(LSM, edges)))
    assert note.startswith('Next Pages: 60 attempts;')


@pytest.mark.parametrize('words', [[BASE], [BASE, OTHER, BASE | ACK], [LAST_BASE, LAST_BASE, BASE]], ids=['one', 'three', 'with Ack and NP'])
def test_without_a_next_page_there_is_no_note_on_them(words):
    assert notes_on_next_pages(result(own_bytes(LSM, pages_apart(LSM, words, NEAR)))) == []
