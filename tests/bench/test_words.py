"""What a person is told of each attempt, against a reader written from 01 alone: where it began, what its page says, where and why it failed."""
import re

import pytest

import plain_reader
from bench_tools import ROOT, ran, result, told
from expected_words import assert_told, base_page_in_words, rates_of
from made_captures import own_bytes, pages_apart, random_capture, saleae, seeded, vcd
from plain_reader import HSM, LSM, MODES

BOTH = pytest.mark.parametrize('mode', MODES, ids=lambda mode: mode.name)


@BOTH
@pytest.mark.parametrize('seed', range(4))
def test_attempts_of_a_vcd_are_told_as_the_second_opinion_reads_them(mode, seed):
    edges = random_capture(mode, seeded(seed), 4000)
    end = edges[-1] + 1000 * seed
    assert_told(result(vcd(edges, end), mode=mode.name).text, mode, edges, end=end)


@BOTH
def test_attempts_of_a_csv_are_told_as_the_second_opinion_reads_them(mode):
    edges = random_capture(mode, seeded(10), 4000)
    assert_told(result(saleae(edges), mode=mode.name).text, mode, edges)


@BOTH
@pytest.mark.parametrize('first', [0, 4294960000, 2 ** 31 + 5])
def test_attempts_of_our_bytes_are_told_from_the_first_edge_also_over_the_roll_over(mode, first):
    edges = random_capture(mode, seeded(first), 4000)
    readings = [first + time - edges[0] for time in edges]
    assert_told(result(own_bytes(mode, readings)).text, mode, edges, origin=edges[0])


@BOTH
def test_every_single_gap_of_a_page_is_told_where_it_is_just_out_of_its_window(mode):
    """Each gap in turn is one ns too short or too long; the tool must name that edge and that window."""
    page, chance = plain_reader.page(mode, 0xA5C300F1E2A1), seeded(3)
    edges = [500]
    for place in range(1, len(page)):
        steps = (page[place] - page[place - 1]) // mode.spacing
        gap = chance.choice(mode.window(steps))
        off = gap + (1 if gap > steps * mode.spacing else -1) - (page[place] - page[place - 1])
        start = edges[-1] + 10 * mode.quiet
        edges += [start + time + (off if number >= place else 0) for number, time in enumerate(page)]
    assert_told(result(vcd(edges), mode=mode.name).text, mode, edges)


@BOTH
def test_a_page_that_is_cut_behind_any_of_its_edges_is_told_by_its_position(mode):
    page = plain_reader.page(mode, 0xA5C300F1E2A1)
    edges = [500]
    for count in range(1, len(page) + 1):
        start = edges[-1] + mode.quiet + count
        edges += [start + time for time in page[:count]]
    assert_told(result(vcd(edges), mode=mode.name).text, mode, edges)


@BOTH
def test_a_page_with_any_one_bit_wrong_is_told_with_what_was_read(mode):
    edges = [500]
    for bit in range(64):
        word, check = 0xA5C300F1E2A1, plain_reader.check_of(0xA5C300F1E2A1)
        start = edges[-1] + mode.quiet
        edges += plain_reader.page(mode, word ^ 1 << bit, start, check) if bit < 48 else plain_reader.page(mode, word, start, check ^ 1 << bit - 48)
    found = result(vcd(edges), mode=mode.name)
    assert_told(found.text, mode, edges)
    assert [line.text.split()[1] for line in told(found.text)] == ['cut'] + ['check'] * 64


def test_the_place_of_a_single_lost_transition_is_named():
    """The sample check-hsm lost the transition of D0."""
    assert re.search(r'lost at D0\b', ran('list', ROOT / 'samples/check-hsm.capture').out)


@BOTH
def test_edges_that_are_dropped_behind_an_attempt_are_counted(mode):
    page = plain_reader.page(mode, 1, 100)
    for more in 0, 1, 2, 7:
        edges = page + [page[-1] + mode.spacing * number for number in range(1, more + 1)]
        assert told(result(vcd(edges), mode=mode.name).text)[0].dropped == more


@BOTH
def test_a_cut_at_the_end_of_a_capture_says_so(mode):
    page = plain_reader.page(mode, 1, 100)[:40]
    line, = told(result(own_bytes(mode, page)).text)
    assert 'where the capture ends' in line.words
    line, = told(result(vcd(page, page[-1] + 12_345), mode=mode.name).text)
    assert '12.345 µs, up to the end of the capture' in line.words


@BOTH
@pytest.mark.parametrize('more', [0, 1, 999, 12_345, 10 ** 7, 5 * 10 ** 9])
def test_a_page_that_the_end_of_a_capture_cuts_is_told_with_what_came_behind_its_last_edge(mode, more):
    """Ahead of it another one is cut, which is told up to the next edge."""
    page = plain_reader.page(mode, 0xA5C300F1E2A1)
    for count in 1, 2, 40, len(page) - 2, len(page) - 1:
        edges = page[:40] + [page[39] + 2 * mode.quiet + time for time in page[:count]]
        assert [attempt.ending for attempt in plain_reader.read(mode, edges)] == ['cut', 'cut']
        assert_told(result(vcd(edges, edges[-1] + more), mode=mode.name).text, mode, edges, end=edges[-1] + more)


def base_words():
    chance = seeded(11)
    fixed = [1, 1 << 10 | 1, 1 << 11 | 1, 3 << 10 | 1, 1 << 12 | 1, 1 << 12 | 1 << 20 | 1, 1 << 13 | 1, 1 << 14 | 1, 1 << 15 | 1, 31 << 5 | 1, 31 << 16 | 1]
    # Next Page with Ack would have the pages behind it taken for Next Pages, so one of the two is left out.
    return fixed + [1 << bit | 1 for bit in range(21, 48)] + [(chance.getrandbits(48) & ~0x801F) | 1 for _ in range(40)]


@BOTH
def test_the_fields_of_a_base_page_are_told_in_words(mode):
    words = base_words()
    # Each begins a negotiation of its own.
    edges = pages_apart(mode, words, 10_000_000)
    lines = told(result(own_bytes(mode, edges)).text)
    assert [int(line.text.split()[2], 16) for line in lines] == words
    assert [line.words for line in lines] == [base_page_in_words(word) for word in words]


def test_pause_is_told_by_its_bits():
    """D10 is C0, PAUSE, and D11 is C1, ASM_DIR."""
    lines = told(result(own_bytes(LSM, pages_apart(LSM, [bits << 10 | 1 for bits in range(4)], 10_000_000))).text)
    told_pause = [re.search(r'role not forced, (.*), no fault', line.words)[1] for line in lines]
    assert told_pause == ['no pause', 'pause symmetric (D10)', 'pause asymmetric (D11)', 'pause symmetric and asymmetric (D10, D11)']


def test_an_ability_that_names_no_rate_is_told_by_its_number():
    lines = told(result(own_bytes(LSM, pages_apart(LSM, [1 << 21 + bit | 1 for bit in range(27)], 10_000_000))).text)
    assert [re.search(r'no fault, (.*)', lines[bit].words)[1] for bit in (7, 8, 10, 21, 23, 26)] == [
        f'no rate; other abilities A{bit}' for bit in (7, 8, 10, 21, 23, 26)]


def test_a_rate_that_is_not_offered_is_not_named():
    for word in base_words():
        line, = told(result(own_bytes(HSM, plain_reader.page(HSM, word))).text) if word.bit_count() < 4 else [None]
        if line:
            named = re.findall(r'[\d.]+G?BASE-T1[SL]?(?: full duplex| half duplex)?', line.words)
            assert sorted(named) == sorted(rates_of(word))


def test_next_pages_are_told_as_such_once_they_stand():
    lines = told(ran('list', ROOT / 'samples/model-lsm.capture').out)
    kinds = ['Next Page' if line.words.startswith('Next Page') else 'base page' if line.words.startswith('base page') else '?' for line in lines]
    assert kinds == ['base page'] * 5 + ['Next Page'] * 14
    assert 'device identifier' in lines[5].words
    assert 'unformatted' in lines[10].words


@BOTH
@pytest.mark.parametrize('time, words', [(999, '999 ns'), (1000, '1.000 µs'), (999_999, '999.999 µs'), (1_000_000, '1.000000 ms'), (2_000_000_001, '2.000000001 s')])
def test_the_time_is_told_to_the_ns_in_a_unit_that_suits_it(mode, time, words):
    assert f'| at {words} |' in result(vcd([time, time + mode.spacing]), mode=mode.name).text


def test_the_first_column_is_01_s_text_unchanged():
    edges = random_capture(HSM, seeded(12), 3000)
    content = own_bytes(HSM, edges)
    plain_text = ran('listing', given=content).out
    lines = result(content).text.split('\n')
    assert [line.partition('|')[0].rstrip() for line in lines] == plain_text.split('\n')
