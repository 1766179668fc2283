"""Long captures: split into pieces that the proved program takes, they list as a reader of the whole reads them, the attempts numbered through."""
import itertools

import pytest

import plain_reader
from bench_tools import LIST, assert_one_note, file_of, plain, ran, result
from expected_words import assert_told
from made_captures import own_bytes, pages_apart, random_capture, saleae, seeded, vcd
from plain_reader import HSM, LSM, MODES

BOTH = pytest.mark.parametrize('mode', MODES, ids=lambda mode: mode.name)
FAR = (2 ** 32 - 1, 2 ** 32, 2 ** 32 + 30, 2 ** 32 + 800, 3 * 2 ** 32 + 129)


@BOTH
def test_a_vcd_of_more_than_100_000_edges_lists_as_the_whole(mode):
    edges = random_capture(mode, seeded(21), 100_001, longest=9000, far=[*FAR, *[mode.quiet] * 200])
    assert len(edges) > 100_000
    assert_told(result(vcd(edges), mode=mode.name).text, mode, edges)


@BOTH
def test_our_bytes_of_more_than_100_000_edges_list_as_the_whole_over_many_roll_overs(mode):
    edges = random_capture(mode, seeded(22), 100_001, longest=8001, far=[2 ** 31, *[mode.quiet] * 20])
    assert edges[-1] > 2 ** 33
    assert plain(own_bytes(mode, edges)) == plain_reader.text(mode, edges)


def test_the_command_lists_100_000_edges_of_good_pages_from_standard_input():
    chance = seeded(23)
    edges = pages_apart(HSM, [chance.getrandbits(48) for _ in range(900)], HSM.quiet)
    assert len(edges) > 100_000
    found = ran('list', '--plain', given=saleae(edges).encode())
    assert (found.status, found.out) == (0, plain_reader.text(HSM, edges))
    assert found.out.split('\n')[-3].startswith('900 good ')


@pytest.mark.parametrize('count', [7999, 8000, 8001, 8149, 8150, 8151, 16_001])
@pytest.mark.parametrize('before', [0, 1, 93])
def test_a_stretch_without_a_quiet_gap_is_one_attempt_however_long(count, before):
    """It may begin a capture, or follow others that would still go into the same piece."""
    edges = plain_reader.page(HSM, 5, 100)[:before]
    start = (edges[-1] if edges else 0) + 500
    page = plain_reader.page(HSM, 0x850001, start)
    edges += page + [page[-1] + 30 * number for number in range(1, count + 1 - len(page))]
    edges += plain_reader.page(HSM, 7, edges[-1] + 130)
    assert_told(result(vcd(edges), mode='HSM').text, HSM, edges)


def test_pieces_that_are_exactly_full_lose_no_attempt():
    """80 pages of 100 edges are just what the program takes."""
    words = list(itertools.islice((word for word in itertools.count() if len(plain_reader.places_of(LSM, word)) == 100), 250))
    for count in 79, 80, 81, 160, 161, 250:
        edges = pages_apart(LSM, words[:count], LSM.quiet)
        assert plain(own_bytes(LSM, edges)) == plain_reader.text(LSM, edges)


@BOTH
def test_single_edges_far_apart_are_an_attempt_each(mode):
    edges = list(range(1000, 1000 + 20_000 * mode.quiet, mode.quiet))
    assert plain(vcd(edges), mode=mode.name) == plain_reader.text(mode, edges)


def test_a_gap_of_one_ns_less_than_quiet_at_the_end_of_a_full_piece_drops_the_next_page():
    """The border between two pieces must be a quiet gap and no other."""
    for gap in HSM.quiet - 1, HSM.quiet:
        edges = pages_apart(HSM, [0x850001] * 86, HSM.quiet)
        edges += plain_reader.page(HSM, 0xA90001, edges[-1] + gap)
        assert len(edges) > 8000
        assert plain(own_bytes(HSM, edges)) == plain_reader.text(HSM, edges)


def test_the_program_is_handed_no_piece_of_more_than_8000_edges(monkeypatch):
    sizes, real = [], LIST.attempts.printed_for

    def counted(content):
        sizes.append((len(content) - 1) // 4)
        return real(content)
    monkeypatch.setattr(LIST.attempts, 'printed_for', counted)
    edges = random_capture(LSM, seeded(24), 30_000, longest=8500)
    plain(own_bytes(LSM, edges))
    assert max(sizes) <= 8000 and len(sizes) <= 6


@pytest.mark.parametrize('change', [lambda lines: lines[:1] + lines[-2:], lambda lines: lines[:-3] + lines[-2:], lambda lines: lines[:-2] + lines[-3:]],
                         ids=['none', 'one fewer', 'one more'])
@pytest.mark.parametrize('count', [3, 100])
def test_a_number_of_attempts_that_the_edges_do_not_have_is_never_listed(monkeypatch, change, count):
    """In one piece and in two: an attempt that is left out or told twice would shift all behind it."""
    real = LIST.attempts.printed_for
    monkeypatch.setattr(LIST.attempts, 'printed_for', lambda content: '\n'.join(change(real(content).split('\n'))))
    assert_one_note(result(own_bytes(HSM, pages_apart(HSM, [0x850001] * count, 1000))))


@BOTH
def test_gaps_that_the_clock_cannot_hold_are_quiet(mode):
    """A gap of 2^32 ns and 30 or 800 more would be a position on the clock."""
    edges = [1000]
    for far in (*FAR, 2 ** 32 * 1000 + mode.spacing):
        edges += plain_reader.page(mode, 0x850001, edges[-1] + far)
    assert_told(result(vcd(edges), mode=mode.name).text, mode, edges)


def test_with_whole_a_long_capture_is_refused_and_without_it_is_listed():
    edges = pages_apart(HSM, [0x850001] * 90, 1000)
    for content in own_bytes(HSM, edges), vcd(edges):
        path = file_of(content)
        found = ran('list', '--whole', path)
        assert (found.status, found.out) == (1, 'refused 12\n')
        assert found.err.count('\n') == 1 and '8000' in found.err.replace(' ', '')
    assert ran('list', '--plain', path).out == plain_reader.text(HSM, edges)


@pytest.mark.parametrize('count', [8000, 8001])
def test_whole_takes_8000_edges_and_no_more(count):
    edges = list(range(0, 30 * count, 30))
    found = result(own_bytes(HSM, edges), whole=True, plain=True)
    assert (found.status, found.text) == ((0, plain_reader.text(HSM, edges)) if count == 8000 else (1, 'refused 12\n'))
