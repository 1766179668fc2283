"""What tools/show draws is what a reader written from 01 alone reads: which attempts, what is wrong with them, where they stand in an overview."""
import itertools
import re
import sys
from unittest import mock

import pytest

import plain_reader
from bench_tools import ROOT, loaded, ran
from drawn_pictures import bands_by_lane, texts
from made_captures import own_bytes, pages_apart, vcd
from plain_reader import HSM, LSM, MODES

SHOW = loaded('show')
BOTH = pytest.mark.parametrize('mode', MODES, ids=lambda mode: mode.name)
WORD = 0xA5C300F1E2A1
# Two of most kinds, and bad ones beside one another.
ENDINGS = ['good', 'cut', 'gap', 'good', 'check', 'good', 'cut', 'good', 'gap']


def attempt_of(mode, ending):
    """The edges of an attempt that ends so."""
    page = plain_reader.page(mode, WORD)
    if ending == 'check':
        return plain_reader.page(mode, WORD, check=plain_reader.check_of(WORD) ^ 1)
    if ending == 'gap':
        return page[:60] + [time + mode.spacing // 2 for time in page[60:]]
    return page[:50] if ending == 'cut' else page


def capture_with(mode, endings):
    """The edges of a capture with such attempts; no silence between them is as long as another."""
    edges = []
    for number, ending in enumerate(endings):
        start = edges[-1] + mode.quiet * (2 + number) if edges else 1000
        edges += [start + time for time in attempt_of(mode, ending)]
    assert [attempt.ending for attempt in plain_reader.read(mode, edges)] == list(endings)
    return edges


def drawn(folder, content, *words):
    """Draws a capture by the same function as the command, in this process, which need not load what draws anew. The picture, and its overview."""
    capture, picture = folder / 'some.capture', folder / 'page.svg'
    capture.write_bytes(content.encode() if isinstance(content, str) else content)
    with mock.patch.object(sys, 'argv', ['tools/show', str(capture), '-o', str(picture), *words]):
        assert SHOW.main() == 0
    return picture, folder / 'page-overview.svg'


def attempts_in(picture):
    """The numbers of the attempts that are drawn, by their heads."""
    return [int(found[1]) for found in (re.match(r'attempt (\d+) +(GOOD|GAP|CUT|CHECK)\b', text) for text in texts(picture)) if found]


@pytest.mark.parametrize('count', [1, 4, 5, 13])
def test_the_first_4_attempts_are_drawn_where_none_are_asked_for(tmp_path, count):
    page, overview = drawn(tmp_path, own_bytes(HSM, pages_apart(HSM, [WORD] * count, 1000)))
    assert attempts_in(page) == list(range(1, min(count, 4) + 1))
    assert overview.exists() == (count > 4)


@pytest.mark.parametrize('numbers', [[5], [13, 2, 2], list(range(2, 14))], ids=lambda numbers: f'{len(numbers)} numbers')
def test_those_attempts_are_drawn_that_are_asked_for(tmp_path, numbers):
    page, _ = drawn(tmp_path, own_bytes(HSM, pages_apart(HSM, [WORD] * 13, 1000)), '--attempt', ','.join(map(str, numbers)))
    assert attempts_in(page) == sorted(set(numbers))


def test_no_more_than_12_attempts_are_drawn(tmp_path):
    """The sheet would get too long to be looked at; one that is named twice counts once."""
    sample = ROOT / 'samples/model-lsm.capture'
    found = ran('show', sample, '-o', 'page.svg', '--attempt', ','.join(map(str, range(1, 14))), cwd=tmp_path)
    assert found.status == 2 and not (tmp_path / 'page.svg').exists()
    assert found.err.split('\n')[-2].startswith('tools/show: ') and '12 numbers' in found.err
    assert ran('show', sample, '-o', 'page.svg', '--attempt', ','.join(map(str, [*range(1, 13), 12])), cwd=tmp_path).status == 0
    assert attempts_in(tmp_path / 'page.svg') == list(range(1, 13))


@BOTH
def test_the_quiet_behind_a_cut_counts_from_its_last_edge(tmp_path, mode):
    """Over the line, and once more where the gap is enlarged. The page that is cut ends at position 95, a clock."""
    page = plain_reader.page(mode, 1)
    cut = [time for time in page if time <= 94 * mode.spacing]
    edges = [*cut, *(cut[-1] + 4567 + time for time in page)]
    words = texts(drawn(tmp_path, own_bytes(mode, edges))[0])
    assert 'it came to position 95 of 157, at D34: then quiet for 4.567 µs' in words
    assert 'no transition: quiet for 4.567 µs' in words


@BOTH
def test_the_quiet_up_to_the_end_of_a_capture_counts_from_the_last_edge(tmp_path, mode):
    edges = [time + 700 for time in plain_reader.page(mode, 1) if time <= 94 * mode.spacing]
    words = texts(drawn(tmp_path, vcd(edges, edges[-1] + 9876), '--mode', mode.name)[0])
    assert 'it came to position 95 of 157, at D34: then quiet for 9.876 µs, up to the end of the capture' in words


def with_gaps_off(mode, offs):
    """The edges of a page, of which the gaps behind some edges are off by so many ns."""
    page = plain_reader.page(mode, WORD)
    gaps = [after - before + offs.get(place, 0) for place, (before, after) in enumerate(zip(page, page[1:]))]
    return list(itertools.accumulate(gaps, initial=1000))


@BOTH
@pytest.mark.parametrize('offs, worst', [({}, 0), ({5: 3, 40: 7, 80: -4}, 7), ({5: 3, 40: 7, 80: -8}, 8)], ids=['none', 'too long', 'too short'])
def test_a_picture_tells_by_how_much_the_worst_gap_is_off(tmp_path, mode, offs, worst):
    words = texts(drawn(tmp_path, own_bytes(mode, with_gaps_off(mode, offs)))[0])
    assert [found for text in words for found in re.findall(r'\bgaps up to .*', text)] == [f'gaps up to {worst} ns off ({mode.tolerance} allowed)']


def test_of_an_attempt_that_ended_by_a_gap_the_worst_of_the_other_gaps_is_told(tmp_path):
    words = texts(drawn(tmp_path, own_bytes(HSM, with_gaps_off(HSM, {5: 3, 20: -6, 40: 12, 60: 9})))[0])
    assert any(text.endswith(', other gaps up to 6 ns off (9 allowed)') for text in words)


def bad_numbers(overview):
    """The numbers of attempts that an overview says are bad, each once."""
    found, = [match for match in (re.match(r'bad\b[^:]*: (.*)', text) for text in texts(overview)) if match]
    ranges = [tuple(map(int, part.split('-'))) for part in found[1].split()]
    return [number for part in ranges for number in range(part[0], part[-1] + 1)]


@pytest.mark.parametrize('endings', [ENDINGS, ['gap'] * 5, ['good', 'check', 'good', 'gap', 'good', 'cut']], ids=['many', 'gaps', 'each'])
def test_an_overview_names_the_bad_attempts_and_no_other(tmp_path, endings):
    _, overview = drawn(tmp_path, own_bytes(HSM, capture_with(HSM, endings)))
    assert bad_numbers(overview) == [number for number, ending in enumerate(endings, 1) if ending != 'good']


def test_an_overview_without_a_bad_attempt_names_none(tmp_path):
    _, overview = drawn(tmp_path, own_bytes(HSM, capture_with(HSM, ['good'] * 6)))
    assert not [text for text in texts(overview) if text.startswith('bad')]


@BOTH
def test_each_attempt_of_an_overview_is_a_band_in_the_lane_of_its_ending_where_its_time_is(tmp_path, mode):
    edges = capture_with(mode, ENDINGS)
    _, overview = drawn(tmp_path, own_bytes(mode, edges))
    for ending in 'good', 'gap', 'cut', 'check':
        # So few attempts take one row.
        (ground, bands), = bands_by_lane(overview, ending)
        scale = (ground.right - ground.left) / (edges[-1] - edges[0])
        mine = [attempt for attempt in plain_reader.read(mode, edges) if attempt.ending == ending]
        # What is dropped behind a gap is no part of its band.
        spans = [(edges[attempt.first], edges[attempt.first + attempt.edges - 1]) for attempt in mine]
        expected = [ground.left + (time - edges[0]) * scale for span in spans for time in span]
        assert [side for band in bands for side in (band.left, band.right)] == pytest.approx(expected, abs=0.1), ending


def test_a_lane_is_drawn_for_those_endings_alone_that_come(tmp_path):
    _, overview = drawn(tmp_path, own_bytes(LSM, capture_with(LSM, ['good', 'cut', 'cut', 'good', 'good'])))
    assert [len(list(bands_by_lane(overview, ending))) for ending in ('good', 'gap', 'cut', 'check')] == [1, 0, 1, 0]
    assert [len(bands) for ending in ('good', 'cut') for _, bands in bands_by_lane(overview, ending)] == [3, 2]


def test_attempts_of_several_rows_are_all_drawn_in_their_lanes(tmp_path):
    """A row has about 30 attempts, and one that goes on in the next row has a band in both."""
    endings = (ENDINGS * 9)[:80]
    _, overview = drawn(tmp_path, own_bytes(LSM, capture_with(LSM, endings)))
    for ending in set(endings):
        lanes = list(bands_by_lane(overview, ending))
        assert len(lanes) == 3
        assert endings.count(ending) <= sum(len(bands) for _, bands in lanes) <= endings.count(ending) + 2, ending


def edges_that_miss(mode, word, place):
    """A page in which the transition behind a place comes too late to fit, and all behind it as much later."""
    places = plain_reader.places_of(mode, word)
    return [time + (mode.tolerance + 3) * (at > place) for time, at in zip(plain_reader.page(mode, word), places)]


@BOTH
@pytest.mark.parametrize('place, ones', [(28, 1), (30, 2)])
def test_a_one_that_was_read_last_stands_under_its_transition(tmp_path, mode, place, ones):
    """No clock is there behind it that would end its place."""
    page, _ = drawn(tmp_path, own_bytes(mode, edges_that_miss(mode, 0xFFFFFFFFFFFF, place)))
    assert texts(page).count('1') == ones and any(text.startswith('gap of ') for text in texts(page))


@pytest.mark.parametrize('bit', [0, 3, 15])
def test_a_single_wrong_check_bit_is_named(tmp_path, bit):
    check = plain_reader.check_of(WORD)
    page, _ = drawn(tmp_path, own_bytes(HSM, plain_reader.page(HSM, WORD, check=check ^ 1 << bit)))
    words = f'one transition {"lost" if check >> bit & 1 else "added"} at S{bit} would explain it'
    assert any(text.startswith('check bits ') and text.endswith(words) for text in texts(page))


@pytest.mark.parametrize('place, is_drawn', [(60, True), (120, False)])
def test_words_on_dropped_edges_stand_where_there_is_room_for_them_and_not_over_the_bits(tmp_path, place, is_drawn):
    """Near the right margin there is none; the attempt's own words have the number."""
    page, _ = drawn(tmp_path, own_bytes(HSM, edges_that_miss(HSM, 0xFFFFFFFFFFFF, place)))
    assert any(re.match(r'\d+ edges dropped', text) for text in texts(page)) == is_drawn
    assert re.search(r'\d+ edges dropped after it', ' '.join(texts(page)))


def test_an_overview_with_bars_says_how_many_attempts_the_highest_has(tmp_path):
    """2000 attempts at equal times in 12 rows of 96 columns: one or two in each."""
    _, overview = drawn(tmp_path, own_bytes(HSM, list(range(0, 2000 * HSM.quiet, HSM.quiet))))
    assert 'the number of attempts that begin there, 2 at the most' in ' '.join(texts(overview))
