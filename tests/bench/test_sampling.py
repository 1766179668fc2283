"""How fast one must sample: pages sampled at common rates, at several phases and by a clock that is a little off, read where that is fine enough; where it
is not, a warning names the rate, what is needed, and why."""
import itertools
import re
from fractions import Fraction

import pytest

import plain_reader
from bench_tools import ran, result, told
from made_captures import edges_in, own_bytes, pages_apart, sampled, saleae, seeded, session_of_samples, sigrok, vcd
from plain_reader import HSM, LSM, MODES

WORDS = [0x850001, 0xA90001, 0x5A8F00F1E2A1, 0xFFFFFFFFFFFF, 0]
FINE = [(HSM, 125), (HSM, 200), (LSM, 4), (LSM, 5), (LSM, 10)]
COARSE = [(HSM, 24), (HSM, 50), (HSM, 100), (LSM, 1), (LSM, 2)]
# The phase of the first sample, and how far the analyser's clock is off.
CLOCKS = [(0, 0), (0.37, 50e-6), (0.81, -50e-6), (0.999, 0)]
WARNING = re.compile(r'too coarse')
# What a warning must name: the lowest rate that is fine enough, or the lowest that analysers offer.
NEEDED = {HSM: r'\b(111(\.\d+)?|112|125) MS/s', LSM: r'\b(4|4\.[12]\d*|5) MS/s'}


def label(value):
    return value.name if isinstance(value, plain_reader.Mode) else None


def samples_of(mode, rate, phase, drift, words=WORDS):
    edges = pages_apart(mode, words, 5 * mode.quiet)
    return sampled(edges, 1000 / rate, phase, drift, edges[-1] + 5 * mode.quiet)


def as_session(samples, rate):
    return session_of_samples(samples, int(rate * 10 ** 6))


def as_csv(samples, rate):
    return f'; Samplerate: {rate} MHz\nlogic\n' + ''.join(f'{value}\n' for value in samples)


def warnings(found):
    return [note for note in found.notes if WARNING.search(note)]


@pytest.mark.parametrize('mode, rate', FINE, ids=label)
@pytest.mark.parametrize('phase, drift', CLOCKS)
@pytest.mark.parametrize('form', [as_session, as_csv])
def test_at_a_rate_that_is_fine_enough_every_page_is_read_without_a_warning(mode, rate, phase, drift, form):
    found = result(form(samples_of(mode, rate, phase, drift), rate))
    assert found.status == 0
    assert [line.text for line in told(found.text)] == [f'{number} good {word:012x}' for number, word in enumerate(WORDS, 1)]
    assert warnings(found) == []


@pytest.mark.parametrize('mode, rate', COARSE, ids=label)
@pytest.mark.parametrize('phase, drift', CLOCKS)
@pytest.mark.parametrize('chosen', [{}, {'mode': True}], ids=['both modes', 'its mode'])
def test_at_a_rate_that_is_too_coarse_a_warning_names_it_and_what_is_needed_and_why(mode, rate, phase, drift, chosen):
    found = result(as_session(samples_of(mode, rate, phase, drift), rate), **({'mode': mode.name} if chosen else {}))
    assert found.status == 0 and found.text.startswith(f'mode {mode.name} ')
    # Where no page is read and nobody says the mode, the other one may be meant, and is warned of too.
    warning, = [warning for warning in warnings(found) if f'for {mode.name}:' in warning]
    assert re.search(rf'\b{rate} MS/s', warning)
    assert re.search(NEEDED[mode], warning)
    assert re.search(rf'\b{mode.tolerance} ns', warning)


@pytest.mark.parametrize('mode, rate', COARSE, ids=label)
@pytest.mark.parametrize('output', ['vcd', 'csv', 'csv:time=true:dedup=true'])
def test_every_format_that_tells_its_rate_is_warned_of(mode, rate, output):
    session = as_session(samples_of(mode, rate, 0.37, 50e-6), rate)
    found = result(sigrok('-i', session, '-O', output), mode=mode.name)
    assert re.search(rf'\b{rate} MS/s', warnings(found)[0])


@pytest.mark.parametrize('mode, rate', COARSE, ids=label)
def test_a_csv_of_samples_whose_rate_is_given_is_warned_of(mode, rate):
    text = 'line\n' + ''.join(f'{value}\n' for value in samples_of(mode, rate, 0.37, 50e-6))
    assert re.search(rf'\b{rate} MS/s', warnings(result(text, rate=f'{rate}M', mode=mode.name))[0])


@pytest.mark.parametrize('mode, rate', COARSE, ids=label)
def test_times_that_stand_on_a_coarse_grid_are_warned_of_though_nothing_tells_the_rate(mode, rate):
    """Saleae's CSV has times alone. A warning is due where not all pages are read; at 100 MS/s a clock that is off by 50 ppm breaks one now and then."""
    edges = pages_apart(mode, WORDS * 12, 5 * mode.quiet)
    seen = edges_in(sampled(edges, 1000 / rate, 0.37, 50e-6), Fraction(1000, rate))
    found = result(saleae(seen), mode=mode.name)
    assert found.bad
    warning, = warnings(found)
    assert abs(float(re.search(r'([\d.]+) MS/s', warning)[1]) / rate - 1) < 0.01


VERY_COARSE = [(HSM, rate) for rate in (80, 62.5, 32, 20, 16, 12.5, 12, 10, 8, 5, 4, 2, 1)] + [(LSM, rate) for rate in (3, 1.5, 0.5, 0.25, 0.1)]


@pytest.mark.parametrize('mode, rate', VERY_COARSE, ids=label)
@pytest.mark.parametrize('form', [lambda samples, rate: saleae(edges_in(samples, Fraction(1000) / Fraction(rate))), as_session, as_csv],
                         ids=['times', 'session', 'samples'])
def test_however_coarse_the_samples_are_the_mode_that_they_are_too_coarse_for_is_named(mode, rate, form):
    """Nobody says the mode. Some of these rates leave nothing of a page, or make a page of HSM look like noise in LSM."""
    found = result(form(samples_of(mode, rate, 0.37, 50e-6, WORDS * 6), rate))
    assert found.status == 0 and found.bad
    assert any(f'too coarse for {mode.name}:' in warning and re.search(NEEDED[mode], warning) for warning in warnings(found)), found.notes


@pytest.mark.parametrize('rate', [16, 24, 48, 62.5, 80, 96])
@pytest.mark.parametrize('phase', [0.1, 0.37, 0.6, 0.81])
def test_times_that_are_rounded_one_by_one_show_their_grid_all_the_same(rate, phase):
    """A gap between two of them is off by up to a ns, and two pages have to do."""
    samples = samples_of(HSM, rate, phase, 50e-6, WORDS[:2])
    edges = [round(float(number * 1000 / rate)) for number in range(1, len(samples)) if samples[number] != samples[number - 1]]
    found = result(saleae(edges))
    assert not found.bad or any('too coarse for HSM:' in warning for warning in warnings(found)), found.notes


@pytest.mark.parametrize('rate, least, most', [(125, 0.4, 0.9), (250, 1, 1)])
def test_with_jitter_of_1_ns_some_pages_are_lost_at_125_ms_and_none_at_250(rate, least, most):
    """What README says of it: the transitions are off by 1 ns in the mean square."""
    chance, count = seeded(rate), 60
    words, edges = [chance.getrandbits(48) for _ in range(count)], [1000.0]
    for word in words:
        edges += [time + chance.gauss(0, 1) for time in plain_reader.page(HSM, word, edges[-1] + 1000 + chance.random() * 30)]
    found = plain_reader.text(HSM, edges_in(sampled(edges[1:], 1000 / rate, 0.37, 50e-6), Fraction(1000, rate)))
    assert least * count <= found.count(' good ') <= most * count


@pytest.mark.parametrize('off', ['8.3', '41.7', '1000', '2000'])
def test_how_far_a_gap_may_be_off_is_the_whole_period(off):
    rate = {'8.3': '120.48M', '41.7': '24M', '1000': '1M', '2000': '500k'}[off]
    notes = result('line\n' + '0\n0\n1\n' * 40, rate=rate, mode='HSM' if off in ('41.7', '8.3') else 'LSM').notes
    assert any(f'up to {off} ns too short or too long' in note for note in notes) == (off != '8.3')


@pytest.mark.parametrize('mode, rate', FINE, ids=label)
def test_times_that_stand_on_a_fine_grid_are_not_warned_of(mode, rate):
    edges = edges_in(samples_of(mode, rate, 0.37, 50e-6), Fraction(1000, rate))
    assert warnings(result(saleae(edges), mode=mode.name)) == []


@pytest.mark.parametrize('mode', MODES, ids=label)
def test_pages_as_they_are_written_and_our_bytes_are_never_warned_of(mode):
    edges = pages_apart(mode, WORDS, 5 * mode.quiet)
    for content in vcd(edges), saleae(edges), own_bytes(mode, edges), own_bytes(mode, edges[:-1]), vcd(edges[:-5]):
        assert warnings(result(content, mode=mode.name)) == []


def test_a_grid_of_times_alone_is_no_warning_where_every_page_is_read():
    """A grid of 12 ns is too coarse for HSM. Here each gap fits all the same, and nothing says that the page was sampled at all."""
    page, edges, shorter = plain_reader.page(HSM, WORDS[2]), [1200], itertools.cycle((24, 36))
    for before, after in zip(page, page[1:]):
        edges.append(edges[-1] + {30: next(shorter), 60: 60, 90: 96, 120: 120}[after - before])
    assert warnings(result(saleae(edges[:-3]), mode='HSM')) != []
    found = result(saleae(edges), mode='HSM')
    assert found.bad == 0 and warnings(found) == []


def test_a_few_gaps_that_are_alike_are_no_grid():
    for edges in [1000, 1045], [1000, 1045, 1090, 1135], list(range(1000, 1000 + 16 * 45, 45)):
        assert warnings(result(saleae(edges), mode='HSM')) == []
    assert warnings(result(saleae(list(range(1000, 1000 + 17 * 45, 45))), mode='HSM')) != []


def test_a_capture_at_24_ms_is_warned_of_by_the_command_on_standard_error():
    """The commonest rate of all, at which a healthy head looks broken."""
    found = ran('list', as_session(samples_of(HSM, 24, 0.37, 0), 24))
    assert found.status == 0
    assert 'coarse' not in found.out
    line, = [line for line in found.err.split('\n') if 'coarse' in line]
    assert all(words in line for words in ('24 MS/s', '125 MS/s', '9 ns'))


def test_the_time_of_an_attempt_is_that_of_the_sample_at_which_it_began():
    samples = [0] * 100 + [1] * 100
    for rate in 24, 125, 3:
        line, = told(result(as_session(samples, rate), mode='LSM').text)
        assert line.began == round(Fraction(100_000, rate))
