"""With --plain the tool prints what the proved program prints, byte for byte, refusals too; raw samples, which are no readings, are not listed at all."""
import pytest

import plain_reader
from bench_tools import SAMPLES, SCRATCH, file_of, ran, result
from made_captures import own_bytes, pages_apart, random_capture, saleae, sampled, seeded, session_of_samples, sigrok, vcd
from plain_reader import HSM, LSM, MODES


@pytest.mark.parametrize('sample', SAMPLES, ids=lambda path: path.stem)
def test_a_sample_is_printed_as_the_program_prints_it(sample):
    content = sample.read_bytes()
    printed = ran('listing', given=content).out
    found = ran('list', '--plain', sample)
    assert (found.status, found.out, found.err) == (0, printed, '')
    assert result(content, plain=True).text == result(content, plain=True, whole=True).text == printed


def clock_like(chance, mode):
    """Bytes that could be a clock's: readings that go on, by gaps of all sizes up to some ms."""
    readings, reading = [], chance.getrandbits(32)
    for _ in range(chance.randint(0, 8000)):
        readings.append(reading)
        reading += chance.choice((chance.randint(0, 5 * mode.spacing), chance.choice((1, 2)) * mode.spacing, chance.randint(0, 10 ** 7)))
    return own_bytes(mode, readings)


@pytest.mark.parametrize('mode', MODES, ids=lambda mode: mode.name)
@pytest.mark.parametrize('seed', range(8))
def test_random_readings_are_printed_as_the_program_prints_them(mode, seed):
    content = clock_like(seeded(seed), mode)
    found = result(content, plain=True)
    assert (found.status, found.text) == (0, ran('listing', given=content).out)


@pytest.mark.parametrize('seed', range(12))
def test_bytes_of_any_kind_that_are_said_to_be_ours_are_printed_as_the_program_prints_them(seed):
    chance = seeded(seed)
    content = bytes([chance.randrange(3)]) + chance.randbytes(chance.choice((0, 1, 2, 3, 4, 8, 400, 4001, 32_000)))
    printed = ran('listing', given=content).out
    found = result(content, plain=True, format='bytes')
    assert (found.status, found.text) == (1 if printed.startswith('refused') else 0, printed)


@pytest.mark.parametrize('mode', MODES, ids=lambda mode: mode.name)
def test_random_captures_up_to_8000_edges_are_printed_as_the_program_prints_them(mode):
    for seed in range(3):
        content = own_bytes(mode, random_capture(mode, seeded(seed), 9000)[:8000 - seed])
        assert result(content, plain=True).text == ran('listing', given=content).out


REFUSED = {b'': 14, b'\2': 14, b'\xff\0': 14, b'\2\0\0\0': 14, b'\xfe\1' * 9: 14, b'\0\0': 15, b'\1\0\0\0': 15, own_bytes(HSM, [0, 30, 60]) + b'\0\0': 15,
           own_bytes(LSM, range(0, 800_000, 800)) + b'\7': 15}


@pytest.mark.parametrize('content', REFUSED, ids=lambda content: f'{len(content)} bytes {content[:4].hex()}')
@pytest.mark.parametrize('plainly', [['--plain'], []], ids=['plain', 'told'])
def test_what_the_program_refuses_is_printed_so_with_one_line_that_says_what_to_do(content, plainly):
    found = ran('list', *plainly, file_of(content))
    assert (found.status, found.out) == (1, f'refused {REFUSED[content]}\n')
    assert found.out == ran('listing', given=content).out
    assert found.err.startswith('tools/list: ') and found.err.count('\n') == 1 and len(found.err) > 60


@pytest.mark.parametrize('content', REFUSED, ids=lambda content: f'{len(content)} bytes {content[:4].hex()}')
def test_what_the_program_refuses_is_refused_from_standard_input_too(content):
    found = ran('list', given=content)
    assert (found.status, found.out) == (1, f'refused {REFUSED[content]}\n')
    assert 'standard input' in found.err


@pytest.mark.parametrize('more', [0, 1, 2, 3])
def test_with_whole_the_refusals_come_in_the_order_of_01(more):
    """Mode, then length, then a reading that is not whole."""
    for first in 0, 2:
        content = bytes([first]) + bytes(32_004) + bytes(more)
        found = result(content, whole=True, plain=True, format='bytes')
        assert (found.status, found.text) == (1, ran('listing', given=content).out)
        assert found.text == f'refused {plain_reader.refusal(content)}\n'


def test_plain_prints_no_word_behind_01_s_text_for_any_format():
    edges = random_capture(LSM, seeded(41), 1000)
    for content in own_bytes(LSM, edges), vcd(edges), saleae(edges):
        assert result(content, plain=True, mode='LSM').text == plain_reader.text(LSM, edges)


RAW = [(HSM, 24), (HSM, 100), (HSM, 500), (HSM, 1000), (LSM, 1), (LSM, 4), (LSM, 24), (LSM, 100)]


@pytest.mark.parametrize('mode, rate', RAW, ids=lambda value: getattr(value, 'name', None))
@pytest.mark.parametrize('channel', [0, 7])
@pytest.mark.parametrize('quiet', [2000, 100_000])
def test_raw_samples_are_not_listed_as_nonsense(mode, rate, channel, quiet):
    """sigrok-cli -O binary writes a byte for each sample, which begins as our bytes do where the line is low."""
    edges = pages_apart(mode, [0x850001, 0xA90001], max(quiet, mode.quiet))
    samples = [value << channel for value in sampled(edges, 1000 / rate)]
    # A number of bytes that our own could have: else they are refused anyway.
    samples = samples[:len(samples) - (len(samples) - 1) % 4]
    raw = bytes(samples) if len(samples) > 100_000 else sigrok('-i', session_of_samples(samples, rate * 10 ** 6, channels=8), '-O', 'binary')
    assert raw == bytes(samples) and len(raw) % 4 == 1
    found = result(raw)
    assert found.status == 1, found.text[:300]
    assert len(found.notes) == 1 and found.text in ('', 'refused 14\n', 'refused 15\n')


@pytest.mark.parametrize('size', [4937, 4938, 4939, 4940])
def test_raw_samples_of_a_page_that_write_page_wrote_are_not_listed_as_nonsense(size):
    ran('write-page', '850001', 'HSM', '-o', SCRATCH / 'raw.vcd')
    session = sigrok('-I', 'vcd', '-i', SCRATCH / 'raw.vcd', output=SCRATCH / 'raw.sr')
    found = ran('list', file_of(sigrok('-i', session, '-O', 'binary')[:size]))
    assert found.status == 1
    assert 'good' not in found.out and 'gap' not in found.out and 'cut' not in found.out
    assert found.err.count('\n') == 1


def test_our_own_captures_are_not_taken_for_raw_samples():
    """A tired analyser, a clock that rolls over often, long silences: all of them have readings that go on."""
    chance = seeded(42)
    for silence in 10 ** 6, 10 ** 8, 4 * 10 ** 9:
        edges = pages_apart(LSM, [chance.getrandbits(48) for _ in range(20)], silence)
        assert result(own_bytes(LSM, edges), plain=True).text == plain_reader.text(LSM, edges)
