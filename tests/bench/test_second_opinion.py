"""The second opinion, held to 01's own examples and to the proved program, before anything is compared with it."""
import pytest

import plain_reader
from bench_tools import SAMPLES, ran
from made_captures import own_bytes, random_capture, seeded
from plain_reader import HSM, LSM, MODES


def test_its_check_bits_are_those_of_the_table_of_01():
    assert [plain_reader.check_of(word) for word in (0, 1 << 47, 1 << 46, 1 << 45)] == [0, 0x8005, 0x800F, 0x801B]


@pytest.mark.parametrize('mode, edges, over', [(HSM, 81, 4680), (LSM, 86, 124_800)])
def test_its_zero_page_has_the_edges_of_the_table_of_01(mode, edges, over):
    times = plain_reader.page(mode, 0)
    assert (len(times), times[-1] - times[0]) == (edges, over)


def test_it_lists_the_three_readings_of_01():
    assert plain_reader.text(HSM, [0, 30, 60]) == 'mode HSM edges 3\n1 cut\npages 0 bad 1\n'


@pytest.mark.parametrize('mode', MODES, ids=lambda mode: mode.name)
def test_it_writes_the_page_that_the_proved_program_writes(mode):
    shown = ran('write-page', '5a8f00850001', mode.name, 4294967000)
    readings = [int(word) for line in shown.out.split('\n')[1:] for word in line.split()]
    assert readings == [time % plain_reader.CLOCK for time in plain_reader.page(mode, 0x5A8F00850001, 4294967000)]
    assert f'check bits {plain_reader.check_of(0x5A8F00850001):04x}' in shown.out


@pytest.mark.parametrize('sample', SAMPLES, ids=lambda path: path.stem)
def test_it_lists_the_samples_as_the_proved_program_does(sample):
    content = sample.read_bytes()
    times = plain_reader.unrolled(plain_reader.readings_in(content))
    assert plain_reader.text(MODES[content[0]], times) == ran('listing', given=content).out


@pytest.mark.parametrize('mode', MODES, ids=lambda mode: mode.name)
@pytest.mark.parametrize('seed', range(3))
def test_it_lists_random_captures_as_the_proved_program_does(mode, seed):
    edges = random_capture(mode, seeded(seed), 5000)[:8000]
    assert plain_reader.text(mode, edges) == ran('listing', given=own_bytes(mode, edges)).out
