"""What tools/show writes and says. How its pictures look was looked at; that those in docs/pictures are still what it draws, tools/show --check says."""
import pathlib
import subprocess
import sys

import pytest

from drawn_pictures import texts

ROOT = pathlib.Path(__file__).resolve().parents[2]
sys.path.insert(0, str(ROOT / 'tools'))
from attempts import as_bytes
from captures import readings_of
from line_modes import BY_NAME, HSM, LSM
from picture_samples import svg_difference
from vcd_captures import written

SHOW = ROOT / 'tools/show'
SAMPLES = sorted((ROOT / 'samples').glob('*.capture'))
HOUR = 3600 * 10 ** 9
# The listing of 100 000 edges and their picture take some seconds, also in the emulator.
SECONDS = 120


def page(mode, first=0):
    """The readings of a sample's page, from a time on."""
    readings = readings_of((ROOT / f'samples/{"good-hsm" if mode is HSM else "glued-lsm"}.capture').read_bytes())[:93]
    return [first + reading - readings[0] for reading in readings]


def show(folder, *words, stdin=subprocess.DEVNULL):
    """A call in a folder: its exit status and what it says on standard error."""
    call = [SHOW, *map(str, words)]
    ended = subprocess.run(call, cwd=folder, stdin=stdin, capture_output=True, text=True, timeout=SECONDS)
    assert 'Traceback' not in ended.stderr
    return ended.returncode, ended.stderr


def saved(folder, mode, times):
    path = folder / 'some.capture'
    path.write_bytes(as_bytes(mode, times))
    return path


@pytest.mark.parametrize('mode', BY_NAME)
@pytest.mark.parametrize('sample', SAMPLES, ids=lambda path: path.stem)
def test_every_sample_is_drawn_in_both_modes(tmp_path, sample, mode):
    assert show(tmp_path, sample, '--mode', mode, '-o', 'page.svg')[0] == 0
    words = texts(tmp_path / 'page.svg')
    assert sample.name in words and any(text.startswith('attempt 1 ') for text in words)


@pytest.mark.parametrize('sample, words', [
    ('gap-hsm', 'gap of 44 ns, where 21-39 ns fits (1 position)'), ('gap-hsm', '44 ns: 5 ns too long'), ('gap-hsm', '56 edges dropped, the last 22 not drawn'),
    ('cut-lsm', 'it came to position 95 of 157, at D34: then the capture ends'), ('check-hsm', 'one transition lost here, at D0, would explain it'),
    ('check-hsm', 'check bits 14bb were read; to the word 000000850000 belong 9430'), ('tired-hsm', 'nonce T = 5')])
def test_what_is_wrong_stands_in_the_picture(tmp_path, sample, words):
    assert show(tmp_path, ROOT / f'samples/{sample}.capture', '-o', 'page.svg') == (0, '')
    assert words in texts(tmp_path / 'page.svg')


def test_settings_and_place_do_not_change_a_picture(tmp_path):
    (tmp_path / 'matplotlibrc').write_text('font.size: 30\nsvg.fonttype: none\nsavefig.bbox: tight\nnonsense: 1\n')
    for name in 'one.svg', 'two.svg', 'one.png', 'two.png':
        assert show(tmp_path if 'one' in name else ROOT, ROOT / 'samples/gap-hsm.capture', '-o', tmp_path / name) == (0, '')
    for ending in 'svg', 'png':
        assert (tmp_path / f'one.{ending}').read_bytes() == (tmp_path / f'two.{ending}').read_bytes()


def test_an_overview_comes_where_not_all_attempts_are_drawn(tmp_path):
    sample = ROOT / 'samples/model-lsm.capture'
    assert show(tmp_path, sample, '-o', 'page.svg', '--attempt', '6,11') == (
        0, 'tools/show: not all of 19 attempts are drawn in page.svg; an overview of all is in page-overview.svg\n')
    assert 'drawn here: attempts 6 11 of 19; all are in page-overview.svg' in texts(tmp_path / 'page.svg')
    assert 'good: a page that was read (19)' in texts(tmp_path / 'page-overview.svg')
    assert show(tmp_path, ROOT / 'samples/glued-lsm.capture', '-o', 'two.png') == (0, '')
    assert not (tmp_path / 'two-overview.png').exists()


def test_a_line_without_attempts_and_one_with_a_single_edge(tmp_path):
    assert show(tmp_path, saved(tmp_path, LSM, []), '-o', 'page.svg') == (0, 'tools/show: the line has no edge\n')
    assert 'the line has no edges: no attempt to read a page as LSM' in texts(tmp_path / 'page.svg')
    assert show(tmp_path, saved(tmp_path, HSM, [7]), '-o', 'page.svg') == (0, '')
    assert 'it came to position 1 of 157, in the delimiter: then the capture ends' in texts(tmp_path / 'page.svg')


def test_a_silence_of_hours_is_cut_down(tmp_path):
    edges = [time for number in range(6) for time in page(LSM, 1000 + 2 * number * HOUR)]
    (tmp_path / 'hours.vcd').write_text(written(edges, 20 * HOUR))
    assert show(tmp_path, 'hours.vcd', '-o', 'page.svg', '--mode', 'LSM')[0] == 0
    assert texts(tmp_path / 'page-overview.svg').count('1 h 59 min quiet') == 5


def test_100_000_edges(tmp_path):
    whole, edges = page(HSM), []
    for number in range(1100):
        edges += [number * 20_000 + time for time in (whole[:40] if number % 100 == 99 else whole)]
    assert len(edges) > 100_000
    assert show(tmp_path, saved(tmp_path, HSM, edges), '-o', 'page.svg')[0] == 0
    assert 'cut: the line fell quiet inside a page (11)' in texts(tmp_path / 'page-overview.svg')
    assert (tmp_path / 'page-overview.svg').stat().st_size < 500_000


def test_odd_names_of_files_and_wires(tmp_path):
    name = '$x^2$ <b>--\u4e2d\n.vcd'
    (tmp_path / name).write_text(written([time + 500 for time in page(HSM)], 9000, 'a$b_{c}'))
    assert show(tmp_path, f'./{name}', '-o', 'page.svg')[0] == 0
    assert {'$x^2$ &lt;b&gt;- -\\u{4e2d}\\u{a}.vcd', 'mode HSM \u00b7 wire maststep.a$b_{c} \u00b7 93 edges \u00b7 1 attempt: 1 good, 0 bad'} <= set(
        texts(tmp_path / 'page.svg'))


@pytest.mark.parametrize('words, status, said', [
    (['some.capture'], 2, 'says where to draw'), (['some.capture', '-o', 'page.pdf'], 2, 'ends neither in .svg nor in .png'),
    (['some.capture', '-o', '-'], 2, 'ends neither in .svg nor in .png'), (['some.capture', '-o', 'page.svg', '--attempt', '0'], 2, 'numbers of attempts'),
    (['some.capture', '-o', 'none/page.svg'], 1, 'none/page.svg could not be written: no such file or directory'),
    (['some.capture', '-o', 'full.svg'], 1, 'full.svg could not be written: no space left on device'),
    (['some.capture', '-o', 'page.svg', '--attempt', '2'], 1, 'some.capture has no attempt 2: it has 1'),
    (['none.capture', '-o', 'page.svg'], 1, 'none.capture: no such file'), (['.', '-o', 'page.svg'], 1, '. is a folder; a capture is a file'),
    (['-', '-o', 'page.svg'], 1, 'standard input is empty: not even a mode byte; record or export it anew')])
def test_what_cannot_be_done_is_said(tmp_path, words, status, said):
    saved(tmp_path, HSM, page(HSM))
    (tmp_path / 'full.svg').symlink_to('/dev/full')
    found, error = show(tmp_path, *words)
    assert found == status and error.split('\n')[-2].startswith('tools/show: ') and said in error
    assert status == 2 or error.count('\n') == 1
    assert not (tmp_path / 'page.svg').exists()


def test_a_capture_on_standard_input(tmp_path):
    with open(saved(tmp_path, HSM, page(HSM)), 'rb') as capture:
        assert show(tmp_path, '-o', 'page.svg', stdin=capture) == (0, '')
    assert 'standard input' in texts(tmp_path / 'page.svg')


def test_pictures_are_compared_but_for_rounding():
    one = '<path id="p0123456789" d="M 1.5 2"/><!-- gap of 44 ns --><use href="#p0123456789"/>'
    assert svg_difference(one, one.replace('1.5', '1.507').replace('0123456789', 'abcdef0123')) is None
    assert svg_difference(one, one.replace('1.5', '1.52')) == '1 other numbers, the first 1.5 for 1.52'
    assert svg_difference(one, one.replace('gap', 'cut')) == 'other shapes or words'
