"""Each format there and back: a page that the proved program wrote lists as that page with the same edges, whatever sigrok-cli made of it."""
import os
import re
import subprocess
import sys
import zipfile
from fractions import Fraction

import pytest

import plain_reader
from bench_tools import ENVIRONMENT, ROOT, SCRATCH, TOOLS, assert_one_note, file_of, plain, ran, result, told
from made_captures import edges_in, own_bytes, pages_apart, saleae, seeded, session_of_samples, session_of_vcd, sigrok, vcd, written_page
from plain_reader import HSM, LSM, MODES

WORD = 0x5A8F00850001
BOTH = pytest.mark.parametrize('mode', MODES, ids=lambda mode: mode.name)
# What sigrok-cli can write.
OUTPUTS = ('vcd', 'csv', 'csv:label=channel', 'csv:label=off', 'csv:header=true:time=true', 'csv:time=true:dedup=true',
           'csv:time=true:dedup=true:label=channel', 'csv:time=true:label=off', 'csv:time=true:dedup=true:header=false')
RATES = {1_000_000: LSM, 2_000_000: LSM, 4_000_000: LSM, 5_000_000: LSM, 12_000_000: LSM, 16_000_000: LSM, 24_000_000: HSM, 48_000_000: HSM,
         96_000_000: HSM, 125_000_000: HSM, 400_000_000: HSM, 500_000_000: HSM}


@pytest.fixture(scope='module', params=MODES, ids=lambda mode: mode.name)
def made(request):
    """A mode, the VCD of a page that tools/write-page wrote, and the session that sigrok-cli made of it."""
    mode = request.param
    page = written_page(WORD, mode, f'page-{mode.name}.vcd')
    return mode, page, sigrok('-I', 'vcd', '-i', page, output=SCRATCH / f'page-{mode.name}.sr')


def edges_of_page(mode):
    return plain_reader.page(mode, WORD, mode.quiet)


def assert_is_the_page(found, mode, later=(0,)):
    """The listing has the page and nothing else, at its time or one of so many ns later, or earlier where that is negative."""
    assert found.status == 0, found.notes
    edges = edges_of_page(mode)
    assert found.text.split('\n')[0] == f'mode {mode.name} edges {len(edges)}'
    line, = told(found.text)
    assert (line.text, line.dropped) == (f'1 good {WORD:012x}', 0)
    assert line.began - mode.quiet in later


@BOTH
def test_a_page_written_as_our_bytes_lists_as_that_page(mode):
    path = written_page(WORD, mode, 'page.capture')
    assert path.read_bytes() == own_bytes(mode, plain_reader.page(mode, WORD))
    assert plain(path) == plain_reader.text(mode, plain_reader.page(mode, WORD))


@BOTH
def test_a_page_written_as_our_bytes_over_the_roll_over_lists_as_that_page(mode):
    assert ran('write-page', f'{WORD:x}', mode.name, 4294967290, '-o', SCRATCH / 'rolls.capture').status == 0
    assert plain(SCRATCH / 'rolls.capture') == plain_reader.text(mode, plain_reader.page(mode, WORD))


@BOTH
def test_a_page_written_as_vcd_over_the_roll_over_lists_as_that_page(mode):
    assert ran('write-page', f'{WORD:x}', mode.name, 4294967290, '-o', SCRATCH / 'rolls.vcd').status == 0
    line, = told(result(SCRATCH / 'rolls.vcd').text)
    assert (line.text, line.began) == (f'1 good {WORD:012x}', 4294967290 + mode.quiet)


def test_a_page_written_as_vcd_lists_as_that_page(made):
    mode, page, _ = made
    assert_is_the_page(result(page), mode)


def test_a_session_made_of_it_lists_as_that_page(made):
    mode, _, session = made
    assert_is_the_page(result(session), mode)


def test_a_vcd_made_by_sigrok_from_a_session_made_from_write_page_lists_as_the_page(made):
    """From us to sigrok and back twice, by the real command."""
    mode, _, session = made
    listed = ran('list', file_of(sigrok('-i', session, '-O', 'vcd'), 'of-session.vcd'))
    assert listed.status == 0
    assert told(listed.out)[0].text == f'1 good {WORD:012x}'
    assert f'listed as {mode.name}' in listed.err


@pytest.mark.parametrize('output', OUTPUTS)
def test_what_sigrok_writes_of_the_session_lists_as_that_page(made, output):
    """In sigrok's times the first sample stands at 1 and not at 0, so that a page may begin one sample later."""
    mode, _, session = made
    assert_is_the_page(result(sigrok('-i', session, '-O', output)), mode, (0, 1) if 'time' in output else (0,))


@pytest.mark.parametrize('output', ['vcd', 'csv:time=true:dedup=true', 'csv', 'srzip'])
def test_what_sigrok_writes_lists_the_same_from_standard_input(made, output):
    _, _, session = made
    content = session.read_bytes() if output == 'srzip' else sigrok('-i', session, '-O', output)
    from_file = ran('list', file_of(content))
    assert from_file.status == 0
    assert ran('list', given=content) == ran('list', '-', given=content) == from_file


@BOTH
@pytest.mark.parametrize('form', ['bytes', 'vcd'])
def test_write_page_pipes_into_list(mode, form):
    with subprocess.Popen([TOOLS / 'write-page', f'{WORD:x}', mode.name, '-o', '-', '--format', form], stdout=subprocess.PIPE, env=ENVIRONMENT) as writer:
        assert told(ran('list', stdin=writer.stdout).out)[0].text == f'1 good {WORD:012x}'
    assert writer.returncode == 0


def test_the_vcd_of_write_page_has_the_same_edges_as_sigrok_sees(made):
    """The edges in sigrok's own VCD and in its CSV of all samples, against those of the page."""
    mode, _, session = made
    changes = re.findall(r'^#(\d+) [01]!$', sigrok('-i', session, '-O', 'vcd').decode(), re.MULTILINE)
    # The first is the value at the beginning.
    assert [int(time) for time in changes[1:]] == edges_of_page(mode)
    rows = [int(row) for row in sigrok('-i', session, '-O', 'csv:header=false:label=off').split()]
    assert edges_in(rows, Fraction(1)) == edges_of_page(mode)
    assert len(rows) == edges_of_page(mode)[-1] + mode.quiet


def test_the_protocol_decoder_timing_sees_every_gap_of_the_page(made):
    mode, _, session = made
    seen = sigrok('-i', session, '-P', 'timing:data=line', '-A', 'timing=time').decode()
    units = {'ns': 1, 'μs': 1000, 'µs': 1000}
    gaps = [round(float(number) * units[unit]) for number, unit in re.findall(r'^timing-1: ([\d.]+) (ns|[μµ]s)', seen, re.MULTILINE)]
    edges = edges_of_page(mode)
    assert gaps == [after - before for before, after in zip(edges, edges[1:])]


def random_samples(rate):
    chance = seeded(rate)
    return [0] * 5 + [bit for _ in range(300) for bit in [chance.randrange(2)] * chance.randint(1, 4)]


def assert_has_the_edges_of(samples, rate, content):
    """The listing is that of the samples, or of the same with one in front, as sigrok's times have it; where a sample takes no whole number of ns
    the gaps then come out otherwise by one."""
    mode = RATES[rate]
    listings = [plain_reader.text(mode, edges_in([0] * more + samples, Fraction(10 ** 9, rate))) for more in (0, 1)]
    assert plain(content, mode=mode.name) in listings


@pytest.mark.parametrize('rate', RATES)
def test_sigrok_s_rounded_times_at_other_rates_give_the_same_edges_as_its_samples(rate):
    """At 24 MHz a sample takes 41 2/3 ns and sigrok's CSV counts 41 for each, so that its times drift away from the samples' own."""
    samples = random_samples(rate)
    session = session_of_samples(samples, rate, 'rate.sr')
    assert plain(session, mode=RATES[rate].name) == plain_reader.text(RATES[rate], edges_in(samples, Fraction(10 ** 9, rate)))
    for output in 'csv:time=true', 'csv:time=true:dedup=true', 'vcd':
        assert_has_the_edges_of(samples, rate, sigrok('-i', session, '-O', output))


@pytest.mark.parametrize('rate', [1_000_000, 24_000_000, 500_000_000])
def test_sigrok_s_times_below_the_bare_name_time_have_the_unit_that_its_rate_says(rate):
    """With label=channel sigrok calls the column Time, without a unit: it is the same number as before, of us or ns."""
    samples = random_samples(rate)
    session = session_of_samples(samples, rate, 'rate.sr')
    assert_has_the_edges_of(samples, rate, sigrok('-i', session, '-O', 'csv:time=true:label=channel'))


@BOTH
@pytest.mark.parametrize('header, digits', [('Time [s],Channel 0', 9), ('Time [s],Channel 0', 12), ('Time[s], Channel 0', 9), ('Time [s],line to the head', 10)])
def test_the_csv_of_saleae_lists_as_the_page(mode, header, digits):
    assert_is_the_page(result(saleae(edges_of_page(mode), header, digits)), mode)


@pytest.mark.parametrize('wire', [None, 'Channel 0'])
def test_the_csv_of_saleae_with_a_second_channel_that_is_still_lists_as_the_page(wire):
    text = saleae(edges_of_page(HSM), 'Time[s], Channel 0').replace(', Channel 0\n', ', Channel 0, Channel 1\n')
    text = re.sub(r',([01])$', r', \1, 1', text, flags=re.MULTILINE)
    assert_is_the_page(result(text, wire=wire), HSM)


def test_the_csv_of_saleae_whose_times_begin_below_zero_lists_as_the_page():
    """Logic counts from the trigger where there is one, so that what was recorded before it has times below zero. They are told as they
    are in the file, since that is where a person looks them up."""
    rows = [(-5000, 0), *((time - 5000, number % 2) for number, time in enumerate(edges_of_page(HSM), 1))]
    text = 'Time [s],Channel 0\n' + ''.join(f'{time / 10 ** 9:.12f},{value}\n' for time, value in rows)
    assert_is_the_page(result(text), HSM, later=(-5000,))


def test_the_csv_of_saleae_with_times_as_powers_of_ten_lists_as_the_page():
    rows = [(0, 0), *((time, number % 2) for number, time in enumerate(edges_of_page(HSM), 1))]
    assert_is_the_page(result('Time [s],Channel 0\n' + ''.join(f'{time / 10 ** 9:.9e},{value}\n' for time, value in rows)), HSM)


@pytest.mark.parametrize('rate', ['500M', '500 MHz', '500000000', '500MHz', '500MS/s'])
def test_a_csv_of_samples_lists_with_the_rate_that_is_given(rate):
    edges = [time + time % 2 for time in edges_of_page(HSM)]
    samples = [sum(edge <= 2 * number for edge in edges) % 2 for number in range(3000)]
    text = 'line\n' + ''.join(f'{value}\n' for value in samples)
    assert told(result(text, rate=rate).text)[0].text == f'1 good {WORD:012x}'


def test_a_csv_of_samples_without_a_rate_is_not_listed_and_asks_for_it():
    found = ran('list', file_of('line\n0\n1\n0\n'))
    assert (found.status, found.out) == (1, '')
    assert '--rate' in found.err and found.err.count('\n') == 1


@BOTH
@pytest.mark.parametrize('change', [lambda text: text.replace('\n', '\r\n'), lambda text: '\ufeff' + text, lambda text: '\ufeff' + text.replace('\n', '\r\n')],
                         ids=['CR LF', 'byte order mark', 'both'])
@pytest.mark.parametrize('form', [lambda edges: vcd(edges, edges[-1] + 9), saleae], ids=['VCD', 'CSV'])
def test_line_ends_and_a_byte_order_mark_change_nothing(mode, change, form):
    text = form(edges_of_page(mode))
    assert plain(change(text)) == plain(text) == plain_reader.text(mode, edges_of_page(mode))


@pytest.mark.parametrize('change', [lambda text: text.replace(',', '\t'), lambda text: text.replace(',', ';'), lambda text: text.replace(',', ', '),
                                    lambda text: text.replace('Channel 0', '"Channel 0"')], ids=['tabs', 'semicolons', 'blanks', 'quotes'])
def test_a_csv_with_other_separators_lists_as_the_page(change):
    assert_is_the_page(result(change(saleae(edges_of_page(LSM)))), LSM)


def test_a_vcd_with_tabs_and_empty_lines_lists_as_the_page():
    text = vcd(edges_of_page(HSM)).replace(' ', '\t').replace('\n', '\n\n')
    assert_is_the_page(result(text), HSM)


@pytest.mark.parametrize('output', ['vcd', 'csv', 'csv:label=channel', 'csv:label=off', 'csv:time=true:dedup=true'])
def test_channels_that_sigrok_names_by_numbers_list_as_their_wires(output):
    """A session made of raw samples names its channels 0, 1, ..; so the names in a CSV are numbers."""
    edges = edges_of_page(HSM)
    bits = [sum(edge <= 2 * number for edge in edges) % 2 for number in range(2700)]
    session = session_of_samples([4 * bit for bit in bits], 500_000_000, 'numbered.sr', 3)
    expected = plain_reader.text(HSM, [time + time % 2 for time in edges])
    for wire in None, '2':
        assert plain(sigrok('-i', session, '-O', output), wire=wire) == expected


def changed_session(session, change):
    """A session whose description was changed, as another program may write it."""
    path = SCRATCH / 'changed.sr'
    with zipfile.ZipFile(session) as old, zipfile.ZipFile(path, 'w') as new:
        for entry in old.namelist():
            content = old.read(entry)
            new.writestr(entry, change(content.decode()).encode() if entry == 'metadata' else content)
    return path


def test_the_wires_of_a_session_have_the_names_that_a_person_gave_them(made):
    """sigrok-cli puts a scope of its own ahead of them."""
    mode, _, session = made
    assert_is_the_page(result(session, wire='line'), mode)
    assert 'it has line (' in result(session, wire='none').notes[0]


def test_a_session_with_voltages_lists_as_its_wires():
    """sigrok's demo device has eight wires and five voltages, which sigrok-cli writes into a VCD where none belong."""
    session = sigrok('-d', 'demo', '--samples', '500', output=SCRATCH / 'demo.sr')
    found = ran('list', '--wire', 'D0', session)
    assert found.status == 0 and int(found.out.split()[3]) > 10


@pytest.mark.parametrize('rate', ['-5 MHz', '', '0x10 Hz', 'fast'])
def test_a_session_with_a_rate_that_is_none_is_said_to_have_none(made, rate):
    """sigrok-cli would go on for ever with the first of them."""
    _, _, session = made
    found = result(changed_session(session, lambda text: re.sub('samplerate=.*', f'samplerate={rate}', text)))
    assert_one_note(found)
    assert 'how fast' in found.notes[0]


def test_a_sigrok_that_does_not_end_is_ended(made, monkeypatch, tmp_path):
    _, _, session = made
    program = tmp_path / 'sigrok-cli'
    program.write_text('#!/bin/sh\nexec sleep 600\n')
    program.chmod(0o755)
    monkeypatch.setenv('PATH', f'{tmp_path}:{os.environ["PATH"]}')
    monkeypatch.setattr(sys.modules['sigrok_sessions'], 'SECONDS', 1)
    found = result(session)
    assert_one_note(found)
    assert 'nothing of it is listed' in found.notes[0]


FORMS = {'vcd': lambda: vcd(edges_of_page(HSM)), 'csv': lambda: saleae(edges_of_page(HSM)), 'capture': lambda: own_bytes(HSM, edges_of_page(HSM)),
         'sr': lambda: session_of_vcd(vcd(edges_of_page(HSM), 6000)).read_bytes()}


@pytest.mark.parametrize('form', FORMS)
@pytest.mark.parametrize('ending', ['vcd', 'csv', 'capture', 'sr', 'txt', 'logicdata'])
def test_the_content_decides_and_not_the_name(form, ending):
    content = FORMS[form]()
    assert told(result(file_of(content, f'named.{ending}')).text)[0].text == f'1 good {WORD:012x}'


@pytest.mark.parametrize('name', ['samples', 'README.md', '.vcd', '-', 'a b.vcd', 'ä.vcd'])
def test_names_as_people_give_them_are_taken(name):
    folder = SCRATCH / 'folder of names'
    folder.mkdir(exist_ok=True)
    (folder / name).write_text(vcd(edges_of_page(HSM)))
    found = ran('list', f'./{name}', cwd=folder, env=ENVIRONMENT)
    assert (found.status, told(found.out)[0].text) == (0, f'1 good {WORD:012x}')


def test_pages_of_random_words_come_back_from_every_format():
    chance = seeded(7)
    for mode in MODES:
        edges = pages_apart(mode, [chance.getrandbits(48) for _ in range(4)], mode.quiet)
        expected = plain_reader.text(mode, edges)
        session = session_of_vcd(vcd(edges, edges[-1] + 20))
        for content in vcd(edges), saleae(edges), own_bytes(mode, edges), session, sigrok('-i', session, '-O', 'csv:time=true:dedup=true'):
            assert plain(content) == expected


def test_the_samples_of_the_repository_that_are_of_other_formats_list_as_the_page_of_their_capture():
    """samples/ has a VCD and a session of the same capture as one of our own bytes."""
    others = [path for path in (ROOT / 'samples').iterdir() if path.suffix in ('.vcd', '.sr')]
    assert {path.suffix for path in others} == {'.vcd', '.sr'}
    for path in others:
        same = path.with_suffix('.capture')
        assert plain(path) == plain(same)
