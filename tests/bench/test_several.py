"""Several captures in one call: each is listed in turn, bad ones do not hinder the others, and a line on standard error tells how far it has come."""
import os
import pty
import re
import subprocess

import pytest

import plain_reader
from bench_tools import ENVIRONMENT, SECONDS, TOOLS, ran
from made_captures import own_bytes, pages_apart, random_capture, saleae, seeded, session_of_vcd, vcd
from plain_reader import HSM, LSM


@pytest.fixture
def captures(tmp_path):
    """Captures of all formats, some of them bad: each name, and what is listed of it, or nothing."""
    edges = {mode: pages_apart(mode, [0x850001, 0xA90001], 5 * mode.quiet) for mode in (HSM, LSM)}
    contents = {'a.vcd': vcd(edges[HSM]), 'b.csv': saleae(edges[LSM]), 'c.capture': own_bytes(HSM, edges[HSM]), 'd.vcd': '$broken\n', 'e.capture': b'\7',
                'f.csv': 'hello\n', 'g.capture': own_bytes(LSM, edges[LSM]), 'h.sr': session_of_vcd(vcd(edges[HSM], edges[HSM][-1] + 9)).read_bytes(),
                'i.vcd': vcd(edges[LSM])[:-1], 'j.capture': own_bytes(LSM, []), 'k.vcd': vcd(edges[LSM])}
    listed = {'a.vcd': HSM, 'b.csv': LSM, 'c.capture': HSM, 'g.capture': LSM, 'h.sr': HSM, 'k.vcd': LSM}
    for name, content in contents.items():
        (tmp_path / name).write_bytes(content.encode() if isinstance(content, str) else content)
    expected = {name: plain_reader.text(listed[name], edges[listed[name]]) if name in listed else '' for name in [*contents, 'l.not-there']}
    return tmp_path, {**expected, 'e.capture': 'refused 14\n', 'j.capture': 'mode LSM edges 0\npages 0 bad 0\n'}


@pytest.mark.parametrize('count', [3, 8, 12], ids=lambda count: f'{count} captures')
def test_each_capture_is_listed_in_turn_and_the_bad_ones_are_said(captures, count):
    folder, expected = captures
    names = list(expected)[:count]
    found = ran('list', '--plain', *names, cwd=folder)
    assert found.out == ''.join(expected[name] for name in names)
    bad = [name for name in names if name in ('d.vcd', 'e.capture', 'f.csv', 'i.vcd', 'l.not-there')]
    assert found.status == (1 if bad else 0)
    for name in bad:
        assert re.search(rf'^tools/list: {re.escape(name)}\b', found.err, re.MULTILINE)
    assert 'Traceback' not in found.err


@pytest.mark.parametrize('count', [3, 12], ids=lambda count: f'{count} captures')
def test_each_capture_is_named_ahead_of_its_listing(captures, count):
    folder, expected = captures
    found = ran('list', *list(expected)[:count], cwd=folder)
    assert re.findall(r'^capture (.*)$', found.out, re.MULTILINE) == list(expected)[:count]
    parts = re.split(r'^capture .*\n', found.out, flags=re.MULTILINE)[1:]
    for name, part in zip(expected, parts):
        assert ''.join(line.partition(' | ')[0].rstrip() + '\n' for line in part.split('\n')[:-1]) == expected[name]


@pytest.mark.parametrize('count', [2, 12], ids=lambda count: f'{count} captures')
def test_the_last_line_on_standard_error_tells_how_many_captures_and_pages_there_were(captures, count):
    folder, expected = captures
    names = list(expected)[:count]
    last = ran('list', *names, cwd=folder).err.rstrip('\n').split('\n')[-1]
    pages = sum(expected[name].count(' good ') for name in names)
    assert re.match(rf'(tools/list: )?{count} of {count} captures, {pages} pages', last), last
    assert f'{sum(name in ("d.vcd", "e.capture", "f.csv", "i.vcd", "l.not-there") for name in names)} not listed' in last


@pytest.mark.parametrize('count', [2, 12], ids=lambda count: f'{count} captures')
@pytest.mark.parametrize('plainly', [['--plain'], []], ids=['plain', 'told'])
def test_the_last_lines_tell_the_bad_attempts_of_each_capture_and_of_all(tmp_path, count, plainly):
    """Each capture has three pages; some have no bad attempt besides, and the others many, each another number, so that none stands for another."""
    bad = [number % 3 * (number + 5) for number in range(1, count + 1)]
    for number, bad_ones in enumerate(bad):
        edges = pages_apart(LSM, [0x850001] * 3, 5 * LSM.quiet)
        for _ in range(bad_ones):
            edges += [edges[-1] + LSM.quiet + time for time in plain_reader.page(LSM, 0x850001)[:40]]
        (tmp_path / f'{number}.capture').write_bytes(own_bytes(LSM, edges))
    found = ran('list', *plainly, *(f'{number}.capture' for number in range(count)), cwd=tmp_path)
    assert re.findall(r'^pages .*$', found.out, re.MULTILINE) == [f'pages 3 bad {number}' for number in bad]
    last = found.err.rstrip('\n').split('\n')[-1]
    assert re.match(rf'(tools/list: )?{count} of {count} captures, {3 * count} pages, {sum(bad)} bad, 0 not listed\b', last), last


def test_a_single_capture_has_no_progress_line(captures):
    folder, _ = captures
    assert ran('list', 'c.capture', cwd=folder).err == ''


def test_on_a_terminal_the_progress_stays_on_one_line(captures):
    """It is written over and over, so that the screen does not fill."""
    folder, _ = captures
    master, slave = pty.openpty()
    words = [TOOLS / 'list', '--plain', *['c.capture', 'g.capture'] * 60]
    with subprocess.Popen(words, cwd=folder, stdin=subprocess.DEVNULL, stdout=subprocess.DEVNULL, stderr=slave, env=ENVIRONMENT) as running:
        os.close(slave)
        shown = b''
        while part := read_or_end(master):
            shown += part
        assert running.wait(SECONDS) == 0
    os.close(master)
    assert shown.count(b'\n') == 1
    assert b'120 of 120 captures, 240 pages' in shown


def read_or_end(master):
    try:
        return os.read(master, 4096)
    except OSError:
        return b''


def test_standard_input_may_be_one_of_several(captures):
    folder, expected = captures
    content = (folder / 'g.capture').read_bytes()
    found = ran('list', '--plain', 'a.vcd', '-', 'c.capture', cwd=folder, given=content)
    assert found.out == expected['a.vcd'] + expected['g.capture'] + expected['c.capture']


def test_standard_input_may_be_one_of_many(captures):
    """Many are listed by several processes, which still have the standard input of the call."""
    folder, expected = captures
    content = (folder / 'g.capture').read_bytes()
    found = ran('list', '--plain', *['a.vcd'] * 9, '-', 'c.capture', cwd=folder, given=content)
    assert found.out == expected['a.vcd'] * 9 + expected['g.capture'] + expected['c.capture']


@pytest.mark.parametrize('name', ['b', 'both', 'no', 't', 'sampled'])
def test_a_note_names_its_capture_also_where_it_begins_with_the_same_letters(captures, name):
    """Of several captures each note must tell which one it is about."""
    folder, _ = captures
    (folder / name).write_bytes((folder / 'a.vcd').read_bytes())
    found = ran('list', '--plain', name, 'c.capture', cwd=folder)
    assert re.search(rf'^tools/list: {name}: both modes', found.err, re.MULTILINE), found.err


@pytest.mark.parametrize('count', [1, 2, 9])
def test_a_name_that_is_no_text_is_no_hindrance(captures, count):
    """A file's name is any bytes, and an output may take text alone."""
    folder, expected = captures
    name = os.fsencode(folder) + b'/\xff\xfe.vcd'
    with open(name, 'wb') as file:
        file.write((folder / 'a.vcd').read_bytes())
    strictly = {**ENVIRONMENT, 'PYTHONIOENCODING': 'utf-8:strict'}
    done = subprocess.run([TOOLS / 'list', *[name] * count], capture_output=True, stdin=subprocess.DEVNULL, timeout=SECONDS, env=strictly)
    assert b'Traceback' not in done.stderr
    assert (done.returncode, done.stdout.count(b'good')) == (0, expected['a.vcd'].count('good') * count)


def test_many_captures_of_8000_edges_are_listed_in_one_call(tmp_path):
    names, expected = [], ''
    for seed in range(12):
        edges = random_capture(LSM, seeded(seed), 8200)[:8000]
        (tmp_path / f'{seed}.capture').write_bytes(own_bytes(LSM, edges))
        names.append(f'{seed}.capture')
        expected += plain_reader.text(LSM, edges)
    found = ran('list', '--plain', *names, cwd=tmp_path)
    assert (found.status, found.out) == (0, expected)
    assert '12 of 12 captures' in found.err
