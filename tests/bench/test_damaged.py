"""Damaged files of each format: cut at every byte, or changed at every place. A cut one is listed only where what is left is whole, and what is wrong is
said on one line; nothing makes the tool show its inside."""
import functools
import re
import zipfile
import zlib

import pytest

import plain_reader
from bench_tools import LIST, ROOT, SCRATCH, assert_one_complaint, assert_one_note, file_of, ran, result
from made_captures import own_bytes, saleae, session_of_vcd, sigrok, vcd
from plain_reader import HSM

# A few edges, with a quiet gap among them.
EDGES = [200, 230, 260, 320, 360, 900, 930]
TEXT = vcd(EDGES, 1100)
SESSION = session_of_vcd(TEXT, 'small.sr').read_bytes()
SIGROK_CSV = sigrok('-i', SCRATCH / 'small.sr', '-O', 'csv:time=true:dedup=true')
FILES = {'VCD': TEXT.encode(), 'VCD of sigrok': sigrok('-i', SCRATCH / 'small.sr', '-O', 'vcd'), 'CSV of Saleae': saleae(EDGES).encode(),
         'CSV of sigrok': SIGROK_CSV, 'CSV with CR LF': saleae(EDGES).replace('\n', '\r\n').encode(), 'session': SESSION, 'our bytes': own_bytes(HSM, EDGES)}
EACH = pytest.mark.parametrize('form', FILES)


@pytest.fixture(autouse=True)
def asks_once(monkeypatch):
    """Most damages leave the edges as they are, and the proved program need not be asked a second time about the same ones."""
    monkeypatch.setattr(LIST.attempts, 'printed_for', functools.lru_cache(None)(LIST.attempts.printed_for))


def prefixes():
    """The listings of the first edges, as many as there are."""
    return {plain_reader.text(HSM, EDGES[:count]): count for count in range(len(EDGES) + 1)}


def is_whole(content, form):
    """Whether a cut file may be whole: text ends with a line, a session has all its bytes, and our bytes have whole readings."""
    if form == 'our bytes':
        return plain_reader.refusal(content) is None
    return content == FILES[form] if form == 'session' else content.endswith(b'\n')


def edges_left(content, form):
    """How many edges a cut file still has, by its lines, or by its readings."""
    if form == 'our bytes':
        return len(plain_reader.readings_in(content))
    if form == 'session':
        return len(EDGES)
    pattern = rb'^(?:#\d+ )?[01]!$' if form.startswith('VCD') else rb'^[\d.]+,[01]\r?$'
    # The first is the value at the beginning.
    return max(len(re.findall(pattern, content, re.MULTILINE)) - 1, 0)


@EACH
def test_the_whole_file_is_listed(form):
    assert result(FILES[form], mode='HSM', plain=True).text == plain_reader.text(HSM, EDGES)


@EACH
def test_a_file_that_is_cut_at_any_byte_is_listed_only_where_what_is_left_is_whole(form):
    content = FILES[form]
    for size in range(len(content)):
        found = result(content[:size], plain=True, **({} if form == 'our bytes' else {'mode': 'HSM'}))
        if found.status == 0:
            assert is_whole(content[:size], form), (size, content[:size][-20:])
            assert found.text == plain_reader.text(HSM, EDGES[:edges_left(content[:size], form)]), size
        else:
            assert_one_note(found)


def test_our_bytes_that_are_cut_are_refused_by_the_numbers_of_01():
    content = FILES['our bytes']
    for size in range(len(content)):
        found, number = result(content[:size]), plain_reader.refusal(content[:size])
        assert (found.status, found.text.startswith('refused')) == ((1, True) if number else (0, False)), size
        if number:
            assert found.text == f'refused {number}\n'


def assert_is_said_or_another_capture(content):
    """What is damaged may be a capture still, of other edges; but no page comes of it."""
    found = result(content, plain=True, mode='HSM')
    if found.status == 0:
        assert re.fullmatch(r'mode HSM edges \d+\n(\d+ (gap|cut|check)\n)*pages 0 bad \d+\n', found.text)
    else:
        assert_one_note(found)


@EACH
@pytest.mark.parametrize('change', [0x01, 0x12, 0x80], ids=hex)
def test_a_byte_that_is_changed_anywhere_is_said_on_one_line_or_makes_another_capture(form, change):
    content = FILES[form]
    for place in range(0, len(content), 1 if change == 0x01 else 3):
        assert_is_said_or_another_capture(content[:place] + bytes([content[place] ^ change]) + content[place + 1:])


@EACH
@pytest.mark.parametrize('byte', [b'\0', b'\n', b'9', b'\xff'], ids=repr)
def test_a_byte_that_is_put_in_anywhere_is_said_on_one_line_or_makes_another_capture(form, byte):
    content = FILES[form]
    for place in range(0, len(content), 3):
        assert_is_said_or_another_capture(content[:place] + byte + content[place:])


@EACH
@pytest.mark.parametrize('part', [0.3, 0.95])
def test_the_command_says_a_cut_on_one_line(form, part):
    content = FILES[form]
    size = int(len(content) * part)
    while is_whole(content[:size], form):
        size += 1
    assert_one_complaint(ran('list', file_of(content[:size])))


@EACH
def test_the_command_lists_the_whole_file(form):
    found = ran('list', '--mode', 'HSM', '--plain', file_of(FILES[form]))
    assert (found.status, found.out) == (0, plain_reader.text(HSM, EDGES))


def test_a_session_that_lacks_samples_is_said_to_be_cut(tmp_path):
    """The archive is whole, but a part of the samples was taken out of it."""
    whole = session_of_vcd(vcd(EDGES, 30_000_000), 'long.sr')
    with zipfile.ZipFile(whole) as archive, zipfile.ZipFile(tmp_path / 'less.sr', 'w', zipfile.ZIP_DEFLATED) as less:
        parts = [name for name in archive.namelist() if name.startswith('logic-1-')]
        assert len(parts) > 2
        for name in archive.namelist():
            if name != parts[1]:
                less.writestr(name, archive.read(name))
    assert_one_note(result(tmp_path / 'less.sr'))


def places_in(archive, name):
    """From where to where the bytes of a file stand in an archive: behind its head of 30 bytes, its name, and what else the head tells of."""
    with zipfile.ZipFile(archive) as opened:
        entry = opened.getinfo(name)
    head = archive.read_bytes()[entry.header_offset:][:30]
    first = entry.header_offset + 30 + int.from_bytes(head[26:28], 'little') + int.from_bytes(head[28:30], 'little')
    return range(first, first + entry.compress_size)


def samples_in(archive):
    """The samples of a session, or nothing where they cannot be had as they were."""
    try:
        with zipfile.ZipFile(archive) as opened:
            return opened.read('logic-1-1')
    except (zipfile.BadZipFile, zlib.error, EOFError):
        return None


@pytest.mark.parametrize('change', [0x01, 0x80], ids=hex)
@pytest.mark.parametrize('kept', [zipfile.ZIP_STORED, zipfile.ZIP_DEFLATED], ids=['stored', 'compressed'])
def test_a_session_with_a_byte_of_its_samples_changed_is_not_listed(tmp_path, kept, change):
    """A changed sample may be an edge that never was on the line. sigrok-cli takes it, but the archive has a sum of each file, which shows it."""
    path = tmp_path / 'session.sr'
    with zipfile.ZipFile(SCRATCH / 'small.sr') as archive, zipfile.ZipFile(path, 'w', kept) as other:
        for name in archive.namelist():
            other.writestr(name, archive.read(name))
    content, samples, places = path.read_bytes(), samples_in(path), places_in(path, 'logic-1-1')
    assert result(path, mode='HSM', plain=True).text == plain_reader.text(HSM, EDGES)
    tried = 0
    for place in places[::7 if kept == zipfile.ZIP_STORED else 1]:
        path.write_bytes(content[:place] + bytes([content[place] ^ change]) + content[place + 1:])
        # A few bits of compressed bytes say nothing, and the samples stay as they were.
        if samples_in(path) != samples:
            found = result(path, mode='HSM', plain=True)
            assert_one_note(found)
            assert found.text == '' and 'damaged' in found.notes[0]
            tried += 1
    assert tried > 10


@pytest.mark.parametrize('missing', ['version', 'metadata', 'logic-1-1'])
def test_a_session_that_lacks_one_of_its_files_is_said(tmp_path, missing):
    with zipfile.ZipFile(SCRATCH / 'small.sr') as archive, zipfile.ZipFile(tmp_path / 'less.sr', 'w') as less:
        for name in archive.namelist():
            if name != missing:
                less.writestr(name, archive.read(name))
    assert_one_note(result(tmp_path / 'less.sr'))


@pytest.mark.parametrize('line', ['samplerate=1 GHz', 'samplerate=0 Hz', 'unitsize=1', 'unitsize=0', 'capturefile=logic-1', 'total probes=1', 'probe1=line',
                                  '[device 1]'])
def test_a_session_whose_description_is_damaged_is_said_or_listed_whole(tmp_path, line):
    """A line that is not there is put in for the one of its kind; one that is there is taken out."""
    with zipfile.ZipFile(SCRATCH / 'small.sr') as archive, zipfile.ZipFile(tmp_path / 'other.sr', 'w') as other:
        for name in archive.namelist():
            content = archive.read(name).decode('latin-1')
            if name == 'metadata' and f'{line}\n' in content:
                content = content.replace(f'{line}\n', '')
            elif name == 'metadata':
                content = re.sub(rf'{line.partition("=")[0]}=.*', line, content)
            other.writestr(name, content.encode('latin-1'))
    found = result(tmp_path / 'other.sr', mode='HSM', plain=True)
    if found.status == 0:
        assert found.text == plain_reader.text(HSM, EDGES)
    else:
        assert_one_note(found)


def test_a_zip_archive_that_is_no_session_is_said(tmp_path):
    with zipfile.ZipFile(tmp_path / 'other.zip', 'w') as archive:
        archive.writestr('letter.txt', 'dear sir')
    assert_one_note(result(tmp_path / 'other.zip'))


@pytest.mark.parametrize('content', [b'hello\n', b'\n', b'\n\n\n', b',\n', b',,,\n,,,\n', b'a,b\n1\n', b'Time [s],Channel 0\n', b'Time [s],Channel 0\n0.0,0\nx,1\n',
                                     b'Time [s],Channel 0\n0.0,0\n0.1\n', b'Time [s],Channel 0\n0.2,0\n0.1,1\n', b'Time [s],Channel 0\n0.0,2.5\n0.1,3.3\n',
                                     b'Time [s],Channel 0\n0.0,0\nnan,1\n', b'Time [s],Channel 0\n0.0,0\ninf,1\n', b'Time [s],Channel 0\n0.0,0\n1e999,1\n',
                                     b'#!/bin/bash\necho\n', b'%PDF-1.4\n', b'{"a": 1}\n', b'PK', b'PK\x03\x04', b'\x89PNG\r\n\x1a\n', b'\x7fELF', b'<html>\n',
                                     b'1;2;3\n', b'; Samplerate: 0 Hz\nlogic\n0\n1\n', b'; Samplerate: 1 GHz\n', b'\xff\xfe$\0d\0a\0', b'\xef\xbb\xbf', b'\xef\xbb\xbf\n'],
                         ids=lambda content: repr(content)[2:22])
def test_what_is_no_capture_is_said_on_one_line(content):
    assert_one_note(result(content))


def test_this_project_s_own_files_of_text_are_no_captures():
    for name in 'README.md', 'samples/README.md', 'samples/frame.txt', 'tools/list', 'crates.txt':
        assert_one_note(result(ROOT / name))
