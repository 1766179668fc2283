"""How the tools are called, and what they say where something is wrong: one line on standard error, and an exit status that tells the causes apart."""
import os
import pathlib
import pty
import re
import shutil
import signal
import socket
import subprocess
import time
import tty

import pytest

import plain_reader
from bench_tools import ENVIRONMENT, ROOT, SECONDS, TOOLS, assert_one_complaint, file_of, ran, told
from made_captures import pages_apart, saleae, session_of_vcd, vcd
from plain_reader import HSM

GOOD = ROOT / 'samples/good-hsm.capture'
PAGE = plain_reader.page(HSM, 0x850001, 500)


def test_no_such_file_is_said():
    found = ran('list', 'not/there.vcd')
    assert_one_complaint(found)
    assert 'not/there.vcd' in found.err and 'no such file' in found.err


def test_a_folder_is_said_to_be_one():
    found = ran('list', ROOT)
    assert_one_complaint(found)
    assert 'is a folder' in found.err


def test_a_file_without_permission_is_said(tmp_path):
    path = tmp_path / 'closed.capture'
    path.write_bytes(GOOD.read_bytes())
    path.chmod(0)
    # Root may read every file, so that somebody else has to try.
    other = {'user': 'nobody'} if os.geteuid() == 0 else {}
    try:
        found = ran('list', path, **other)
    except PermissionError:
        pytest.skip('the user nobody may not even enter the folder of the tools')
    assert_one_complaint(found)
    assert 'permission' in found.err


@pytest.mark.parametrize('content', [GOOD.read_bytes(), vcd(PAGE).encode(), saleae(PAGE).encode()], ids=['our bytes', 'VCD', 'CSV'])
def test_a_terminal_that_hangs_up_behind_a_whole_capture_is_said_to_be_cut(content):
    """Linux gives what the other end wrote before it was closed, and then the error EIO."""
    master, slave = os.openpty()
    tty.setraw(slave)
    assert os.write(slave, content) == len(content)
    os.close(slave)
    try:
        found = ran('list', '-', stdin=master)
    finally:
        os.close(master)
    assert_one_complaint(found)
    assert found.out == '' and 'cut' in found.err


def test_a_connection_that_is_reset_behind_a_whole_capture_is_said_to_be_cut():
    ours, theirs = socket.socketpair()
    with ours:
        ours.sendall(b'never read')
        theirs.sendall(GOOD.read_bytes())
        theirs.close()
        found = ran('list', stdin=ours)
    assert_one_complaint(found)
    assert found.out == '' and 'cut' in found.err


def test_a_pipe_that_does_not_wait_for_its_writer_is_said_to_be_cut():
    reader, writer = os.pipe()
    os.set_blocking(reader, False)
    os.write(writer, GOOD.read_bytes())
    try:
        found = ran('list', stdin=reader)
    finally:
        os.close(reader)
        os.close(writer)
    assert_one_complaint(found)
    assert found.out == '' and 'cut' in found.err


WRITERS = [('list', [GOOD]), ('list', ['--plain', GOOD]), ('list', ['--help']), ('list', [GOOD, GOOD]), ('write-page', ['850001', 'HSM']),
           ('write-page', ['850001', 'HSM', '-o', '-']), ('write-page', ['850001', 'HSM', '-o', '-', '--format', 'vcd']), ('write-page', ['--help'])]


@pytest.mark.parametrize('tool, arguments', WRITERS, ids=lambda value: value if isinstance(value, str) else ' '.join(pathlib.Path(word).name for word in value))
def test_a_full_disk_is_exit_status_1_and_is_said(tool, arguments):
    with open('/dev/full', 'wb') as full:
        found = ran(tool, *arguments, stdout=full)
    assert_one_complaint(found)


@pytest.mark.parametrize('tool, arguments', WRITERS, ids=lambda value: value if isinstance(value, str) else ' '.join(pathlib.Path(word).name for word in value))
def test_a_closed_output_is_exit_status_1_and_is_said(tool, arguments):
    words = ['bash', '-c', 'exec "$@" >&-', 'bash', TOOLS / tool, *arguments]
    done = subprocess.run(words, stdin=subprocess.DEVNULL, capture_output=True, timeout=SECONDS, env=ENVIRONMENT)
    assert (done.returncode, done.stderr.count(b'\n')) == (1, 1), done.stderr
    assert b'Traceback' not in done.stderr


@pytest.mark.parametrize('output', ['/dev/full', ROOT, ROOT / 'not/there/page.vcd'])
def test_write_page_says_a_file_that_cannot_be_written(output):
    assert_one_complaint(ran('write-page', '850001', 'HSM', '-o', output))


def test_a_reader_that_has_seen_enough_ends_the_tool_without_a_word(tmp_path):
    capture = tmp_path / 'many.vcd'
    capture.write_text(vcd(pages_apart(HSM, [0x850001] * 1000, 1000)))
    words = ['bash', '-c', '"$1" --mode HSM "$2" | head -n 2', 'bash', TOOLS / 'list', capture]
    done = subprocess.run(words, capture_output=True, timeout=SECONDS, env=ENVIRONMENT)
    assert (done.stdout.count(b'\n'), done.stderr) == (2, b'')


def test_a_closed_standard_error_does_not_hinder_the_listing():
    words = ['bash', '-c', 'exec "$@" 2>&-', 'bash', TOOLS / 'list', '--plain', file_of(vcd(PAGE))]
    done = subprocess.run(words, stdin=subprocess.DEVNULL, capture_output=True, timeout=SECONDS, env=ENVIRONMENT)
    assert (done.returncode, done.stdout.decode()) == (0, plain_reader.text(HSM, PAGE))


def test_a_closed_standard_input_is_said():
    for more, status in ([], 2), (['-'], 1):
        words = ['bash', '-c', 'exec "$@" <&-', 'bash', TOOLS / 'list', *more]
        done = subprocess.run(words, capture_output=True, timeout=SECONDS, env=ENVIRONMENT)
        assert (done.returncode, done.stdout) == (status, b'') and b'Traceback' not in done.stderr and done.stderr


WRONG = [['list', '--mode'], ['list', '--mode', 'fast', GOOD], ['list', '--no-such', GOOD], ['list', '--rate', 'quick', GOOD], ['list', '--rate', '0', GOOD],
         ['list', '--format', 'wav', GOOD], ['list', '-', '-'], ['list', '--pla', GOOD], ['write-page'], ['write-page', '850001'], ['write-page', 'page', 'HSM'],
         ['write-page', '850001', 'MSM'], ['write-page', '850001', 'HSM', '4294967296'], ['write-page', '850001', 'HSM', '-1'], ['write-page', '850001', 'HSM', 'x'],
         ['write-page', '850001', 'HSM', '-o'], ['write-page', '850001', 'HSM', '--format', 'vcd'], ['write-page', '850001', 'HSM', '-o', 'x', '--format', 'wav']]


@pytest.mark.parametrize('words', WRONG, ids=lambda words: ' '.join(pathlib.Path(word).name for word in words))
def test_wrong_usage_is_exit_status_2(words):
    found = ran(*words)
    assert (found.status, found.out) == (2, '')
    assert found.err and 'Traceback' not in found.err


def test_list_without_a_capture_on_a_terminal_is_wrong_usage():
    """Somebody who types the name alone would wait for ever."""
    master, slave = pty.openpty()
    try:
        found = ran('list', stdin=slave)
    finally:
        os.close(master)
        os.close(slave)
    assert (found.status, found.out) == (2, '') and found.err


def test_a_word_that_is_too_wide_for_a_page_is_refused_on_one_line():
    found = ran('write-page', '1000000000000', 'HSM')
    assert_one_complaint(found)
    assert '13' in found.err


@pytest.mark.parametrize('tool', ['list', 'write-page', 'messages', 'parity'])
def test_help_is_exit_status_0_and_names_the_tool(tool):
    found = ran(tool, '--help')
    assert (found.status, found.err) == (0, '')
    assert f'tools/{tool}' in found.out and found.out.count('\n') > 5


def test_help_of_list_names_every_option_that_it_takes():
    found = ran('list', '--help').out
    taken = set(re.findall(r'--[a-z]+', (TOOLS / 'list').read_text().partition('def arguments')[2].partition('def main')[0]))
    assert taken and all(option in found for option in taken)


CALLS = {'list': ([GOOD], b''), 'write-page': (['850001', 'HSM'], b''), 'messages': (['2006'], b''), 'listing': ([], GOOD.read_bytes())}


@pytest.mark.parametrize('tool', CALLS)
@pytest.mark.parametrize('folder', ['links', 'a folder with blanks'])
def test_a_tool_called_through_a_link_works(tmp_path, tool, folder):
    link = tmp_path / folder / tool
    link.parent.mkdir()
    link.symlink_to(TOOLS / tool)
    arguments, given = CALLS[tool]
    assert ran(link, *arguments, given=given, cwd=tmp_path) == ran(tool, *arguments, given=given)
    assert ran(link, *arguments, given=given).status == 0


def test_list_called_through_a_link_of_another_name_and_a_relative_one_works(tmp_path):
    (tmp_path / 'first').symlink_to(TOOLS / 'list')
    (tmp_path / 'second one').symlink_to('first')
    done = subprocess.run(['./second one', GOOD], cwd=tmp_path, capture_output=True, timeout=SECONDS, env=ENVIRONMENT)
    assert done.returncode == 0 and done.stdout.decode() == ran('list', GOOD).out


@pytest.mark.parametrize('form, content, words', [
    ('vcd', GOOD.read_bytes(), 'our bytes'), ('csv', GOOD.read_bytes(), 'our bytes'), ('sr', vcd(PAGE).encode(), 'VCD'), ('bytes', vcd(PAGE).encode(), 'VCD'),
    ('vcd', saleae(PAGE).encode(), 'CSV')])
def test_a_format_that_is_named_wrongly_is_said_to_be_the_cause(form, content, words):
    found = ran('list', '--format', form, file_of(content))
    assert_one_complaint(found)
    assert f'--format {form}' in found.err and words in found.err and 'damaged' not in found.err


def test_our_bytes_have_no_wire_to_choose():
    found = ran('list', '--wire', 'line', GOOD)
    assert_one_complaint(found)
    assert 'leave --wire out' in found.err


@pytest.mark.parametrize('content, words', [(b'', 'record or export it anew'), (b'\2\0\0\0\0', 'export it as one of these'), (b'\0\0', '1 byte too many'),
                                            (b'\0\0\0', '2 bytes too many'), (b'\1' + bytes(7), '3 bytes too many'), (b'\1' + bytes(7), 'copy or record it anew')])
def test_a_refusal_says_what_is_wrong_and_what_to_do(content, words):
    found = ran('list', file_of(content))
    assert_one_complaint(found)
    assert words in found.err and re.fullmatch(r'refused 1[45]\n', found.out)


@pytest.mark.parametrize('still, is_listed', [(7, True), (12, False)])
def test_our_bytes_whose_clock_mostly_stands_still_are_raw_samples(still, is_listed):
    """Of 20 gaps; the readings have few different bytes, as samples have."""
    readings = [0]
    for number in range(20):
        readings.append(readings[-1] + (0 if number < still else 1))
    content = bytes([0]) + b''.join(reading.to_bytes(4, 'little') for reading in readings)
    found = ran('list', file_of(content))
    assert (found.status, 'raw samples' in found.err) == ((0, False) if is_listed else (1, True))
    assert ran('list', '--plain', file_of(content)).status == ran('list', '--format', 'bytes', file_of(content)).status == 0


@pytest.mark.parametrize('tool, arguments', [('list', []), ('messages', []), ('show', ['-o', 'picture.svg'])])
def test_a_tool_that_is_stopped_at_the_keyboard_ends_by_that_signal_without_a_word(tool, arguments, tmp_path):
    """As any other program does, so that a shell's loop over many captures ends too. It waits for its input meanwhile."""
    reader, writer = os.pipe()
    with subprocess.Popen([TOOLS / tool, *arguments], stdin=reader, stdout=subprocess.PIPE, stderr=subprocess.PIPE, env=ENVIRONMENT, cwd=tmp_path) as running:
        # Once it has closed all but its input it reads; a second is ample.
        time.sleep(1)
        running.send_signal(signal.SIGINT)
        out, err = running.communicate(timeout=SECONDS)
    os.close(reader)
    os.close(writer)
    assert (running.returncode, out, err) == (-signal.SIGINT, b'', b'')


@pytest.fixture
def path_without_sigrok(tmp_path):
    """A PATH with links to all programs that the tools need but sigrok-cli."""
    for program in 'bash', 'env', 'python3', 'find', 'uname', 'readlink', 'dirname', 'mktemp', 'rm', 'head', 'grep', 'cat', 'rt', 'touch', 'tail':
        real = shutil.which(program, path=ENVIRONMENT['PATH'])
        (tmp_path / program).symlink_to(real)
    return {**ENVIRONMENT, 'PATH': str(tmp_path)}


def test_without_sigrok_a_session_is_answered_with_how_to_install_it(path_without_sigrok):
    found = ran('list', session_of_vcd(vcd(PAGE, 6000)), env=path_without_sigrok)
    assert_one_complaint(found)
    assert 'sigrok-cli' in found.err and 'install' in found.err and found.out == ''


def test_without_sigrok_all_other_formats_are_listed(path_without_sigrok):
    for content in vcd(PAGE), saleae(PAGE), GOOD.read_bytes():
        found = ran('list', file_of(content), env=path_without_sigrok)
        assert found.status == 0 and told(found.out)[0].text == '1 good 000000850001'


def test_a_name_with_a_line_end_in_it_is_said_on_one_line():
    assert_one_complaint(ran('list', 'not\nthere'))


def test_an_output_that_takes_no_micro_sign_does_not_show_the_inside_of_the_tool():
    """Some terminals take letters of English alone, and times are told in µs."""
    found = ran('list', ROOT / 'samples/glued-lsm.capture', env={**ENVIRONMENT, 'PYTHONIOENCODING': 'ascii'})
    assert 'Traceback' not in found.err
    assert '2 good 000000a90001' in found.out and found.status == 0


@pytest.mark.parametrize('tool', ['list', 'listing'])
def test_messages_prints_the_same_for_a_told_and_a_plain_listing(tool):
    """Of tools/list with and without --plain, and of the proved program itself."""
    for sample in 'model-lsm', 'good-lsm', 'cut-lsm', 'glued-lsm':
        path = ROOT / f'samples/{sample}.capture'
        plainly = ran('list', '--plain', path).out if tool == 'list' else ran('listing', given=path.read_bytes()).out
        told_text = ran('list', path).out
        assert ran('messages', given=told_text.encode()) == ran('messages', given=plainly.encode())


def test_messages_prints_the_same_for_a_told_and_a_plain_refusal():
    for content in b'', b'\2', b'\0\0':
        path = file_of(content)
        assert ran('messages', given=ran('list', path).out.encode()) == ran('messages', given=ran('list', '--plain', path).out.encode())
