"""How the program `listing` reads: an input that it cannot read to its end is not listed, and one that comes in pieces is. Nearly every input that
breaks off does so behind a whole capture, so a program that takes the failure for the end lists it. And how it ends where its listing cannot be
written. `tools/build listing` builds the program."""
import os
import pathlib
import signal
import socket
import subprocess
import tty

import pytest

ROOT = pathlib.Path(__file__).resolve().parents[2]
PROGRAM = ROOT / 'tools/listing'
CAPTURE = (ROOT / 'samples/good-hsm.capture').read_bytes()
# The mode and the first half of the readings, which would be listed as a capture of their own.
HALF = CAPTURE[: 1 + 4 * 46]
LISTING = b'mode HSM edges 93\n1 good 000000850001\npages 1 bad 0\n'
UNREAD = b'listing: the input could not be read to its end, so nothing is listed\n'
UNWRITTEN = b'listing: the output could not be written\n'
# A start takes a fraction of a second, also in the emulator.
SECONDS = 60


def listed(standard_input):
    """What the program writes on this input, on standard output and on standard error. A broken input is no crash: it ends well."""
    ended = subprocess.run([PROGRAM], stdin=standard_input, stdout=subprocess.PIPE, stderr=subprocess.PIPE, timeout=SECONDS, check=True)
    return ended.stdout, ended.stderr


@pytest.fixture
def opened():
    """A list for descriptors, which are closed after the test whatever came of it."""
    descriptors = []
    yield descriptors
    for descriptor in descriptors:
        os.close(descriptor)


def test_a_folder_is_not_listed(opened):
    opened.append(os.open(ROOT, os.O_RDONLY))
    assert listed(opened[0]) == (b'', UNREAD)


def test_a_terminal_that_hangs_up_behind_a_whole_capture_is_not_listed(opened):
    """Linux gives what the other end wrote before it was closed, and then the error EIO, at every further read."""
    master, slave = os.openpty()
    opened.append(master)
    tty.setraw(slave)
    assert os.write(slave, CAPTURE) == len(CAPTURE)
    os.close(slave)
    assert listed(master) == (b'', UNREAD)


@pytest.mark.parametrize('written', [b'', HALF, CAPTURE], ids=['nothing', 'half', 'whole'])
def test_a_pipe_that_does_not_wait_for_its_writer_is_not_listed(opened, written):
    """A read of a pipe that has nothing and still has a writer fails with EAGAIN where the pipe is not to wait."""
    reader, writer = os.pipe()
    opened += [reader, writer]
    os.set_blocking(reader, False)
    os.write(writer, written)
    assert listed(reader) == (b'', UNREAD)


def test_a_connection_that_is_reset_behind_a_whole_capture_is_not_listed():
    """The error ECONNRESET is told once: a read after it gives 0 as at an end, so it must not be asked for again."""
    ours, other = socket.socketpair()
    with ours:
        # The other end resets the connection by being closed before it has read all that came.
        ours.sendall(b'never read')
        other.sendall(CAPTURE)
        other.close()
        assert listed(ours) == (b'', UNREAD)


def test_a_capture_that_comes_in_pieces_is_listed_whole():
    """A short read is no end. Each read gets one message of such a connection, and the pieces are no whole readings."""
    ours, other = socket.socketpair(socket.AF_UNIX, socket.SOCK_SEQPACKET)
    with ours:
        for start in range(0, len(CAPTURE), 126):
            other.sendall(CAPTURE[start : start + 126])
        other.close()
        assert listed(ours) == (LISTING, b'')


# A listing, and a refusal: an input without a mode byte.
WRITING = pytest.mark.parametrize('given', [CAPTURE, b''], ids=['listing', 'refusal'])


@WRITING
@pytest.mark.parametrize('output, way', [('/dev/full', 'wb'), ('/dev/null', 'rb')], ids=['no room', 'only to be read'])
def test_an_output_that_cannot_be_written_is_said(given, output, way):
    with open(output, way) as unwritable:
        ended = subprocess.run([PROGRAM], input=given, stdout=unwritable, stderr=subprocess.PIPE, timeout=SECONDS)
    assert (ended.returncode, ended.stderr) == (0, UNWRITTEN)


@WRITING
def test_an_output_that_is_closed_is_said(given):
    words = ['bash', '-c', 'exec "$1" >&-', 'bash', PROGRAM]
    ended = subprocess.run(words, input=given, stdout=subprocess.PIPE, stderr=subprocess.PIPE, timeout=SECONDS)
    assert (ended.returncode, ended.stdout, ended.stderr) == (0, b'', UNWRITTEN)


@WRITING
def test_a_pipe_whose_reader_has_gone_ends_the_program_by_its_signal_without_a_word(opened, given):
    """As where `head` has seen enough: a person who is gone need not be told. It ends as a shell shows of the signal, whether that has ended it or
    not: a program that Rattle starts ignores it."""
    reader, writer = os.pipe()
    opened.append(writer)
    os.close(reader)
    words = ['bash', '-c', '"$1"; exit $?', 'bash', PROGRAM]
    ended = subprocess.run(words, input=given, stdout=writer, stderr=subprocess.PIPE, timeout=SECONDS)
    assert (ended.returncode, ended.stderr) == (128 + signal.SIGPIPE, b'')


def test_where_neither_output_can_be_written_the_program_ends_well():
    with open('/dev/full', 'wb') as full:
        assert subprocess.run([PROGRAM], input=CAPTURE, stdout=full, stderr=full, timeout=SECONDS).returncode == 0
