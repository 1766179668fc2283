"""How the program `drive` reads: calls that come in pieces are answered like calls that come at once, whatever brings the pieces; and what came ahead
of a read that fails is answered. `tools/build drive` builds the program."""
import os
import pathlib
import socket
import struct
import subprocess
import threading

import pytest

ROOT = pathlib.Path(__file__).resolve().parents[2]
PROGRAM = ROOT / 'tools/drive'
# A start takes a fraction of a second, also in the emulator.
SECONDS = 60
# 200 judgements of a gap in HSM: 30 ns are one position, and that is a number, kind 0x84. 6400 bytes, more than a reader may ask for at once.
CALLS = struct.pack('<4Q', 2, 2, 0, 30) * 200
ANSWERS = struct.pack('<2Q', 1, 0x84 << 56 | 1) * 200


def answered(standard_input):
    """What the program answers on this input; it ends well."""
    return subprocess.run([PROGRAM], stdin=standard_input, stdout=subprocess.PIPE, timeout=SECONDS, check=True).stdout


def answered_in_pieces(ours, other, size):
    """What the program answers where the calls come through these two ends, so many bytes at a time: while it reads, since few pieces are kept."""

    def send():
        with other:
            for start in range(0, len(CALLS), size):
                other.write(CALLS[start : start + size])

    sending = threading.Thread(target=send)
    sending.start()
    with ours:
        answers = answered(ours)
    sending.join()
    return answers


@pytest.mark.parametrize('size', [33, 512, 513, 1000, 4001, 6400])
def test_calls_that_come_in_messages_are_answered_whole(size):
    """Each read gets one message of such a connection; of a message that is longer than what is asked for the rest is lost."""
    ours, other = socket.socketpair(socket.AF_UNIX, socket.SOCK_SEQPACKET)
    writer = other.makefile('wb', buffering=0)
    other.close()
    assert answered_in_pieces(ours, writer, size) == ANSWERS


@pytest.mark.parametrize('size', [33, 512, 513, 1000, 4001])
def test_calls_that_come_in_packets_of_a_pipe_are_answered_whole(size):
    """A pipe for packets keeps apart what each write wrote, up to a page of memory, as a socket of messages does."""
    reader, writer = os.pipe2(os.O_DIRECT)
    assert answered_in_pieces(open(reader, 'rb'), open(writer, 'wb', buffering=0), size) == ANSWERS


@pytest.mark.parametrize('count', [0, 1, 200])
def test_calls_ahead_of_a_read_that_fails_are_answered(count):
    """A read of a pipe that has nothing and still has a writer fails with EAGAIN where the pipe is not to wait."""
    reader, writer = os.pipe()
    os.set_blocking(reader, False)
    os.write(writer, CALLS[: 32 * count])
    with open(reader, 'rb') as ours, open(writer, 'wb'):
        assert answered(ours) == ANSWERS[: 16 * count]


def test_a_folder_has_no_calls():
    folder = os.open(ROOT, os.O_RDONLY)
    try:
        assert answered(folder) == b''
    finally:
        os.close(folder)
