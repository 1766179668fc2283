"""sigrok's session files (.sr), read by sigrok-cli, which writes them as VCD for us."""
import configparser
import io
import os
import re
import shutil
import subprocess
import tempfile
import zipfile
from typing import NamedTuple

from captures import SESSION, NoCapture, nanoseconds
import vcd_captures

SCOPE = 'libsigrok.'
# How long sigrok-cli may take: this long, and a second more for so many samples.
SECONDS, SAMPLES_A_SECOND = 60, 1_000_000


def opened(content, name):
    """The sizes of the files inside a session, and its description. Each file must be whole: the archive has a sum for each, which a cut or
    changed one does not keep."""
    try:
        with zipfile.ZipFile(io.BytesIO(content)) as archive:
            damaged = archive.testzip()
            sizes = {entry.filename: entry.file_size for entry in archive.infolist()}
            if damaged is None and {'version', 'metadata'} <= set(sizes):
                return sizes, archive.read('metadata').decode()
    # What a damaged archive makes the library raise is not one kind of fault.
    except Exception:
        damaged = 'its directory'
    if damaged is not None:
        raise NoCapture(f'{name} is a damaged sigrok session, or cut ({damaged} is not whole), and nothing of it is listed')
    raise NoCapture(f'{name} is a ZIP archive and no sigrok session; what Saleae keeps in a .sal, or a spreadsheet in an .xlsx, is to be exported as CSV')


class Described(NamedTuple):
    """What a session says of itself: how many samples it has, and the names of its analog channels."""
    samples: int
    analog: list


def described(sizes, description, name):
    """What the description of a session says; the samples are counted by the sizes of its parts."""
    settings = configparser.ConfigParser(interpolation=None, strict=False)
    try:
        settings.read_string(description)
        device = settings['device 1']
        stem, size = device['capturefile'], int(device['unitsize'])
        length = sum(length for entry, length in sizes.items() if entry == stem or re.fullmatch(re.escape(stem) + r'-\d+', entry))
        analog = [title for key, title in device.items() if re.fullmatch(r'analog\d+', key)]
        # With another rate sigrok-cli may go on for ever.
        if not re.fullmatch(r'\d{1,15}(\.\d{1,15})? ?[kMG]?Hz', device.get('samplerate', '')):
            raise NoCapture(f'{name} does not say how fast it was sampled')
        return Described(length // size, analog)
    except (KeyError, ValueError, ZeroDivisionError, configparser.Error):
        raise NoCapture(f'{name} is a sigrok session without digital samples, or its description is damaged') from None


def as_vcd(content, about, name):
    """What sigrok-cli makes of a session."""
    program = shutil.which('sigrok-cli')
    if not program:
        raise NoCapture(f'{name} is a sigrok session, and sigrok-cli, which reads it, is not installed: tools/install captures does it, as root')
    most = SECONDS + about.samples // SAMPLES_A_SECOND
    with tempfile.NamedTemporaryFile(suffix='.sr') as copy:
        copy.write(content)
        copy.flush()
        try:
            # Names and numbers as in C, whatever the person's own language is.
            run = subprocess.run([program, '-i', copy.name, '-O', 'vcd'], capture_output=True, env={**os.environ, 'LC_ALL': 'C'}, timeout=most)
        except subprocess.TimeoutExpired:
            raise NoCapture(f'{name}: sigrok-cli has not read this session in {most} seconds; nothing of it is listed') from None
    text = run.stdout.decode(errors='replace')
    if run.returncode or not text:
        said = ' '.join(run.stderr.decode(errors='replace').split())[:100]
        raise NoCapture(f'{name}: sigrok-cli cannot read this session ({said or "without a word"})')
    return without_voltages(text, about.analog)


def without_voltages(text, analog):
    """A VCD without the lines that sigrok-cli writes into it for analog channels, as 'A0: 0.82 V DC', which are none of VCD."""
    if not analog:
        return text
    starts = tuple(f'{title}: ' for title in analog)
    return ''.join(line for line in text.splitlines(keepends=True) if not line.startswith(starts))


def capture(content, name):
    """The wires of a session. That sigrok-cli has read all of it shows in the last time that it writes."""
    about = described(*opened(content, name), name)
    found = vcd_captures.capture(as_vcd(content, about, name), name)
    if found.period is None:
        raise NoCapture(f'{name} does not say how fast it was sampled')
    end = nanoseconds(about.samples, found.period.numerator, found.period.denominator)
    if abs(end - found.end) > found.period + 1:
        raise NoCapture(f'{name} is cut: it has samples for {end} ns, and sigrok-cli reads {found.end} ns of them; nothing of it is listed')
    # The scope is sigrok-cli's own, and no part of the names that a person has given.
    wires = [wire._replace(name=wire.name.removeprefix(SCOPE)) for wire in found.wires]
    return found._replace(form=SESSION, wires=wires)
