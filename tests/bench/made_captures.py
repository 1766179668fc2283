"""Captures as analysers write them, made of the times of edges, and sigrok-cli, which nobody here wrote, to turn one into another."""
import random
import subprocess

import plain_reader
from bench_tools import SCRATCH, SECONDS, file_of, ran

HEAD = '$timescale {scale} $end\n$scope module top $end\n$var wire 1 ! line $end\n$upscope $end\n$enddefinitions $end\n'


def vcd(edges, end=None, scale='1 ns', units=1):
    """A VCD with the wire line; units are how many of the timescale's go into a ns."""
    changes = ''.join(f'#{round(time * units)}\n{number % 2}!\n' for number, time in enumerate(edges, 1))
    return HEAD.format(scale=scale) + f'#0\n0!\n{changes}' + (f'#{round(end * units)}\n' if end is not None else '')


def saleae(edges, header='Time [s],Channel 0', digits=9):
    """What Saleae's Logic exports: a row at each change, with the time in seconds, after the first value."""
    rows = [(0, 0), *((time, number % 2) for number, time in enumerate(edges, 1))]
    return ''.join([f'{header}\n', *(f'{time // 10 ** 9}.{time % 10 ** 9:09d}{"0" * (digits - 9)},{value}\n' for time, value in rows)])


def own_bytes(mode, readings):
    return bytes([mode.number]) + b''.join((reading % plain_reader.CLOCK).to_bytes(4, 'little') for reading in readings)


def sampled(edges, period, phase=0.0, drift=0.0, end=None):
    """The samples of a line, a list of 0 and 1: sample n stands at (n + phase) periods of a clock that is off by the drift."""
    samples, value, edge = [], 0, 0
    end = (edges[-1] + 5000) if end is None else end
    step = period * (1 + drift)
    for number in range(int(end / step)):
        while edge < len(edges) and edges[edge] <= (number + phase) * step:
            value, edge = 1 - value, edge + 1
        samples.append(value)
    return samples


def edges_in(samples, period):
    """The times of the edges that samples show, each at the sample with the new value, to the nearest ns."""
    return [(2 * number * period.numerator + period.denominator) // (2 * period.denominator)
            for number in range(1, len(samples)) if samples[number] != samples[number - 1]]


def sigrok(*arguments, output=None):
    """Runs sigrok-cli. Gives what it writes, or the file that it has written."""
    more = ['-o', str(output)] if output else []
    done = subprocess.run(['sigrok-cli', *map(str, arguments), *more], stdin=subprocess.DEVNULL, capture_output=True, timeout=SECONDS, check=True)
    return output or done.stdout


def session_of_vcd(text, name='session.sr'):
    """A sigrok session that sigrok-cli makes of a VCD."""
    return sigrok('-I', 'vcd', '-i', file_of(text, 'to-session.vcd'), output=SCRATCH / name)


def session_of_samples(samples, rate, name='session.sr', channels=1):
    """A sigrok session that sigrok-cli makes of samples, a number each with a bit for each channel."""
    raw = file_of(bytes(samples), 'to-session.bin')
    return sigrok('-I', f'binary:numchannels={channels}:samplerate={rate}', '-i', raw, output=SCRATCH / name)


def written_page(word, mode, name):
    """A page that tools/write-page writes to a file; the name's ending says what."""
    path = SCRATCH / name
    done = ran('write-page', f'{word:x}', mode.name, '-o', path)
    assert done == (0, '', ''), done
    return path


def pages_apart(mode, words, quiet, first=1000):
    """The edges of several pages, so much quiet between them."""
    edges = []
    for word in words:
        edges += plain_reader.page(mode, word, edges[-1] + quiet if edges else first)
    return edges


def jittered(mode, times, chance):
    """The same edges with gaps that are off by as much as the windows allow."""
    moved = times[:1]
    for before, after in zip(times, times[1:]):
        moved.append(moved[-1] + after - before + chance.choice((-mode.tolerance, 0, mode.tolerance, chance.randint(-mode.tolerance, mode.tolerance))))
    return moved


def odd_gaps(mode, chance, count):
    """Gaps at the ends of the windows and of the quiet, just inside and just outside."""
    ends = [end + off for step in range(1, 5) for end in mode.window(step) for off in (-1, 0, 1)]
    return [chance.choice([*ends, mode.quiet - 1, mode.spacing, mode.spacing, 2 * mode.spacing, 0, 1]) for _ in range(count)]


def damaged_page(mode, chance):
    """A page that is whole, cut, has a gap at or beyond the end of a window, lost or got a transition, or has wrong check bits; with edges behind it."""
    word = chance.getrandbits(48)
    times = jittered(mode, plain_reader.page(mode, word), chance)
    kind = chance.randrange(7)
    if kind == 1:
        times = times[:chance.randint(1, len(times))]
    elif kind == 2:
        place, off = chance.randrange(1, len(times)), chance.choice((-1, 1)) * chance.randint(1, 2 * mode.spacing)
        times = times[:place] + [time + max(off, times[place - 1] - times[place]) for time in times[place:]]
    elif kind == 3:
        del times[chance.randrange(1, len(times))]
    elif kind == 4:
        times = jittered(mode, plain_reader.page(mode, word, check=plain_reader.check_of(word) ^ 1 << chance.randrange(16)), chance)
    elif kind == 5:
        place = chance.randrange(1, len(times))
        times.insert(place, chance.randint(times[place - 1], times[place]))
    return times


def random_capture(mode, chance, count, longest=0, far=()):
    """The edges of a capture of at least so many edges: pages, damaged ones, noise, and stretches of the longest length without a quiet gap."""
    edges = [chance.randrange(1, 10_000)]
    stretches = [longest] if longest else []
    while len(edges) < count:
        for gap in ([] if chance.random() < 0.7 else odd_gaps(mode, chance, chance.randint(1, 30))):
            edges.append(edges[-1] + gap)
        quiet = chance.choice((mode.quiet - 1, mode.quiet, mode.quiet, mode.quiet + 1, 3 * mode.quiet, 100 * mode.quiet, *far))
        start = edges[-1] + quiet
        edges += [start + time for time in damaged_page(mode, chance)]
        if stretches and len(edges) > count // 3:
            edges.extend(range(edges[-1] + mode.spacing, edges[-1] + mode.spacing * stretches.pop(), mode.spacing))
    return edges


def seeded(number):
    return random.Random(number)
