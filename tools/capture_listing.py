"""A capture taken and listed as the options of a call say: which wire of it, in which mode, with what notes, and what a refusal means. What
tools/list and tools/show share, so that both take the same captures with the same words."""
import argparse
from fractions import Fraction
from typing import NamedTuple

import attempts
import sampling
from attempts import Listing, Refused, listed, printed_for
from captures import BYTES, FORMS, KNOWN, Capture, NoCapture, Wire, amount, capture_of, chosen, form_of, looks_like_samples, named, shown
from csv_captures import rate_of
from line_modes import BY_NAME, HSM, LSM, MODES, MOST_READINGS, other


# So many edges or more show whether the clock stands still.
MANY = 16


class Listed(NamedTuple):
    """A capture, the wire of it that was listed, its listing, and the time from which all others count."""
    capture: Capture
    wire: Wire
    listing: Listing
    origin: int


def likely(times):
    """The mode that a line without a page is likely to have: most gaps of LSM are no shorter than a position of it takes at least."""
    gaps = sorted(after - before for before, after in zip(times, times[1:]))
    return HSM if gaps and gaps[len(gaps) // 2] < LSM.window(1)[0] else LSM


def tried_both(times, notes):
    """The listing in the mode that reads more pages, or in the likelier one where neither reads any."""
    listings = {mode: listed(mode, times) for mode in MODES}
    high, low = (listings[mode] for mode in (HSM, LSM))
    if high.good or low.good:
        best = high if high.good >= low.good else low
        notes.append(f'both modes were tried: HSM reads {amount(high.good, "page")}, LSM {amount(low.good, "page")}; listed as {best.mode.name}')
        return best
    best = listings[likely(times)]
    if times:
        notes.append(f'both modes were tried, and neither reads a page; listed as {best.mode.name}, since most gaps are '
                     f'{"shorter" if best is high else "no shorter"} than {LSM.window(1)[0]} ns (--mode {other(best.mode).name} lists it the other way)')
    return best


def listed_as_asked(mode, why, times, notes):
    """The listing in a mode that somebody or something has said. Where that reads no page and the other mode does, it is said."""
    listing = listed(mode, times)
    if times and not listing.good:
        count = listed(other(mode), times).good
        if count:
            notes.append(f'no page is read as {mode.name}, as {why}, and {amount(count, "page")} as {other(mode).name}: --mode {other(mode).name}')
    return listing


def listing_of(capture, wire, options, notes):
    if options.mode:
        return listed_as_asked(BY_NAME[options.mode], '--mode asks', wire.edges, notes)
    if capture.mode is not None:
        return listed_as_asked(MODES[capture.mode], 'its first byte says', wire.edges, notes)
    return tried_both(wire.edges, notes)


def sampling_notes(capture, listing, modes):
    """A warning where the samples are too coarse for a mode. A rate that is only guessed from the time stamps counts where not all is well."""
    for mode in modes:
        period = capture.period
        if period:
            words = f'sampled at {sampling.rate_words(period)}, '
        elif capture.form != BYTES and listing.good < len(listing.attempts):
            period = sampling.guessed(mode, listing.times)
            words = f'its times look like samples at {sampling.rate_words(period)}; if they are, that is ' if period else ''
        if period and sampling.is_coarse(mode, period):
            yield words + sampling.coarse_words(mode, period)


def wire_notes(capture, wire):
    """What a person should know of the wire that is listed."""
    if capture.remark:
        yield capture.remark
    # Our own bytes are not looked at: theirs is a clock, and there may be a thousand captures.
    still = 0 if capture.form == BYTES else sum(before == after for before, after in zip(wire.edges, wire.edges[1:]))
    if still * 2 > max(len(wire.edges), MANY):
        yield f'{still} edges have the time of the one before them: the times are rounded, it seems; export them with all digits'
    if wire.unknown:
        yield (f'the wire was neither 0 nor 1 (x or z, or without a value) {amount(wire.unknown, "time")}; '
               'an edge counts where the next known value is another than the last')
    if not wire.edges:
        others = [wire for wire in capture.wires if wire.edges]
        yield ('the line has no edge' if not wire.name else f'wire {shown(wire.name)} has no edge') + (f'; {named(others)}' if others else '')


def refusal_words(number, name, content):
    """What a refusal of the program means, and what to do."""
    if number == 12:
        return f'{name} has more than {MOST_READINGS} readings; without --whole it is listed in pieces'
    if number == 15:
        rest = (len(content) - 1) % 4
        return (f'{name}: behind the mode byte stand readings of four bytes, and {amount(rest, "byte")} too many: it is cut or damaged, or no capture; '
                'copy or record it anew')
    if not content:
        return f'{name} is empty: not even a mode byte; record or export it anew'
    return f'{name} begins with the byte {content[0]}, which is no mode (0 HSM, 1 LSM), and is nothing else that is known; {KNOWN}: export it as one of these'


def check_bytes(content, options):
    """Has the program refuse our own bytes where it does not take them: their mode, unless another is asked for, or a rest of less than four bytes.
    Their length is no matter, as they are split."""
    if options.mode and content:
        content = bytes([BY_NAME[options.mode].number]) + content[1:]
    if not content or content[0] >= len(MODES) or len(content) % 4 != 1 or options.whole:
        printed_for(content if options.whole or len(content) <= 5 else content[:5 + (len(content) - 1) % 4])


def check_whole(times):
    """Has the program refuse what it does not take in one piece."""
    if len(times) > MOST_READINGS:
        printed_for(attempts.as_bytes(HSM, times[:MOST_READINGS + 1]))


def taken(content, name, options):
    """The capture, and the wire of it that is listed."""
    form = FORMS[options.format] if options.format else form_of(content) or BYTES
    capture = capture_of(content, name, form, options.rate)
    if form == BYTES:
        # What is asked for as plain text, or said to be our bytes, is listed whatever it looks like.
        if not options.plain and options.format is None and capture.mode is not None and looks_like_samples(content, capture.wires[0].edges):
            raise NoCapture(f'{name} begins with the byte {content[0]}, as our bytes do, but the readings behind it are no clock\'s: raw samples, it seems. '
                            'Export them as VCD or CSV, or as a session: sigrok-cli -I binary:numchannels=8:samplerate=RATE -i FILE -o FILE.sr')
        check_bytes(content, options)
    wire = chosen(capture, options.wire, name)
    if options.whole:
        check_whole(wire.edges)
    return capture, wire


def taken_as_asked(content, name, options):
    """The same, where a format that the call has named wrongly is said to be the cause."""
    try:
        return taken(content, name, options)
    except (NoCapture, Refused):
        form = form_of(content)
        if options.format and form not in (None, FORMS[options.format]):
            raise NoCapture(f'{name} cannot be read as --format {options.format} asks; by its content it is {form}: leave the option out') from None
        raise


def with_rate(capture, rate, notes):
    """A capture with the rate that the call gives, where it does not say its own."""
    if not rate:
        return capture
    period = Fraction(10 ** 9) / rate
    if capture.period in (None, period):
        return capture._replace(period=period)
    notes.append(f'--rate is not used: the capture says that it was sampled at {sampling.rate_words(capture.period)}')
    return capture


def listed_capture(name, content, options, notes):
    """The listing of a capture with all that belongs to it. What a person should know besides is added to the notes."""
    capture, wire = taken_as_asked(content, name, options)
    capture = with_rate(capture, options.rate, notes)
    listing = listing_of(capture, wire, options, notes)
    notes += wire_notes(capture, wire)
    # Where no page was read and nobody has said the mode, it may be the other one that the samples are too coarse for.
    is_open = not options.mode and capture.mode is None and not listing.good and wire.edges
    notes += sampling_notes(capture, listing, MODES if is_open else (listing.mode,))
    return Listed(capture, wire, listing, wire.edges[0] if capture.form == BYTES and wire.edges else 0)


def name_in_words(name):
    """A capture's name as messages have it."""
    return 'standard input' if name == '-' else name


def rate(text):
    found = rate_of(text)
    if found is None:
        raise argparse.ArgumentTypeError(f'{text!r} is no rate, as 24M, 24000000 or "24 MHz"')
    return found


def add_input_options(parser):
    """The options by which a call says what the capture is. Only some tools can also be asked for plain text and for one piece."""
    parser.set_defaults(plain=False, whole=False)
    parser.add_argument('--mode', type=str.upper, choices=sorted(BY_NAME))
    parser.add_argument('--wire')
    parser.add_argument('--rate', type=rate)
    parser.add_argument('--format', type=str.lower, choices=sorted(FORMS))
