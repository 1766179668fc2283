"""What a tool says of itself, its help and its usage, and how it ends: what the tools in Python share. Those in bash have tools/help.sh.

The docstring of a tool is its help: a sentence on what it is for; an indented paragraph with its calls, the usage; and what else a user
has to know."""
import codecs
import os
import signal
import sys


def usage(document):
    return document.split('\n\n')[1]


def help_if_asked(document):
    """Ends with the docstring on standard output where --help is the only argument."""
    if sys.argv[1:] == ['--help']:
        # A reader that has seen enough, as head, may close the pipe.
        signal.signal(signal.SIGPIPE, signal.SIG_DFL)
        print(document)
        sys.exit(0)


def misused(document, words):
    """Ends with what is wrong with a call, and the usage, on standard error."""
    calls = usage(document)
    print(f'{calls.split()[0]}: {words}\n\n{calls}', file=sys.stderr)
    sys.exit(2)


def option(document, *known):
    """The one option that a tool was called with, or '' where there is none. Ends where help is asked for, and at any other argument."""
    help_if_asked(document)
    arguments = sys.argv[1:]
    if len(arguments) > 1 or not set(arguments) <= set(known):
        misused(document, f'it takes {" or ".join(known)}, or nothing' if known else 'it takes no arguments')
    return arguments[0] if arguments else ''


def one_line(words):
    """Words as one line, whatever is in them: the name of a file may have any letters."""
    return ''.join(letter if letter.isprintable() else ascii(letter)[1:-1] for letter in words)


def simpler_letters(fault):
    """What is printed where the output takes none but English letters."""
    return ''.join('u' if letter in 'µμ' else '?' for letter in fault.object[fault.start:fault.end]), fault.end


def end_with(main, tool):
    """Does what a tool is for, and ends with its exit status; or with 1 and a line that says why, where its output could not be written; or by
    the same signal, where somebody stops it at the keyboard."""
    # A reader that has seen enough, as head, may close the pipe.
    signal.signal(signal.SIGPIPE, signal.SIG_DFL)
    try:
        if sys.stdout is None:
            raise OSError(0, 'it is closed')
        codecs.register_error('simpler', simpler_letters)
        sys.stdout.reconfigure(errors='simpler')
        try:
            status = main()
        finally:
            # What main has printed must arrive, also where main ends the tool by itself.
            sys.stdout.flush()
    except KeyboardInterrupt:
        # Whoever stops it knows, and what called it hears of it as of any other program.
        signal.signal(signal.SIGINT, signal.SIG_DFL)
        os.kill(os.getpid(), signal.SIGINT)
    except OSError as fault:
        # Where a file is named it is that file, and none of the tool's own outputs.
        if fault.filename is not None:
            raise
        if sys.stderr is not None:
            print(f'{tool}: standard output could not be written: {fault.strerror}', file=sys.stderr, flush=True)
        # Python would complain once more when it closes the output.
        os._exit(1)
    sys.exit(status)
