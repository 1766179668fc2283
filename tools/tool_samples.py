"""Samples of a tool, what it is given and what it has to print: what tools/messages --check and tools/parity --check share."""
import pathlib
import subprocess
import textwrap

ROOT = pathlib.Path(__file__).resolve().parent.parent


def run_of(tool, arguments, given, folder=ROOT):
    """What a tool does, given arguments and standard input, a text or bytes. What it prints is told as text."""
    run = subprocess.run([tool, *arguments.split()], input=given.encode() if isinstance(given, str) else given, capture_output=True, cwd=folder)
    run.stdout, run.stderr = run.stdout.decode(errors='replace'), run.stderr.decode(errors='replace')
    return run


def sample_faults(tool, arguments, given, status, wanted, folder=ROOT):
    """What is wrong with what a tool prints. At exit status 2 and above, wanted are words of what is said on standard error."""
    run = run_of(tool, arguments, given, folder)
    is_said = wanted in run.stderr and not run.stdout if status >= 2 else run.stdout == wanted
    if is_said and run.returncode == status:
        return []
    shown = f'{given[:40]!r}..' if len(given) > 40 else repr(given)
    return [f'tools/{tool.name} {arguments}, given {shown}, does not print {wanted!r} with exit status {status}, '
            f'but {run.stdout + run.stderr!r} with {run.returncode}']


def told_faults(document, command, text):
    """What is wrong with a document that has to tell what a command prints: behind the command, in an indented block or between fences."""
    behind = (ROOT / document).read_text().partition(command)[2]
    blocks = textwrap.indent(f'\n{text}\n', '    '), f'\n```\n{text}```\n'
    is_told = text and any(block in behind for block in blocks)
    return [] if is_told else [f'{document} does not tell what {command} prints, which is\n{text}']
