"""What the documents tell that the bench tools print is what they print."""
import pathlib
import re
import subprocess
import sys

import pytest

ROOT = pathlib.Path(__file__).resolve().parent.parent.parent
sys.path.insert(0, str(ROOT / 'tools'))
from sampling import is_coarse, needed
from line_modes import HSM, LSM
from tool_samples import told_faults

COMMANDS = [('README.md', 'tools/list samples/glued-lsm.capture')]


def printed(command):
    return subprocess.run(command, shell=True, cwd=ROOT, stdout=subprocess.PIPE, text=True, check=True).stdout


@pytest.mark.parametrize('document, command', COMMANDS)
def test_a_document_tells_what_a_command_prints(document, command):
    assert told_faults(document, command, printed(command)) == []


def test_the_readme_has_a_line_for_every_tool_that_a_person_on_the_bench_calls():
    bench = (ROOT / 'README.md').read_text().partition('\n## On the bench\n')[2].partition('\n## ')[0]
    for tool in 'list', 'show', 'messages', 'write-page', 'parity', 'settle', 'install':
        assert re.search(rf'^\| `tools/{tool}\b', bench, re.MULTILINE), tool


def test_the_readme_tells_the_rates_that_the_tools_ask_for():
    """The figures of "How fast must you sample" are those that the warning is given by."""
    text = ' '.join((ROOT / 'README.md').read_text().partition('### How fast must you sample')[2].partition('\n#')[0].split())
    assert '**at least 125 MS/s for HSM and 5 MS/s for LSM, better 250 and 10**' in text
    assert f'what is needed is {needed(HSM):g} and {needed(LSM):g} MS/s' in text
    assert not is_coarse(HSM, 8) and not is_coarse(LSM, 200) and not is_coarse(LSM, 250)
    assert is_coarse(HSM, 10) and is_coarse(HSM, 1000 / 24) and is_coarse(LSM, 500)
