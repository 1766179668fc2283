"""The two modes confused, or neither: what is listed, and what is said about it."""
import re

import pytest

import plain_reader
from bench_tools import plain, ran, file_of, result
from expected_words import assert_told
from made_captures import odd_gaps, own_bytes, pages_apart, saleae, seeded, vcd
from plain_reader import HSM, LSM, MODES

BOTH = pytest.mark.parametrize('mode', MODES, ids=lambda mode: mode.name)
WORDS = [0x850001, 0xA90001, 7]


def other(mode):
    return LSM if mode is HSM else HSM


def edges_of(mode):
    return pages_apart(mode, WORDS, 3 * LSM.quiet)


@BOTH
@pytest.mark.parametrize('form', [vcd, saleae])
def test_without_a_mode_both_are_tried_and_the_one_that_read_pages_is_said(mode, form):
    found = result(form(edges_of(mode)))
    assert_told(found.text, mode, edges_of(mode))
    note, = found.notes
    assert re.search(rf'{mode.name} (reads )?3 pages', note) and re.search(rf'{other(mode).name} (reads )?no page', note)


@BOTH
@pytest.mark.parametrize('form', [vcd, saleae])
def test_a_page_listed_in_the_other_mode_is_listed_so_as_01_reads_it(mode, form):
    assert_told(result(form(edges_of(mode)), mode=other(mode).name).text, other(mode), edges_of(mode))


@BOTH
def test_our_bytes_with_the_wrong_mode_byte_are_listed_as_they_say_and_a_note_says_which_mode_reads_pages(mode):
    found = result(own_bytes(other(mode), edges_of(mode)))
    assert found.status == 0
    assert_told(found.text, other(mode), edges_of(mode), origin=edges_of(mode)[0])
    note, = found.notes
    assert re.search(r'3 pages', note) and f'--mode {mode.name}' in note


@BOTH
@pytest.mark.parametrize('form', [vcd, lambda edges: own_bytes(HSM, edges), lambda edges: own_bytes(LSM, edges)], ids=['VCD', 'as HSM', 'as LSM'])
def test_a_mode_that_is_asked_for_and_reads_nothing_where_the_other_reads_pages_is_said(mode, form):
    found = result(form(edges_of(mode)), mode=other(mode).name)
    assert found.text.startswith(f'mode {other(mode).name} ')
    note, = found.notes
    assert '3 pages' in note and f'--mode {mode.name}' in note
    assert result(form(edges_of(mode)), mode=mode.name).notes == []


@BOTH
@pytest.mark.parametrize('step', [1, 2, 3, 4])
def test_a_line_that_neither_mode_reads_is_listed_in_the_mode_whose_gaps_it_has(mode, step):
    """Gaps of any number of positions, none of them a page's."""
    edges = list(range(1000, 1000 + 200 * step * mode.spacing, step * mode.spacing))
    found = result(vcd(edges))
    assert found.text.startswith(f'mode {mode.name} ') and f'--mode {other(mode).name}' in found.notes[0]


@BOTH
def test_our_bytes_in_a_mode_that_is_asked_for_are_listed_in_that_one(mode):
    content = own_bytes(other(mode), edges_of(mode))
    assert plain(content, mode=mode.name) == plain_reader.text(mode, edges_of(mode))


@BOTH
def test_our_bytes_with_the_right_mode_byte_have_no_note(mode):
    assert result(own_bytes(mode, edges_of(mode))).notes == []


def test_noise_is_said_to_be_read_by_neither_mode():
    chance = seeded(31)
    edges = [1000]
    for gap in odd_gaps(HSM, chance, 300):
        edges.append(edges[-1] + gap)
    found = result(vcd(edges))
    assert found.status == 0
    assert any('neither' in note for note in found.notes)
    assert plain(vcd(edges)) in [plain_reader.text(mode, edges) for mode in MODES]


@pytest.mark.parametrize('wires, words', [('0!\n', 'top.line has no edge'), ('0!\n0"\n#30\n1"\n', 'top.line has no edge; it has top.other (1 edge)')])
def test_a_wire_without_an_edge_is_said_to_have_none_and_those_with_edges_are_named(wires, words):
    head = vcd([]).partition('#')[0].replace('$upscope', '$var wire 1 " other $end\n$upscope')
    found = result(head + '#0\n' + wires, wire='line')
    assert (found.status, found.text) == (0, 'mode LSM edges 0\npages 0 bad 0\n')
    assert [note for note in found.notes if words in note]


@pytest.mark.parametrize('edges', [[500], [500, 530]])
def test_a_line_with_hardly_an_edge_is_said_to_be_read_by_neither_mode(edges):
    found = result(vcd(edges, 1000))
    assert found.status == 0 and any('neither' in note for note in found.notes)


def test_pages_of_both_modes_in_one_capture_are_listed_in_the_mode_of_most_and_both_are_told():
    """Two ends of different speeds on one probe: a person must hear of the others too."""
    edges = edges_of(HSM)
    edges += [edges[-1] + 20_000 + time for time in plain_reader.page(LSM, 0x850001)]
    found = result(vcd(edges))
    assert found.text.startswith('mode HSM ')
    assert any('HSM reads 3 pages' in note and 'LSM 1 page' in note for note in found.notes)


def test_the_command_takes_the_mode_in_any_letters_and_no_other():
    path = file_of(vcd(edges_of(LSM)))
    assert ran('list', '--plain', '--mode', 'lsm', path).out == ran('list', '--plain', '--mode=LSM', path).out == plain_reader.text(LSM, edges_of(LSM))
    assert ran('list', '--mode', 'MSM', path).status == 2
