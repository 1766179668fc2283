"""Value change dumps as simulators and analysers write them: several wires, timescales, unknown values, vectors, and all the sections of a head."""
import re

import pytest

import plain_reader
from bench_tools import assert_one_note, file_of, plain, ran, result, told, without_words
from made_captures import pages_apart, random_capture, seeded, vcd
from plain_reader import HSM, LSM, MODES

WORD = 0x0000A90001
PAGE = plain_reader.page(HSM, WORD, 500)
LISTED = plain_reader.text(HSM, PAGE)
# Two scopes with a wire of the same short name, one that stands still, and one in the outer scope.
HEAD = '''$date today $end
$version a simulator $end
$timescale 1ns $end
$scope module top $end
$var wire 1 ! clock $end
$scope module left $end
$var wire 1 " line $end
$upscope $end
$scope module right $end
$var reg 1 # line $end
$var wire 1 $ still $end
$upscope $end
$upscope $end
$enddefinitions $end
'''


def body(**lines):
    """The changes of several wires, each given by its code's name and the times of its edges, all zero first."""
    codes = {'clock': '!', 'left': '"', 'right': '#', 'still': '$'}
    changes = {0: [f'0{code}' for code in codes.values()]}
    for name, edges in lines.items():
        for number, time in enumerate(edges, 1):
            changes.setdefault(time, []).append(f'{number % 2}{codes[name]}')
    return ''.join(f'#{time}\n' + ''.join(f'{change}\n' for change in changes[time]) for time in sorted(changes))


def test_the_only_wire_with_edges_is_listed_without_a_question():
    assert plain(HEAD + body(right=PAGE)) == LISTED


def test_of_two_wires_with_the_same_short_name_each_is_named_by_its_full_name():
    text = HEAD + body(left=[700, 900], right=PAGE)
    assert plain(text, wire='top.right.line') == LISTED
    assert plain(text, wire='top.left.line', mode='HSM') == plain_reader.text(HSM, [700, 900])


def test_a_wire_is_named_by_its_short_name():
    assert plain(HEAD + body(clock=PAGE, right=[700, 900]), wire='clock') == LISTED
    assert plain(HEAD + body(clock=PAGE, right=[700, 900]), wire='top.clock') == LISTED


def test_a_wire_that_is_asked_for_is_listed_also_where_it_has_no_edges():
    assert plain(HEAD + body(clock=PAGE), wire='still', mode='HSM') == 'mode HSM edges 0\npages 0 bad 0\n'


@pytest.mark.parametrize('wire', [None, 'line', 'none', ''])
def test_where_it_is_not_clear_which_wire_the_message_names_them(wire):
    found = result(HEAD + body(clock=PAGE, left=PAGE, right=[700, 900]), wire=wire)
    assert_one_note(found)
    # Where a name fits two wires, these are named.
    for name in ('top.clock' if wire != 'line' else '', 'top.left.line', 'top.right.line'):
        assert name in found.notes[0]


def test_where_it_is_not_clear_which_wire_the_command_says_how_to_choose():
    path = file_of(HEAD + body(clock=PAGE, right=PAGE))
    found = ran('list', path)
    assert (found.status, found.out, found.err.count('\n')) == (1, '', 1)
    assert '--wire' in found.err and 'top.clock' in found.err and 'top.right.line' in found.err
    assert ran('list', '--plain', '--wire', 'top.right.line', path).out == LISTED
    assert ran('list', '--plain', '--wire=clock', path).out == LISTED


@pytest.mark.parametrize('mode', MODES, ids=lambda mode: mode.name)
@pytest.mark.parametrize('scale, units', [('1 ps', 1000), ('10 ps', 100), ('100 ps', 10), ('1 ns', 1), ('1ns', 1), ('1\n\tns', 1), ('10 fs', 100_000)])
def test_each_timescale_gives_the_same_times(mode, scale, units):
    edges = random_capture(mode, seeded(units), 400)
    assert plain(vcd(edges, scale=scale, units=units), mode=mode.name) == plain_reader.text(mode, edges)


@pytest.mark.parametrize('scale, unit', [('10 ns', 10), ('100 ns', 100), ('1 us', 1000), ('1 ms', 10 ** 6), ('1 s', 10 ** 9)])
def test_each_coarse_timescale_gives_its_times(scale, unit):
    times = [1, 4, 7, 10, 30, 33]
    found = result(vcd(times, scale=scale), mode='LSM')
    assert [line.began for line in told(found.text)] == [attempt_time * unit for attempt_time in began(LSM, times, unit)]


def began(mode, times, unit):
    return [times[attempt.first] for attempt in plain_reader.read(mode, [time * unit for time in times])]


def test_times_between_two_ns_go_to_the_nearest():
    """Edges of a page 0.4 ns off to either side: no gap is off by more than 1 ns."""
    edges = [time + (0.4 if number % 2 else -0.4) for number, time in enumerate(PAGE)]
    assert plain(vcd(edges, scale='100 ps', units=10)) == LISTED


@pytest.mark.parametrize('scale', ['', '2 ns', '1 hour', 'ns', '1000 ns', '-1 ns', '0 ns'])
def test_a_timescale_that_is_none_is_said(scale):
    assert_one_note(result(vcd(PAGE, scale=scale)))


def test_a_vcd_without_a_timescale_is_said():
    found = result(vcd(PAGE).replace('$timescale 1 ns $end\n', ''))
    assert_one_note(found)
    assert 'timescale' in found.notes[0]


@pytest.mark.parametrize('value', 'xXzZ')
def test_an_unknown_value_between_two_equal_ones_is_no_edge_and_is_told(value):
    found = result(vcd(PAGE).replace(f'#{PAGE[5]}\n', f'#{PAGE[5] - 9}\n{value}!\n#{PAGE[5] - 7}\n1!\n#{PAGE[5]}\n'))
    assert without_words(found.text) == LISTED
    assert any('x or z' in note for note in found.notes)


@pytest.mark.parametrize('value', 'xz')
def test_a_wire_that_is_unknown_first_has_its_first_edge_at_its_second_value(value):
    text = vcd(PAGE).replace('#0\n0!\n', f'#0\n{value}!\n#{PAGE[0] - 200}\n0!\n')
    assert plain(text) == LISTED


def test_an_unknown_value_on_the_way_from_one_value_to_the_other_is_one_edge_at_the_known_value():
    text = vcd(PAGE).replace(f'#{PAGE[5]}\n', f'#{PAGE[5] - 7}\nx!\n#{PAGE[5]}\n')
    assert plain(text) == LISTED


def test_values_that_do_not_change_are_no_edges():
    text = vcd(PAGE).replace(f'#{PAGE[5]}\n0!\n', f'#{PAGE[5]}\n0!\n0!\n#{PAGE[5] + 3}\n0!\n')
    assert plain(text) == LISTED


def test_a_dump_of_all_values_in_the_middle_is_no_edge():
    all_values = f'#{PAGE[5]}\n0!\n#{PAGE[5] + 2}\n$dumpall\n0!\n$end\n#{PAGE[5] + 4}\n$dumpoff\nx!\n$end\n#{PAGE[5] + 6}\n$dumpon\n0!\n$end\n'
    assert plain(vcd(PAGE).replace(f'#{PAGE[5]}\n0!\n', all_values)) == LISTED


@pytest.mark.parametrize('first', ['$dumpvars\n0!\n$end\n#0\n', '#0\n$dumpvars\n0!\n$end\n', '#0\n$dumpvars 0! $end\n', '$dumpvars\nx!\n$end\n#0\n0!\n'])
def test_first_values_in_dumpvars_are_no_edges(first):
    assert plain(vcd(PAGE).replace('#0\n0!\n', first)) == LISTED


def test_comments_in_head_and_body_are_no_values():
    text = vcd(PAGE).replace('$scope', '$comment\n #17 1! $var wire 1 ? no $\n$end\n$scope', 1).replace('#0\n', '#0\n$comment 1! #99999 $end\n', 1)
    assert plain(text) == LISTED


def test_changes_on_the_line_of_their_time_as_sigrok_writes_them_are_read():
    lines = vcd(PAGE).partition('#0\n')
    changes = (lines[1] + lines[2]).replace('\n', ' ').replace('#', '\n#').lstrip()
    assert plain(lines[0] + changes + '\n') == LISTED


def test_all_in_one_line_is_read():
    assert plain(vcd(PAGE).replace('\n', ' ') + '\n') == LISTED


def test_a_second_name_of_the_same_code_is_the_same_wire():
    head = HEAD.replace('$var reg 1 # line $end', '$var reg 1 # line $end\n$var wire 1 # alias $end')
    text = head + body(clock=[3, 9], right=PAGE)
    assert plain(text, wire='top.right.line') == LISTED
    assert plain(text, wire='alias') == LISTED


def test_an_alias_alone_is_no_second_wire_with_edges():
    head = HEAD.replace('$var reg 1 # line $end', '$var reg 1 # line $end\n$var wire 1 # alias $end')
    assert plain(head + body(right=PAGE)) == LISTED


def test_reals_and_strings_are_no_wires():
    head = HEAD.replace('$var wire 1 $ still $end', '$var real 64 $ volts $end\n$var string 1 s words $end')
    text = head + body(right=PAGE).replace('0$', 'r0.5 $\nshello s') + f'#{PAGE[-1] + 5}\nr-1.5e-3 $\nR2 $\n'
    assert plain(text) == LISTED


@pytest.mark.parametrize('name', ['bus [2:0]', 'bus[2:0]', 'bus', 'bus [0:2]', r'\bus.two'])
def test_a_bit_of_a_vector_is_a_wire_by_the_name_that_is_shown(name):
    head = HEAD.replace('$var wire 1 $ still $end', f'$var wire 3 $ {name} $end')
    text = head + '#0\nb0 $\n0!\n' + ''.join(f'#{time}\nb{number % 2 * 2:03b} $\n' for number, time in enumerate(PAGE, 1))
    assert plain(text) == LISTED
    shown = re.search(rf'(\S+) \({len(PAGE)} edges\)', result(text, wire='not there').notes[0])[1]
    assert 'bus' in shown
    assert plain(text, wire=shown) == LISTED


def test_a_short_vector_is_filled_up_with_zeros_in_front():
    head = HEAD.replace('$var wire 1 $ still $end', '$var wire 8 $ bus $end')
    changes = ''.join(f'#{time}\nb{"100" if number % 2 else "0"} $\n' for number, time in enumerate(PAGE, 1))
    assert plain(head + '#0\nb00000000 $\n' + changes) == LISTED


def test_codes_of_many_letters_are_told_apart():
    head = HEAD.replace(' 1 # line', ' 1 !! line').replace(' 1 $ still', ' 1 !" still')
    text = head + body(right=PAGE).replace('#\n', '!!\n').replace('$\n', '!"\n')
    assert plain(text) == LISTED


def test_escaped_names_are_wires_too():
    """The backslash only says that odd letters follow, and is no part of the name."""
    head = HEAD.replace('1 # line', r'1 # \line.one')
    assert plain(head + body(right=PAGE, clock=[5]), wire='top.right.line.one') == LISTED


@pytest.mark.parametrize('range_words, wire, wrong', [(' [0:3]', '[0]', '[3]'), ('[0:3]', '[0]', '[3]'), (' [3:0]', '[3]', '[0]'), (' [7:4]', '[7]', '[3]'),
                                                      ('', '[3]', '[0]'), (' [-2:1]', '[-2]', '[2]'), (' [9:0]', '[3]', '[9]')])
def test_the_bits_of_a_vector_have_the_numbers_that_its_range_gives_them(range_words, wire, wrong):
    """The first digit is that of the first number. A range of another width than the vector says nothing."""
    head = HEAD.replace('1 $ still', f'4 $ bus{range_words}')
    changes = ''.join(f'#{time}\nb{number % 2}000 $\n' for number, time in enumerate(PAGE, 1))
    text = head + '#0\nb0000 $\n' + changes
    assert plain(text, wire=f'bus{wire}') == LISTED
    if wrong in ('[2]', '[9]') or wire == '[7]':
        assert_one_note(result(text, wire=f'bus{wrong}'))
    else:
        assert plain(text, wire=f'bus{wrong}', mode='HSM') == 'mode HSM edges 0\npages 0 bad 0\n'


@pytest.mark.parametrize('high, low', [('1', '0'), ('h', 'l'), ('H', 'L'), ('1', 'L'), ('h', '0')])
def test_weak_values_are_values(high, low):
    changes = ''.join(f'#{time}\n{high if number % 2 else low}!\n' for number, time in enumerate(PAGE, 1))
    assert plain(vcd([]) + changes) == LISTED


@pytest.mark.parametrize('digits', ['x', 'xx', 'z', 'x0', 'x00'])
def test_an_unknown_value_of_a_vector_fills_the_bits_in_front_of_it(digits):
    """Where digits are left out a 0 or a 1 is followed by zeros in front, and an x or z by itself."""
    head = HEAD.replace('1 $ still', '4 $ bus')
    found = result(head + f'#0\nb0000 $\n#100\nb{digits} $\n#130\nb1000 $\n', wire='bus[3]', mode='HSM')
    assert found.text.startswith('mode HSM edges 1\n') and any('1 time' in note for note in found.notes)


@pytest.mark.parametrize('changes, times', [('x!\n#20\n1!', '1 time'), ('x!\n#20\nz!\n#30\n1!\n#40\nx!\n#50\n0!', '3 times')])
def test_how_often_a_wire_was_unknown_is_told(changes, times):
    assert any(times in note for note in result(vcd([]) + f'#10\n{changes}\n', mode='HSM').notes)


def test_a_wire_whose_first_value_comes_late_is_said_to_have_been_unknown():
    text = HEAD + '#0\n0!\n0"\n0$\n#100\n1#\n#130\n0#\n#160\n1#\n'
    found = result(text, wire='top.right.line', mode='HSM')
    assert found.text.startswith('mode HSM edges 2\n') and any('1 time' in note for note in found.notes)


def test_a_dump_that_says_that_its_limit_was_exceeded_is_cut():
    found = result(vcd(PAGE) + '$comment Dump file limit (600 bytes) exceeded. $end\n')
    assert_one_note(found)
    assert 'cut' in found.notes[0]


@pytest.mark.parametrize('words', ['No limit was exceeded', 'rate limit $end\n$comment exceeded', 'the file limit of the dump was not exceeded'])
def test_a_comment_that_says_nothing_of_a_limit_that_was_reached_is_passed_over(words):
    assert plain(vcd(PAGE) + f'$comment {words} $end\n') == LISTED


@pytest.mark.parametrize('word', ['$dumpvar', '$Dumpvars', '$dumpvarz', '$commen', '$', '$timescale', '$var'])
def test_a_word_that_is_none_of_the_body_is_said_and_swallows_no_values(word):
    whole, damaged = (vcd(PAGE).replace('#0\n0!\n', f'#0\n{here}\n0!\n$end\n') for here in ('$dumpvars', word))
    assert plain(whole) == LISTED
    assert_one_note(result(damaged))


@pytest.mark.parametrize('end', ['$comment the end', '$dumpvars\n0!', '$dumpoff\nx!'])
def test_a_comment_or_a_dump_without_its_end_is_cut(end):
    found = result(vcd(PAGE) + f'{end}\n')
    assert_one_note(found)
    assert 'cut' in found.notes[0]


def test_a_comment_that_names_another_clock_is_no_rate_of_samples():
    found = result('$comment PLL runs at 25 MHz $end\n' + vcd(PAGE))
    assert not any('coarse' in note for note in found.notes)


def test_more_lines_than_a_capture_has_are_refused_at_once():
    many = ''.join(f'$var wire 9999 a{number} v $end\n' for number in range(300))
    assert_one_note(result(f'$timescale 1 ns $end\n{many}$enddefinitions $end\n#0\n'))


def test_a_wire_without_a_name_is_called_by_its_code():
    assert plain(HEAD.replace('1 # line', '1 #') + body(right=PAGE, clock=[5]), wire='#') == LISTED


def test_a_time_that_goes_back_is_said():
    assert_one_note(result(vcd(PAGE) + '#17\n1!\n'))


@pytest.mark.parametrize('change', ['2!', '1', '1?', 'b01', 'b01 ?', '#', '#-5', '#1.5', 'q', 'b !', '1!!', '!'])
def test_a_change_that_is_none_is_said(change):
    assert_one_note(result(vcd(PAGE) + f'{change}\n'))


def test_times_of_more_than_32_bits_are_kept():
    """A gap of a whole multiple of 2^32 ns looks like none on the clock; it is still quiet."""
    for gap in 2 ** 32, 2 ** 32 + 30, 2 ** 33 - 1, 5 * 2 ** 32 + 60, 2 ** 40:
        edges = pages_apart(HSM, [WORD, 7, WORD], gap)
        found = result(vcd(edges), mode='HSM')
        attempts = plain_reader.read(HSM, edges)
        assert [(line.text, line.began) for line in told(found.text)] == [(attempt.line(), edges[attempt.first]) for attempt in attempts]


def test_a_vcd_without_changes_has_no_attempts():
    assert plain(vcd([], 1000), mode='LSM') == 'mode LSM edges 0\npages 0 bad 0\n'


def test_a_vcd_without_wires_is_said():
    assert_one_note(result(HEAD.partition('$scope')[0] + '$enddefinitions $end\n#0\n#100\n'))


@pytest.mark.parametrize('text', ['$', '$end\n', '$enddefinitions $end\n', '$timescale 1 ns $end\n', HEAD, '$var\n', HEAD.replace('$end\n$enddefinitions', '')])
def test_a_head_alone_or_astray_is_said(text):
    assert_one_note(result(text))
