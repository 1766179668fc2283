"""CSV as analysers, spreadsheets and other countries write it: quotes, separators, units, dates, columns that are no wires, and rows that are damaged."""
from fractions import Fraction

import pytest

import plain_reader
from bench_tools import assert_one_note, file_of, plain, ran, result, told
from made_captures import saleae, session_of_samples, sigrok, vcd, written_page
from plain_reader import HSM, LSM

WORD = 0x5A8F00850001
PAGE = plain_reader.page(HSM, WORD, 500)
LISTED = plain_reader.text(HSM, PAGE)
UNITS = {'s': 10 ** 9, 'S': 10 ** 9, 'ms': 10 ** 6, 'us': 1000, 'µs': 1000, 'uS': 1000, 'ns': 1, 'nS': 1, 'NS': 1, 'ps': Fraction(1, 1000), 'fs': Fraction(1, 10 ** 6)}


def rows(edges, cell=lambda time: f'{time}', separator=',', before=''):
    """The rows of a wire that is 0 first: the time by a rule, other cells, and the value."""
    return ''.join(f'{cell(time)}{separator}{before}{number % 2}\n' for number, time in enumerate([0, *edges]))


def in_seconds(time):
    return f'{time // 10 ** 9}.{time % 10 ** 9:09d}'


@pytest.mark.parametrize('unit', UNITS)
def test_times_count_in_the_unit_that_the_head_names(unit):
    text = f'Time [{unit}],line\n' + rows(PAGE, lambda time: f'{float(Fraction(time) / UNITS[unit]):.9f}'.rstrip('0'))
    assert plain(text) == LISTED


@pytest.mark.parametrize('unit', ['min', 'h', 'samples', 'V', 'x'])
def test_a_unit_that_is_not_known_is_said_and_never_taken_for_seconds(unit):
    found = result(f'Time [{unit}],line\n' + rows(PAGE))
    assert_one_note(found)
    assert unit in found.notes[0] and 'unit' in found.notes[0]


@pytest.mark.parametrize('half', [0, 1])
def test_a_gap_of_whole_ns_stays_as_long_wherever_it_begins(half):
    """From half a ns to half a ns it is 39 ns, which is the longest position; rounded to even numbers it would be 40."""
    text = 'Time [ns],line\n' + rows([time + half for time in (0, 39, 78)], lambda time: f'{time}.5')
    assert plain(text, mode='HSM') == plain_reader.text(HSM, [0, 39, 78])


def test_names_between_quotation_marks_may_have_commas():
    text = 'Time [s],"A, B",C\n' + rows(PAGE, in_seconds, before='0,')
    for wire in None, 'C':
        assert plain(text, wire=wire) == LISTED
    assert plain(text, wire='A, B', mode='HSM') == 'mode HSM edges 0\npages 0 bad 0\n'


def test_every_cell_may_stand_between_quotation_marks():
    text = 'Time [s],line\n' + rows(PAGE, in_seconds)
    assert plain(''.join('"' + line.replace(',', '","') + '"\n' for line in text.split('\n')[:-1])) == LISTED


@pytest.mark.parametrize('separator', [';', '\t'])
def test_a_decimal_comma_is_a_point_where_columns_are_parted_by_something_else(separator):
    text = f'Time [s]{separator}line, the left one\n' + rows(PAGE, lambda time: in_seconds(time).replace('.', ','), separator)
    assert plain(text) == LISTED


def test_a_decimal_comma_between_quotation_marks_is_a_point():
    assert plain('Time [s],line\n' + rows(PAGE, lambda time: f'"{in_seconds(time)}"'.replace('.', ','))) == LISTED


def test_dates_may_have_a_decimal_comma():
    text = 'Time;line\n' + rows(PAGE, lambda time: f'2026-11-17 12:00:00,{time:09d}', ';')
    assert told(result(text).text)[0].began == 500


@pytest.mark.parametrize('zone', ['', 'Z', '+00:00', '+02:00', '-11:30'])
def test_dates_count_from_the_first_row_on(zone):
    """As Saleae's Logic writes them where one asks for them; the page goes over a midnight."""
    def date(time):
        return f'2026-12-{31 if time < 2000 else 32}T'.replace('2026-12-32', '2027-01-01') + ('23:59:59' if time < 2000 else '00:00:00') \
            + f'.{(time + 999_998_000) % 10 ** 9:09d}{zone}'
    found = result('Time,line\n' + rows(PAGE, date))
    line, = told(found.text)
    assert (line.text, line.began) == (f'1 good {WORD:012x}', 500)


@pytest.mark.parametrize('head', ['Timestamp', 'Timestamp [s]', 'Zeit [s]', 't/s', 'Time [10 ns]', 'Time (ns, rel)', '', 'h:m:s'])
@pytest.mark.parametrize('comment', ['', '# Sample rate: 500 MHz\n'])
def test_a_first_column_that_may_have_times_under_another_name_is_said(head, comment):
    """Its rows must not be counted as samples: with a rate that would give a listing, and a wrong one."""
    for cell in in_seconds, lambda time: f'00:00:{in_seconds(time)}':
        found = result(f'{comment}"{head}",line\n' + rows(PAGE, cell))
        assert_one_note(found)
        assert 'Time [s]' in found.notes[0]


@pytest.mark.parametrize('name', ['s', 'FS', 'ns', 'Time', 'Sample', 'index', 'D0'])
@pytest.mark.parametrize('comment', ['', '; Channels (2/2): {name}, line\n'])
@pytest.mark.parametrize('idle', ['0', '1', None], ids=['low', 'high', 'moving'])
def test_a_channel_may_be_called_as_times_are(name, comment, idle):
    samples = [0, 0, 1, 1, 0, 1, 0, 0]
    text = comment.format(name=name) + f'{name},line\n' + ''.join(f'{idle or number % 2},{value}\n' for number, value in enumerate(samples))
    edges = [200, 400, 500, 600]
    assert plain(text, rate='10M', wire='line', mode='LSM') == plain_reader.text(LSM, edges)


@pytest.mark.parametrize('cell', ['0.5', '2', 'x'])
def test_a_column_without_a_name_that_mostly_has_values_is_no_column_of_times(cell):
    """A damaged cell does not make a clock of it."""
    text = ''.join(f'0,{value}\n' for value in (0, 1, 0, 1, 0, 1)) + f'{cell},0\n'
    found = result(text, rate='10M', wire='column 2', mode='LSM')
    assert found.text.startswith('mode LSM edges 6\n') and told(found.text)[0].began == 100


@pytest.mark.parametrize('head, row', [('Index,Time [s],line', '{index},{time},{value}'), ('Sample,Time [s],line', '{index},{time},{value}'),
                                       ('line,Time [s]', '{value},{time}'), ('delta [s],line', '{delta},{value}'), ('#,Time [s],line', '{index},{time},{value}'),
                                       ('; Time [s],line', '{time},{value}')])
@pytest.mark.parametrize('rate', [None, '24M'])
def test_times_that_are_not_taken_for_times_are_said_and_their_rows_no_samples(head, row, rate):
    times = [0, *PAGE]
    text = head + '\n' + ''.join(row.format(index=index, time=in_seconds(time), value=index % 2, delta=in_seconds(time - times[max(index - 1, 0)])) + '\n'
                                 for index, time in enumerate(times))
    found = result(text, **({'rate': rate} if rate else {}))
    assert_one_note(found)
    assert 'first' in found.notes[0]


@pytest.mark.parametrize('cell', [lambda time: f'{time:,}', lambda time: f'{time:,}'.replace(',', '.'), lambda time: f'"{time:,}"'])
def test_marks_for_thousands_are_no_decimal_marks(cell):
    separator = ',' if cell(1).startswith('"') else ';'
    found = result(f'Time [ns]{separator}line\n' + rows(PAGE, cell, separator))
    assert_one_note(found)
    assert 'thousands' in found.notes[0]


def test_three_digits_behind_the_point_of_every_time_are_taken_as_they_stand():
    assert plain('Time [us],line\n' + rows(PAGE, lambda time: f'{time / 1000:.3f}')) == LISTED


@pytest.mark.parametrize('digits', [0, 2, 4])
def test_times_that_are_rounded_until_most_are_alike_are_said_to_be(digits):
    found = result('Time [s],line\n' + rows(PAGE, lambda time: f'{1 + time / 10 ** 9:.{digits}f}' if time else '0'), mode='HSM')
    assert any('rounded' in note for note in found.notes) and not any('rounded' in note for note in result(saleae(PAGE)).notes)


@pytest.mark.parametrize('head', ['Time,line\n', ''])
def test_times_whose_unit_nothing_tells_are_said_to_be_taken_as_seconds(head):
    found = result(head + rows(PAGE, in_seconds))
    assert told(found.text)[0].text == f'1 good {WORD:012x}' and any('as seconds' in note for note in found.notes)
    assert not any('as seconds' in note for note in result(saleae(PAGE)).notes)


@pytest.mark.parametrize('text, words', [('Time [s],line\n', 'no rows'), ('Time [s],line\n0,001000000,1\n0,002000000,0\n', 'columns')])
def test_what_is_wrong_with_a_head_or_its_rows_is_said_first(text, words):
    found = result(text)
    assert_one_note(found)
    assert words in found.notes[0]


def test_a_line_that_tells_a_spreadsheet_its_separator_and_old_line_ends_change_nothing():
    text = 'sep=;\nTime [s];line\n' + rows(PAGE, in_seconds, ';')
    assert plain(text) == plain(text.replace('\n', '\r')) == LISTED


def test_raw_samples_with_high_channels_are_no_text():
    found = result(bytes(254 + number % 2 for number in range(300)) + b'\n')
    assert (found.status, found.text) == (1, 'refused 14\n')


def test_samples_that_sigrok_numbers_0_are_known_without_its_rate_too():
    text = '; CSV generated by libsigrok 0.5.2\n; Channels (1/1): line\nsamples,logic\n' + '0,0\n0,1\n' * 20
    found = result(text, rate='125M')
    assert_one_note(found)
    assert '.sr' in found.notes[0]


def test_times_in_whole_numbers_without_a_unit_are_not_listed():
    found = result('Time,line\n' + rows(PAGE))
    assert_one_note(found)
    assert 'unit' in found.notes[0]


@pytest.mark.parametrize('cell', ['7', '', '0.3', 'low', '10', '-'])
@pytest.mark.parametrize('place', [0, 20, -1])
def test_a_cell_that_is_no_value_is_said_with_its_line_and_no_other_column_is_listed_for_it(cell, place):
    lines = ('Time [s],line,clock\n' + ''.join(f'{in_seconds(time)},{number % 2},0\n' for number, time in enumerate([0, *PAGE]))).split('\n')[:-1]
    number = range(1, len(lines))[place]
    time, _, still = lines[number].split(',')
    lines[number] = f'{time},{cell},{still}'
    found = result('\n'.join([*lines, '']))
    assert_one_note(found)
    assert f'line {number + 1}' in found.notes[0] and "'line'" in found.notes[0]


@pytest.mark.parametrize('behind', [50, 0])
def test_a_few_damaged_cells_of_a_wire_that_stands_still_are_damage_and_no_voltage(behind):
    """Rows that are alike count each by itself, at the end as well."""
    cells = ['0'] * (100 - behind) + ['7', '8', '9', '5'] + ['0'] * behind
    text = '; Samplerate: 10 MHz\nline,other\n' + ''.join(f'{cell},{int(number > 60)}\n' for number, cell in enumerate(cells))
    found = result(text)
    assert_one_note(found)
    assert '--wire' in found.notes[0]
    assert "'line'" in result(text, wire='line').notes[0] and f'line {103 - behind}' in result(text, wire='line').notes[0]
    assert plain(text, wire='other', mode='LSM') == plain_reader.text(LSM, [6100])


@pytest.mark.parametrize('letter', ['"', '\xa0', '\x85', '\u2003', "'", 'O'])
def test_a_time_with_a_letter_that_is_none_of_a_number_is_said(letter):
    lines = ('Time [s],line\n' + rows(PAGE, in_seconds)).split('\n')
    time, _, value = lines[9].partition(',')
    lines[9] = f'{time[:-1]}{letter},{value}'
    assert_one_note(result('\n'.join(lines)))


def test_of_a_damaged_wire_and_one_that_moves_neither_is_listed_without_a_name():
    text = 'Time [s],line,clock\n' + ''.join(f'{in_seconds(time)},{number % 2 if number != 9 else 7},{number % 2}\n' for number, time in enumerate([0, *PAGE]))
    assert_one_note(result(text))
    assert '--wire' in result(text).notes[0]
    assert plain(text, wire='clock') == LISTED


def test_a_column_of_voltages_is_no_wire():
    text = 'Time [s],volts,line\n' + ''.join(f'{in_seconds(time)},{0 if number == 3 else number / 7},{number % 2}\n' for number, time in enumerate([0, *PAGE]))
    assert plain(text) == LISTED
    assert_one_note(result(text, wire='volts'))


@pytest.mark.parametrize('text', ['Time [s],A\n0,0,0\n0.1,0,1\n', 'Time [s],A,0.0,0\n0.1,1\n0.2,0\n', 'Time [s],A,B\n0,0\n0.1,1\n', 'Time [s],A\n0,0\n0.1\n',
                                  'Time [s],"A,B\n0,0\n0.1,1\n'])
def test_rows_of_another_width_than_the_head_are_said(text):
    found = result(text)
    assert_one_note(found)
    assert 'columns' in found.notes[0] or 'first column' in found.notes[0]


def test_empty_lines_at_both_ends_are_no_rows():
    assert plain('\n\n; a comment\n\nTime [s],line\n' + rows(PAGE, in_seconds) + '\n\n') == LISTED


@pytest.mark.parametrize('change', [lambda line: f';{line}', lambda line: f'#{line}', lambda line: '', lambda line: ' ', lambda line: '\r'])
@pytest.mark.parametrize('text', ['Time [s],line\n' + rows(PAGE, in_seconds), '; Samplerate: 10 MHz\nline\n' + '0\n1\n' * 20], ids=['times', 'samples'])
def test_a_comment_or_an_empty_line_amid_the_rows_is_said_since_a_row_may_be_lost(change, text):
    lines = text.split('\n')
    lines[7] = change(lines[7])
    found = result('\n'.join(lines))
    assert_one_note(found)
    assert 'line 8 is' in found.notes[0] and 'amid the rows' in found.notes[0]


def test_x_and_z_in_a_csv_are_no_values_and_are_counted():
    text = 'Time [ns],line\n0,0\n10,x\n30,1\n45,Z\n50,x\n60,0\n70,x\n90,0\n'
    found = result(text, mode='HSM')
    assert [line.began for line in told(found.text)] == [30] and found.text.startswith('mode HSM edges 2\n')
    assert any('4 times' in note for note in found.notes)


@pytest.mark.parametrize('rate', [300, 400, 600, 800])
def test_times_of_a_file_that_is_not_sigrok_s_count_as_they_stand_whatever_rate_it_says(rate):
    """Only sigrok rounds the time of each sample down, so that numbers of samples count and not times."""
    text = f'# Sample rate: {rate} MHz\nTime [ns],line\n' + rows(PAGE)
    assert plain(text) == LISTED


@pytest.mark.parametrize('output', ['vcd', 'csv', 'csv:label=channel', 'csv:label=off'])
@pytest.mark.parametrize('mode', [HSM, LSM], ids=lambda mode: mode.name)
def test_what_sigrok_converts_in_one_step_lists_as_the_page(output, mode):
    """There is no session between, and sigrok-cli writes a line of its own into the file."""
    content = sigrok('-I', 'vcd', '-i', written_page(WORD, mode, 'one-step.vcd'), '-O', output)
    assert b'META samplerate' in content
    assert told(result(content).text)[0].text == f'1 good {WORD:012x}'


def test_samples_that_sigrok_numbers_0_throughout_are_not_listed_and_the_way_out_is_told():
    content = sigrok('-I', 'vcd', '-i', written_page(WORD, HSM, 'one-step.vcd'), '-O', 'csv:time=true:dedup=true')
    found = result(content)
    assert_one_note(found)
    assert '.sr' in found.notes[0]


@pytest.mark.parametrize('rate, words', [(24_000_000, '24 MS/s'), (500_000, '500 kS/s'), (800, '800 S/s')])
def test_rates_in_sigrok_s_own_units_are_understood(rate, words):
    """sigrok writes 500 kHz and 800 Hz."""
    samples = [0, 1] * 40
    for content in session_of_samples(samples, rate), sigrok('-i', session_of_samples(samples, rate), '-O', 'csv'):
        notes = result(content, mode='HSM').notes
        assert any(f'sampled at {words},' in note for note in notes), notes


@pytest.mark.parametrize('given, words', [('24', '24 S/s'), ('24k', '24 kS/s'), ('0.024M', '24 kS/s'), ('24M', '24 MS/s'), ('0.024G', '24 MS/s')])
def test_a_rate_that_is_given_is_told_as_it_was_understood(given, words):
    assert any(f'sampled at {words},' in note for note in result('line\n' + '0\n1\n' * 40, rate=given, mode='HSM').notes)


def test_a_rate_that_is_given_counts_for_files_with_times_too_and_is_not_used_where_the_file_says_another():
    for content in saleae(PAGE), vcd(PAGE):
        assert any('sampled at 24 MS/s' in note for note in result(content, rate='24M').notes)
    notes = result('; Samplerate: 500 MHz\n' + saleae(PAGE), rate='24M').notes
    assert any('--rate is not used' in note and '500 MS/s' in note for note in notes) and not any('coarse' in note for note in notes)


@pytest.mark.parametrize('encoding', ['latin-1', 'utf-16', 'utf-8-sig', 'utf-16-le', 'utf-16-be'])
@pytest.mark.parametrize('text', [saleae(PAGE, 'Time [s],Gerät 1'), '$date März $end\n' + vcd(PAGE)], ids=['CSV', 'VCD'])
def test_texts_in_other_encodings_are_listed(encoding, text):
    mark = '\ufeff' if encoding in ('utf-16-le', 'utf-16-be') else ''
    assert plain((mark + text).encode(encoding)) == LISTED


@pytest.mark.parametrize('content', [b'\xff\xfeT', b'\xfe\xff\0', b'\xff\xfe\xff\xdf\xff\xdf\x10\n', b'\xff\xfe' + b'\xd8\0' * 2047 + b'\0\xd8' * 9])
def test_bytes_that_look_like_utf_16_and_are_none_are_said_and_harm_no_other_capture(content):
    found = ran('list', file_of(content, 'odd'), file_of(saleae(PAGE), 'good'))
    assert found.status == 1 and 'Traceback' not in found.err and f'1 good {WORD:012x}' in found.out


@pytest.mark.parametrize('before', range(4088, 4098))
def test_a_letter_across_the_end_of_what_is_looked_at_first_changes_nothing(before):
    """A file is known by its first 4096 bytes, and a letter may have two."""
    head = '\ufeff$comment '.encode()
    text = head + b'a' * (before - len(head)) + 'ä $end\n'.encode() + vcd(PAGE).encode()
    assert plain(text) == LISTED


@pytest.mark.parametrize('text', ['Time [s],A\n0.{digits},0\n1,1\n', 'Time [s],A\n{digits},0\n', '; Samplerate: {digits} MHz\nA\n0\n1\n',
                                  '$comment Acquisition with 1/1 channels at {digits} MHz $end\n' + vcd([])])
def test_numbers_of_thousands_of_digits_are_no_numbers(text):
    found = ran('list', '--mode', 'HSM', file_of(text.format(digits='9' * 5000)))
    assert 'Traceback' not in found.err and found.status in (0, 1)
