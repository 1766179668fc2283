//! Holding the output of `drive` against what the model gives.

use crate::call::{all_cells, printed, Call};
use crate::cells::{to_bytes, whole_cells, CELL_BYTES, MOST_CELLS};
use crate::{drive, model};

/// More differences than this are not printed.
const MOST_PRINTED: usize = 5;

/// Sends all calls, in batches as full as the limit lets, and fails the test if one
/// answer cell differs.
pub fn assert_agreement(calls: &[Call]) {
    assert_scripts_agree(&batch_inputs(calls));
}

/// Sends all calls, in batches as full as the limit lets, and gives the answer cells of
/// each call, whatever they are. The model is not asked.
pub fn drives_answers(calls: &[Call]) -> Vec<Vec<u64>> {
    all_answers(calls).unwrap_or_else(|words| panic!("{words}"))
}

/// The same, or words that say why there are no answers.
pub fn all_answers(calls: &[Call]) -> Result<Vec<Vec<u64>>, String> {
    let mut answers = Vec::new();
    for output in drive::run_each(&batch_inputs(calls)) {
        let groups = answer_groups(&output?);
        answers.extend(groups.into_iter().map(|group| group[1..].to_vec()));
    }
    match answers.len() == calls.len() {
        true => Ok(answers),
        false => Err("not every call has an answer of its own".to_string()),
    }
}

fn batch_inputs(calls: &[Call]) -> Vec<Vec<u8>> {
    full_batches(calls)
        .into_iter()
        .map(|batch| to_bytes(&all_cells(batch)))
        .collect()
}

/// Sends each script in a process of its own and fails the test if an output is not
/// exactly that of the model.
pub fn assert_scripts_agree(inputs: &[Vec<u8>]) {
    let mut differences = Vec::new();
    for (input, output) in inputs.iter().zip(drive::run_each(inputs)) {
        match output {
            Ok(output) => differences.extend(script_differences(input, &output)),
            Err(words) => differences.push(format!("{words}\n  {}", described(input))),
        }
    }
    fail_if_any(&differences);
}

/// Sends the calls in one process and fails the test if an answer is not the number
/// beside the call, or if anything differs from the model.
pub fn assert_answers(calls_and_answers: &[(Call, u64)]) {
    let calls: Vec<Call> = calls_and_answers
        .iter()
        .map(|pair| pair.0.clone())
        .collect();
    let input = to_bytes(&all_cells(&calls));
    let output = drive::run(&input).unwrap_or_else(|words| panic!("{words}"));
    let mut differences = script_differences(&input, &output);
    let answers = first_answer_cells(&output, calls.len());
    for ((call, expected), got) in calls_and_answers.iter().zip(answers) {
        if got != Some(*expected) {
            differences.push(format!(
                "{call}\n  expected answer {expected:#x}, got {}",
                shown(got.as_ref())
            ));
        }
    }
    fail_if_any(&differences);
}

/// Sends the calls and fails the test if the answer cells of one, or those of the model,
/// are not the cells beside it.
pub fn assert_answer_cells(calls_and_cells: &[(Call, Vec<u64>)]) {
    let calls: Vec<Call> = calls_and_cells.iter().map(|pair| pair.0.clone()).collect();
    let with_their_number = |cells: &[u64]| [&[cells.len() as u64], cells].concat();
    let mut differences = Vec::new();
    for ((call, expected), got) in calls_and_cells.iter().zip(drives_answers(&calls)) {
        if *expected != got {
            let (expected, got) = (with_their_number(expected), with_their_number(&got));
            differences.push(call_difference(call, &expected, Some(&got)));
        }
        if model::answer_cells(call) != *expected {
            differences.push(format!("{call}\n  the model differs"));
        }
    }
    fail_if_any(&differences);
}

/// Sends all calls in one process and fails the test unless these cells come out. The
/// model is not asked.
pub fn assert_output(calls: &[Call], expected: &[u64]) {
    let output = drive::run(&to_bytes(&all_cells(calls))).expect("drive ends well");
    let same_cells = whole_cells(&output)
        .iter()
        .zip(expected)
        .take_while(|(got, expected)| got == expected)
        .count();
    assert!(
        output == to_bytes(expected),
        "{} cells expected, {} bytes came, of which the first {same_cells} cells are right",
        expected.len(),
        output.len()
    );
}

/// Sends the calls in many orders and fails the test unless each is always answered as if
/// it were sent alone. The model is not asked.
pub fn assert_rows_do_not_disturb(calls: &[Call]) {
    let output = |calls: &[&Call]| {
        let cells: Vec<u64> = calls.iter().flat_map(|call| call.cells()).collect();
        drive::run(&to_bytes(&cells)).expect("drive ends well")
    };
    let alone: Vec<Vec<u8>> = calls.iter().map(|call| output(&[call])).collect();
    for turned in 0..calls.len() {
        let order: Vec<usize> = (0..calls.len())
            .map(|place| (place + turned) % calls.len())
            .collect();
        let backwards: Vec<usize> = order.iter().copied().rev().collect();
        for order in [order, backwards] {
            let row: Vec<&Call> = order.iter().map(|index| &calls[*index]).collect();
            let expected: Vec<u8> = order
                .iter()
                .flat_map(|index| alone[*index].clone())
                .collect();
            assert!(output(&row) == expected, "in the order {order:?}");
        }
    }
}

/// Sends the calls in one process and gives the first answer cell of each, if it has one.
pub fn answers(calls: &[Call]) -> Result<Vec<Option<u64>>, String> {
    let output = drive::run(&to_bytes(&all_cells(calls)))?;
    Ok(first_answer_cells(&output, calls.len()))
}

fn first_answer_cells(output: &[u8], calls: usize) -> Vec<Option<u64>> {
    let groups = answer_groups(output);
    (0..calls)
        .map(|call| groups.get(call).and_then(|group| group.get(1)).copied())
        .collect()
}

fn full_batches(calls: &[Call]) -> Vec<&[Call]> {
    let mut batches = Vec::new();
    let (mut start, mut cells) = (0, 0);
    for (index, call) in calls.iter().enumerate() {
        if cells + call.length() > MOST_CELLS {
            batches.push(&calls[start..index]);
            (start, cells) = (index, 0);
        }
        cells += call.length();
    }
    batches.push(&calls[start..]);
    batches
}

/// In words, what of the output is not as the model gives it.
fn script_differences(input: &[u8], output: &[u8]) -> Vec<String> {
    let expected = model::output(input);
    if expected == output {
        return Vec::new();
    }
    let (expected, got) = (answer_groups(&expected), answer_groups(output));
    let calls = model::whole_calls(input);
    let mut differences: Vec<String> = calls
        .iter()
        .enumerate()
        .filter(|(index, _)| expected.get(*index) != got.get(*index))
        .map(|(index, call)| call_difference(call, &expected[index], got.get(index)))
        .collect();
    if differences.is_empty() {
        let length = output.len();
        differences.push(format!(
            "after the answers of all {} whole calls more was written, {length} bytes in all\n  {}",
            calls.len(),
            described(input)
        ));
    }
    differences
}

/// The output cut into one group for each call: the number of answer cells, and then
/// these. The numbers are those that the output itself gives, right or wrong.
fn answer_groups(output: &[u8]) -> Vec<Vec<u64>> {
    let cells = whole_cells(output);
    let mut rest = &cells[..];
    let mut groups = Vec::new();
    while let [number, after @ ..] = rest {
        let number = usize::try_from(*number).unwrap_or(usize::MAX);
        let group_length = 1 + number.min(after.len());
        groups.push(rest[..group_length].to_vec());
        rest = &rest[group_length..];
    }
    groups
}

fn call_difference(call: &Call, expected: &[u64], got: Option<&Vec<u64>>) -> String {
    let Some(got) = got else {
        return format!("{call}\n  expected {}, got no answer", printed(expected));
    };
    let place = (0..)
        .find(|place| expected.get(*place) != got.get(*place))
        .expect("the two differ");
    format!(
        "{call}\n  expected {}\n  got      {}\n  \
         first difference at cell {place}, cell 0 being the number of answer cells: \
         expected {}, got {}",
        printed(expected),
        printed(got),
        shown(expected.get(place)),
        shown(got.get(place))
    )
}

fn shown(cell: Option<&u64>) -> String {
    cell.map_or("nothing".to_string(), |cell| format!("{cell:#x}"))
}

fn described(input: &[u8]) -> String {
    format!(
        "the input has {} cells and {} bytes more: {}",
        input.len() / CELL_BYTES,
        input.len() % CELL_BYTES,
        printed(&whole_cells(input))
    )
}

/// Fails the test with the first of these words, if there are any.
pub fn fail_if_any(differences: &[String]) {
    if !differences.is_empty() {
        let number = differences.len();
        let first = &differences[..number.min(MOST_PRINTED)];
        panic!("differences: {number}; the first are\n{}", first.join("\n"));
    }
}
