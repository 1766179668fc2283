//! States and parity symbols that `drive` itself leads to, call by call.

use compare::agreement::drives_answers;
use compare::call::Call;
use reference::answer::number;

/// What `drive` makes of the states, each with the burst beside it. No burst is refused.
pub fn states_after(states_and_bursts: &[(Vec<u64>, &[u64])]) -> Vec<Vec<u64>> {
    let calls: Vec<Call> = states_and_bursts
        .iter()
        .map(|(state, burst)| Call::parity_take(state, burst))
        .collect();
    let mut states = Vec::new();
    for (mut answer, (state, burst)) in drives_answers(&calls).into_iter().zip(states_and_bursts) {
        let after = answer.split_off(1);
        let count = state[44] + burst.len() as u64;
        assert_eq!(answer, [number(count)]);
        assert_eq!((after.len(), after[44]), (45, count));
        states.push(after);
    }
    states
}

/// The parity symbols that `drive` gives of these states. No finish is refused.
pub fn parities(states: &[Vec<u64>]) -> Vec<Vec<u64>> {
    let calls: Vec<Call> = states
        .iter()
        .map(|state| Call::parity_finish(state))
        .collect();
    let mut parities = Vec::new();
    for mut answer in drives_answers(&calls) {
        let parity = answer.split_off(1);
        assert_eq!(answer, [number(44)]);
        assert_eq!(parity.len(), 44);
        parities.push(parity);
    }
    parities
}
