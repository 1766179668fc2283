//! Many random takes and finishes (operations 9 and 10). Whole frames are in
//! `frames_of_parity`.

use compare::agreement::assert_agreement;
use compare::call::Call;
use compare::frames::{any_finish, any_take, DrawnCall, REGISTERS};
use compare::random::Random;
use compare::tally::Tally;

const TAKES: usize = 20_000;
const FINISHES: usize = 30_000;

#[test]
fn random_takes_agree() {
    let takes = draw_and_count(TAKES, any_take, names_of_all_takes(), names_of_take);
    assert_agreement(&takes);
}

#[test]
fn random_finishes_agree() {
    let all = names_of_all_finishes();
    let finishes = draw_and_count(FINISHES, any_finish, all, names_of_finish);
    assert_agreement(&finishes);
}

/// Draws so many calls and fails unless each of all the names is that of one of them.
fn draw_and_count(
    number: usize,
    draw: fn(&mut Random) -> DrawnCall,
    all_names: Vec<String>,
    names: fn(&DrawnCall) -> Vec<String>,
) -> Vec<Call> {
    let mut random = Random::from_environment();
    let mut met = Tally::of(all_names);
    let mut calls = Vec::new();
    for _ in 0..number {
        let drawn = draw(&mut random);
        names(&drawn).iter().for_each(|name| met.meet(name));
        calls.push(drawn.call);
    }
    met.assert_all_met();
    calls
}

const BURST_LENGTHS: [usize; 7] = [0, 1, 2, 9, 405, 406, 407];

const COUNTS_THAT_MAY_BE: [u64; 5] = [0, 1, 404, 405, 406];

const COUNTS_PAST_406: [u64; 6] = [407, 65_535, 65_536, 65_536 + 406, (1 << 32) + 406, u64::MAX];

/// What the random takes have to meet.
fn names_of_all_takes() -> Vec<String> {
    let mut names: Vec<String> = OTHERS_OF_TAKES.map(String::from).to_vec();
    names.extend(names_of_wrong_symbols());
    names.extend((0..44).map(alone_in_the_register));
    for outcome in ["taken", "21", "20"] {
        names.extend(registers(outcome));
        names.extend(COUNTS_THAT_MAY_BE.map(|count| format!("{outcome}: count {count}")));
        names.extend(BURST_LENGTHS.map(|length| format!("{outcome}: burst of {length}")));
    }
    names.extend(COUNTS_PAST_406.map(|count| format!("21: count {count}")));
    // No count lets a burst of 407 pass.
    names.retain(|name| !["taken: burst of 407", "20: burst of 407"].contains(&&name[..]));
    names
}

/// What the random finishes have to meet.
fn names_of_all_finishes() -> Vec<String> {
    let mut names: Vec<String> = OTHERS_OF_FINISHES.map(String::from).to_vec();
    names.extend(names_of_wrong_symbols());
    for place in 0..44 {
        names.extend(RANGES.map(|(range, _)| at_a_place(place, range)));
    }
    for outcome in ["finished", "21", "20"] {
        names.extend(registers(outcome));
    }
    let counts = COUNTS_THAT_MAY_BE[..4].iter().chain(&COUNTS_PAST_406);
    names.extend(counts.map(|count| format!("21: count {count}")));
    names
}

/// Each kind of register with this outcome.
fn registers(outcome: &str) -> Vec<String> {
    let kinds = REGISTERS.iter().map(|(kind, _)| *kind);
    kinds.map(|kind| register(outcome, kind)).collect()
}

fn register(outcome: &str, kind: &str) -> String {
    format!("{outcome}: register of the kind: {kind}")
}

fn names_of_wrong_symbols() -> Vec<String> {
    let values = RANGES.iter().chain(&VALUES);
    values.map(|(value, _)| wrong_symbol(value)).collect()
}

fn wrong_symbol(value: &str) -> String {
    format!("20: a symbol {value}")
}

fn alone_in_the_register(place: usize) -> String {
    format!("20: the only wrong symbol is at place {place:>2} of the register")
}

fn at_a_place(place: usize, range: &str) -> String {
    format!("20: at place {place:>2} of the register a symbol {range}")
}

/// What to call it, and whether a symbol is so.
type Value = (&'static str, fn(u64) -> bool);

/// Each wrong symbol is in one of these.
const RANGES: [Value; 3] = [
    ("from 512 to 65 534", |symbol| {
        (512..65_535).contains(&symbol)
    }),
    ("of 65 535", |symbol| symbol == 65_535),
    ("above 65 535", |symbol| symbol > 65_535),
];

/// Values of wrong symbols to be met besides.
const VALUES: [Value; 6] = [
    ("of 512", |symbol| symbol == 512),
    ("of 1024", |symbol| symbol == 1024),
    ("of 65 536", |symbol| symbol == 65_536),
    ("above 65 536, its lowest 16 bits a right one", |symbol| {
        symbol > 65_536 && symbol % 65_536 < 512
    }),
    ("of 2^32", |symbol| symbol == 1 << 32),
    ("of 2^64 - 1", |symbol| symbol == u64::MAX),
];

const OTHERS_OF_TAKES: [&str; 26] = [
    "too few arguments: none",
    "too few arguments: 1 to 43",
    "too few arguments: 44",
    "taken: from a new frame",
    "taken: a whole frame at once",
    "taken: the last symbols of a frame",
    "taken: nothing, at 406",
    "taken: a burst of zeros",
    "taken: a burst of 511",
    "taken: a burst with one symbol that is not zero",
    "21: nothing else wrong",
    "21: the register wrong too",
    "21: the burst wrong too",
    "21: the register and the burst wrong too",
    "21: one symbol too many",
    "21: nothing comes, the count is past 406",
    "21: the burst alone is too long",
    "21: the sum less 65 536 would do",
    "21: the lowest 16 bits of the count would do",
    "20: the register alone",
    "20: the burst alone",
    "20: the register and the burst",
    "20: the only wrong symbol is the first of the burst",
    "20: the only wrong symbol is the last of the burst",
    "20: the only wrong symbol is inside the burst",
    "20: several wrong symbols in the burst",
];

const OTHERS_OF_FINISHES: [&str; 7] = [
    "finished: with further arguments",
    "21: nothing else wrong",
    "21: the register wrong too",
    "21: with further arguments",
    "21: the lowest 16 bits of the count would do",
    "20: several wrong symbols",
    "20: with further arguments",
];

/// What can be seen of the arguments of a call. The reference is not asked.
struct Arguments<'a> {
    register: &'a [u64],
    count: u64,
    /// The arguments after the state.
    others: &'a [u64],
}

/// The arguments, if they are not too few.
fn seen(arguments: &[u64]) -> Option<Arguments<'_>> {
    let (state, others) = (arguments.get(..45)?, &arguments[45..]);
    let (register, count) = (&state[..44], state[44]);
    Some(Arguments {
        register,
        count,
        others,
    })
}

/// The places of all symbols that are none.
fn wrong_places(symbols: &[u64]) -> Vec<usize> {
    let is_wrong = |place: &usize| symbols[*place] >= 512;
    (0..symbols.len()).filter(is_wrong).collect()
}

fn names_of_take(take: &DrawnCall) -> Vec<String> {
    let Some(seen) = seen(&take.call.arguments) else {
        let name = match take.call.arguments.len() {
            0 => "too few arguments: none",
            44 => "too few arguments: 44",
            _ => "too few arguments: 1 to 43",
        };
        return vec![name.to_string()];
    };
    let length = seen.others.len();
    let is_wrong = [seen.register, seen.others].map(|row| !wrong_places(row).is_empty());
    let (outcome, mut names) = match seen.count.saturating_add(length as u64) {
        407.. => ("21", names_of_count(&seen, is_wrong)),
        _ if is_wrong != [false, false] => ("20", names_of_symbol(&seen)),
        _ => ("taken", names_of_taken(&seen)),
    };
    names.push(register(outcome, take.register));
    names.push(format!("{outcome}: count {}", seen.count));
    names.push(format!("{outcome}: burst of {length}"));
    names
}

fn names_of_taken(take: &Arguments) -> Vec<String> {
    let burst = take.others;
    let after = take.count + burst.len() as u64;
    let is_new = take.count == 0 && take.register == [0; 44];
    let are_all = |symbol| !burst.is_empty() && burst.iter().all(|other| *other == symbol);
    let others_than_zero = burst.iter().filter(|symbol| **symbol != 0).count();
    let so = [
        (is_new, "from a new frame"),
        (is_new && after == 406, "a whole frame at once"),
        (
            !burst.is_empty() && !is_new && after == 406,
            "the last symbols of a frame",
        ),
        (burst.is_empty() && after == 406, "nothing, at 406"),
        (are_all(0), "a burst of zeros"),
        (are_all(511), "a burst of 511"),
        (
            burst.len() > 1 && others_than_zero == 1,
            "a burst with one symbol that is not zero",
        ),
    ];
    those_that_are_so("taken", &so)
}

/// The names of a take that is refused as Count, with register and burst wrong or not.
fn names_of_count(take: &Arguments, is_wrong: [bool; 2]) -> Vec<String> {
    let length = take.others.len() as u64;
    let held_sum = take.count.min(65_535) + length;
    let would_do = (65_536..=65_536 + 406).contains(&held_sum);
    let low_bits_would_do = take.count > 65_535 && take.count % 65_536 + length <= 406;
    let so = [
        (is_wrong == [false, false], "nothing else wrong"),
        (is_wrong == [true, false], "the register wrong too"),
        (is_wrong == [false, true], "the burst wrong too"),
        (
            is_wrong == [true, true],
            "the register and the burst wrong too",
        ),
        (held_sum == 407, "one symbol too many"),
        (length == 0, "nothing comes, the count is past 406"),
        (take.count == 0, "the burst alone is too long"),
        (would_do, "the sum less 65 536 would do"),
        (
            low_bits_would_do,
            "the lowest 16 bits of the count would do",
        ),
    ];
    those_that_are_so("21", &so)
}

/// The names of a take that is refused as Symbol.
fn names_of_symbol(take: &Arguments) -> Vec<String> {
    let burst = take.others;
    let (in_register, in_burst) = (wrong_places(take.register), wrong_places(burst));
    let is_alone = in_register.is_empty() && in_burst.len() == 1;
    let place = in_burst.first().copied().unwrap_or(0);
    let is_first = place == 0;
    let is_last = place + 1 == burst.len();
    let both = !in_register.is_empty() && !in_burst.is_empty();
    let so = [
        (in_burst.is_empty(), "the register alone"),
        (in_register.is_empty(), "the burst alone"),
        (both, "the register and the burst"),
        (
            is_alone && is_first,
            "the only wrong symbol is the first of the burst",
        ),
        (
            is_alone && is_last,
            "the only wrong symbol is the last of the burst",
        ),
        (
            is_alone && !is_first && !is_last,
            "the only wrong symbol is inside the burst",
        ),
        (in_burst.len() > 1, "several wrong symbols in the burst"),
    ];
    let mut names = those_that_are_so("20", &so);
    if in_burst.is_empty() && in_register.len() == 1 {
        names.push(alone_in_the_register(in_register[0]));
    }
    names.extend(names_of_values(take.register));
    names.extend(names_of_values(burst));
    names
}

fn names_of_values(symbols: &[u64]) -> Vec<String> {
    let mut names = Vec::new();
    for symbol in symbols {
        let values = RANGES.iter().chain(&VALUES);
        let so = values.filter(|(_, is_so)| is_so(*symbol));
        names.extend(so.map(|(value, _)| wrong_symbol(value)));
    }
    names
}

/// The range of each wrong symbol of the register, with its place.
fn names_of_places(register: &[u64]) -> Vec<String> {
    let mut names = Vec::new();
    for (place, symbol) in register.iter().enumerate() {
        let so = RANGES.iter().filter(|(_, is_so)| is_so(*symbol));
        names.extend(so.map(|(range, _)| at_a_place(place, range)));
    }
    names
}

fn names_of_finish(finish: &DrawnCall) -> Vec<String> {
    let seen = seen(&finish.call.arguments).expect("finishes have a whole state");
    let wrong = wrong_places(seen.register);
    let outcome = match (seen.count, wrong.is_empty()) {
        (406, true) => "finished",
        (406, false) => "20",
        _ => "21",
    };
    let low_bits_would_do = seen.count > 406 && seen.count % 65_536 == 406;
    let so = [
        (!seen.others.is_empty(), "with further arguments"),
        (wrong.is_empty(), "nothing else wrong"),
        (!wrong.is_empty(), "the register wrong too"),
        (
            low_bits_would_do,
            "the lowest 16 bits of the count would do",
        ),
        (wrong.len() > 1, "several wrong symbols"),
    ];
    let mut names = those_that_are_so(outcome, &so);
    names.push(register(outcome, finish.register));
    names.push(format!("{outcome}: count {}", seen.count));
    if outcome == "20" {
        names.extend(names_of_values(seen.register));
        names.extend(names_of_places(seen.register));
    }
    names
}

/// The names of what is so, each behind the word for the outcome.
fn those_that_are_so(outcome: &str, names: &[(bool, &str)]) -> Vec<String> {
    let so = names.iter().filter(|(is_so, _)| *is_so);
    so.map(|(_, name)| format!("{outcome}: {name}")).collect()
}
