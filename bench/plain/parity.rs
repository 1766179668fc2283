//! The parity of a frame in plain Rust: the same register, pushed on by three rows of a table of 24 that is made for each burst.
use crate::Refusal;

/// The data symbols of a frame.
const DATA: usize = 406;

/// The parity symbols of a frame, which are those of a register.
const PARITY: usize = 44;

/// The entries of a state: a register, then the number of symbols taken.
const STATE: usize = PARITY + 1;

type Row = [u16; PARITY];

/// The generator's coefficients below the highest, which is one: that of Z^43 first.
const LOWER: Row = [
    208, 296, 68, 454, 338, 441, 123, 486, 328, 343, 226, 42, 196, 496, 34, 451, 480, 362, 268, 264, 128, 311, 159, 483, 394,
    239, 178, 63, 484, 26, 391, 194, 312, 421, 105, 384, 148, 356, 350, 347, 237, 335, 89, 355,
];

/// A row times alpha, the root of x^9 + x^4 + 1.
fn times_alpha(row: Row) -> Row {
    let mut out = [0; PARITY];
    for at in 0..PARITY {
        let symbol = row[at];
        out[at] = if symbol < 256 { symbol * 2 } else { symbol * 2 ^ 0x211 };
    }
    out
}

fn sum(one: Row, other: Row) -> Row {
    let mut out = [0; PARITY];
    for at in 0..PARITY {
        out[at] = one[at] ^ other[at];
    }
    out
}

/// The lower coefficients times 0 to 7, times 0, 8, .. 56, and times 0, 64, .. 448. All rows stand here one by one, as in
/// maststep's: from loops over them the compiler works nothing out beforehand.
fn table() -> [Row; 24] {
    let row_1 = LOWER;
    let row_2 = times_alpha(row_1);
    let row_4 = times_alpha(row_2);
    let row_8 = times_alpha(row_4);
    let row_16 = times_alpha(row_8);
    let row_32 = times_alpha(row_16);
    let row_64 = times_alpha(row_32);
    let row_128 = times_alpha(row_64);
    let row_256 = times_alpha(row_128);
    [
        [0; PARITY],
        row_1,
        row_2,
        sum(row_1, row_2),
        row_4,
        sum(row_1, row_4),
        sum(row_2, row_4),
        sum(sum(row_1, row_2), row_4),
        [0; PARITY],
        row_8,
        row_16,
        sum(row_8, row_16),
        row_32,
        sum(row_8, row_32),
        sum(row_16, row_32),
        sum(sum(row_8, row_16), row_32),
        [0; PARITY],
        row_64,
        row_128,
        sum(row_64, row_128),
        row_256,
        sum(row_64, row_256),
        sum(row_128, row_256),
        sum(sum(row_64, row_128), row_256),
    ]
}

/// Pushes a symbol into a register, behind which a zero stands, so that each place has a next one.
fn push(register: &mut [u16; STATE], symbol: u16, table: &[Row; 24]) {
    let first = usize::from(register[0] ^ symbol);
    let low = &table[first % 8];
    let middle = &table[first / 8 % 8 + 8];
    let high = &table[first / 64 % 8 + 16];
    for at in 0..PARITY {
        register[at] = register[at + 1] ^ low[at] ^ middle[at] ^ high[at];
    }
}

/// Whether all numbers of a list are symbols. It goes on to the last, whatever it meets, so that the compiler takes
/// several in a turn.
fn are_symbols(list: &[u16]) -> bool {
    list.iter().fold(0, |bits, number| bits | number) < 512
}

/// Takes a burst into a state: the number of symbols taken so far. The register is pushed on where it stands.
pub(crate) fn take(state: &mut [u16], burst: &[u16]) -> Result<u64, Refusal> {
    let first = state.get_mut(..STATE).and_then(|first| first.try_into().ok());
    let state: &mut [u16; STATE] = first.ok_or(Refusal::Room)?;
    let count = usize::from(state[PARITY]) + burst.len();
    if burst.len() > DATA || count > DATA {
        return Err(Refusal::Count);
    }
    if !are_symbols(&state[..PARITY]) || !are_symbols(burst) {
        return Err(Refusal::Symbol);
    }
    let table = table();
    state[PARITY] = 0;
    for &symbol in burst {
        push(state, symbol, &table);
    }
    state[PARITY] = count as u16;
    Ok(count as u64)
}

/// Gives the parity symbols of a state that has taken all data of a frame: their number.
pub(crate) fn finish(state: &[u16], parity: &mut [u16]) -> Result<u64, Refusal> {
    let state = state.get(..STATE).ok_or(Refusal::Room)?;
    let parity = parity.get_mut(..PARITY).ok_or(Refusal::Room)?;
    if usize::from(state[PARITY]) != DATA {
        return Err(Refusal::Count);
    }
    let register = &state[..PARITY];
    if !are_symbols(register) {
        return Err(Refusal::Symbol);
    }
    parity.copy_from_slice(register);
    Ok(PARITY as u64)
}
