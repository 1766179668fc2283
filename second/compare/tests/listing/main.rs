//! The program `listing` against the reference. It needs MASTSTEP_LISTING, the path of
//! the program; without it every test here fails and says so.

mod examples;
mod random_inputs;
