//! The program `drive` against the reference. It needs MASTSTEP_DRIVE, the path of the
//! program; without it every test here fails and says so.
//!
//! All tests are in one test program, so that they can run side by side.

mod by_doubling;
mod edges;
mod every_gap;
mod every_place;
mod frames_of_parity;
mod hosted_modules;
mod joined;
mod joined_hosts;
mod messages;
mod next_page_script;
mod next_pages_met;
mod parity;
mod parity_by_drive;
mod points_of_lost;
mod points_of_negotiation;
mod points_of_next_pages;
mod points_of_registers;
mod protocol;
mod random_calls;
mod random_captures;
mod random_messages;
mod random_parity;
mod random_scripts;
mod reading;
mod resolving;
mod runs;
mod same_after_break;
mod script;
mod settling_log;
mod walk;
