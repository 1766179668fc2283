//! The six events of a device, and how three cells name one.

/// What happens to a device, apart from when.
#[derive(Clone, Copy, Debug, PartialEq)]
pub enum Event {
    Edge,
    Tick { draw: u64 },
    Sent,
    Link { is_up: bool },
    Read { register: u64 },
    Write { register: u64, value: u16 },
}

/// The event of this kind with this argument. The whole cells are looked at: a kind or a
/// register of 2^32 is none. Kinds that 01 does not name have no event.
pub fn event(kind: u64, argument: u64) -> Option<Event> {
    match kind {
        0 => Some(Event::Edge),
        1 => Some(Event::Tick {
            draw: argument % 32,
        }),
        2 => Some(Event::Sent),
        3 => Some(Event::Link {
            is_up: argument != 0,
        }),
        4 => Some(Event::Read { register: argument }),
        5 => Some(Event::Write {
            register: argument >> 16,
            value: argument as u16,
        }),
        _ => None,
    }
}

#[cfg(test)]
mod tests {
    use super::*;

    #[test]
    fn the_whole_cells_are_looked_at() {
        assert_eq!(event(1 << 32, 0), None);
        assert_eq!(event(6, 0), None);
        assert_eq!(event(3, 1 << 63), Some(Event::Link { is_up: true }));
        let register = (1 << 32) + 512;
        assert_eq!(event(4, register), Some(Event::Read { register }));
        let write = Event::Write {
            register,
            value: 0x9ABC,
        };
        assert_eq!(event(5, register << 16 | 0x9ABC), Some(write));
    }

    #[test]
    fn the_draw_is_taken_modulo_32() {
        assert_eq!(event(1, (7 << 40) + 35), Some(Event::Tick { draw: 3 }));
    }
}
