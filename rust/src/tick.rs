//! A tick, and its record in a script.

/// Bytes of a tick record.
pub(crate) const RECORD: usize = 8;

/// What a tick brings. The default is a tick that brings nothing.
///
/// ```
/// use tollsalmon::Tick;
///
/// let both_arrive = Tick { mask: 0b11, signal: 0, early: false };
/// let guest_2_answers = Tick { signal: 2, ..Tick::default() };
/// assert_eq!(both_arrive, Tick::arrivals(&[1, 2]));
/// assert_ne!(both_arrive, guest_2_answers);
/// ```
#[derive(Clone, Copy, Debug, Default, PartialEq, Eq, Hash)]
pub struct Tick {
    /// The tasks that arrive: bit 0 is task 1.
    pub mask: u32,
    /// The task whose guest says that it is done, or any other number; 0 for none.
    pub signal: u8,
    /// Whether the running hypertask ends early.
    pub early: bool,
}

impl Tick {
    /// A tick in which these tasks arrive, and nothing else happens.
    ///
    /// ```
    /// use tollsalmon::Tick;
    ///
    /// const TICK: Tick = Tick::arrivals(&[1, 3]);
    /// assert_eq!(TICK.mask, 0b101);
    /// ```
    ///
    /// # Panics
    ///
    /// Where a task isn't from 1 to 32: a mask has no place for it.
    pub const fn arrivals(tasks: &[usize]) -> Tick {
        let (mut mask, mut i) = (0, 0);
        while i < tasks.len() {
            assert!(1 <= tasks[i] && tasks[i] <= 32, "a task from 1 to 32");
            mask |= 1 << (tasks[i] - 1);
            i += 1;
        }
        Tick { mask, signal: 0, early: false }
    }

    pub(crate) fn of_record([a, b, c, d, signal, early, _, _]: [u8; RECORD]) -> Tick {
        Tick { mask: u32::from_le_bytes([a, b, c, d]), signal, early: early == 1 }
    }

    fn record(&self) -> [u8; RECORD] {
        let [a, b, c, d] = self.mask.to_le_bytes();
        [a, b, c, d, self.signal, self.early.into(), 0, 0]
    }
}

pub(crate) fn records_of(ticks: &[Tick]) -> Vec<[u8; RECORD]> {
    ticks.iter().map(Tick::record).collect()
}
