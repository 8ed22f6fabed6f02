//! What random sessions are like.

use second::site::Site;

use crate::made_up::Care;
use crate::random::Random;

/// What a session is like.
#[derive(Clone, Copy)]
pub struct Mood {
    pub histories: u64,
    /// The bytes of the log buffer.
    pub room: usize,
    pub care: Care,
    /// How often, in a hundred, a line is damaged.
    pub damage: u64,
    /// How often, in a hundred, an id is one that came before.
    pub repeats: u64,
    pub habit: Habit,
}

/// What becomes of operations that are done.
#[derive(Clone, Copy, PartialEq)]
pub enum Habit {
    /// Now and then marks let some leave the table.
    Plain,
    /// They stay live, and the table fills up.
    Hoards,
    /// Marks come often.
    Settles,
}

impl Mood {
    pub fn any(random: &mut Random) -> Mood {
        let room = match random.below(20) {
            0 => random.between(0, 40),
            1..=7 => random.between(40, 400),
            8..=13 => random.between(500, 3500),
            14 => random.between(65_530, 65_540),
            _ => Site::LONGEST_LOG,
        };
        Mood {
            histories: random.pick(&[1, 1, 2, 2, 3, 4, 8, 16, 16]),
            room,
            care: Care { fits: random.pick(&[60, 80, 90, 97]), edges: random.pick(&[0, 0, 4, 20]) },
            damage: random.pick(&[0, 0, 3, 12]),
            repeats: random.pick(&[5, 5, 30]),
            habit: random.weighted(&[
                (55, Habit::Plain),
                (25, Habit::Hoards),
                (20, Habit::Settles),
            ]),
        }
    }

    /// A mood in which much gets done.
    pub fn careful(random: &mut Random) -> Mood {
        let histories = random.pick(&[1, 2, 3, 4, 6, 16]);
        let habit = random.pick(&[Habit::Plain, Habit::Hoards, Habit::Hoards, Habit::Settles]);
        let repeats = random.pick(&[4, 30]);
        let room = Site::LONGEST_LOG;
        Mood { histories, room, care: Care { fits: 95, edges: 1 }, damage: 1, repeats, habit }
    }

    /// A mood in which operations become stable and their ids come again.
    pub fn settling(random: &mut Random) -> Mood {
        let room = if random.percent(30) { random.between(40, 120) } else { 2000 };
        Mood { histories: 1, room, repeats: 50, habit: Habit::Settles, ..Mood::careful(random) }
    }
}
