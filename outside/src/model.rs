//! Document 01, written out plainly.
//!
//! The player's text cannot make a misshapen state, so [`Rig::apply`] leaves
//! out the check for one (code 10). A saved text can: [`Rig::apply_judged`] has
//! the check.
//!
//! It is the paper as requests 2.3 and 2.6 amend it, with the family of request
//! 2.5. A rig may be told to go by the version before request 2.3 instead: see
//! [`Version`].

pub mod desk;
pub mod families;
pub mod grammar;
pub mod message;
pub mod player;
pub mod rig;
pub mod setup;
pub mod shape;
pub mod turn;
pub mod votes;

pub use desk::{Arbiter, Claim, Desk, Mode, Tie};
pub use families::Family;
pub use grammar::Event;
pub use message::{Body, Message};
pub(crate) use player::play_judged;
pub use player::{go_on, go_on_with, last_state, last_state_by, play, play_by, play_with, Stop};
pub use rig::{Change, Rig};

/// By which rules a rig goes. They differ in the fails and in the sets that
/// setup passes.
#[derive(Clone, Copy, Debug, PartialEq, Eq)]
pub enum Version {
    /// Up to request 2.2: no fail has a number, and each one counts. A set may
    /// strictly contain another.
    Earlier,
    /// From request 2.6 on: a fail sent has the number of the ask it is about,
    /// and counts for that ask alone (request 2.3). One without a number still
    /// counts. No set strictly contains another.
    Present,
}

/// The number of a site, from 1. Texts may also name sites that do not exist.
pub type Site = u16;

/// The most sites a rig may have; also the length of a buffer of sets.
pub const MOST_SITES: usize = 31;
/// The most messages that may be under way.
pub const MOST_UNDER_WAY: usize = 1_024;
/// The most events that may be accepted in a run.
pub const MOST_ACCEPTED: u32 = 1_000_000;
/// The largest clock, sequence number or grant number.
pub const LARGEST_NUMBER: u32 = 2_000_000;
/// The most bytes a line may have before its byte 10.
pub const LONGEST_LINE: usize = 96;

/// Why something was turned down, with the paper's code.
#[derive(Clone, Copy, Debug, PartialEq, Eq, PartialOrd, Ord, Hash)]
pub enum Refusal {
    /// The number of sites is not 1 to 31.
    SiteCount = 1,
    /// A set is empty or names a site that does not exist.
    FaultySet = 2,
    /// Two sets share no site.
    SetsMiss = 3,
    /// An event names a site that does not exist.
    NoSuchSite = 4,
    /// An ask by a site that is not at rest.
    NotAtRest = 5,
    /// A leave by a site that is not inside.
    NotInside = 6,
    /// A delivery where nothing is under way.
    NothingUnderWay = 7,
    /// The list of messages would pass its limit.
    ListFull = 8,
    /// The events are spent, or a number would pass its limit.
    Spent = 9,
    /// The state is misshapen.
    Misshapen = 10,
    /// A line is malformed, at the wrong place, or lacking.
    Malformed = 11,
    /// A family has no such parameter.
    Parameter = 12,
    /// A lent buffer has the wrong length.
    Buffer = 13,
    /// A text that no state gives (request 2.2).
    NoSavedText = 14,
    /// A vote is above 100, or all are 0 (request 2.5).
    Votes = 16,
    /// A set strictly contains another (request 2.6).
    NestedSets = 17,
}

impl Refusal {
    /// The number the paper gives this refusal.
    pub fn code(self) -> u8 {
        self as u8
    }
}
