//! What travels between desks.

use super::Site;

/// A message under way.
#[derive(Clone, Copy, Debug, PartialEq, Eq)]
pub struct Message {
    /// The sender.
    pub from: Site,
    /// The receiver.
    pub to: Site,
    /// What it says.
    pub body: Body,
}

/// The seven kinds of message, each with what it carries.
#[derive(Clone, Copy, Debug, PartialEq, Eq)]
pub enum Body {
    /// A site asks a member for its permission.
    Request {
        /// The sequence number of the ask.
        seq: u32,
    },
    /// The permission of an arbiter is on its way to a site.
    Reply {
        /// Whose permission it is (not always the sender).
        arbiter: Site,
        /// The grant number.
        grant: u32,
    },
    /// A site is done with the arbiter's permission.
    Release {
        /// To whom the permission was handed on, if to anyone.
        heir: Option<Site>,
        /// The grant number.
        grant: u32,
    },
    /// An arbiter asks its holder whether it could give the permission back.
    Inquire {
        /// The holder's grant number.
        grant: u32,
    },
    /// An arbiter tells a site that others come first.
    Fail {
        /// The sequence number of the ask it is about; none (0) in one that
        /// the version before request 2.3 has sent.
        seq: Option<u32>,
    },
    /// A site gives the permission back before having been inside.
    Yield {
        /// The grant number.
        grant: u32,
    },
    /// An arbiter names to its holder the site to hand the permission on to.
    Transfer {
        /// The site named.
        heir: Site,
        /// The holder's grant number.
        grant: u32,
    },
}

impl Body {
    /// The sequence or grant number carried; 0 if there is none.
    pub fn number(&self) -> u32 {
        match *self {
            Body::Request { seq } => seq,
            Body::Reply { grant, .. }
            | Body::Release { grant, .. }
            | Body::Inquire { grant }
            | Body::Yield { grant }
            | Body::Transfer { grant, .. } => grant,
            Body::Fail { seq } => seq.unwrap_or(0),
        }
    }
}
