//! The wrong machines by name: each is wrong in one way (`wrong.rs`). They test the checker itself.

use crate::off_tariff::OffTariff;
use crate::wrong_crowding::WrongCrowding;
use crate::wrong_places::WrongPlace;
use crate::wrong_posts::WrongPost;
use crate::wrong_tickets::WrongTicket;

/// `Fault::None` is the machine as it should be.
#[derive(Clone, Copy, PartialEq, Eq, Debug, Default)]
pub enum Fault {
    #[default]
    None,
    /// The second check of the only pass ends the update: crowded if unsettled.
    OnePass,
    /// The second round of every bucket pass touches nothing.
    OneBucketRound,
    /// The second round of every directory pass touches nothing.
    OneDirectoryRound,
    /// A bucket pass tests full on the state that was read, not on the copy being changed.
    FullAsRead,
    /// A state step of the directory pass takes only its own worker's update.
    OwnUpdateOnly,
    /// A bucket pass carries out a delete on a full bucket below depth M.
    DeleteIntoFull,
    /// A bucket pass settles a new account as crowded in a full bucket below depth M.
    CrowdedBelowDepth,
    /// The right half of a split gets settled tickets 0 and no answers.
    SettledNotCopied,
    /// Both halves of a split keep the applied bits, with the toggle 0.
    AppliedNotReset,
    /// A check reads the settled ticket and answer of the next worker.
    CheckOtherWorker,
    /// The bucket swap always succeeds.
    BucketSwapBlind,
    /// The directory swap always succeeds.
    DirectorySwapBlind,
    /// A doubled directory is the old one twice in a row.
    DoubledInRow,
    /// A bucket pass does not compare toggle bit and applied bit.
    ToggleIgnored,
    /// The slots are read from the last worker's to the first's.
    SlotsBackwards,
    /// Announcing carries out the update on its bucket unless that holds it back.
    AnnounceApplies,
    /// Every update is answered crowded at its first check.
    AlwaysCrowded,
    /// Every answered update is answered added.
    AlwaysAdded,
    /// Another rule of crowding at depth M (`wrong_crowding.rs`).
    Crowding(WrongCrowding),
    /// Another rule of places (`wrong_places.rs`).
    Place(WrongPlace),
    /// Another rule of posts (`wrong_posts.rs`).
    Post(WrongPost),
    /// Another check or another step than the tariff has (`off_tariff.rs`).
    OffTariff(OffTariff),
    /// Another rule of tickets (`wrong_tickets.rs`).
    Ticket(WrongTicket),
}

impl Fault {
    /// All faults, without `None`, those off the tariff and those on tickets.
    pub const ALL: [Fault; 45] = [
        Fault::OnePass,
        Fault::OneBucketRound,
        Fault::OneDirectoryRound,
        Fault::FullAsRead,
        Fault::OwnUpdateOnly,
        Fault::DeleteIntoFull,
        Fault::CrowdedBelowDepth,
        Fault::SettledNotCopied,
        Fault::AppliedNotReset,
        Fault::CheckOtherWorker,
        Fault::BucketSwapBlind,
        Fault::DirectorySwapBlind,
        Fault::DoubledInRow,
        Fault::ToggleIgnored,
        Fault::SlotsBackwards,
        Fault::AnnounceApplies,
        Fault::AlwaysCrowded,
        Fault::AlwaysAdded,
        Fault::Crowding(WrongCrowding::NotSettled),
        Fault::Crowding(WrongCrowding::AtCheck),
        Fault::Crowding(WrongCrowding::Unsettled),
        Fault::Crowding(WrongCrowding::Delete),
        Fault::Crowding(WrongCrowding::AbsentDelete),
        Fault::Crowding(WrongCrowding::Replacement),
        Fault::Crowding(WrongCrowding::Post),
        Fault::Crowding(WrongCrowding::NewIntoFull),
        Fault::Crowding(WrongCrowding::HeldBack),
        Fault::Crowding(WrongCrowding::HeldBackAfterSplits),
        Fault::Crowding(WrongCrowding::TriedAgain),
        Fault::Crowding(WrongCrowding::TriedAfterAnswer),
        Fault::Place(WrongPlace::ByNumber),
        Fault::Place(WrongPlace::Backwards),
        Fault::Place(WrongPlace::SplitByNumber),
        Fault::Place(WrongPlace::CrowdedByNumber),
        Fault::Place(WrongPlace::ListedByPlace),
        Fault::Place(WrongPlace::FilteredByNumber),
        Fault::Post(WrongPost::Replaces),
        Fault::Post(WrongPost::OverrunWraps),
        Fault::Post(WrongPost::OverrunSaturates),
        Fault::Post(WrongPost::TotalNotCopied),
        Fault::Post(WrongPost::ZeroMakesNothing),
        Fault::Post(WrongPost::Deletes),
        Fault::Post(WrongPost::LastTotalTold),
        Fault::Post(WrongPost::HelpedTwice),
        Fault::Post(WrongPost::OverrunNotSettled),
    ];

    /// The faults that the tariff shows.
    pub fn off_tariff() -> impl Iterator<Item = Fault> {
        OffTariff::ALL.into_iter().map(Fault::OffTariff)
    }

    /// The faults on tickets, which show only from last tickets other than 0.
    pub fn on_tickets() -> impl Iterator<Item = Fault> {
        WrongTicket::ALL.into_iter().map(Fault::Ticket)
    }

    /// All of these.
    pub fn every() -> impl Iterator<Item = Fault> {
        let listed = Self::ALL.into_iter().chain(Self::off_tariff());
        listed.chain(Self::on_tickets())
    }

    pub fn name(self) -> &'static str {
        match self {
            Fault::None => "none",
            Fault::OnePass => "one-pass",
            Fault::OneBucketRound => "one-bucket-round",
            Fault::OneDirectoryRound => "one-directory-round",
            Fault::FullAsRead => "full-as-read",
            Fault::OwnUpdateOnly => "own-update-only",
            Fault::DeleteIntoFull => "delete-into-full",
            Fault::CrowdedBelowDepth => "crowded-below-depth",
            Fault::SettledNotCopied => "settled-not-copied",
            Fault::AppliedNotReset => "applied-not-reset",
            Fault::CheckOtherWorker => "check-other-worker",
            Fault::BucketSwapBlind => "bucket-swap-blind",
            Fault::DirectorySwapBlind => "directory-swap-blind",
            Fault::DoubledInRow => "doubled-in-row",
            Fault::ToggleIgnored => "toggle-ignored",
            Fault::SlotsBackwards => "slots-backwards",
            Fault::AnnounceApplies => "announce-applies",
            Fault::AlwaysCrowded => "always-crowded",
            Fault::AlwaysAdded => "always-added",
            Fault::Crowding(fault) => fault.name(),
            Fault::Place(fault) => fault.name(),
            Fault::Post(fault) => fault.name(),
            Fault::OffTariff(fault) => fault.name(),
            Fault::Ticket(fault) => fault.name(),
        }
    }

    pub fn from_name(name: &str) -> Option<Fault> {
        Self::every().find(|fault| fault.name() == name)
    }
}
