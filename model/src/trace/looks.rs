//! How each kind of step looks: a colour that stays apart from the others for colour-blind eyes,
//! and a shape of its own.

use crate::task::StepKind;

/// A mark: its name on the page, its words in the legend, and its shape around 0, 0.
#[derive(Debug)]
pub struct Look {
    pub id: &'static str,
    pub words: &'static str,
    pub shape: &'static str,
}

const ANNOUNCE: Look = Look {
    id: "announce",
    words: "announce",
    shape: r##"<path d="M0,-7L5,5H-5Z" fill="#e69f00"/>"##,
};
const READ_DIRECTORY: Look = Look {
    id: "read-directory",
    words: "read directory",
    shape: r##"<path d="M-4,-4H4V4H-4Z" fill="#fff" stroke="#0072b2" stroke-width="2"/>"##,
};
const FLIP: Look = Look {
    id: "flip",
    words: "flip toggle bit",
    shape: r##"<path d="M0,-7L5,0L0,7L-5,0Z" fill="#cc79a7"/>"##,
};
const READ_STATE: Look = Look {
    id: "read-state",
    words: "read state",
    shape: r##"<circle r="4.5" fill="#56b4e9"/>"##,
};
const READ_TOGGLE: Look = Look {
    id: "read-toggle",
    words: "read toggle",
    shape: r##"<path d="M0,-6L4,0L0,6L-4,0Z" fill="#fff" stroke="#cc79a7" stroke-width="2"/>"##,
};
const READ_SLOT: Look = Look {
    id: "read-slot",
    words: "read slot",
    shape: r##"<path d="M0,-6V6" stroke="#777" stroke-width="2.5"/>"##,
};
const SWAP: Look = Look {
    id: "swap",
    words: "bucket swap, succeeded",
    shape: concat!(
        r##"<path d="M-5,-8H5V8H-5Z" fill="#009e73"/>"##,
        r##"<path d="M-3,0L-1,3L3,-3" fill="none" stroke="#fff" stroke-width="1.8"/>"##
    ),
};
const SWAP_FAILED: Look = Look {
    id: "swap-failed",
    words: "bucket swap, failed",
    shape: concat!(
        r##"<path d="M-5,-8H5V8H-5ZM-2.5,-3L2.5,3M2.5,-3L-2.5,3""##,
        r##" fill="#fff" stroke="#d55e00" stroke-width="1.6"/>"##
    ),
};
const CHECK_DIRECTORY: Look = Look {
    id: "check-directory",
    words: "check: read directory",
    shape: r##"<path d="M-4,-5L4,0L-4,5Z" fill="#fff" stroke="#222" stroke-width="1.4"/>"##,
};
const CHECK_STATE: Look = Look {
    id: "check-state",
    words: "check: read state",
    shape: r##"<path d="M-4,-6L5,0L-4,6Z" fill="#222"/>"##,
};
const COPY_DIRECTORY: Look = Look {
    id: "copy-directory",
    words: "directory pass: read directory",
    shape: r##"<path d="M-5,-5H5V5H-5Z" fill="#0072b2"/>"##,
};
const PASS_SLOT: Look = Look {
    id: "pass-slot",
    words: "directory pass: read slot",
    shape: r##"<path d="M0,-6V6M-4,-6H4" stroke="#0072b2" stroke-width="2"/>"##,
};
const STATE_STEP: Look = Look {
    id: "state-step",
    words: "directory pass: state step",
    shape: r##"<circle r="4" fill="#fff" stroke="#0072b2" stroke-width="2"/>"##,
};
const STATE_SPLITS: Look = Look {
    id: "state-splits",
    words: "state step that splits in the working copy",
    shape: r##"<path d="M0,8V0L-4,-7M0,0L4,-7" fill="none" stroke="#d55e00" stroke-width="2.5"/>"##,
};
const STATE_NOTHING: Look = Look {
    id: "state-nothing",
    words: "state step that reads nothing",
    shape: r##"<circle r="1.8" fill="#777"/>"##,
};
const DIRECTORY_SWAP: Look = Look {
    id: "directory-swap",
    words: "directory swap, succeeded",
    shape: concat!(
        r##"<path d="M0,-11L5,-6V6L0,11L-5,6V-6Z" fill="#009e73"/>"##,
        r##"<path d="M-3,0L-1,3L3,-3" fill="none" stroke="#fff" stroke-width="1.8"/>"##
    ),
};
const DIRECTORY_SWAP_FAILED: Look = Look {
    id: "directory-swap-failed",
    words: "directory swap, failed",
    shape: concat!(
        r##"<path d="M0,-11L5,-6V6L0,11L-5,6V-6ZM-2.5,-3L2.5,3M2.5,-3L-2.5,3""##,
        r##" fill="#fff" stroke="#d55e00" stroke-width="1.6"/>"##
    ),
};
/// The steps, in the order of the legend.
pub const STEPS: [&Look; 17] = [
    &ANNOUNCE,
    &READ_DIRECTORY,
    &FLIP,
    &READ_STATE,
    &READ_TOGGLE,
    &READ_SLOT,
    &SWAP,
    &SWAP_FAILED,
    &CHECK_DIRECTORY,
    &CHECK_STATE,
    &COPY_DIRECTORY,
    &PASS_SLOT,
    &STATE_STEP,
    &STATE_SPLITS,
    &STATE_NOTHING,
    &DIRECTORY_SWAP,
    &DIRECTORY_SWAP_FAILED,
];

pub const MOMENT: Look = Look {
    id: "moment",
    words: "moment: here the operation takes effect",
    shape: r##"<path d="M0,-5L5,0L0,5L-5,0Z" fill="#000" stroke="#fff"/>"##,
};
pub const SPLIT: Look = Look {
    id: "split",
    words: "split: old bucket into new ones",
    shape: r##"<path d="M0,6V1L-4,-5M0,1L4,-5" fill="none" stroke="#009e73" stroke-width="2.5"/>"##,
};
pub const LISTING: Look = Look {
    id: "listing",
    words: "listing, with its count",
    shape: r##"<path d="M-4,-5H4M-4,-1H4M-4,3H4" stroke="#0072b2" stroke-width="2"/>"##,
};
pub const REFUSED: Look = Look {
    id: "refused",
    words: "refused, with its number",
    shape: r##"<path d="M-4,-5L4,3M4,-5L-4,3" stroke="#d55e00" stroke-width="2"/>"##,
};
pub const UNREAD: Look = Look {
    id: "unread",
    words: "unread line",
    shape: r##"<circle cy="-1" r="4" fill="#fff" stroke="#d55e00" stroke-width="1.6" stroke-dasharray="2 2"/>"##,
};

/// The marks that are no steps, in the order of the legend.
pub const OTHERS: [&Look; 5] = [&MOMENT, &SPLIT, &LISTING, &REFUSED, &UNREAD];

pub fn of(kind: StepKind) -> &'static Look {
    match kind {
        StepKind::Announce => &ANNOUNCE,
        StepKind::LookupDirectory | StepKind::ReadDirectory => &READ_DIRECTORY,
        StepKind::Flip => &FLIP,
        StepKind::LookupState | StepKind::ReadState => &READ_STATE,
        StepKind::ReadToggle => &READ_TOGGLE,
        StepKind::ReadSlot(_) => &READ_SLOT,
        StepKind::SwapState { succeeded: true } => &SWAP,
        StepKind::SwapState { succeeded: false } => &SWAP_FAILED,
        StepKind::CheckDirectory { .. } => &CHECK_DIRECTORY,
        StepKind::CheckState { .. } => &CHECK_STATE,
        StepKind::ResizeDirectory => &COPY_DIRECTORY,
        StepKind::ResizeSlot(_) => &PASS_SLOT,
        StepKind::ResizeState { splits: 1.., .. } => &STATE_SPLITS,
        StepKind::ResizeState { read: true, .. } => &STATE_STEP,
        // A whole step that does nothing is a wrong machine's.
        StepKind::ResizeState { .. } | StepKind::Nothing => &STATE_NOTHING,
        StepKind::SwapDirectory { succeeded: true } => &DIRECTORY_SWAP,
        StepKind::SwapDirectory { succeeded: false } => &DIRECTORY_SWAP_FAILED,
    }
}
