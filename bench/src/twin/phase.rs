// Which step of an update comes, by its own steps so far.

pub enum Phase {
    Announce,
    ReadDirectory,
    Flip,
    ReadState,
    ReadToggle,
    ReadSlot(usize),
    Swap,
    Check,
    CopyDirectory,
    StateStep(usize),
    SwapDirectory,
}

fn reduce(k: usize, length: usize) -> usize {
    if k >= length {
        k - length
    } else {
        k
    }
}

fn bucket_phase(i: usize, n: usize) -> Phase {
    match i {
        0 => Phase::ReadState,
        1 => Phase::ReadToggle,
        i if i < n + 2 => Phase::ReadSlot(i - 2),
        _ => Phase::Swap,
    }
}

fn directory_phase(i: usize, n: usize) -> Phase {
    match i {
        0 => Phase::CopyDirectory,
        i if i <= n => Phase::ReadSlot(i - 1),
        i if i <= 2 * n => Phase::StateStep(i - n - 1),
        _ => Phase::SwapDirectory,
    }
}

#[inline(always)]
pub fn phase(k: usize, n: usize) -> Phase {
    if k == 0 {
        return Phase::Announce;
    }
    let r = reduce(k - 1, 6 * n + 16);
    match r {
        0 => Phase::ReadDirectory,
        1 => Phase::Flip,
        r if r < 2 * n + 8 => bucket_phase(reduce(r - 2, n + 3), n),
        r if r == 2 * n + 8 => Phase::ReadDirectory,
        r if r == 2 * n + 9 => Phase::Check,
        r if r < 6 * n + 14 => directory_phase(reduce(r - 2 * n - 10, 2 * n + 2), n),
        r if r == 6 * n + 14 => Phase::ReadDirectory,
        _ => Phase::Check,
    }
}
