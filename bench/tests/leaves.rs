// The proved functions on a bucket record beside the same source compiled as Rust, over any words and numbers.
use bench::leaf::{proved, rust, Work};
use bench::work::Prng;

// small numbers, numbers about 16 and 62, and any word
fn word(random: &mut Prng) -> u64 {
    match random.below(4) {
        0 => random.below(4),
        1 => random.below(70),
        2 => random.below(1 << 33),
        _ => random.draw(),
    }
}

// Both leave the same words and give the same results; words around the lent slice stay as they were.
#[test]
fn the_proved_library_does_what_its_source_says() {
    let mut random = Prng::new(20261115);
    let mut done = 0;
    for _ in 0..200_000 {
        let len = random.below(200) as usize;
        let mut ours: Vec<u64> = (0..len + 2).map(|_| word(&mut random)).collect();
        let mut theirs = ours.clone();
        let work = Work {
            which: random.below(6),
            q: word(&mut random) as usize,
            to: word(&mut random) as usize,
            b: random.below(18) as usize,
            n: random.below(10) as usize,
            account: word(&mut random),
            total: word(&mut random),
        };
        let before = ours.clone();
        let r = proved(&mut ours[1..len + 1], work);
        assert_eq!(r, rust(&mut theirs[1..len + 1], work));
        assert_eq!(ours, theirs);
        assert_eq!((ours[0], ours[len + 1]), (before[0], before[len + 1]));
        done += (ours != before) as u32;
    }
    assert!(done > 10_000, "only {done} calls changed a word");
}
