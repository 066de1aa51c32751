// Every side gives the same answers, totals, rebates, files and step counts on the same random work; those of whole
// operations are a plain map's, but for new accounts where the places of as many others as the capacity agree in the
// first bits: these are crowded.
use bench::fields::*;
use bench::places::{account_at, place};
use bench::sides::{Map, Proved, Reply, Same, Table};
use bench::turns::{by_run, by_steps, filled};
use bench::twin::Twin;
use bench::work::{exports, total_in, Operation, Prng, Work, BAND_ENDS};

struct Case {
    workers: u64,
    capacity: u64,
    depth: u64,
    operations: Vec<Operation>,
}

// A total or an amount: any, or one that many sums with are totals.
fn any_total(random: &mut Prng) -> i64 {
    let total = random.draw() as i64;
    if random.below(2) == 0 {
        total
    } else {
        total >> 40
    }
}

// Settings at random, and operations on few accounts, the places of many of them with the same first bits.
fn case(random: &mut Prng) -> Case {
    let (workers, capacity, depth) = (1 + random.below(8), 2 + random.below(15), random.below(9));
    let accounts: Vec<u32> = (0..1 + random.below(80))
        .map(|_| {
            let bits = [u32::MAX, 0x0fff_ffff, 0x8000_00ff][random.below(3) as usize];
            account_at((random.draw() >> 16) as u32 & bits)
        })
        .collect();
    let operations = (0..random.below(400))
        .map(|_| Operation {
            kind: [KIND_INSERT, KIND_POST, KIND_DELETE, KIND_LOOKUP][random.below(4) as usize],
            account: accounts[random.below(accounts.len() as u64) as usize],
            total: any_total(random),
        })
        .collect();
    Case {
        workers,
        capacity,
        depth,
        operations,
    }
}

type Turns<T> = fn(&mut T, u64, &[Operation], &mut dyn FnMut(usize, Reply));

fn stepped<T: Table>(
    table: &mut T,
    n: u64,
    operations: &[Operation],
    told: &mut dyn FnMut(usize, Reply),
) {
    by_steps(table, n, operations, told);
}

fn ran<T: Table>(
    table: &mut T,
    n: u64,
    operations: &[Operation],
    told: &mut dyn FnMut(usize, Reply),
) {
    by_run(table, n, operations, told);
}

// The replies by operation, and the table in the end.
fn replies<T: Table>(c: &Case, turns: Turns<T>) -> (Vec<Reply>, T) {
    let mut table = T::open(c.workers, c.capacity, c.depth);
    let mut replies = vec![
        Reply {
            code: 0,
            steps: 0,
            total: 0,
            check: 0
        };
        c.operations.len()
    ];
    turns(&mut table, c.workers, &c.operations, &mut |place, reply| {
        replies[place] = reply
    });
    (replies, table)
}

#[test]
fn single_steps_in_turn_answer_alike() {
    let mut random = Prng::new(1);
    let mut late = 0;
    for _ in 0..1500 {
        let c = case(&mut random);
        let (ours, proved) = replies::<Proved>(&c, stepped);
        let (theirs, same) = replies::<Same>(&c, stepped);
        let (twins, twin) = replies::<Twin>(&c, stepped);
        assert_eq!(ours, theirs);
        assert_eq!(ours, twins);
        assert_eq!(proved.0, same.0);
        assert_eq!(proved.rows(), same.rows());
        assert_eq!(proved.rows(), twin.rows());
        assert_eq!(proved.rebates(), same.rebates());
        assert_eq!(proved.rebates(), twin.rebates());
        one_file(&proved, &same, &twin);
        late += ours.iter().filter(|r| r.check > 2).count();
    }
    assert!(late > 0, "no update was answered in its second pass");
}

// The ends of the bands with their neighbours, and any totals of each band.
#[test]
fn a_rebate_alone_is_alike() {
    let mut random = Prng::new(5);
    let near = |end: i64| [end.saturating_sub(1), end, end.saturating_add(1)];
    let any = (0..100_000).map(|i| total_in(i % 5, &mut random));
    for total in BAND_ENDS.into_iter().flat_map(near).chain(any) {
        let rebate = Proved::rebate(total);
        assert_eq!(rebate, Same::rebate(total), "{total}");
        assert_eq!(rebate, Twin::rebate(total), "{total}");
    }
}

// The file that is made, with nothing written past it.
fn file(make: impl Fn(&mut [u8]) -> usize) -> Vec<u8> {
    let mut out = vec![b'#'; TOTALS_GREATEST_EXPORT];
    let size = make(&mut out);
    assert!(out[size..].iter().all(|byte| *byte == b'#'));
    out.truncate(size);
    out
}

// The file of every side, which is also that of a loop of `write!` over the library's listing.
fn one_file(proved: &Proved, same: &Same, twin: &Twin) -> String {
    let own = file(|out| proved.export(out));
    assert_eq!(own, file(|out| same.export(out)));
    assert_eq!(own, file(|out| twin.export(out)));
    assert_eq!(own, file(|out| proved.list_and_write(out)));
    String::from_utf8(own).unwrap()
}

fn one_file_of(w: &Work) -> String {
    one_file(&filled(w), &filled(w), &filled(w))
}

// A table of these rows, which have room, b 16, M 8.
fn table_of(rows: impl Iterator<Item = (u32, i64)>) -> Work {
    let insert = |(account, total)| Operation {
        kind: KIND_INSERT,
        account,
        total,
    };
    Work {
        name: "rows",
        workers: 1,
        capacity: 16,
        depth: 8,
        filling: rows.map(insert).collect(),
        measured: Vec::new(),
    }
}

// Totals as they are spelled, the accounts ascending.
const SPELLED: [(u32, i64, &str); 12] = [
    (0, i64::MIN, "0,-92233720368547758.08\r\n"),
    (1, i64::MAX, "1,92233720368547758.07\r\n"),
    (9, -1205, "9,-12.05\r\n"),
    (10, -100, "10,-1.00\r\n"),
    (99, -99, "99,-0.99\r\n"),
    (100, -7, "100,-0.07\r\n"),
    (1000, 0, "1000,0.00\r\n"),
    (1001, 7, "1001,0.07\r\n"),
    (1002, 10, "1002,0.10\r\n"),
    (999_999_999, 100, "999999999,1.00\r\n"),
    (1_000_000_000, 99_999, "1000000000,999.99\r\n"),
    (u32::MAX, 100_000, "4294967295,1000.00\r\n"),
];

#[test]
fn a_file_is_alike_and_as_it_is_spelled() {
    let mut text = String::from("account,total\r\n");
    assert_eq!(one_file_of(&table_of(std::iter::empty())), text);
    SPELLED.iter().for_each(|row| text += row.2);
    let descending = SPELLED.iter().rev().map(|row| (row.0, row.1));
    assert_eq!(one_file_of(&table_of(descending)), text);
}

// The tables that are measured, and those whose file is the longest: as many accounts as there can be, all of ten
// digits, with the lowest total.
#[test]
fn a_file_of_many_rows_is_alike() {
    for (name, count) in [
        ("export-16", 16),
        ("export-1000", 1000),
        ("export-4096", 4096),
    ] {
        let text = one_file_of(&exports(name, count));
        assert_eq!(text.lines().count(), 1 + count as usize);
    }
    let of_ten_digits = |first: u32| {
        let accounts = (first << 24..).map(account_at);
        accounts
            .filter(|a| *a >= 1_000_000_000)
            .take(GREATEST_CAPACITY)
    };
    let accounts = (0..256).flat_map(of_ten_digits);
    let longest = one_file_of(&table_of(accounts.map(|a| (a, i64::MIN))));
    assert_eq!(longest.len(), TOTALS_GREATEST_EXPORT);
}

// How many rows agree with the account in the first bits of their places.
fn neighbours(rows: &[(u32, i64)], account: u32, depth: u64) -> u64 {
    let first = |a: u32| u64::from(place(a)) >> (32 - depth);
    rows.iter()
        .filter(|row| first(row.0) == first(account))
        .count() as u64
}

// The map is fed what is not crowded. Counted: what is crowded, and the other answers amid as many accounts.
#[test]
fn operations_run_to_their_answer_answer_as_a_map() {
    let mut random = Prng::new(2);
    let (mut crowded, mut amid) = (0, [0; TOTALS_OVERRUN as usize + 1]);
    for _ in 0..1500 {
        let c = case(&mut random);
        let (ours, proved) = replies::<Proved>(&c, ran);
        assert_eq!(ours, replies::<Same>(&c, ran).0);
        assert_eq!(ours, replies::<Twin>(&c, ran).0);
        let map = Map::default();
        for (o, reply) in c.operations.iter().zip(&ours) {
            let rows = map.rows();
            let full = neighbours(&rows, o.account, c.depth) == c.capacity;
            let makes = o.kind == KIND_INSERT || o.kind == KIND_POST;
            if full && makes && rows.iter().all(|row| row.0 != o.account) {
                assert_eq!((reply.code, reply.total), (TOTALS_CROWDED, 0));
                crowded += 1;
                continue;
            }
            assert_eq!((reply.code, reply.total), map.operate(*o));
            amid[reply.code as usize] += full as u32;
        }
        assert_eq!(proved.rows(), map.rows());
    }
    assert!(crowded > 1000, "{crowded} updates were crowded");
    for code in [
        TOTALS_REPLACED,
        TOTALS_REMOVED,
        TOTALS_ABSENT,
        TOTALS_POSTED,
        TOTALS_OVERRUN,
    ] {
        assert!(amid[code as usize] > 100, "{code}: {amid:?}");
    }
}

// A call, a step or a run of one worker.
struct Turn {
    worker: u64,
    which: u64,
    most: u64,
    operation: Operation,
}

impl Turn {
    fn given<T: Table>(&self, table: &mut T) -> Reply {
        match self.which {
            0 => Reply {
                code: table.call(self.worker, self.operation),
                steps: 0,
                total: 0,
                check: 0,
            },
            1 => table.step(self.worker),
            _ => table.run(self.worker, self.most),
        }
    }
}

// A turn of any worker; the last is not there.
fn turn(random: &mut Prng, workers: u64, most: u64, operation: Operation) -> Turn {
    Turn {
        worker: random.below(workers + 1),
        which: random.below(3),
        most: random.below(most),
        operation,
    }
}

// Calls, steps and runs of any worker in any order, the refused ones too: the same replies, and the same words after
// each. The twin knows no kinds but four.
#[test]
fn any_order_of_calls_steps_and_runs_answers_alike() {
    let mut random = Prng::new(3);
    let mut replied = [0; TOTALS_OVERRUN as usize + 1];
    for _ in 0..400 {
        let c = case(&mut random);
        let mut proved = Proved::open(c.workers, c.capacity, c.depth);
        let mut same = Same::open(c.workers, c.capacity, c.depth);
        let mut twin = Twin::open(c.workers, c.capacity, c.depth);
        for o in c.operations.iter().cycle().take(3 * c.operations.len()) {
            let turn = turn(&mut random, c.workers, 40, *o);
            let ours = turn.given(&mut proved);
            assert_eq!(ours, turn.given(&mut same));
            assert_eq!(ours, turn.given(&mut twin));
            assert_eq!(proved.0, same.0);
            replied[ours.code as usize] += 1;
        }
    }
    for code in [
        TOTALS_STRANGER,
        TOTALS_BUSY,
        TOTALS_IDLE,
        TOTALS_ADDED,
        TOTALS_POSTED,
        TOTALS_CROWDED,
        TOTALS_OVERRUN,
    ] {
        assert!(replied[code as usize] > 100, "{code}: {replied:?}");
    }
}

// A table's words with up to 39 of them changed, and some cut short.
fn damaged(random: &mut Prng, workers: u64) -> Vec<u64> {
    let mut words = Proved::open(workers, 2 + random.below(15), random.below(3)).0;
    let len = words.len() as u64;
    for _ in 0..random.below(40) {
        // seldom a word of the header's first two, by which most words would be strange
        let place = random.below(len).max(random.below(10)) as usize;
        words[place] =
            [random.below(4), random.below(len), random.draw()][random.below(3) as usize];
    }
    if random.below(8) == 0 {
        words.truncate(random.below(len) as usize);
    }
    words
}

fn any_operation(random: &mut Prng) -> Operation {
    Operation {
        kind: random.below(6),
        account: random.draw() as u32,
        total: random.draw() as i64,
    }
}

// Words that no opening left, and any arguments: the proved library and the same source in Rust reply alike and leave
// the same words.
#[test]
fn on_any_words_the_proved_library_does_what_its_source_says() {
    let mut random = Prng::new(4);
    let (mut changed, mut strange) = (0, 0);
    for _ in 0..20_000 {
        let n = 1 + random.below(8);
        let before = damaged(&mut random, n);
        let (mut proved, mut same) = (Proved(before.clone()), Same(before.clone()));
        for _ in 0..6 {
            let operation = any_operation(&mut random);
            let turn = turn(&mut random, n, 300, operation);
            let ours = turn.given(&mut proved);
            assert_eq!(ours, turn.given(&mut same));
            assert_eq!(proved.0, same.0);
            strange += (ours.code == TOTALS_STRANGE) as u32;
        }
        changed += (proved.0 != before) as u32;
    }
    assert!(
        changed > 5000 && strange > 5000,
        "{changed} words changed, {strange} times refused with 8"
    );
}
