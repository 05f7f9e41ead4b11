//! A replica of the proved library beside the plain one and the second model.

use std::hint::black_box;

use bench::plain;
use bench::timing::{self, Case, Side};
use model::block::{self, Message, BLOCK, ENTRY, HEADER, RECORD, RECORD_HEAD};
use model::replica as second;
use model::samples::{self, Random};

const ITEMS: usize = 128;
/// Replicas that one timed run goes through, prepared anew before it.
const COPIES: u32 = 8;
const SEED: u64 = 2;
const ROUNDS: usize = 301;
/// What every write writes; no item starts with it.
const VALUE: i32 = 1_000;

/// The calls of the benchmark, by each side. A refused call is `None` or `false`.
trait Replica: Clone {
    fn make(n: u32, own: u32) -> Self;
    fn begin(&mut self) -> Option<u32>;
    fn read(&self, ticket: u32, item: u32) -> Option<i32>;
    fn write(&mut self, ticket: u32, item: u32, value: i32) -> bool;
    fn ask(&mut self, ticket: u32) -> bool;
    fn send(&mut self) -> Option<[u8; BLOCK]>;
    fn deliver(&mut self, bytes: &[u8]) -> bool;
    /// Whether the turn moved.
    fn work(&mut self) -> Option<bool>;
}

/// All three have methods of these names that give a `Result`.
macro_rules! replica {
    ($replica:ty, $make:path) => {
        impl Replica for $replica {
            fn make(n: u32, own: u32) -> Self {
                let values = std::array::from_fn(|item| item as i32);
                $make(n, own, &values).unwrap()
            }
            #[inline]
            fn begin(&mut self) -> Option<u32> {
                <$replica>::begin(self).ok()
            }
            #[inline]
            fn read(&self, ticket: u32, item: u32) -> Option<i32> {
                <$replica>::read(self, ticket, item).ok()
            }
            #[inline]
            fn write(&mut self, ticket: u32, item: u32, value: i32) -> bool {
                <$replica>::write(self, ticket, item, value).is_ok()
            }
            #[inline]
            fn ask(&mut self, ticket: u32) -> bool {
                <$replica>::ask(self, ticket).is_ok()
            }
            #[inline]
            fn send(&mut self) -> Option<[u8; BLOCK]> {
                <$replica>::send(self).ok()
            }
            #[inline]
            fn deliver(&mut self, bytes: &[u8]) -> bool {
                <$replica>::deliver(self, bytes).is_ok()
            }
            #[inline]
            fn work(&mut self) -> Option<bool> {
                <$replica>::work(self).ok().map(|work| work.moved)
            }
        }
    };
}
replica!(stemline::Replica, stemline::Replica::new);
replica!(plain::Replica, plain::Replica::make);
replica!(second::Replica, make_second);

fn make_second(n: u32, own: u32, values: &[i32; ITEMS]) -> Result<second::Replica, u8> {
    second::Replica::make(n, own, values)
}

/// A case with a side for each replica: `$side` is a function over the replica's type.
macro_rules! case {
    ($name:literal, $side:ident ( $($given:expr),* )) => {
        Case::new(
            $name,
            vec![
                $side::<stemline::Replica>($($given),*),
                $side::<plain::Replica>($($given),*),
                $side::<second::Replica>($($given),*),
            ],
        )
    };
}

pub fn run() {
    let mut random = Random::new(SEED);
    let blocks: Vec<[u8; BLOCK]> = (0..6).map(|slot| full_block(&mut random, slot)).collect();
    let damaged: Vec<[u8; BLOCK]> = (0..16)
        .map(|_| {
            let slot = 1 + random.below(5) as u32;
            let mut block = full_block(&mut random, slot);
            samples::damage(&mut random, &mut block);
            block
        })
        .collect();
    // The last record's last item out of range: the form is looked through to its end.
    let ill_formed: Vec<[u8; BLOCK]> = (0..16)
        .map(|_| {
            let mut block = full_block(&mut random, 1);
            block[HEADER + 5 * RECORD + RECORD_HEAD + 7 * ENTRY] = 128;
            block::put_check(&mut block);
            block
        })
        .collect();
    let nexts: Vec<[u8; BLOCK]> = (0..6).map(|slot| samples::block_of(6, slot, &[])).collect();
    agree(&blocks, &[(&damaged, 14), (&ill_formed, 15)]);
    agree(&nexts, &[]);

    let mut cases = [
        case!("local transaction", local()),
        case!("round of three replicas", round()),
        case!("deliver a full block", deliver(&blocks)),
        case!("deliver a next", deliver(&nexts)),
        case!("refuse a damaged block (14)", refuse(&damaged)),
        case!("refuse an ill-formed block (15)", refuse(&ill_formed)),
        case!("  begin", begin()),
        case!("  read", read()),
        case!("  write", write()),
        case!("  ask", ask()),
        case!("  send, six records", send()),
        case!("  work, another's writeset", work(&blocks)),
    ];
    timing::run(&mut cases, ROUNDS);

    println!("Replicas. Nanoseconds: median of {ROUNDS} rounds, the three by turns. `plain` is a");
    println!("replica in plain Rust with fixed arrays, `model` the second model, which allocates.");
    println!("A local transaction: begin, 4 reads, 4 writes, ask. A round: each of three replicas");
    println!("in turn begins 6 transactions of 8 writes, asks and sends; all three take the block");
    println!("and work it off: 246 calls. Below, single calls at a replica with six transactions.");
    println!();
    timing::print(&["library", "plain", "model"], &cases);
}

/// A block of a slot in a group of six: six records of eight writes.
fn full_block(random: &mut Random, slot: u32) -> [u8; BLOCK] {
    block::encode(&Message {
        sender: (slot % 6) as u8,
        replicas: 6,
        slot,
        ..samples::full(random)
    })
}

/// Replicas as one is after `before`, for runs that do something `count` times at each.
fn copies<'a, R: Replica + 'a>(
    count: u32,
    before: impl FnOnce(&mut R),
    mut run: impl FnMut(&mut R) + 'a,
) -> Side<'a> {
    let mut first = R::make(6, 0);
    before(&mut first);
    Side::timed(
        (COPIES * count) as usize,
        move || (0..COPIES).map(|_| first.clone()).collect::<Vec<R>>(),
        move |replicas| replicas.iter_mut().for_each(&mut run),
    )
}

/// Item `at` of transaction t, of 8 at most: those of one replica all differ.
fn item(t: u32, at: u32) -> u32 {
    (t + 6 * (at * 5 % 8)) * 37 % 128
}

fn local<'a, R: Replica + 'a>() -> Side<'a> {
    copies(6, |_: &mut R| (), local_transactions)
}

/// Six transactions: begin, 4 reads, 4 writes, ask.
fn local_transactions<R: Replica>(replica: &mut R) {
    for t in 0..6 {
        let ticket = replica.begin().unwrap_or(0);
        for at in 0..4 {
            black_box(replica.read(ticket, black_box(item(t, at))));
        }
        for at in 0..4 {
            black_box(replica.write(ticket, black_box(item(t, at)), VALUE));
        }
        black_box(replica.ask(ticket));
    }
}

/// Six transactions of `writes` items each.
fn write_all<R: Replica>(replica: &mut R, writes: u32) {
    for ticket in 1..=6 {
        for at in 0..writes {
            black_box(replica.write(ticket, black_box(item(ticket - 1, at)), VALUE));
        }
    }
}

fn begin_all<R: Replica>(replica: &mut R) {
    for _ in 0..6 {
        black_box(replica.begin());
    }
}

fn ask_all<R: Replica>(replica: &mut R) {
    for ticket in 1..=6 {
        black_box(replica.ask(ticket));
    }
}

fn begin<'a, R: Replica + 'a>() -> Side<'a> {
    copies(6, |_: &mut R| (), begin_all)
}

fn read<'a, R: Replica + 'a>() -> Side<'a> {
    let before = |replica: &mut R| {
        begin_all(replica);
        write_all(replica, 4);
    };
    copies(48, before, |replica| {
        for ticket in 1..=6 {
            // Four that it wrote, four that it did not.
            for at in 0..8 {
                black_box(replica.read(ticket, black_box(item(ticket - 1, at))));
            }
        }
    })
}

fn write<'a, R: Replica + 'a>() -> Side<'a> {
    copies(48, begin_all::<R>, |replica| write_all(replica, 8))
}

fn ask<'a, R: Replica + 'a>() -> Side<'a> {
    let before = |replica: &mut R| {
        begin_all(replica);
        write_all(replica, 1);
    };
    copies(6, before, ask_all)
}

fn six_asked<R: Replica>(replica: &mut R) {
    begin_all(replica);
    write_all(replica, 8);
    ask_all(replica);
}

fn send<'a, R: Replica + 'a>() -> Side<'a> {
    copies(1, six_asked::<R>, |replica| {
        black_box(replica.send());
    })
}

/// Slots 1 to 5 of a group of six, at replica 0.
fn deliver<'a, R: Replica + 'a>(blocks: &'a [[u8; BLOCK]]) -> Side<'a> {
    copies(
        5,
        |_: &mut R| (),
        |replica| {
            for block in &blocks[1..] {
                black_box(replica.deliver(black_box(block)));
            }
        },
    )
}

fn refuse<'a, R: Replica + 'a>(damaged: &'a [[u8; BLOCK]]) -> Side<'a> {
    let mut replica = R::make(6, 0);
    Side::calls(2_000, damaged.len(), move |i| {
        replica.deliver(black_box(&damaged[i]))
    })
}

/// The six writesets of another's block, with six transactions of one write open.
fn work<'a, R: Replica + 'a>(blocks: &'a [[u8; BLOCK]]) -> Side<'a> {
    let before = |replica: &mut R| {
        let own = replica.send().unwrap();
        replica.deliver(&own);
        replica.work();
        begin_all(replica);
        write_all(replica, 1);
        replica.deliver(&blocks[1]);
    };
    copies(6, before, |replica| {
        for _ in 0..6 {
            black_box(replica.work());
        }
    })
}

/// Rounds that follow each other, with nothing prepared between them.
fn round<'a, R: Replica + 'a>() -> Side<'a> {
    const TIMES: usize = 10;
    let mut group = [R::make(3, 0), R::make(3, 1), R::make(3, 2)];
    Side::timed(
        TIMES,
        || (),
        move |()| {
            for _ in 0..TIMES {
                one_round(&mut group);
            }
        },
    )
}

fn one_round<R: Replica>(group: &mut [R; 3]) {
    for k in 0..3 {
        let replica = &mut group[k];
        for t in 0..6 {
            let ticket = replica.begin().unwrap_or(0);
            for at in 0..8 {
                black_box(replica.write(ticket, black_box(item(t, at)), VALUE));
            }
            black_box(replica.ask(ticket));
        }
        let block = replica.send().unwrap();
        for replica in &mut *group {
            black_box(replica.deliver(black_box(&block)));
            while replica.work() == Some(false) {}
        }
    }
}

/// Times mean nothing unless all do the same: stops where they differ.
fn agree(blocks: &[[u8; BLOCK]], refused: &[(&[[u8; BLOCK]], u8)]) {
    type Sides = (stemline::Replica, plain::Replica, second::Replica);
    fn each<T: PartialEq + std::fmt::Debug>(library: T, plain: T, model: T) -> T {
        assert_eq!(library, plain);
        assert_eq!(library, model);
        library
    }
    let (mut a, mut b, mut c): Sides = (
        Replica::make(6, 0),
        Replica::make(6, 0),
        Replica::make(6, 0),
    );
    local_transactions(&mut a);
    local_transactions(&mut b);
    local_transactions(&mut c);
    let sent = each(a.send().ok(), b.send().ok(), c.send().ok());
    assert_eq!(sent.map(|block| block[3]), Some(6), "six were asked");
    for block in &blocks[1..] {
        assert_eq!(a.deliver(block), Ok(()));
        assert_eq!((b.deliver(block), c.deliver(block)), (Ok(()), Ok(())));
    }
    for &(blocks, number) in refused {
        for block in blocks {
            assert_eq!(a.deliver(block).map_err(|r| r.number()), Err(number));
            assert_eq!(b.deliver(block), Err(number));
            assert_eq!(c.deliver(block), Err(number));
        }
    }
    let mut first: [stemline::Replica; 3] = [0, 1, 2].map(|own| Replica::make(3, own));
    let mut third: [second::Replica; 3] = [0, 1, 2].map(|own| Replica::make(3, own));
    let mut other: [plain::Replica; 3] = [0, 1, 2].map(|own| Replica::make(3, own));
    for turn in 1..=4 {
        one_round(&mut first);
        one_round(&mut other);
        one_round(&mut third);
        for k in 0..3 {
            let values = each(*first[k].values(), *other[k].values(), *third[k].values());
            assert_eq!(values.iter().filter(|&&value| value == VALUE).count(), 48);
            assert_eq!(third[k].report(), other[k].report());
            assert_eq!(first[k].report().commits, 18 * turn);
            assert_eq!(first[k].report().aborted, 0);
        }
    }
}
