//! The library's calls over parts of any length and content, which a replica of the crate does not have.

use model::drive::start_values;
use stemline::ffi::{self, Counts, Group, Turn, Txn};
use stemline::{Memory, Window, BLOCK, ITEMS, WINDOW};

/// All that the calls are lent, and what else they are given.
#[derive(Clone, Debug, PartialEq)]
pub struct Lent {
    pub group: Group,
    pub turn: Turn,
    pub counts: Counts,
    pub table: Vec<Txn>,
    pub queue: Vec<u32>,
    pub items: Vec<u8>,
    pub writes: Vec<i32>,
    pub snapshots: Vec<i32>,
    pub values: Vec<i32>,
    pub stamps: Vec<u32>,
    pub classes: Vec<u8>,
    pub places: Vec<u8>,
    pub outbox: Vec<u8>,
    pub window: Vec<u8>,
    /// What a make starts with.
    pub start: Vec<i32>,
    /// What a send or a restart fills.
    pub block: Vec<u8>,
    /// What a deliver gets.
    pub bytes: Vec<u8>,
    /// What a restart gets.
    pub journal: Vec<u8>,
    /// The notices that a restart gets, three numbers each.
    pub notices: Vec<u32>,
    /// What a load gets.
    pub given: Vec<u8>,
    /// What a giving is told, and the giver's window.
    pub turns: Vec<u32>,
    pub lent: Vec<u8>,
    pub n: u32,
    pub own: u32,
    pub ticket: u32,
    pub item: u32,
    pub value: i32,
    /// What a notice is about, and from where on.
    pub replica: u32,
    pub slot: u32,
}

impl Lent {
    pub fn of(memory: &Memory) -> Lent {
        Lent {
            group: memory.group,
            turn: memory.turn,
            counts: memory.counts,
            table: memory.table.to_vec(),
            queue: memory.queue.to_vec(),
            items: memory.items.to_vec(),
            writes: memory.writes.to_vec(),
            snapshots: memory.snapshots.to_vec(),
            values: memory.values.to_vec(),
            stamps: memory.stamps.to_vec(),
            classes: memory.classes.to_vec(),
            places: memory.places.to_vec(),
            outbox: memory.outbox.to_vec(),
            window: memory.window.bytes().to_vec(),
            start: start_values().to_vec(),
            block: vec![0xa5; BLOCK],
            bytes: vec![0; BLOCK],
            journal: Vec::new(),
            notices: Vec::new(),
            given: vec![1; ITEMS],
            turns: vec![0; memory.group.replicas.into()],
            lent: vec![0; WINDOW],
            n: 2,
            own: 0,
            ticket: 0,
            item: 0,
            value: 0,
            replica: 0,
            slot: 0,
        }
    }

    /// The memory of a crate's replica, where the parts have the lengths of one.
    pub fn memory(&self) -> Memory {
        let wrong = "a part of another length";
        Memory {
            group: self.group,
            turn: self.turn,
            counts: self.counts,
            table: self.table[..].try_into().expect(wrong),
            queue: self.queue[..].try_into().expect(wrong),
            items: self.items[..].try_into().expect(wrong),
            writes: self.writes[..].try_into().expect(wrong),
            snapshots: self.snapshots[..].try_into().expect(wrong),
            values: self.values[..].try_into().expect(wrong),
            stamps: self.stamps[..].try_into().expect(wrong),
            classes: self.classes[..].try_into().expect(wrong),
            places: self.places.clone().into_boxed_slice(),
            outbox: self.outbox[..].try_into().expect(wrong),
            window: Window::from_bytes(self.window[..].try_into().expect(wrong)),
        }
    }

    /// A call by name: its number, and all it answers as text.
    pub fn call(&mut self, name: &str) -> (u8, String) {
        let l = self;
        macro_rules! said {
            ($reply:expr) => {{
                let reply = $reply;
                (reply.number, format!("{reply:?}"))
            }};
        }
        let number = match name {
            "make" => ffi::make(
                &mut l.table,
                &mut l.group,
                &mut l.turn,
                &mut l.counts,
                l.n,
                l.own,
                &l.start,
                &mut l.queue,
                &mut l.items,
                &mut l.writes,
                &mut l.snapshots,
                &mut l.values,
                &mut l.stamps,
                &mut l.classes,
                &mut l.places,
                &mut l.outbox,
                &mut l.window,
            ),
            "make_station" => ffi::make_station(
                &mut l.table,
                &mut l.group,
                &mut l.turn,
                &mut l.counts,
                l.n,
                &l.start,
                &mut l.queue,
                &mut l.items,
                &mut l.writes,
                &mut l.snapshots,
                &mut l.values,
                &mut l.stamps,
                &mut l.classes,
                &mut l.places,
                &mut l.outbox,
                &mut l.window,
            ),
            "restart" => {
                return said!(ffi::restart(
                    &mut l.table,
                    &mut l.group,
                    &mut l.turn,
                    &mut l.counts,
                    l.n,
                    l.own,
                    &l.start,
                    &mut l.queue,
                    &mut l.items,
                    &mut l.writes,
                    &mut l.snapshots,
                    &mut l.values,
                    &mut l.stamps,
                    &mut l.classes,
                    &mut l.places,
                    &mut l.outbox,
                    &mut l.window,
                    &l.journal,
                    &l.notices,
                    &mut l.block
                ))
            }
            "begin" => {
                return said!(ffi::begin(
                    &mut l.table,
                    &mut l.counts,
                    &l.values,
                    &mut l.snapshots
                ))
            }
            "read" => {
                return said!(ffi::read(
                    &l.table,
                    l.ticket,
                    &l.items,
                    &l.writes,
                    &l.snapshots,
                    l.item
                ))
            }
            "write" => ffi::write(
                &mut l.table,
                &l.group,
                &l.turn,
                &mut l.counts,
                l.ticket,
                &mut l.items,
                &mut l.writes,
                &l.stamps,
                &l.classes,
                &l.places,
                l.item,
                l.value,
            ),
            "ask" => {
                return said!(ffi::ask(
                    &mut l.table,
                    &mut l.counts,
                    l.ticket,
                    &mut l.queue
                ))
            }
            "withdraw" => ffi::withdraw(&mut l.table, &mut l.counts, l.ticket),
            "report" => return said!(ffi::report(&l.table, &l.turn, &l.counts)),
            "send" => ffi::send(
                &mut l.table,
                &l.group,
                &mut l.turn,
                &mut l.queue,
                &l.items,
                &l.writes,
                &mut l.outbox,
                &mut l.block,
            ),
            "deliver" => ffi::deliver(&l.group, &l.turn, &mut l.places, &l.outbox, &l.bytes),
            "work" => {
                return said!(ffi::work(
                    &mut l.table,
                    &l.group,
                    &mut l.turn,
                    &mut l.counts,
                    &mut l.queue,
                    &l.items,
                    &mut l.values,
                    &mut l.stamps,
                    &mut l.places,
                    &mut l.window
                ))
            }
            "giver" => return said!(ffi::giver(&l.group, &l.turns)),
            "give" => {
                return said!(ffi::give(
                    &mut l.table,
                    &l.group,
                    &mut l.turn,
                    &mut l.counts,
                    &mut l.queue,
                    &l.items,
                    &mut l.values,
                    &mut l.stamps,
                    &mut l.places,
                    &l.outbox,
                    &mut l.window,
                    &l.turns,
                    &l.lent
                ))
            }
            "load" => ffi::load(&l.turn, &mut l.classes, &l.given),
            "out" => ffi::out(&mut l.group, &l.turn, &l.places, l.replica, l.slot),
            "back" => ffi::back(&mut l.group, &l.turn, &l.places, l.replica, l.slot),
            _ => panic!("no call {name}"),
        };
        (number, format!("{number}"))
    }
}

/// That a call which is refused answers nothing beside its number and has changed nothing, but for 9. Of a giving:
/// behind 31 it names its giver, and where a deliver ended it, what went before stands.
pub fn check_refused(name: &str, before: &Lent, after: &Lent, answer: &(u8, String)) {
    let number = answer.0;
    if name != "give" || [1, 25, 30].contains(&number) {
        assert_eq!(*answer, refused(name, number), "{name}");
    } else {
        let named = ffi::giver(&before.group, &before.turns);
        let giver = format!("giver: {},", named.giver);
        assert!(named.number == 0 && answer.1.contains(&giver), "{answer:?}");
    }
    let ended = name == "give" && [14, 15, 16, 17, 18, 19, 20, 21, 29].contains(&number);
    assert!(
        number == 9 || ended || after == before,
        "{name}: {answer:?} changed something"
    );
}

/// What a call answers where it is refused by a number: zeros beside it.
pub fn refused(name: &str, number: u8) -> (u8, String) {
    macro_rules! zeros {
        ($reply:ident) => {{
            let reply = ffi::$reply::default();
            format!("{:?}", ffi::$reply { number, ..reply })
        }};
    }
    let text = match name {
        "restart" => zeros!(RestartReply),
        "begin" => zeros!(BeginReply),
        "read" => zeros!(ReadReply),
        "ask" => zeros!(AskReply),
        "report" => zeros!(ReportReply),
        "work" => zeros!(WorkReply),
        "giver" => zeros!(GiverReply),
        "give" => zeros!(GiveReply),
        _ => format!("{number}"),
    };
    (number, text)
}
