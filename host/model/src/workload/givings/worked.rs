//! The worked lists of document 02's Req 11 and 12.

/// Name and lines of each list.
pub const LISTS: [(&str, &str); 5] = [
    ("a giving", GIVING),
    ("a giving ended by a deliver", ENDED),
    ("in place already, half applied", IN_PLACE),
    ("a window of 64 slots", WINDOW),
    ("ties", TIES),
];

/// Ticket 2 is aborted by the first writeset and 1 by the second: they are named in rising order. The own entry
/// is not looked at.
const GIVING: &str = "
    M 0 3 0 0 -> 0
    M 1 3 1 0 -> 0
    M 2 3 2 0 -> 0
    O 0 2 2 -> 0
    O 1 2 2 -> 0
    O 2 2 2 -> 0
    B 0 -> 0 1
    B 0 -> 0 2
    W 0 1 5 50 -> 0
    W 0 2 6 60 -> 0
    C 0 1 -> 0 0
    C 0 2 -> 0 0
    S 0 -> 0 #
    D 0 0 -> 0
    D 1 0 -> 0
    K 0 -> 0 0 1 0 0
    K 0 -> 0 0 2 1 0
    K 1 -> 0 0 1 0 0
    K 1 -> 0 0 2 1 0
    S 1 -> 0 #
    D 0 1 -> 0
    K 0 -> 0 1 0 1 0
    K 0 -> 0 2 0 1 0
    B 2 -> 0 1
    B 2 -> 0 2
    W 2 2 5 1 -> 0
    W 2 1 6 1 -> 0
    C 2 2 -> 0 0
    G 2 3 2 4294967295 -> 0 0 2 1 2
    Q 2 -> 0 3 2 2 0 0 0 2 0
    G 2 3 2 0 -> 0 0 0
    G 2 4294967295 2 0 -> 0 1 0
    G 2 4294967295 4294967295 0 -> 30
    G 2 4 2 0 -> 31 0
    G 2 3 2 -> ?
    G 1 3 0 4294967295 -> 0 0 0
    Q 1 -> 0 3 2 0 0 0 0 0 0
    J 2 2 -> 0 {next 2 3}";

/// Replica 2 lacks the notice that puts it out: the *next* of slot 2 looks to it like an own block that it never
/// sent. Replica 1 gets its own block of slot 1, which it sent, and takes a *next* that nobody handed out.
const ENDED: &str = "
    M 0 3 0 0 -> 0
    M 1 3 1 0 -> 0
    M 2 3 2 0 -> 0
    O 0 2 2 -> 0
    B 0 -> 0 1
    W 0 1 5 50 -> 0
    C 0 1 -> 0 0
    S 0 -> 0 #
    D 0 0 -> 0
    K 0 -> 0 0 1 1 0
    D 1 0 -> 0
    K 1 -> 0 0 1 1 0
    S 1 -> 0 #
    D 0 1 -> 0
    K 0 -> 0 1 0 1 0
    K 0 -> 0 2 0 1 0
    B 2 -> 0 1
    W 2 1 5 1 -> 0
    G 2 3 4294967295 0 -> 19 0 1 1
    Q 2 -> 0 2 1 1 0 0 0 1 0
    G 1 3 0 4294967295 -> 0 0 0
    Q 1 -> 0 3 1 0 0 0 0 0 0";

/// Slot 0 is in place, and one writeset of it done: it is not delivered, which would be refused by 20, but
/// worked until the turn has left it.
const IN_PLACE: &str = "
    M 0 2 0 0 -> 0
    M 1 2 1 0 -> 0
    B 0 -> 0 1
    B 0 -> 0 2
    W 0 1 5 50 -> 0
    W 0 2 6 60 -> 0
    C 0 1 -> 0 0
    C 0 2 -> 0 0
    S 0 -> 0 #
    D 1 0 -> 0
    K 1 -> 0 0 1 0 0
    B 1 -> 0 1
    P 1 {classes 1 7=2} -> 23
    W 1 1 6 1 -> 7
    D 0 0 -> 0
    K 0 -> 0 0 1 0 0
    K 0 -> 0 0 2 1 0
    G 1 1 4294967295 -> 0 0 0
    Q 1 -> 0 1 2 1 1 0 0 0 0";

/// Replica 0 of three sends its blocks of these numbers, and passes the slots of the others, which are out.
macro_rules! rounds {
    ($($block:literal)*) => {
        concat!($("
            S 0 -> 0 #
            D 0 ", $block, " -> 0
            K 0 -> 0 0 0 1 0
            K 0 -> 0 1 0 1 0
            K 0 -> 0 2 0 1 0"),*)
    };
}

/// Replicas 1 and 2 are out from their first slots. At turn 64 the giver still has slot 0, at turn 65 it lacks
/// it, also for one that has its block in place; at turn 66 it lacks slot 1, also where that is out. Restarts
/// leave the last 64 blocks.
const WINDOW: &str = concat!(
    "
    M 0 3 0 0 -> 0
    M 1 3 1 0 -> 0
    M 2 3 2 0 -> 0
    O 0 1 1 -> 0
    O 0 2 2 -> 0
    O 1 1 1 -> 0
    O 1 2 2 -> 0
    O 2 1 1 -> 0
    O 2 2 2 -> 0",
    rounds!(0 1 2 3 4 5 6 7 8 9 10 11 12 13 14 15 16 17 18 19 20),
    "
    S 0 -> 0 #
    D 0 21 -> 0
    K 0 -> 0 0 0 1 0
    G 1 64 0 0 -> 0 0 0
    Q 1 -> 0 64 0 0 0 0 0 0 0
    J 1 0 -> 0 {next 0 3}
    J 1 63 -> 0 {next 63 3}
    J 1 64 -> ?
    K 0 -> 0 1 0 1 0
    D 2 0 -> 0
    G 2 65 64 0 -> 31 0
    G 2 64 0 0 -> 31 0
    G 1 65 0 0 -> 0 0 0
    K 2 -> 0 0 0 1 0
    K 0 -> 0 2 0 1 0
    G 2 66 65 0 -> 31 0
    G 2 66 66 0 -> 31 0
    G 2 4294967294 65 0 -> 31 0
    Q 2 -> 0 1 0 0 0 0 0 0 0
    K 2 -> 0 1 0 1 0
    G 2 66 65 0 -> 0 0 0
    Q 2 -> 0 66 0 0 0 0 0 0 0
    Z 0 33792 0 -> 0 66 #
    Z 1 512 0 -> 0 1 {zero}
    G 1 66 0 0 -> 31 0
    K 1 -> 0 1 0 1 0
    G 1 66 0 0 -> 0 0 0
    Q 1 -> 0 66 0 0 0 0 0 0 0
    J 1 65 -> 0 {next 65 3}"
);

/// All stand level: the first behind the returner gives, counting upward and round; who is down is passed over.
const TIES: &str = "
    M 0 4 0 0 -> 0
    M 1 4 1 0 -> 0
    M 2 4 2 0 -> 0
    M 3 4 3 0 -> 0
    G 1 0 0 0 0 -> 0 2 0
    G 3 0 0 0 0 -> 0 0 0
    G 2 0 0 0 4294967295 -> 0 0 0
    G 2 0 0 0 0 -> 0 3 0
    G 0 9 0 0 0 -> 0 1 0";
