//! The worked lists of document 02's Req 01.

/// Name and lines of each list.
pub const LISTS: [(&str, &str); 6] = [
    (
        "a send ended by a cut is put down by the restart",
        ENDED_SEND,
    ),
    ("a torn block", TORN),
    ("report after a restart", REPORT),
    (
        "another's block is journaled when the turn leaves it, not before",
        HALF,
    ),
    ("where a restart stops", STOPS),
    ("tickets spent", SPENT),
];

const ENDED_SEND: &str = "
    M 0 2 0 0 -> 0
    M 1 2 1 0 -> 0
    B 0 -> 0 1
    W 0 1 5 40 -> 0
    C 0 1 -> 0 0
    S 0 -> 0 #0200020100000000..#
    J 0 0 -> 0 #
    J 0 1 -> ?
    Q 0 -> 0 0 0 1 1 0 0 0 0
    Z 0 512 0 -> 0 1 #0200020100000000..#
    Q 0 -> 0 1 1 1 0 1 0 0 0
    V 0 -> 0 0 0 0 0 0 40 *
    D 0 0 -> 17
    D 1 0 -> 0
    K 1 -> 0 0 1 1 0
    J 1 0 -> 0 #
    B 0 -> 0 2";

/// Ticket 1 is given again: no own block holds it.
const TORN: &str = "
    M 0 2 0 7 -> 0
    B 0 -> 0 1
    B 0 -> 0 2
    B 0 -> 0 3
    W 0 3 5 40 -> 0
    C 0 3 -> 0 0
    S 0 -> 0 #
    Z 0 511 7 -> 0 0 {zero}
    Q 0 -> 0 0 0 0 0 0 0 0 0
    J 0 0 -> ?
    B 0 -> 0 1
    S 0 -> 0 #0100020000000000..#
    J 0 0 -> 0 #0100020000000000..#
    Z 0 512 7 -> 0 1 #0100020000000000..#
    Q 0 -> 0 1 0 0 0 0 0 0 0";

/// The highest ticket in an own block is 3, so ticket 4 is given a second time.
const REPORT: &str = "
    M 0 2 0 0 -> 0
    B 0 -> 0 1
    B 0 -> 0 2
    B 0 -> 0 3
    B 0 -> 0 4
    C 0 1 -> 0 1
    X 0 2 -> 0
    W 0 3 9 -1 -> 0
    C 0 3 -> 0 0
    S 0 -> 0 #
    Q 0 -> 0 0 0 4 2 0 1 0 1
    Z 0 512 0 -> 0 1 #
    Q 0 -> 0 1 1 3 0 1 0 2 0
    B 0 -> 0 4";

/// Half a block applied is forgotten; replica 1 has no own block to give back.
const HALF: &str = "
    M 0 2 0 0 -> 0
    M 1 2 1 0 -> 0
    B 0 -> 0 1
    B 0 -> 0 2
    W 0 1 5 50 -> 0
    W 0 2 6 60 -> 0
    C 0 1 -> 0 0
    C 0 2 -> 0 0
    S 0 -> 0 #
    D 1 0 -> 0
    K 1 -> 0 0 1 0 0
    J 1 0 -> ?
    Z 1 0 0 -> 0 0 {zero}
    Q 1 -> 0 0 0 0 0 0 0 0 0
    V 1 -> 0 0 0 0 0 0 0 0 *
    D 1 0 -> 0
    K 1 -> 0 0 1 0 0
    K 1 -> 0 0 2 1 0
    J 1 0 -> 0 #
    Z 1 512 0 -> 0 1 {zero}";

/// The highest ticket, 9, is not in the last own block; a refused restart leaves what was there.
const STOPS: &str = "
    Y 0 2 0 0 {next 0 2}{rec 1 2 7:5=40}{next 2 2} -> 0 3 #0100020002000000..#
    Q 0 -> 0 3 1 0 0 0 0 0 0
    Y 0 2 0 0 {next 0 2}{next 2 2}{next 1 2} -> 0 1 #0100020000000000..#
    Y 0 2 0 0 {next 1 2} -> 0 0 {zero}
    Y 0 2 0 0 {next 0 3} -> 0 0 {zero}
    Y 0 2 1 0 {next 0 2}00 -> 0 1 {zero}
    Y 0 2 0 0 {rec 0 2 3:1=1;9:2=2}{next 1 2}{rec 2 2 5:3=3} -> 0 3 #0200020102000000..#
    Q 0 -> 0 3 3 9 0 3 0 6 0
    B 0 -> 0 10
    Y 0 7 0 0  -> 2
    Y 0 2 2 0  -> 2
    Q 0 -> 0 3 3 10 1 3 0 6 0
    Y 0 2 0 0  -> 0 0 {zero}";

const SPENT: &str = "
    Y 0 2 0 0 {rec 0 2 99999999:1=1} -> 0 1 #
    Q 0 -> 0 1 1 99999999 0 1 0 99999998 0
    B 0 -> 0 100000000
    B 0 -> 6";
