//! The worked lists of document 02's Req 02.

/// Name and lines of each list.
pub const LISTS: [(&str, &str); 2] = [
    ("classes", CLASSES),
    (
        "an item already held waits too, and no table is one class",
        HELD,
    ),
];

/// Items 6 and 8 have class 2, 9 has 3, the rest 1. After the first writeset those still to be applied
/// hold items 6 and 7: class 3 is free. After the second only 7: class 2 is free again.
const CLASSES: &str = "
    M 0 3 0 0 -> 0
    P 0 {classes 1 6=2 8=2 9=3} -> 0
    B 0 -> 0 1
    H 0 {next 0 3} -> 19
    S 0 -> 0 #
    D 0 0 -> 0
    K 0 -> 0 0 0 1 0
    H 0 {rec 1 3 1:5=50;2:6=60;3:7=70} -> 0
    K 0 -> 0 1 1 0 0
    W 0 1 9 1 -> 0
    W 0 1 8 1 -> 7
    W 0 1 40 1 -> 7
    W 0 1 128 1 -> 2
    W 0 9 8 1 -> 3
    P 0 {classes 1 6=2 8=2 9=3} -> 23
    P 0 01 -> 1
    P 0 {classes 9} -> 2
    K 0 -> 0 1 2 0 0
    W 0 1 8 1 -> 0
    W 0 1 8 2 -> 0
    W 0 1 6 1 -> 9
    K 0 -> 0 1 3 1 0
    P 0 {classes 1} -> 0";

/// The table is gone after the restart.
const HELD: &str = "
    M 0 2 1 0 -> 0
    B 0 -> 0 1
    W 0 1 20 1 -> 0
    H 0 {rec 0 2 1:5=50;2:6=60} -> 0
    K 0 -> 0 0 1 0 0
    W 0 1 20 2 -> 7
    K 0 -> 0 0 2 1 0
    W 0 1 20 2 -> 0
    P 0 {classes 1 20=2} -> 0
    Z 0 512 0 -> 0 1 {zero}
    H 0 {next 1 2} -> 19
    S 0 -> 0 #
    D 0 0 -> 0
    K 0 -> 0 1 0 1 0
    B 0 -> 0 1
    H 0 {rec 2 2 3:5=50;4:6=60} -> 0
    K 0 -> 0 0 3 0 0
    W 0 1 20 2 -> 7";
