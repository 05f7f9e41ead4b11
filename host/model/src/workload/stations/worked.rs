//! The worked list of document 02's Req 05.

/// Name and lines of each list.
pub const LISTS: [(&str, &str); 1] = [("a station", STATION)];

/// Every sender is another to it, and 25 comes before 2 and 3. Slot 3 is beyond its two places while its
/// turn is 1.
const STATION: &str = "
    A 7 2 5 -> 0
    A 6 7 5 -> 2
    A 8 2 5 -> ?
    M 0 2 0 5 -> 0
    B 7 -> 0 1
    W 7 1 5 40 -> 25
    W 7 9 128 40 -> 25
    S 7 -> 25
    H 7 {next 0 2} -> 0
    K 7 -> 0 0 0 1 0
    H 7 {rec 1 2 1:5=50;2:6=60} -> 0
    H 7 {next 3 2} -> 18
    K 7 -> 0 1 1 0 0
    B 7 -> 0 2
    R 7 1 5 -> 0 5
    R 7 2 5 -> 0 50
    K 7 -> 0 1 2 1 0
    C 7 1 -> 0 1
    X 7 2 -> 0
    Q 7 -> 0 2 2 2 0 0 1 0 1
    Z 7 0 5 -> ?
    J 7 0 -> ?
    P 7 {classes 1} -> ?";
