//! The worked lists of document 02's Req 10.

/// Name and lines of each list.
pub const LISTS: [(&str, &str); 4] = [
    ("out and back", OUT_AND_BACK),
    ("out of oneself", OUT_OF_ONESELF),
    ("two own outages with no own block between", TWO_OWN_OUTAGES),
    ("a block placed early shuts a notice out", PLACED_EARLY),
];

/// Out 2 from 2 and Back 2 at 6: slots 2 and 5 are passed, slot 8 counts. At turn 6 the last Back is not above
/// the turn, so that Out 2 from 6 is taken. 29 comes after 17 and before 18.
const OUT_AND_BACK: &str = "
    M 0 3 0 0 -> 0
    O 0 2 2 -> 0
    O 0 2 5 -> 28
    O 0 3 5 -> 2
    O 0 2 100000000 -> 2
    U 0 2 2 -> 28
    U 0 1 5 -> 28
    S 0 -> 0 #
    D 0 0 -> 0
    K 0 -> 0 0 0 1 0
    H 0 {next 1 3} -> 0
    K 0 -> 0 1 0 1 0
    H 0 {next 2 3} -> 29
    H 0 {next 5 3} -> 29
    H 0 {next 8 3} -> 29
    K 0 -> 0 2 0 1 0
    J 0 2 -> 0 {next 2 3}
    H 0 {next 2 3} -> 17
    U 0 2 6 -> 0
    U 0 2 9 -> 28
    O 0 2 9 -> 28
    S 0 -> 0 #
    D 0 1 -> 0
    K 0 -> 0 0 0 1 0
    H 0 {next 4 3} -> 0
    K 0 -> 0 1 0 1 0
    K 0 -> 0 2 0 1 0
    K 0 -> 21
    O 0 2 6 -> 0
    Q 0 -> 0 6 0 0 0 0 0 0 0
    U 0 2 7 -> 0
    K 0 -> 21
    O 0 1 5 -> 28";

/// The *next* of an own out slot is appended by the work that passes it. The restart gives slot 3 back, and
/// not that of slot 5.
const OUT_OF_ONESELF: &str = "
    M 1 2 1 0 -> 0
    H 1 {next 0 2} -> 0
    K 1 -> 0 0 0 1 0
    B 1 -> 0 1
    W 1 1 5 40 -> 0
    C 1 1 -> 0 0
    O 1 1 1 -> 0
    S 1 -> 29
    K 1 -> 0 1 0 1 0
    S 1 -> 11
    J 1 1 -> 0 {next 1 2}
    U 1 1 2 -> 0
    H 1 {next 2 2} -> 0
    K 1 -> 0 0 0 1 0
    S 1 -> 0 #0201020103000000..#
    S 1 -> 12
    O 1 1 3 -> 28
    D 1 0 -> 0
    K 1 -> 0 1 1 1 0
    Z 1 2048 0 -> 0 4 #0201020103000000..#
    O 1 1 4 -> 0
    H 1 {next 4 2} -> 0
    K 1 -> 0 0 0 1 0
    K 1 -> 0 1 0 1 0
    J 1 5 -> 0 {next 5 2}
    Z 1 3072 0 -> 0 6 #0201020103000000..#
    Q 1 -> 0 6 1 1 0 1 0 0 0";

/// By the last outage alone, from 2 to 7, slot 1 would look like an own block.
const TWO_OWN_OUTAGES: &str = "
    M 1 2 1 0 -> 0
    H 1 {next 0 2} -> 0
    K 1 -> 0 0 0 1 0
    O 1 1 1 -> 0
    K 1 -> 0 1 0 1 0
    U 1 1 2 -> 0
    O 1 1 2 -> 0
    H 1 {next 2 2} -> 0
    K 1 -> 0 0 0 1 0
    U 1 1 7 -> 0
    K 1 -> 0 1 0 1 0
    Z 1 2048 0 -> 0 4 {zero}";

const PLACED_EARLY: &str = "
    M 1 2 1 0 -> 0
    H 1 {next 0 2} -> 0
    K 1 -> 0 0 0 1 0
    H 1 {next 2 2} -> 0
    O 1 0 1 -> 28
    O 1 0 3 -> 0
    U 1 0 3 -> 28
    U 1 0 4 -> 0";
