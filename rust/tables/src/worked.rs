//! The worked tables in clause notation, with the name of the file that holds
//! each one's bytes. tables/README.md says where each is from.

/// Document 01's COPY: a string of sevens and eights, said twice.
pub const COPY: &str = "
    start A1
    1 2
    10 A1(X1.1 X1.2) -> A2(X1.1, X1.2)
    20 A2(, ) ->
    21 A2(7 X1.1, 7 X1.2) -> A2(X1.1, X1.2)
    22 A2(8 X1.1, 8 X1.2) -> A2(X1.1, X1.2)
";

/// Document 01's AMB: nines, put together in all ways.
pub const AMB: &str = "
    start A1
    1
    1 A1(X1.1 X2.1) -> A1(X1.1) A1(X2.1)
    2 A1(9) ->
";

/// Document 000, section 2: as many a's (1) as b's (2) as c's (3).
pub const ABC: &str = "
    start A1
    1 3
    1 A1(X1.1 X1.2 X1.3) -> A2(X1.1, X1.2, X1.3)
    2 A2(1 X1.1, 2 X1.2, 3 X1.3) -> A2(X1.1, X1.2, X1.3)
    3 A2(, , ) ->
";

/// Document 001, figure 3.1: a string of a (1) and b (2), then the same with
/// c (3) for a and d (4) for b. Functions: 1 is f, 2 is g, 3 is ac, 4 is bd.
pub const FIGURE_3_1: &str = "
    start A1
    1 2
    1 A1(X1.1 X1.2) -> A2(X1.1, X1.2)
    2 A2(X1.1 X2.1, X1.2 X2.2) -> A2(X1.1, X1.2) A2(X2.1, X2.2)
    3 A2(1, 3) ->
    4 A2(2, 4) ->
";

/// Document 004, table 4: x is two x side by side, or the word x (1).
pub const GXX: &str = "
    start A1
    1
    1 A1(X1.1 X2.1) -> A1(X1.1) A1(X2.1)
    2 A1(1) ->
";

/// A verb in two halves, for the README. The words: 1 we, 2 they, 3 pick, 4 up,
/// 5 call, 6 back, 7 the, 8 child, 9 mother. A1 is a sentence, A2 a person,
/// A3 a verb in two halves, A4 a thing or somebody that is named.
pub const VERB: &str = "
    start A1
    1 1 2 1
    1 A1(X1.1 X2.1 X3.1 X2.2) -> A2(X1.1) A3(X2.1, X2.2) A4(X3.1)
    2 A1(X1.1 X2.1 X2.2 X3.1) -> A2(X1.1) A3(X2.1, X2.2) A4(X3.1)
    11 A2(1) ->
    12 A2(2) ->
    21 A3(3, 4) ->
    22 A3(5, 6) ->
    31 A4(7 8) ->
    32 A4(7 9) ->
";

/// Each file in `tables/` with the text that it is made from.
pub const FILES: [(&str, &str); 6] = [
    ("copy.mcg", COPY),
    ("amb.mcg", AMB),
    ("abc.mcg", ABC),
    ("figure-3-1.mcg", FIGURE_3_1),
    ("gxx.mcg", GXX),
    ("verb.mcg", VERB),
];
