//! The list: what the Rust does, the lines that show it, and both answers.

/// Midnight, and a quarter of an hour later.
pub const E0: &str = "*  2024  1  1  0  0  0.00000000";
pub const E1: &str = "*  2024  1  1  0 15  0.00000000";

/// Two records.
pub const P1: &str = "PG05      1.000000      2.000000      3.000000     10.000000";
pub const P2: &str = "PG05      4.000000      5.000000      6.000000     10.000000";

/// What our library and the Rust answer to the two records at the two epochs.
pub const BOTH: &str = "0 s x 1000.0, 900 s x 4000.0";

/// What is answered where the second epoch is not taken up.
pub const OLD_TIME: &str = "0 s x 1000.0, 0 s x 4000.0";

/// One of them.
pub const FIRST: &str = "0 s x 1000.0";
pub const LAST: &str = "900 s x 4000.0";

/// What the Rust does, the lines, our answer and the Rust's: the seconds after the year 2024 began, and x in metres.
type Difference = (
    &'static str,
    &'static [&'static str],
    &'static str,
    &'static str,
);

/// Which records are kept, and when.
pub const RECORDS: [Difference; 16] = [
    (
        "keeps a position of three zeros",
        &[
            E0,
            "PG05      0.000000      0.000000      0.000000     10.000000",
            E1,
            P2,
        ],
        LAST,
        "0 s x 0.0, 900 s x 4000.0",
    ),
    ("reads on behind EOF", &[E0, P1, "EOF", E1, P2], FIRST, BOTH),
    (
        "sorts by the instants",
        &[E1, P2, E0, P1],
        "900 s x 4000.0, 0 s x 1000.0",
        BOTH,
    ),
    (
        "passes over a record without a clock",
        &[E0, "PG05      1.000000      2.000000      3.000000", E1, P2],
        BOTH,
        LAST,
    ),
    (
        "passes over a record before the first epoch",
        &[P1, E1, P2],
        "refused by 11",
        LAST,
    ),
    (
        "keeps the old time at an epoch of no real date",
        &[E0, P1, "*  2024  2 30  0 15  0.00000000", P2],
        "refused by 11",
        OLD_TIME,
    ),
    (
        "keeps the old time at a second of 60",
        &[E0, P1, "*  2024  1  1  0 14 60.00000000", P2],
        "refused by 11",
        OLD_TIME,
    ),
    (
        "keeps the old time at an epoch line of fewer than seven fields",
        &[E0, P1, "*  2024  1  1  0 15", P2],
        "refused by 11",
        OLD_TIME,
    ),
    (
        "keeps the old time where the asterisk touches something",
        &[E0, P1, "*!!2024  1  1  0 15  0.00000000", P2],
        BOTH,
        OLD_TIME,
    ),
    (
        "takes up an epoch line that begins with a blank",
        &[E0, P1, " *  2024  1  1  0 15  0.00000000", P2],
        OLD_TIME,
        BOTH,
    ),
    (
        "keeps a record whose line begins with a blank",
        &[
            E0,
            P1,
            E1,
            " PG05      4.000000      5.000000      6.000000     10.000000",
        ],
        FIRST,
        BOTH,
    ),
    (
        "takes the year 0",
        &["*     0  1  1  0  0  0.00000000", P1],
        "refused by 11",
        "-63871286400 s x 1000.0",
    ),
    (
        "takes an instant beyond check 4",
        &["*  2200  1  1  0  0  0.00000000", P1],
        "refused by 11",
        "5554051200 s x 1000.0",
    ),
    (
        "takes a year below zero",
        &["*  -100  1  1  0  0  0.00000000", P1],
        "refused by 11",
        "-67026960000 s x 1000.0",
    ),
    (
        "takes a plus in a date",
        &["*  2024 +1  1  0 15  0.00000000", P2],
        "refused by 11",
        LAST,
    ),
    (
        "takes nan for a second of 0",
        &["*  2024  1  1  0 15         nan", P2],
        "refused by 11",
        LAST,
    ),
];

/// How numbers and names are read.
pub const NUMBERS: [Difference; 19] = [
    (
        "rounds twice",
        &[
            E0,
            "PG05      1.000001      2.000000      3.000000     10.000000",
        ],
        "0 s x 1000.001",
        "0 s x 1000.0009999999999",
    ),
    (
        "keeps the minus of a zero",
        &[
            E0,
            "PG05     -0.000000      2.000000      3.000000     10.000000",
        ],
        "0 s x 0.0",
        "0 s x -0.0",
    ),
    (
        "takes a plus",
        &[
            E0,
            "PG05     +1.000000      2.000000      3.000000     10.000000",
        ],
        "refused by 11",
        FIRST,
    ),
    (
        "takes an exponent",
        &[
            E0,
            "PG05           1e3      2.000000      3.000000     10.000000",
        ],
        "refused by 11",
        "0 s x 1000000.0",
    ),
    (
        "takes inf",
        &[
            E0,
            "PG05           inf      2.000000      3.000000     10.000000",
        ],
        "refused by 11",
        "0 s x inf",
    ),
    (
        "takes nan",
        &[
            E0,
            "PG05           nan      2.000000      3.000000     10.000000",
        ],
        "refused by 11",
        "0 s x NaN",
    ),
    (
        "takes fewer decimals",
        &[
            E0,
            "PG05           1.0      2.000000      3.000000     10.000000",
        ],
        "refused by 11",
        FIRST,
    ),
    (
        "takes coordinates in other columns",
        &[E0, "PG05 1 2 3 10"],
        "refused by 11",
        FIRST,
    ),
    (
        "takes an epoch in other columns",
        &["* 2024 1 1 0 15 0", P2],
        "refused by 11",
        LAST,
    ),
    (
        "takes a tab for a blank",
        &[
            E0,
            "PG05\t     1.000000      2.000000      3.000000     10.000000",
        ],
        "refused by 11",
        FIRST,
    ),
    (
        "reads decimals behind the columns",
        &["*  2024  1  1  0 15  0.123456789", P2],
        "900.12345678 s x 4000.0",
        "900.123456789 s x 4000.0",
    ),
    (
        "takes a second below zero as 0",
        &["*  2024  1  1  0 15 -5.00000000", P2],
        "refused by 11",
        LAST,
    ),
    (
        "passes over a record in which two coordinates touch",
        &[
            E0,
            "PG05      1.000000-100002.000000      3.000000     10.000000",
        ],
        FIRST,
        "no record",
    ),
    (
        "fails at such a record with accuracies",
        &[
            E0,
            "PG05      1.000000-100002.000000      3.000000     10.000000 18 18 18",
        ],
        FIRST,
        "an error",
    ),
    (
        "takes a coordinate that touches the name for a part of it",
        &[
            E0,
            "PG05-100001.000000      2.000000      3.000000     10.000000",
        ],
        "0 s x -100001000.0",
        "no record",
    ),
    (
        "fails where a clock is no number",
        &[
            E0,
            "PG05      1.000000      2.000000      3.000000 **************",
        ],
        FIRST,
        "an error",
    ),
    (
        "fails where another satellite's record is no number",
        &[
            E0,
            P1,
            "PG06 ************* ************* ************* *************",
        ],
        FIRST,
        "an error",
    ),
    (
        "fails where a velocity is no number",
        &[
            E0,
            P1,
            "VG05 ************* ************* ************* *************",
        ],
        FIRST,
        "an error",
    ),
    (
        "knows no refusal for a satellite that is not there",
        &[
            E0,
            "PG06      1.000000      2.000000      3.000000     10.000000",
        ],
        "refused by 13",
        "no record",
    ),
];
