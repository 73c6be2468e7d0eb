//! S-records.

/// Texts, and what is read of them. The checksum of a record makes the sum of its bytes FFh: S1 04 0000 AA 51 is 04 + AA + 51 = FFh.
pub static ROWS: [(&str, &str); 43] = [
    ("S9030000FC\n", ""),
    ("S9030000fc", ""),
    ("\r\nS9030000FC\r\n\r\n\n", ""),
    ("S70508000000F2\n", ""),
    ("\u{feff} \nS9030000FC\n\t\r\n", ""),
    ("S804010000FA\n", ""),
    ("S1040000AA51\nS9030000FC\n", " 00000000:AA"),
    (
        "S00600004844521B\r\nS1050000aabb95\r\nS9030000FC\r\n",
        " 00000000:AABB",
    ),
    ("S205010000AA4F\nS804010000FA\n", " 00010000:AA"),
    ("S30608000000AA47\nS70508000000F2\n", " 08000000:AA"),
    ("S104FFFFAA53\nS9030000FC\n", " 0000FFFF:AA"),
    // From the addresses of one record type to those of the next.
    (
        "S104FFFFAA53\nS205010000AA4F\nS9030000FC\n",
        " 0000FFFF:AAAA",
    ),
    // In the order of addresses, though the file has another order.
    (
        "S30608000000AA47\nS1040000AA51\nS9030000FC\n",
        " 00000000:AA 08000000:AA",
    ),
    // A record without data is counted too.
    ("S1030000FC\nS5030001FB\nS9030000FC\n", ""),
    ("S5030000FC\nS9030000FC", ""),
    (
        "S1040000AA51\nS604000001FA\nS1040001AA50\nS5030002FA\nS9030000FC",
        " 00000000:AAAA",
    ),
    // A header record may have any length and any text.
    ("S0030000FC\nS9030000FC", ""),
    // A count after all data serves as an end.
    ("S1040000AA51\nS5030001FB\n", " 00000000:AA"),
    (
        "S1040000AA51\nS5030001FB\nS1040001AA50\n",
        "the end record is missing",
    ),
    ("", "the end record is missing"),
    ("S1040000AA51\n", "the end record is missing"),
    ("S", "line 1: no record begins so"),
    ("s9030000FC", "line 1: no record begins so"),
    ("SA030000FC", "line 1: no record begins so"),
    ("S:030000FC", "line 1: no record begins so"),
    ("S/030000FC", "line 1: no record begins so"),
    ("\n:00000001FF", "line 2: no record begins so"),
    (
        "S9030000F",
        "line 1: not all is pairs of hexadecimal digits",
    ),
    ("S9030000FC ", ""),
    (
        "S9030000G0",
        "line 1: not all is pairs of hexadecimal digits",
    ),
    ("S9", "line 1: the record has a wrong length"),
    ("S9030000FC00", "line 1: the record has a wrong length"),
    ("S9020000", "line 1: the record has a wrong length"),
    ("S1020000", "line 1: the record has a wrong length"),
    ("S304010000FA", "line 1: the record has a wrong length"),
    ("S904000000FB", "line 1: the record has a wrong length"),
    ("S504000100FA", "line 1: the record has a wrong length"),
    ("S9030000FD", "line 1: the checksum is wrong"),
    ("S4030000FC", "line 1: the record has an unknown type"),
    (
        "S1040000AA51\nS5030002FA\n",
        "line 2: the count of records is wrong",
    ),
    ("S105FFFFAABB97\nS9030000FC", " 0000FFFF:AABB"),
    (
        "S307FFFFFFFFAABB97\n",
        "line 1: the data ends behind its segment, or behind the last address",
    ),
    (
        "S9030000FC\nS9030000FC\n",
        "line 2: something stands behind the end record",
    ),
];
