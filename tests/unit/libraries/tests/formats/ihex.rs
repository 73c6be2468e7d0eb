//! Intel HEX.

/// Texts, and what is read of them. The checksum of a record makes the sum of its bytes 0: :01 0000 00 AA 55 is 01 + AA + 55 = 100h.
pub static ROWS: [(&str, &str); 55] = [
    (":00000001FF\n", ""),
    (":00000001FF", ""),
    (":00000001ff\r\n\r\n\n", ""),
    (":00123401B9\n", ""),
    ("\n\r\n:00000001FF", ""),
    (":01000000AA55\n:00000001FF\n", " 00000000:AA"),
    (":01000000aa55\r\n:00000001ff\r\n", " 00000000:AA"),
    // A record right after another: 02 + 01 + 02 = 05, so FB; 01 + 02 + 03 = 06, so FA.
    (
        ":020000000102FB\n:0100020003FA\n:00000001FF",
        " 00000000:010203",
    ),
    // With a gap: 01 + 03 + 03 = 07, so F9.
    (
        ":020000000102FB\n:0100030003F9\n:00000001FF",
        " 00000000:0102 00000003:03",
    ),
    // The other way round, they stay two elements, in the order of their addresses.
    (
        ":0100020003FA\n:020000000102FB\n:00000001FF",
        " 00000000:0102 00000002:03",
    ),
    // A record without data.
    (":00FFFF0002\n:01000000AA55\n:00000001FF", " 00000000:AA"),
    // The upper half of addresses: 02 + 04 + 08 = 0E, so F2.
    (
        ":020000040800F2\n:01000000AA55\n:00000001FF",
        " 08000000:AA",
    ),
    (
        ":02000004FFFFFC\n:01FFFF00AA57\n:00000001FF",
        " FFFFFFFF:AA",
    ),
    // A segment: 02 + 02 + 10 = 14, so EC.
    (
        ":020000021000EC\n:01001000AA45\n:00000001FF",
        " 00010010:AA",
    ),
    // A base replaces the one before.
    (
        ":020000040800F2\n:020000020001FB\n:01000000AA55\n:00000001FF",
        " 00000010:AA",
    ),
    // The entry point of the program, which is no part of the image.
    (":0400000308000000F1\n:0400000508000000EF\n:00000001FF", ""),
    // Data that goes on from one upper half of addresses to the next.
    (
        ":01FFFF00AA57\n:020000040001F9\n:01000000BB44\n:00000001FF",
        " 0000FFFF:AABB",
    ),
    (":02FFFF00AABB9B\n:00000001FF", " 0000FFFF:AABB"),
    (
        ":020000040800F2\n:02FFFF00AABB9B\n:00000001FF",
        " 0800FFFF:AABB",
    ),
    // A segment ends with its 65,536 bytes: 04 + FF + FE + 01 + 02 + 03 + 04 = 20B, so F5; 02 + FF + FE + 01 + 02 = 202, so FE.
    (
        ":020000021000EC\n:04FFFE0001020304F5\n:00000001FF",
        "line 2: the data ends behind its segment, or behind the last address",
    ),
    (
        ":020000021000EC\n:02FFFE000102FE\n:00000001FF",
        " 0001FFFE:0102",
    ),
    (
        ":020000020000FC\n:02FFFF00AABB9B\n:00000001FF",
        "line 2: the data ends behind its segment, or behind the last address",
    ),
    // The upper half of addresses takes its place, and ends it.
    (
        ":020000021000EC\n:020000040001F9\n:02FFFF00AABB9B\n:00000001FF",
        " 0001FFFF:AABB",
    ),
    // A byte order mark at the front, and lines of blanks.
    ("\u{feff}:01000000AA55\n:00000001FF", " 00000000:AA"),
    ("\u{feff}\u{feff}:00000001FF", "line 1: no record begins so"),
    (
        ":00000001FF\n\u{feff}",
        "line 2: something stands behind the end record",
    ),
    (" \t\r\n:01000000AA55\n \n:00000001FF\n\t", " 00000000:AA"),
    ("", "the end record is missing"),
    (":01000000AA55\n", "the end record is missing"),
    ("x", "line 1: no record begins so"),
    // Blanks at either end of a line.
    (" \t:01000000AA55 \r\n :00000001FF\t", " 00000000:AA"),
    (
        ": 00000001FF",
        "line 1: not all is pairs of hexadecimal digits",
    ),
    ("\n\nS00", "line 3: no record begins so"),
    (
        ":0000001FF",
        "line 1: not all is pairs of hexadecimal digits",
    ),
    (
        ":0000000g",
        "line 1: not all is pairs of hexadecimal digits",
    ),
    (
        ":00000001F:",
        "line 1: not all is pairs of hexadecimal digits",
    ),
    (":00000001FF ", ""),
    (":00000001FF\r\r\n", ""),
    (":", "line 1: the record has a wrong length"),
    (":00000001", "line 1: the record has a wrong length"),
    (":00000001FF00", "line 1: the record has a wrong length"),
    (":0100000155FF", "line 1: the checksum is wrong"),
    (":01000000AA56", "line 1: the checksum is wrong"),
    (":01000001AA54", "line 1: the record has a wrong length"),
    (":0100000208F5", "line 1: the record has a wrong length"),
    (":03000004080000F1", "line 1: the record has a wrong length"),
    (":020000030800F3", "line 1: the record has a wrong length"),
    (":020000050800F1", "line 1: the record has a wrong length"),
    (":00000006FA", "line 1: the record has an unknown type"),
    (
        ":02000004FFFFFC\n:02FFFF00AABB9B",
        "line 2: the data ends behind its segment, or behind the last address",
    ),
    (
        ":00000001FF\n:00000001FF",
        "line 2: something stands behind the end record",
    ),
    (
        ":00000001FF\n\n x",
        "line 3: something stands behind the end record",
    ),
    (
        ":01000000AA55\n:01000000AA55\n:00000001FF",
        "two records have a byte at address 00000000",
    ),
    (
        ":0100010003FB\n:020000000102FB\n:00000001FF",
        "two records have a byte at address 00000001",
    ),
    (
        ":020000000102FB\n:0100030003F9\n:0100000003FC\n:00000001FF",
        "two records have a byte at address 00000000",
    ),
];
