//! The C headers beside the Rust crate: layouts, lengths, limits, numbers and words; and the headers in each
//! language that they are for.

use std::collections::BTreeMap;
use std::mem::offset_of;

use stemline::ffi::{
    AskReply, BeginReply, BlockReply, Counts, Entry, GiveReply, GiverReply, Group, Header,
    ReadReply, RecordHead, Report, ReportReply, RestartReply, Turn, Txn, WorkReply,
};
use stemline::{Refusal, Replica, ITEMS, REPLICAS};

use crate::c::{build, has_cpp, printed, run, run_c, unlinked};

const HEADERS: &str = concat!(
    include_str!("../../../include/stemline_calls.h"),
    include_str!("../../../include/stemline.h")
);
const FIRST: &str = include_str!("../../../examples/first.c");
const PRINT_ROOM: &str = include_str!("../../../examples/print_room.c");
const CLOSED: &str = include_str!("../../../examples/closed_studio.c");
const HOLIDAY: &str = include_str!("../../../examples/holiday.c");
const CLOSED_SAYS: &str = "\
all three: turn 4, item 5 is 3; turn 4, item 5 is 3; turn 4, item 5 is 3
closed: turn 9, item 5 is 7; turn 9, item 5 is 7; turn 4, item 5 is 3
back: turn 9, item 5 is 7; turn 9, item 5 is 7; turn 9, item 5 is 7
all three: turn 12, item 5 is 11; turn 12, item 5 is 11; turn 12, item 5 is 11
";
const HOLIDAY_SAYS: &str = "\
closed: turn 40, item 5 is 39; turn 40, item 5 is 39; turn 4, item 5 is 3
studio 0 gives: accepted (0)
back: turn 48, item 5 is 47; turn 48, item 5 is 47; turn 48, item 5 is 47
closed: turn 150, item 5 is 148; turn 150, item 5 is 148; turn 48, item 5 is 47
studio 0 gives: the giver's window lacks a block of a slot up to its turn (31)
up to turn 86 from its journal
studio 0 gives: accepted (0)
back: turn 160, item 5 is 159; turn 160, item 5 is 159; turn 160, item 5 is 159
";
const PRINT_ROOM_SAYS: &str = "\
the last block, too early: the block's slot is too far above the turn (18)
slot 0: accepted, item 5 is 40
slot 1: accepted, item 5 is 41
slot 2: accepted, item 5 is 42
slot 3: accepted, item 5 is 43
slot 4: accepted, item 5 is 44
slot 5: accepted, item 5 is 45
a write: a station neither writes nor sends nor is given blocks (25)
read in the print room: 45
";

/// A program of these lines.
fn program(lines: &str) -> String {
    format!(
        "#include <stdio.h>\n#include \"stemline.h\"\nint main(void) {{\n{lines}return 0;\n}}\n"
    )
}

/// The lines that a C program must print of a struct: its size and the offset of each field.
macro_rules! layout {
    ($expected:ident, $lines:ident, $c:literal, $rust:ty, $($field:ident)*) => {
        let size = size_of::<$rust>();
        $expected.push_str(&format!("{} {size}\n", $c));
        $lines.push_str(&format!("printf(\"{0} %zu\\n\", sizeof({0}));\n", $c));
        $(
            let (field, at) = (stringify!($field), offset_of!($rust, $field));
            $expected.push_str(&format!("{}.{field} {at}\n", $c));
            $lines.push_str(&format!(
                "printf(\"{0}.{field} %zu\\n\", offsetof({0}, {field}));\n", $c
            ));
        )*
    };
}

#[test]
fn structs_have_one_layout() {
    let (mut due, mut lines) = (String::new(), String::new());
    layout!(due, lines, "stemline_txn", Txn, ticket stage snapshot writes);
    layout!(due, lines, "stemline_turn", Turn, slot sent applying);
    layout!(due, lines, "stemline_group", Group, replicas own from until);
    // As a restart is lent them: three numbers, one behind the other.
    due.push_str("12 0 4 8\n");
    lines.push_str(
        "printf(\"%zu %zu %zu %zu\\n\", sizeof(stemline_notice), offsetof(stemline_notice, replica),\n\
         offsetof(stemline_notice, out), offsetof(stemline_notice, slot));\n",
    );
    layout!(due, lines, "stemline_counts", Counts,
        commits done tickets committed read_only aborted withdrawn);
    layout!(due, lines, "stemline_report_values", Report,
        turn commits tickets open_count committed read_only aborted withdrawn);
    layout!(due, lines, "stemline_begin_reply", BeginReply, number ticket);
    layout!(due, lines, "stemline_read_reply", ReadReply, number value);
    layout!(due, lines, "stemline_ask_reply", AskReply, number read_only);
    layout!(due, lines, "stemline_report_reply", ReportReply, number report);
    layout!(due, lines, "stemline_work_reply", WorkReply,
        number sender moved count ticket aborted append);
    layout!(due, lines, "stemline_giver_reply", GiverReply, number giver);
    layout!(due, lines, "stemline_give_reply", GiveReply, number giver count aborted);
    layout!(due, lines, "stemline_restart_reply", RestartReply, number count);
    layout!(due, lines, "stemline_header_values", Header, kind sender replicas count slot);
    layout!(due, lines, "stemline_block_reply", BlockReply, number header);
    layout!(due, lines, "stemline_record_values", RecordHead, ticket writes);
    layout!(due, lines, "stemline_entry_values", Entry, item value);
    assert_eq!(run_c("layout", &program(&lines), b""), due);
}

/// A part of the struct is as long as the crate's, its places for the largest group.
#[test]
fn parts_have_one_length() {
    let replica = Replica::new(REPLICAS as u32, 0, &[0; ITEMS]).unwrap();
    let (mut due, mut lines) = (String::new(), String::new());
    macro_rules! part {
        ($($part:ident)*) => {$(
            let (name, bytes) = (stringify!($part), size_of_val(&replica.memory().$part[..]));
            due.push_str(&format!("{name} {bytes}\n"));
            lines.push_str(&format!(
                "printf(\"{name} %zu\\n\", sizeof ((stemline_replica *)0)->{name});\n"
            ));
        )*};
    }
    part!(table queue items writes snapshots values stamps classes places outbox);
    due.push_str(&format!("{}\n", replica.window().bytes().len()));
    lines.push_str("printf(\"%zu\\n\", sizeof ((stemline_replica *)0)->window);\n");
    lines.push_str("printf(\"%zu %zu\\n\", STEMLINE_PLACES(0), STEMLINE_PLACES(5));\n");
    due.push_str("0 2560\n");
    assert_eq!(run_c("lengths", &program(&lines), b""), due);
}

/// The words behind each `start` up to each `end`, as a name and a number.
fn limits(text: &str, start: &str, between: &[char], end: char) -> BTreeMap<String, u64> {
    let lines = text.lines().filter_map(|line| line.strip_prefix(start));
    let limit = |line: &str| {
        let (name, rest) = line.split_once(between)?;
        let number = rest.split(end).next()?.trim().rsplit(' ').next()?;
        // As C writes one that fits an unsigned number alone.
        let number = number.trim_end_matches('u').replace('_', "");
        Some((name.to_string(), number.parse().ok()?))
    };
    lines.filter_map(limit).collect()
}

/// STEMLINE_ITEMS in C is ITEMS in Rust, and so with every limit.
#[test]
fn limits_have_one_name() {
    let mut c = limits(HEADERS, "#define STEMLINE_", &[' '], '/');
    c.retain(|name, _| !name.starts_with("VERSION"));
    let rust = limits(include_str!("../../src/lib.rs"), "pub const ", &[':'], ';');
    assert_eq!(c, rust);
    assert!(
        rust.len() == 15 && rust["ITEMS"] == ITEMS as u64,
        "{rust:?}"
    );
}

/// The version of the headers is Cargo's, in each form that C has it in.
#[test]
fn version_of_cargo() {
    let lines = "printf(\"%s %d.%d.%d\\n\", STEMLINE_VERSION, STEMLINE_VERSION_MAJOR,\n\
                 STEMLINE_VERSION_MINOR, STEMLINE_VERSION_PATCH);\n";
    let version = env!("CARGO_PKG_VERSION");
    let due = format!("{version} {version}\n");
    assert_eq!(run_c("version", &program(lines), b""), due);
    // And it is told what changed in it.
    let changes = include_str!("../../../../CHANGELOG.md");
    assert!(changes.contains(&format!("\n## {version}")), "{version}");
}

/// The archive says its version, and by the symbol's name only headers of that version link with it.
#[test]
fn headers_of_another_version() {
    let lines = "static stemline_replica r; static int32_t start[STEMLINE_ITEMS];\n\
                 printf(\"%s %d\\n\", stemline_linked_version(), stemline_replica_make(&r, 2, 0, start));\n";
    let due = format!("{} 0\n", env!("CARGO_PKG_VERSION"));
    assert_eq!(run_c("linked", &program(lines), b""), due);
    // The same with the second number one higher: it compiles, and does not link.
    let calls = include_str!("../../../include/stemline_calls.h");
    let minor = env!("CARGO_PKG_VERSION_MINOR");
    let next = minor.parse::<u32>().unwrap() + 1;
    let other = calls.replace(
        &format!("#define STEMLINE_VERSION_MINOR {minor}\n"),
        &format!("#define STEMLINE_VERSION_MINOR {next}\n"),
    );
    assert!(other != calls);
    for call in [
        "stemline_replica_make(&r, 2, 0, start)",
        "stemline_replica_make_station(&r, 2, start)",
        "stemline_replica_restart(&r, 2, 0, start, NULL, 0, NULL, 0, block).number",
        "stemline_linked_version()[0]",
    ] {
        let lines = format!(
            "static stemline_replica r; static int32_t start[STEMLINE_ITEMS];\n\
             static uint8_t block[STEMLINE_BLOCK]; (void)r, (void)start, (void)block;\n\
             printf(\"%d\\n\", (int){call});\n"
        );
        let source = program(&lines).replace("#include \"stemline.h\"\n", "");
        let source = format!("{other}\n#include \"stemline.h\"\n{source}");
        let said = unlinked("other_version", &source);
        let symbol = format!(
            "stemline_version_{}_{next}",
            env!("CARGO_PKG_VERSION_MAJOR")
        );
        assert!(said.contains(&symbol), "{said}");
    }
}

/// STEMLINE_NOT_OPEN in C is Refusal::NotOpen in Rust, by the same number.
#[test]
fn numbers_have_one_name() {
    macro_rules! cases {
        ($($case:ident)*) => { [$((stringify!($case), Refusal::$case)),*] };
    }
    let cases = cases!(WrongLength OutOfRange NotOpen NotActive AllOpen TicketsSpent Applying Locked Stale
        WritesetFull NotOurTurn AlreadySent SlotsSpent WrongCheck WrongForm WrongGroup PastSlot FarSlot
        NotSent SlotTaken NothingWaits LoadWhileApplying StationOnlyReads NoticeRefused SlotOut NobodyUp
        WindowLacks);
    let (mut due, mut lines) = (String::new(), String::new());
    for (case, refusal) in cases {
        let mut name = String::new();
        for letter in case.chars() {
            if letter.is_uppercase() {
                name.push('_');
            }
            name.push(letter.to_ascii_uppercase());
        }
        lines.push_str(&format!("printf(\"%d\\n\", STEMLINE{name});\n"));
        due.push_str(&format!("{}\n", refusal.number()));
    }
    assert_eq!(run_c("numbers", &program(&lines), b""), due);
    // And C has no others.
    let named = HEADERS
        .lines()
        .filter(|line| line.starts_with("    STEMLINE_"));
    assert_eq!(named.count(), 1 + cases.len());
}

/// `stemline_words` says what the crate's refusals say.
#[test]
fn numbers_have_the_same_words() {
    let lines = "for (int number = -1; number <= 256; number++) {\n\
                 printf(\"%s\\n\", stemline_words(number));\n}\n";
    let c = run_c("words", &program(lines), b"");
    let words = |number: i32| match u8::try_from(number) {
        Ok(number) => Refusal::from_number(number).map_or("accepted", Refusal::words),
        Err(_) => "refused by an unknown number",
    };
    let due: Vec<&str> = (-1..=256).map(words).collect();
    assert_eq!(c.lines().collect::<Vec<_>>(), due);
}

/// A program with the header of the calls over lent parts alone: a withdraw at a table of five rows, and at
/// one of six in which nothing is open; what is read of bytes that are too few, of zeros, and of a record.
const LENT: &str = r#"
#include <stdio.h>
#include "stemline_calls.h"
int main(void) {
    static stemline_txn table[STEMLINE_TABLE];
    static stemline_counts counts;
    int five = stemline_withdraw(table, 5, &counts, 1);
    int six = stemline_withdraw(table, STEMLINE_TABLE, &counts, 1);
    printf("%d %d\n", five, six);
    static uint8_t block[STEMLINE_BLOCK];
    int short_one = stemline_block_header(block, 3).number;
    printf("%d %d\n", short_one, stemline_block_header(block, sizeof block).number);
    block[16 + 72] = 9, block[20 + 72] = 2, block[24 + 72 + 8] = 5;
    block[28 + 72 + 8] = 172, block[29 + 72 + 8] = block[30 + 72 + 8] = block[31 + 72 + 8] = 255;
    stemline_record_values record = stemline_block_record(block, sizeof block, 1);
    stemline_entry_values entry = stemline_block_entry(block, sizeof block, 1, 1);
    printf("%u %d: %d = %d\n", (unsigned)record.ticket, record.writes, entry.item, (int)entry.value);
    return 0;
}
"#;

/// The headers with the first program, the one with a station and those with a closed studio and a holiday, and that
/// of the calls alone, without a warning, in each language that they are for.
#[test]
fn every_language() {
    let mut languages = vec![("cc", "c", "c99"), ("cc", "c", "c11")];
    if has_cpp() {
        languages.extend([("c++", "cpp", "c++98"), ("c++", "cpp", "c++17")]);
    }
    let programs = [
        ("first", FIRST, "the write: accepted\nitem 5: 40 and 40\n"),
        ("print-room", PRINT_ROOM, PRINT_ROOM_SAYS),
        ("closed-studio", CLOSED, CLOSED_SAYS),
        ("holiday", HOLIDAY, HOLIDAY_SAYS),
        ("lent-alone", LENT, "1 3\n1 15\n9 2: 5 = -84\n"),
    ];
    for (compiler, extension, standard) in languages {
        for (name, text, due) in programs {
            let (file, flag) = (format!("{name}.{extension}"), format!("-std={standard}"));
            let files = [(&file[..], compiler, &flag[..], text)];
            let program = build(&format!("{name}-{standard}"), &files);
            assert_eq!(printed(&run(&program, b"")), due, "{name} {standard}");
        }
    }
}

/// Two files of one program include the header, one of them twice.
#[test]
fn two_files_of_one_program() {
    let main = "#include \"stemline.h\"\n#include \"stemline.h\"\n\
        #ifdef __cplusplus\nextern \"C\"\n#endif\n\
        uint32_t begin_there(stemline_replica *r);\n\
        int main(void) {\nstatic stemline_replica r;\nstatic int32_t start[STEMLINE_ITEMS];\n\
        if (stemline_replica_make(&r, 2, 0, start) != 0 || begin_there(&r) != 1) return 1;\n\
        return stemline_replica_begin(&r).ticket != 2;\n}\n";
    let there = "#include \"stemline.h\"\nuint32_t begin_there(stemline_replica *r);\n\
        uint32_t begin_there(stemline_replica *r) { return stemline_replica_begin(r).ticket; }\n";
    let there = ("there.c", "cc", "-std=c99", there);
    let program = build("two", &[("main.c", "cc", "-std=c99", main), there]);
    printed(&run(&program, b""));
    if has_cpp() {
        let main = ("main.cpp", "c++", "-std=c++98", main);
        printed(&run(&build("twocpp", &[main, there]), b""));
    }
}
