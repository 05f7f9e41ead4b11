use super::*;
use crate::refusal::LOCKED;

fn words(number: u8) -> &'static str {
    match number {
        LOCKED => "held",
        _ => "another",
    }
}

fn scene(text: &str) -> Scene {
    Scene {
        name: "some.txt".to_string(),
        path: PathBuf::new(),
        text: text.to_string(),
    }
}

fn played(text: &str) -> Result<String, String> {
    play(&scene(text), Machine::make, words)
}

/// The error of a scene in which this is the third line.
fn wrong(line: &str) -> String {
    let error = played(&format!("# A scene.\nmake 2\n{line}\n----\n")).unwrap_err();
    let (place, words) = error.split_once(": ").unwrap();
    assert_eq!(place, "some.txt, line 3", "{error}");
    words.to_string()
}

#[test]
fn what_a_file_must_have() {
    let error = |text| played(text).unwrap_err();
    let heading = "the file begins with what it shows, behind a # and a space";
    for text in ["", "make 2\n----\n", "\n# Late.\nmake 2\n----\n"] {
        assert_eq!(error(text), format!("some.txt, line 1: {heading}"));
    }
    let none = "the scene has no dashes, and so no answers";
    assert_eq!(error("# A scene.\n"), format!("some.txt, line 1: {none}"));
    let open = "dashes stand behind commands";
    for text in ["# A scene.\nmake 2\n", "# A scene.\nmake 2\n\n----\n"] {
        let line = text.lines().take(3).count();
        assert_eq!(error(text), format!("some.txt, line {line}: {open}"));
    }
    let text = "# A scene.\nmake 2\n----\n\n----\n";
    let words = "no command stands before the dashes";
    assert_eq!(error(text), format!("some.txt, line 5: {words}"));
}

#[test]
fn wrong_commands() {
    for (line, words) in [
        ("beginn 0", r#""beginn" is no command"#),
        ("begin", "a number is due, and not the line's end"),
        ("begin 0 0", r#""0" is one word too many, or no such word"#),
        ("begin zero", r#""zero" is no number, or out of range here"#),
        ("begin 2", "replica 2 is not made"),
        ("ask 0 ticket", "a number is due, and not the line's end"),
        ("ask 0 1", r#""ticket" is due, and not "1""#),
        (
            "write 0 ticket 1 item 2",
            r#""value" is due, and not the line's end"#,
        ),
        (
            "write 0 ticket 1 item 2 value 2147483648",
            r#""2147483648" is no number, or out of range here"#,
        ),
        (
            "stabilize 0",
            r#""0" is one word too many, or no such word"#,
        ),
        ("deliver 0 slot 0", "no block of slot 0 was handed out"),
        ("deliver 0 forged slot 0 of 0", "0 is not 1 to 255"),
        (
            "deliver 0 forged slot 0 of 2 bit 4096",
            "4096 is not 0 to 4095",
        ),
        (
            "deliver 0 forged slot 0 of 2 twice",
            r#""twice" is one word too many, or no such word"#,
        ),
        (
            "load 0 class 1 items 5 to 128 class 2",
            "128 is not 5 to 127",
        ),
        ("restart 0 bytes 1", "the journal of replica 0 has 0 bytes"),
        ("out 0", r#""replica" is due, and not the line's end"#),
        ("out 0 replica 1 at 5", r#""from" is due, and not "at""#),
        ("back 0 replica 1 from 5", r#""at" is due, and not "from""#),
        (
            "back 0 replica -1 at 5",
            r#""-1" is no number, or out of range here"#,
        ),
        ("close 2", "replica 2 is not made"),
        ("give 0 turns", "a number is due, and not the line's end"),
        ("give 0 turns 1 down 1", "2 turns are told"),
        (
            "give 0 turns 1 up",
            r#""up" is no number, or out of range here"#,
        ),
        (
            "give 0 down 1",
            r#""down" is one word too many, or no such word"#,
        ),
        ("alone 0 to 2", "replica 0 cannot go on alone"),
        ("alone 0", r#""to" is due, and not the line's end"#),
        ("begin station", "the station is not made"),
        (
            "make station 2",
            r#""2" is one word too many, or no such word"#,
        ),
        ("make station of", "a number is due, and not the line's end"),
        ("bytes slot 0 from 1 to 0", "0 is not 1 to 511"),
        (
            "bytes slot 0 from 1 to 1",
            "no block of slot 0 was handed out",
        ),
    ] {
        assert_eq!(wrong(line), words, "{line}");
    }
}

#[test]
fn forged_blocks_have_room() {
    let items = (0..9).map(|item| format!(" item {item} value 1"));
    let many = format!(
        "take 0 forged slot 0 of 2 ticket 1{}",
        items.collect::<String>()
    );
    assert_eq!(wrong(&many), "a record has room for 8 items");
    let tickets = (1..8).map(|ticket| format!(" ticket {ticket} item 1 value 1"));
    let many = format!("take 0 forged slot 0 of 2{}", tickets.collect::<String>());
    assert_eq!(wrong(&many), "a block has room for 6 tickets");
}

/// What a station has not, in a scene that makes one on its second line; and one without a group.
#[test]
fn wrong_commands_at_a_station() {
    for (line, words) in [
        ("load station class 1", "a station has no classes"),
        ("restart station", "a station has no journal"),
        ("journal station", "a station has no journal"),
        ("give station", "a station is not given what it missed"),
        (
            "begin station 0",
            r#""0" is one word too many, or no such word"#,
        ),
    ] {
        let text = format!("# A scene.\nmake 2\nmake station\n{line}\n----\n");
        let error = played(&text).unwrap_err();
        assert_eq!(error, format!("some.txt, line 4: {words}"));
    }
    let error = played("# A scene.\nmake station\n----\n").unwrap_err();
    let words = "a station is made beside a group, and none is made";
    assert_eq!(error, format!("some.txt, line 2: {words}"));
}

/// A station is handed round to as well; a new group has none yet, and a refused station leaves the one
/// that is there.
#[test]
fn a_station_in_a_scene() {
    let text = "# A scene.\nmake 2 value 3\nmake station\nsend 0\nstabilize\nmake station of 7\n\
        report station\nvalues\nwrite station ticket 1 item 5 value 1\n----\n";
    let said = played(text).unwrap();
    let (_, answers) = said.split_once("----\n").unwrap();
    let lines: Vec<&str> = answers.lines().collect();
    assert_eq!(lines[1], "the station holds all items at 3");
    let passes = "passes over the block of replica 0; the turn moves";
    assert_eq!(lines[5], format!("the station {passes}"));
    let report = "reports turn 1, commits 0, tickets 0: open 0, committed 0, read-only 0, aborted 0, withdrawn 0";
    let due = [
        "the station refuses by 2: another",
        &format!("the station {report}"),
        "all replicas and the station hold all items at 3",
        "the station refuses by 25: another",
    ];
    assert_eq!(lines[6..], due);
    let error = played(&text.replace("report station", "make 2")).unwrap_err();
    assert_eq!(error, "some.txt, line 9: the station is not made");
}

/// What stands under the dashes is written anew, and nothing else.
#[test]
fn answers_are_written() {
    let commands =
        "begin 0\nbegin 0\nwrite 0 ticket 1 item 5 value 1\nwrite 0 ticket 2 item 5 value 1\n";
    let text = format!("# A scene.\n\nmake 2\n----\nan old answer\n\n# More.\n{commands}----\n");
    let due = format!(
        "# A scene.\n\nmake 2\n----\nreplicas 0 to 1 hold all items at 0\n\n# More.\n{commands}----\n\
         replica 0 begins ticket 1\nreplica 0 begins ticket 2\n\
         replica 0 writes 1 to item 5 under ticket 1\nreplica 0 refuses by 8: held\n"
    );
    assert_eq!(played(&text), Ok(due.clone()));
    assert_eq!(played(&due), Ok(due.clone()));
    assert_eq!(difference(&scene(&due), &due), None);
    let line_5 = "some.txt, line 5:\n  expected: an old answer\n  got:      replicas 0 to 1 hold all items at 0";
    assert_eq!(difference(&scene(&text), &due).as_deref(), Some(line_5));
    let short = due.strip_suffix("replica 0 refuses by 8: held\n").unwrap();
    let line_16 = "some.txt, line 16:\n  expected: the end of the file\n  got:      replica 0 refuses by 8: held";
    assert_eq!(difference(&scene(short), &due).as_deref(), Some(line_16));
    assert!(difference(&scene(due.trim_end()), &due).is_some());
}

/// A group of one slot each, with nothing lost: what is handed round, and what is not told.
#[test]
fn stabilize_tells_the_steps() {
    let text = "# A scene.\nmake 2\nsend 0\nstabilize\nstabilize\n----\n";
    let played = played(text).unwrap();
    let (_, answers) = played.split_once("----\n").unwrap();
    let lines: Vec<&str> = answers.lines().skip(2).collect();
    let passes = |k| format!("replica {k} passes over the block of replica 0; the turn moves");
    assert_eq!(lines, [&passes(0), &passes(1), "nothing moves"]);
}

/// Who is closed is passed over; what each took is told, and lent to its restart. A new group has taken
/// nothing.
#[test]
fn notices_in_a_scene() {
    let text = "# A scene.\nmake 2\nout 0 replica 1 from 1\nclose 1\nsend 0\nstabilize\n\
        open 1\nstabilize\nrestart 0\nsend 0\ntake 0 slot 2\nback 0 replica 1 at 4\n----\n";
    let said = played(text).unwrap();
    let (_, answers) = said.split_once("----\n").unwrap();
    let lines: Vec<&str> = answers.lines().skip(1).collect();
    let passes = "passes over the block of replica 0; the turn moves";
    let due = [
        "replica 0 takes it that replica 1 is out from slot 1",
        "replica 1 is closed",
        "replica 0 sends the block of slot 0, without writesets",
        &format!("replica 0 {passes}"),
        "replica 0 passes slot 1 of replica 1, which is out; the turn moves",
        "replica 1 is open",
        &format!("replica 1 {passes}"),
        "replica 0 restarts with 2 blocks of its journal, and hands out once more the block of slot 0, \
         without writesets",
        "replica 0 sends the block of slot 2, without writesets",
        "replica 0 keeps the block of slot 2",
        &format!("replica 0 {passes}"),
        "replica 0 passes slot 3 of replica 1, which is out; the turn moves",
        "replica 0 takes it that replica 1 is back at slot 4",
    ];
    assert_eq!(lines, due);
    let anew = played(&text.replace("restart 0\nsend 0\ntake 0 slot 2", "make 2")).unwrap();
    assert!(
        anew.ends_with("replica 0 refuses by 28: another\n"),
        "{anew}"
    );
}

/// Told nothing else, a giving is told the turns that the others have; closed ones are down.
#[test]
fn givings_in_a_scene() {
    let text =
        "# A scene.\nmake 3\nclose 2\nsend 0\nstabilize\ngive 2\nclose 0\nclose 1\ngive 2\n----\n";
    let said = played(text).unwrap();
    assert!(
        said.ends_with(
            "replica 2 comes back: replica 0 gives slot 0\nreplica 0 is closed\n\
             replica 1 is closed\nreplica 2 refuses by 30: another\n"
        ),
        "{said}"
    );
}

/// Where all are out, works go on for long, and the group does not come to rest.
#[test]
fn all_out() {
    let text =
        "# A scene.\nmake 2\nout 0 replica 0 from 0\nout 0 replica 1 from 1\nstabilize\n----\n";
    let error = played(text).unwrap_err();
    assert_eq!(error, "some.txt, line 5: the group does not come to rest");
}

#[test]
fn folders() {
    let room = std::env::temp_dir().join(format!("scenes-{}", std::process::id()));
    let error = |room: &Path| folder(room).unwrap_err();
    assert!(error(&room.join("none")).contains("none"));
    fs::create_dir_all(&room).unwrap();
    assert!(error(&room).ends_with("no scene is there"));
    fs::write(room.join("README.md"), "").unwrap();
    assert!(error(&room).ends_with("no scene is there"));
    fs::write(room.join("b.txt"), "# B.\n").unwrap();
    fs::write(room.join("a.txt"), "# A.\n").unwrap();
    let names: Vec<String> = folder(&room).unwrap().into_iter().map(|s| s.name).collect();
    assert_eq!(names, ["a.txt", "b.txt"]);
    fs::write(room.join("c.text"), "# C.\n").unwrap();
    assert_eq!(error(&room), "c.text: a scene's name ends in .txt");
    fs::remove_dir_all(room).unwrap();
}

/// The example of the text that says what a scene is.
#[test]
fn the_example() {
    let text = include_str!("../../testdata/README.md");
    let (_, file) = text.split_once("## A file\n\n```text\n").unwrap();
    let (file, _) = file.split_once("```\n").unwrap();
    let example = scene(file);
    let played = played(&example.text).unwrap();
    assert_eq!(difference(&example, &played), None);
}
