//! The page, as bytes and as a browser shows it.

use std::fs;
use std::io::{BufRead, BufReader, Read, Write};
use std::net::TcpStream;

use serde_json::Value;

use crate::browser::Browser;
use crate::group::{wait, Group, PATIENCE};

/// What is answered to a request, head and body.
fn get(port: u16, path: &str, host: &str) -> String {
    let mut stream = request(port, path, host);
    let mut answer = String::new();
    stream.read_to_string(&mut answer).unwrap();
    answer
}

fn request(port: u16, path: &str, host: &str) -> TcpStream {
    let mut stream = TcpStream::connect(("127.0.0.1", port)).unwrap();
    stream.set_read_timeout(Some(PATIENCE)).unwrap();
    write!(stream, "GET {path} HTTP/1.1\r\nHost: {host}\r\n\r\n").unwrap();
    stream
}

#[test]
fn requests_and_what_follows() {
    let mut group = Group::new("page", 2, 0, true);
    group.start_all(&["studio-0", "studio-1"]);
    let port = group.port + 10;
    let host = format!("localhost:{port}");
    let page = get(port, "/", &host);
    assert!(
        page.starts_with("HTTP/1.1 200 OK\r\n") && page.contains("default-src 'none'"),
        "{page}"
    );
    assert!(
        !page.contains("{nonce}") && !page.contains("{state}"),
        "{page}"
    );
    assert!(get(port, "/", "studio.example").starts_with("HTTP/1.1 403 "));
    assert!(get(port, "/secret", &host).starts_with("HTTP/1.1 404 "));
    let state = get(port, "/state", &format!("127.0.0.1:{port}"));
    let json = state.split_once("\r\n\r\n").unwrap().1;
    let state: Value = serde_json::from_str(json).unwrap();
    assert_eq!(
        (&state["group"], &state["own"]),
        (&"grotesque".into(), &0.into())
    );
    // What is committed later comes by itself.
    let mut events = BufReader::new(request(port, "/events", &host)).lines();
    let mut next = || {
        events
            .find_map(|line| line.unwrap().strip_prefix("data: ").map(str::to_string))
            .unwrap()
    };
    assert!(next().contains("\"name\":\"stem of n\",\"value\":0"));
    group.asked("studio-1", &["set", "stem of n", "84"]);
    assert!(wait(
        || next().contains("\"name\":\"stem of n\",\"value\":84")
    ));
}

/// The row of a measure: name, number, value, who set it, and as which change.
fn row(name: &str) -> String {
    let cells = "[...tr.querySelectorAll('span, td')].map(cell => cell.textContent).join('|')";
    let rows = format!("[...document.querySelectorAll('#list tr')].map(tr => {cells})");
    format!(
        "{rows}.find(row => row.startsWith({})) ?? ''",
        Value::from(name)
    )
}

const MEMBERS: &str =
    "[...document.querySelectorAll('#members .state')].map(state => state.textContent).join()";
const FOLLOWING: &str = "document.getElementById('following').textContent";
const WAITS: &str = "document.getElementById('waits').textContent";

#[test]
fn a_browser_follows() {
    let mut group = Group::new("browser", 3, 1, true);
    group.start_all(&["studio-0", "studio-1", "studio-2", "station-0"]);
    fs::write(group.path("changes"), "stem of h = 82\nstem of o = 90\n").unwrap();
    group.asked("studio-2", &["set", "stem of n", "84"]);
    group.asked(
        "studio-1",
        &["apply", group.path("changes").to_str().unwrap()],
    );
    group.asked("studio-0", &["set", "kern of AT", "-64"]);
    group.asked("studio-0", &["get", "--after", "3"]);
    let mut browser = Browser::open(
        &format!("http://localhost:{}/", group.port + 10),
        &group.folder,
    );
    let stem = browser.text(&row("stem of n"));
    assert!(stem.starts_with("stem of n|5|84|Lyon|1"), "{stem}");
    assert_eq!(browser.text("document.title"), "grotesque at Berlin");
    assert!(wait(|| browser.text(FOLLOWING).contains("followed")));
    // It follows without being loaded again.
    group.asked("studio-1", &["set", "kern of AV", "-20"]);
    let kern = "kern of AV|64|\u{2212}20|Porto|4";
    assert!(wait(|| browser.text(&row("kern of AV")).starts_with(kern)));
    let all = "this node,linked,linked,linked";
    assert!(
        wait(|| browser.text(MEMBERS) == all),
        "{}",
        browser.text(MEMBERS)
    );
    if let Some(file) = std::env::var_os("STEMLINE_PICTURE") {
        std::thread::sleep(std::time::Duration::from_secs(4));
        fs::write(file, browser.picture()).unwrap();
    }
    // Who is not there is named.
    group.kill("studio-2");
    let said = "The group waits for Lyon, which is not linked.";
    assert!(
        wait(|| browser.text(WAITS) == said),
        "{}",
        browser.text(WAITS)
    );
    assert_eq!(browser.text(MEMBERS), "this node,linked,not linked,linked");
    // The page finds what is looked for.
    let find = "(() => { const find = document.getElementById('find'); find.value = 'kern'; \
                find.dispatchEvent(new Event('input')); \
                return String(document.querySelectorAll('#list tr:not([hidden])').length) })()";
    assert_eq!(browser.text(find), "5");
    group.terminate("studio-0");
    let gone = "The node does not answer. Shown is what it said at ";
    assert!(wait(|| browser.text(FOLLOWING).starts_with(gone)));
    let complaints = browser.complaints();
    assert!(complaints.is_empty(), "{complaints:?}");
}

/// A name is text, whatever it has.
#[test]
fn names_of_any_kind() {
    let mut group = Group::new("names", 2, 0, true);
    let name = "<b onclick=\"x\">&amp;</b></script><script>document.title = 'x'</script>";
    fs::write(group.path("measures.txt"), format!("7 {name}\n")).unwrap();
    let city = |text: String| text.replace("Berlin", "<i>Berlin</i>");
    group.edit("studio-0", city);
    group.start_all(&["studio-0", "studio-1"]);
    group.asked("studio-0", &["set", name, "3"]);
    let mut browser = Browser::open(
        &format!("http://127.0.0.1:{}/", group.port + 10),
        &group.folder,
    );
    let odd = browser.text(&row("<b onclick"));
    assert!(
        odd.starts_with(&format!("{name}|7|3|<i>Berlin</i>|1")),
        "{odd}"
    );
    assert_eq!(
        browser.text("String(document.querySelectorAll('b, i').length)"),
        "0"
    );
    assert_eq!(browser.text("document.title"), "grotesque at <i>Berlin</i>");
    let complaints = browser.complaints();
    assert!(complaints.is_empty(), "{complaints:?}");
}
