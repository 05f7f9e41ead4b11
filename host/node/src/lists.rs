//! The files that a studio writes by hand: names of the measures, values to start with, notices.

use stemline::{Notice, ITEMS};

use crate::protocol::Change;

/// What the measures are called. One without a name goes by its number.
#[derive(Clone, Debug, Default)]
pub struct Names {
    /// By item; shorter where the last ones have none.
    names: Vec<Option<String>>,
}

impl Names {
    /// Of lines `ITEM NAME`. Lines with nothing, and those that begin with `#`, are passed over.
    pub fn read(text: &str) -> Result<Names, String> {
        let mut names = vec![None; ITEMS];
        for (at, item, name) in numbered(text) {
            let item = item.map_err(|words| format!("line {at}: {words}"))?;
            let wrong = match name {
                "" => Some("no name behind the number".to_string()),
                name if name.chars().any(char::is_control) => {
                    Some("the name has a control character".to_string())
                }
                name if name.parse::<i64>().is_ok() => {
                    Some(format!("{name} is no name but a number"))
                }
                name if names.iter().flatten().any(|given| given == name) => {
                    Some(format!("two measures are called \"{name}\""))
                }
                _ => None,
            };
            if let Some(words) = wrong {
                return Err(format!("line {at}: {words}"));
            }
            if names[item].replace(name.to_string()).is_some() {
                return Err(format!("line {at}: measure {item} has a name already"));
            }
        }
        Ok(Names { names })
    }

    /// The item of a measure, by its name or its number.
    pub fn item(&self, measure: &str) -> Result<u32, String> {
        let named = self
            .names
            .iter()
            .position(|name| name.as_deref() == Some(measure));
        let item = named.or_else(|| measure.parse().ok().filter(|&item| item < ITEMS));
        item.map(|item| item as u32)
            .ok_or_else(|| format!("no measure is called \"{measure}\""))
    }

    /// What a measure is called, if it has a name.
    pub fn name(&self, item: u32) -> Option<&str> {
        self.names.get(item as usize)?.as_deref()
    }
}

/// Values to start with, of lines `ITEM VALUE`, as `journal values` prints them; 0 where none is named.
pub fn values(text: &str) -> Result<[i32; ITEMS], String> {
    let mut values = [None; ITEMS];
    for (at, item, value) in numbered(text) {
        let item = item.map_err(|words| format!("line {at}: {words}"))?;
        let value: i32 = value
            .parse()
            .map_err(|_| format!("line {at}: \"{value}\" is no number of 32 bits"))?;
        if values[item].replace(value).is_some() {
            return Err(format!("line {at}: measure {item} has a value already"));
        }
    }
    Ok(values.map(Option::unwrap_or_default))
}

/// Notices in their order, of lines `Out 2 from 14` and `Back 2 at 20`.
pub fn notices(text: &str) -> Result<Vec<Notice>, String> {
    let notice = |(at, line): (usize, &str)| {
        read_notice(line).ok_or_else(|| format!("line {at}: \"{line}\" is no notice"))
    };
    lines(text).map(notice).collect()
}

fn read_notice(line: &str) -> Option<Notice> {
    let words: Vec<&str> = line.split_whitespace().collect();
    let [what, replica, word, slot] = words[..] else {
        return None;
    };
    let (replica, slot) = (replica.parse().ok()?, slot.parse().ok()?);
    match (what.to_ascii_lowercase().as_str(), word) {
        ("out", "from") => Some(Notice::Out { replica, slot }),
        ("back", "at") => Some(Notice::Back { replica, slot }),
        _ => None,
    }
}

/// Changes of a transaction, of lines `NAME = VALUE` and `NAME = removed`.
pub fn changes(text: &str) -> Result<Vec<Change>, String> {
    let change = |(at, line): (usize, &str)| {
        let (measure, value) = line
            .rsplit_once('=')
            .ok_or_else(|| format!("line {at}: \"{line}\" is not NAME = VALUE"))?;
        let (measure, value) = (measure.trim().to_string(), value.trim());
        let value = match value {
            "removed" => None,
            _ => Some(value.parse().map_err(|_| {
                format!("line {at}: \"{value}\" is no number of 32 bits, nor the word removed")
            })?),
        };
        Ok(Change { measure, value })
    };
    lines(text).map(change).collect()
}

/// The lines that say something, each with its number.
fn lines(text: &str) -> impl Iterator<Item = (usize, &str)> {
    let numbered = text
        .lines()
        .enumerate()
        .map(|(at, line)| (at + 1, line.trim()));
    numbered.filter(|(_, line)| !line.is_empty() && !line.starts_with('#'))
}

/// Lines of an item and what is behind it.
fn numbered(text: &str) -> impl Iterator<Item = (usize, Result<usize, String>, &str)> {
    lines(text).map(|(at, line)| {
        let (number, rest) = line.split_once(char::is_whitespace).unwrap_or((line, ""));
        let item = number.parse().ok().filter(|&item| item < ITEMS);
        let item = item.ok_or_else(|| format!("\"{number}\" is no measure's number, 0 to 127"));
        (at, item, rest.trim())
    })
}

#[cfg(test)]
mod tests {
    use super::*;

    #[test]
    fn names_by_name_and_number() {
        let names = Names::read("# letters\n\n5 stem of n\n 64\tkern of AV \n").unwrap();
        assert_eq!(names.item("stem of n"), Ok(5));
        assert_eq!(names.item("64"), Ok(64));
        assert_eq!(names.item("127"), Ok(127));
        assert_eq!(names.name(64), Some("kern of AV"));
        assert_eq!(names.name(6), None);
        let words = "no measure is called \"stem of m\"".to_string();
        assert_eq!(names.item("stem of m"), Err(words));
        assert!(names.item("128").is_err() && names.item("-1").is_err());
        assert_eq!(Names::default().item("3"), Ok(3));
    }

    #[test]
    fn names_that_are_refused() {
        let refused = |text: &str| Names::read(text).unwrap_err();
        assert_eq!(refused("5"), "line 1: no name behind the number");
        assert_eq!(
            refused("128 a"),
            "line 1: \"128\" is no measure's number, 0 to 127"
        );
        assert_eq!(
            refused("x a"),
            "line 1: \"x\" is no measure's number, 0 to 127"
        );
        assert_eq!(refused("1 a\n2 a"), "line 2: two measures are called \"a\"");
        assert_eq!(refused("1 a\n1 b"), "line 2: measure 1 has a name already");
        assert_eq!(refused("1 64"), "line 1: 64 is no name but a number");
        assert_eq!(
            refused("1 a\u{7}b"),
            "line 1: the name has a control character"
        );
    }

    #[test]
    fn values_to_start_with() {
        let read = values("5 84\n127 -2147483648\n").unwrap();
        assert_eq!((read[5], read[127], read[0]), (84, i32::MIN, 0));
        assert_eq!(
            values("5 x").unwrap_err(),
            "line 1: \"x\" is no number of 32 bits"
        );
        assert_eq!(
            values("5 1\n5 1").unwrap_err(),
            "line 2: measure 5 has a value already"
        );
    }

    #[test]
    fn changes_of_a_file() {
        let read = changes("stem of n = 84\n\n# no more\nkern of A=V = -3\nx=removed").unwrap();
        let one = |measure: &str, value| Change {
            measure: measure.to_string(),
            value,
        };
        let expected = [
            one("stem of n", Some(84)),
            one("kern of A=V", Some(-3)),
            one("x", None),
        ];
        assert_eq!(read, expected);
        assert_eq!(
            changes("stem 84").unwrap_err(),
            "line 1: \"stem 84\" is not NAME = VALUE"
        );
        assert!(changes("stem =").is_err() && changes("stem = 2147483648").is_err());
    }

    #[test]
    fn notices_as_they_are_written() {
        let said = [
            Notice::Out {
                replica: 2,
                slot: 14,
            },
            Notice::Back {
                replica: 2,
                slot: 20,
            },
        ];
        let text = format!("{}\n# behind the holiday\n{}\n", said[0], said[1]);
        assert_eq!(notices(&text).unwrap(), said);
        assert_eq!(
            notices("Out 2 at 14").unwrap_err(),
            "line 1: \"Out 2 at 14\" is no notice"
        );
        assert!(notices("Out 2 from -1").is_err() && notices("Out 2 from 3 4").is_err());
    }
}
