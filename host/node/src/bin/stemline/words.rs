//! What the node tells, in words.

use std::io::{self, Write};

use stemline_node::protocol::{Measure, Member, Request, State, Told};

/// Prints it: what was asked for to standard output, the rest to standard error.
pub fn show(request: &Request, told: &Told) -> io::Result<()> {
    if let Some(words) = complaint(told) {
        complain(&words);
        return Ok(());
    }
    let mut out = io::stdout().lock();
    match told {
        Told::Measures { measures, .. } => {
            let alone = matches!(request, Request::Get { measures, .. } if measures.len() == 1);
            for measure in measures {
                match alone {
                    true => writeln!(out, "{}", value(measure))?,
                    false => writeln!(out, "{}", set(measure))?,
                }
            }
        }
        Told::Committed {
            place, tries: 1, ..
        } => writeln!(out, "committed as number {place}")?,
        Told::Committed { place, tries, .. } => {
            let times = tries - 1;
            writeln!(
                out,
                "committed as number {place}, begun anew {times} times: another's change came first"
            )?;
        }
        Told::Change {
            place,
            slot,
            by,
            measures,
        } => {
            let set: Vec<String> = measures.iter().map(set).collect();
            writeln!(out, "number {place}, slot {slot}, {by}: {}", set.join(", "))?;
        }
        Told::Status(state) => status(&mut out, state)?,
        Told::Notices { read } => {
            writeln!(out, "{read} notices are read; the log says what is taken")?;
        }
        // Nothing that this program asks for is answered so.
        _ => {}
    }
    out.flush()
}

/// What is not what was asked for.
fn complaint(told: &Told) -> Option<String> {
    Some(match told {
        Told::Missed { changes } => format!("{changes} changes are passed over"),
        Told::Waits { words, .. } => format!("waits: {words}"),
        Told::Aborted { tries } => {
            format!("aborted, another's change came first ({tries} tries): nothing was changed")
        }
        Told::Refused { words, .. } => format!("refused: {words}"),
        Told::Unknown { words } => {
            format!("{words}: it may be committed or not; get shows it when the node is back")
        }
        _ => return None,
    })
}

/// A line on standard error, if somebody reads it.
pub fn complain(words: &str) {
    let _ = writeln!(io::stderr(), "stemline: {words}");
}

fn name(measure: &Measure) -> String {
    measure
        .name
        .clone()
        .unwrap_or_else(|| measure.item.to_string())
}

/// As a line of a file of changes.
fn set(measure: &Measure) -> String {
    format!("{} = {}", name(measure), value(measure))
}

fn value(measure: &Measure) -> String {
    measure
        .value
        .map_or_else(|| "removed".to_string(), |value| value.to_string())
}

fn status(out: &mut impl Write, state: &State) -> io::Result<()> {
    let own = state.studios.iter().find(|member| member.own);
    match own {
        Some(own) => write!(out, "{}", who("studio", own))?,
        None => write!(out, "a station")?,
    }
    let n = state.studios.len();
    writeln!(out, ", of the group \"{}\" of {n} studios", state.group)?;
    let (turn, commits, digest) = (state.turn, state.commits, &state.digest);
    writeln!(
        out,
        "turn {turn}, {commits} writesets committed, digest {digest}"
    )?;
    if let Some(words) = &state.stopped {
        writeln!(out, "STOPPED: {words}")?;
    }
    waits(out, state)?;
    if let Some(journal) = &state.journal {
        writeln!(out, "journal {}, {} bytes", journal.path, journal.bytes)?;
    }
    let t = &state.tickets;
    writeln!(
        out,
        "own transactions: {} open, {} committed, {} aborted, {} withdrawn; {} clients wait",
        t.open, t.committed, t.aborted, t.withdrawn, state.clients
    )?;
    for notice in &state.notices {
        writeln!(out, "notice taken: {notice}")?;
    }
    for notice in &state.pending {
        writeln!(out, "notice to be taken: {notice}")?;
    }
    let studios = state.studios.iter().map(|member| ("studio", member));
    let stations = state.stations.iter().map(|member| ("station", member));
    for (kind, member) in studios.chain(stations).filter(|(_, member)| !member.own) {
        writeln!(out, "{}: {}", who(kind, member), condition(member, state))?;
    }
    Ok(())
}

fn waits(out: &mut impl Write, state: &State) -> io::Result<()> {
    let Some(next) = &state.waits_for else {
        return writeln!(out, "all slots are spent: a new run is due");
    };
    let member = state
        .studios
        .iter()
        .find(|member| member.number == next.number);
    match member {
        Some(member) if member.own => writeln!(out, "it is this studio's turn"),
        Some(member) if !member.linked => writeln!(out, "waits for {next}, which is not linked"),
        _ => writeln!(out, "waits for {next}"),
    }
}

fn who(kind: &str, member: &Member) -> String {
    match member.name.is_empty() {
        true => format!("{kind} {}", member.number),
        false => format!("{kind} {} ({})", member.number, member.name),
    }
}

fn condition(member: &Member, state: &State) -> String {
    let mut words = vec![match (member.linked, member.out) {
        (true, false) => "linked".to_string(),
        (true, true) => "linked, out".to_string(),
        (false, out) => {
            let out = if out { ", out" } else { "" };
            let heard = member
                .heard_ms
                .map(|ms| format!(", heard {} s ago", ms / 1000));
            format!("not linked{out}{}", heard.unwrap_or_default())
        }
    }];
    if let Some(turn) = member.turn {
        words.push(format!("turn {turn}"));
        words.push(match member.agrees {
            Some(true) => "the same is committed".to_string(),
            Some(false) => "ANOTHER COPY".to_string(),
            None if turn < state.turn => format!("{} behind", state.turn - turn),
            None => format!("{} ahead", turn - state.turn),
        });
    }
    words.join(", ")
}
