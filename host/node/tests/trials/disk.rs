//! Disks that are full, and journals that are another's.

use std::fs;
use std::time::Duration;

use trial::client::Told;
use trial::group::Group;
use trial::net::Net;
use trial::space::SmallDisk;
use trial::until;

use super::{able, folder, from_here, group, plan, Designer, MOST};

/// Where a node's disk is full nothing is told that is not so, and with room again all goes on.
#[test]
fn a_disk_is_full() {
    if !able() {
        return;
    }
    let mut group = group("full", 0);
    let disk = SmallDisk::new(&folder("disk"), 128 << 10).unwrap();
    let journal = folder("disk").join("1.journal");
    group.nodes[1] = group.node(1, "1", &journal).unwrap();
    group.start().unwrap();
    let mut designer = Designer::new();
    (0..3).for_each(|node| designer.commits(&group, node));
    let says = from_here(&group.nodes[1].process);
    let ballast = disk.fill().unwrap();
    // What is left in the page that is begun may still take some.
    let mut told = Told::Aborted;
    for _ in 0..100 {
        told = designer.sets(&group, 1, Duration::from_secs(2));
        if !matches!(told, Told::Committed(..)) {
            break;
        }
    }
    assert!(
        matches!(told, Told::Unknown(_) | Told::Refused(_)),
        "{told:?}"
    );
    // It opens its journal anew, and finds the disk full as before; a designer is told so.
    let full = || {
        says(&group.nodes[1].process)
            .matches("No space left")
            .count()
    };
    let before = full();
    until("the disk is still full", MOST, || full() > before + 3).unwrap();
    until("a designer is told why", MOST, || {
        let values = group.nodes[1].client(MOST).unwrap().values();
        values.is_err_and(|error| error.to_string().contains("No space left"))
    })
    .unwrap();
    let told = [0, 2].map(|node| designer.sets(&group, node, Duration::from_secs(1)));
    assert!(
        told.iter().all(|told| matches!(told, Told::Unknown(_))),
        "{told:?}"
    );
    fs::remove_file(ballast).unwrap();
    let journals = [group.journal(0), journal, group.journal(2)];
    designer.verdict(group, &journals);
}

/// A node with the journal of another group, or of another replica, does not start, and the file stays as it is.
#[test]
fn anothers_journal() {
    if !able() {
        return;
    }
    let mut other = Group::new(plan("other"), Net::loopback(3).unwrap()).unwrap();
    other.start().unwrap();
    Designer::new().commits(&other, 2);
    other.end().unwrap();
    let mut group = group("journal", 0);
    group.start().unwrap();
    let mut designer = Designer::new();
    (0..3).for_each(|node| designer.commits(&group, node));
    group.nodes[2].process.end(MOST).unwrap();
    for journal in [other.journal(2), group.journal(1)] {
        let copy = group.plan.folder.join("copy.journal");
        fs::copy(&journal, &copy).unwrap();
        let before = fs::read(&copy).unwrap();
        let mut wrong = group.node(2, "2", &copy).unwrap();
        let says = from_here(&wrong.process);
        wrong.process.start().unwrap();
        let status = wrong.process.wait(MOST).unwrap();
        let said = says(&wrong.process);
        assert_eq!(status.code(), Some(1), "{said}");
        assert_eq!(said.lines().count(), 1, "{said}");
        assert!(
            fs::read(&copy).unwrap() == before,
            "the journal was changed"
        );
    }
    group.nodes[2] = group.node(2, "2", &group.journal(2)).unwrap();
    let journals = group.journals();
    assert_eq!(designer.verdict(group, &journals).committed, 6);
    fs::remove_dir_all(other.plan.folder.clone()).unwrap();
}
