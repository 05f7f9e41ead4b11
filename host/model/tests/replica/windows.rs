//! What is in a replica's window (document 02, Req 11).

use model::block::BLOCK;
use model::giving::give;
use model::notice::Notice;
use model::replica::Replica;
use model::window::Window;

use crate::common::{ask, block_of, make, start_values, station};

/// The blocks of own slots, of others' and of out slots, the last 64 of them; a station's too.
#[test]
fn kept() {
    let mut replica = make(3, 0);
    let mut at_station = station(3);
    let mut due = Vec::new();
    for member in [&mut replica, &mut at_station] {
        member.notice(Notice::out(2, 2)).unwrap();
    }
    for slot in 0..100 {
        let block = match slot % 3 {
            0 => {
                ask(&mut replica, &[(slot % 128, slot as i32)]);
                replica.send().unwrap()
            }
            1 => block_of(3, slot, &[(slot + 1, &[(7, 1)])]),
            _ => block_of(3, slot, &[]),
        };
        for member in [&mut replica, &mut at_station] {
            let before = member.window.clone();
            match slot % 3 {
                2 => drop(member.work().unwrap()),
                _ => {
                    member.deliver(&block).unwrap();
                    assert_eq!(member.window, before);
                    member.work().unwrap();
                }
            }
            assert_eq!(member.window.last(), Some(&block));
        }
        due.push(block);
        let last = due.len().saturating_sub(64);
        let window = Window::of(last as u32, due[last..].iter().copied());
        assert_eq!(replica.window, window);
        assert_eq!(at_station.window, window);
        assert_eq!(window.slots(), slot.saturating_sub(63)..slot + 1);
    }
    assert_eq!(
        give(&mut at_station, &[100, 0, 0], &replica.window).number,
        25
    );
    // From all of the journal, and from a part of it; with what is open gone, the window is as it was.
    let notices = &replica.notices[..];
    let journal = due.concat();
    let restart =
        |bytes: usize| Replica::restart(3, 0, &start_values(), &journal[..bytes], notices).unwrap();
    assert_eq!(restart(journal.len()).0.window, replica.window);
    for count in [0, 1, 63, 64, 65, 99] {
        let (restarted, answer) = restart(BLOCK * count + BLOCK / 2);
        assert_eq!(answer.count as usize, count);
        let first = count.saturating_sub(64);
        let window = Window::of(first as u32, due[first..count].iter().copied());
        assert_eq!(restarted.window, window);
    }
}
