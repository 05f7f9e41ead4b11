//! What a cut and a fault leave.

use super::*;

const PATH: &str = "journal";

fn opened(disk: &Disk) -> Handle {
    disk.take(Path::new(PATH)).unwrap().0
}

#[test]
fn what_is_synced_stays() {
    for seed in 0..200 {
        let disk = Disk::new();
        let file = opened(&disk);
        file.write(5_000, &[7; 600]).unwrap();
        file.sync().unwrap();
        file.write(5_600, &[8; 600]).unwrap();
        disk.cut();
        assert!(file.bytes(0).is_err() && disk.take(Path::new(PATH)).is_err());
        disk.power_on(&mut Random::new(seed));
        assert!(file.sync().is_err(), "it was open before the cut");
        let bytes = opened(&disk).bytes(5_000).unwrap();
        assert_eq!(bytes[..600], [7; 600]);
    }
}

/// Of what was not synced there is none, a part, all, zeros or garbage, each by some seed.
#[test]
fn what_is_not_may_be_any() {
    let mut met = [false; 5];
    for seed in 0..200 {
        let disk = Disk::new();
        let file = opened(&disk);
        file.write(5_000, &[7; 600]).unwrap();
        disk.cut();
        disk.power_on(&mut Random::new(seed));
        let bytes = opened(&disk).bytes(5_000).unwrap();
        let count = |of: u8| bytes.iter().filter(|&&byte| byte == of).count();
        met[match (count(7), count(0)) {
            (0, 0) => 0,
            (600, 0) => 1,
            (0, 600) => 2,
            (some, zeros) if some + zeros == bytes.len() => 3,
            _ => 4,
        }] = true;
    }
    assert_eq!(met, [true; 5]);
}

#[test]
fn the_power_goes_at_a_step() {
    let disk = Disk::new();
    let file = opened(&disk);
    disk.cut_after(2);
    file.write(0, &[1]).unwrap();
    file.sync().unwrap();
    assert!(file.write(1, &[2]).is_err() && disk.is_off());
    assert!(file.sync().is_err());
}

#[test]
fn one_at_a_time() {
    let disk = Disk::new();
    let file = opened(&disk);
    assert!(disk.take(Path::new(PATH)).is_err());
    drop(file);
    assert!(disk.take(Path::new(PATH)).is_ok());
}

/// After a sync that failed all can be read; a cut shows what is there.
#[test]
fn faults() {
    let mut lost = 0;
    for seed in 0..100 {
        let disk = Disk::new();
        let file = opened(&disk);
        disk.fail(Fault::Write, 3);
        assert!(file.write(0, &[5; 8]).is_err());
        assert_eq!(file.bytes(0).unwrap(), [5; 3]);
        file.write(0, &[5; 8]).unwrap();
        disk.fail(Fault::Sync, seed);
        assert!(file.sync().is_err());
        assert_eq!(file.bytes(0).unwrap(), [5; 8]);
        file.sync().unwrap();
        disk.cut();
        disk.power_on(&mut Random::new(0));
        lost += u32::from(opened(&disk).bytes(0).unwrap() != [5; 8]);
    }
    assert!(lost > 0);
}

/// A sync that is late makes durable what was there at the one before.
#[test]
fn late_syncs() {
    let disk = Disk::new();
    let file = opened(&disk);
    disk.sync_by(Syncs::Late);
    let mut lost = [0, 0];
    for seed in 0..50 {
        file.write(5_000, &[1; 100]).unwrap();
        file.sync().unwrap();
        file.write(6_000, &[2; 100]).unwrap();
        file.sync().unwrap();
        let state = disk.state();
        let kept = &state.files[Path::new(PATH)];
        lost[0] += usize::from(kept.sure.get(5_000) != Some(&1));
        lost[1] += usize::from(kept.sure.get(6_000) == Some(&2) && seed == 0);
    }
    assert_eq!((lost, disk.synced()), ([0, 0], 100));
}
