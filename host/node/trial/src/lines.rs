//! Lines between namespaces, each end a TUN device. This process carries the packets, and so delays, loses and cuts
//! them as it is told, for each direction of each pair. `tc netem` would do the same, but many kernels come without it.

use std::cmp::Reverse;
use std::collections::BinaryHeap;
use std::fs::{File, OpenOptions};
use std::io::{Read, Write};
use std::os::fd::AsRawFd;
use std::sync::atomic::{AtomicUsize, Ordering};
use std::sync::{Arc, Condvar, Mutex, MutexGuard};
use std::thread;
use std::time::{Duration, Instant};

use model::samples::Random;

use crate::run;
use crate::space::Space;

/// Where TUN devices come from.
pub const DEVICE: &str = "/dev/net/tun";

/// The request that makes an open file the end of a device, `TUNSETIFF` of `linux/if_tun.h`.
const MAKE_END: libc::c_ulong = 0x4004_54CA;

/// What a device is called in its namespace.
const NAME: &str = "line";

/// How a line carries in one direction.
#[derive(Clone, Copy, Default)]
pub struct Quality {
    /// How long a packet is on its way.
    pub delay: Duration,
    /// How much longer it may take, at random, so that some overtake others.
    pub jitter: Duration,
    /// How many of a thousand are lost.
    pub loss: usize,
    /// Whether all are.
    pub cut: bool,
}

/// The lines between all pairs of some namespaces. They end when this is dropped.
pub struct Lines {
    shared: Arc<Shared>,
}

struct Shared {
    state: Mutex<State>,
    /// Something was put under way that is due before all else.
    earlier: Condvar,
    ends: Vec<File>,
}

/// When it is due, how many were put under way before it, whom it goes to, and its bytes.
type Packet = (Instant, u64, usize, Vec<u8>);

struct State {
    /// By sender and receiver.
    quality: Vec<Vec<Quality>>,
    under_way: BinaryHeap<Reverse<Packet>>,
    /// How many packets were put under way.
    count: u64,
    random: Random,
    ended: bool,
}

impl Lines {
    /// Joins namespaces by perfect lines: number k is then `address(k)`.
    pub fn new(spaces: &[&Space], seed: u64) -> Result<Lines, String> {
        let n = spaces.len();
        let ends: Result<Vec<File>, String> = (0..n).map(|k| end(spaces[k], k)).collect();
        let shared = Arc::new(Shared {
            state: Mutex::new(State {
                quality: vec![vec![Quality::default(); n]; n],
                under_way: BinaryHeap::new(),
                count: 0,
                random: Random::new(seed),
                ended: false,
            }),
            earlier: Condvar::new(),
            ends: ends?,
        });
        for from in 0..n {
            let shared = shared.clone();
            thread::spawn(move || shared.take(from));
        }
        let carrier = shared.clone();
        thread::spawn(move || carrier.carry());
        Ok(Lines { shared })
    }

    /// Sets how packets of one are carried to another from now on.
    pub fn set(&self, from: usize, to: usize, quality: Quality) {
        self.shared.state().quality[from][to] = quality;
    }

    /// Sets the same for both directions of a pair.
    pub fn set_pair(&self, one: usize, other: usize, quality: Quality) {
        self.set(one, other, quality);
        self.set(other, one, quality);
    }

    /// Sets the same for all.
    pub fn set_all(&self, quality: Quality) {
        for row in &mut self.shared.state().quality {
            row.fill(quality);
        }
    }

    /// Sets the same for all that one sends and gets.
    pub fn set_of(&self, one: usize, quality: Quality) {
        let n = self.shared.ends.len();
        (0..n).for_each(|other| self.set_pair(one, other, quality));
    }
}

impl Drop for Lines {
    fn drop(&mut self) {
        self.shared.state().ended = true;
        self.shared.earlier.notify_all();
    }
}

/// The address of number k.
pub fn address(k: usize) -> String {
    format!("10.77.0.{}", k + 1)
}

/// Takes the device of a namespace down, as a pulled plug does, or up again.
pub fn plug(space: &Space, up: bool) -> Result<(), String> {
    let state = if up { "up" } else { "down" };
    space.ip(&["link", "set", NAME, state]).map(drop)
}

/// A device in a namespace, and its other end here.
fn end(space: &Space, k: usize) -> Result<File, String> {
    static MADE: AtomicUsize = AtomicUsize::new(0);
    let made = MADE.fetch_add(1, Ordering::Relaxed);
    // Its name here, before it is moved; at most 15 bytes.
    let name = format!("s{}x{made}", std::process::id());
    let words = |error| format!("{DEVICE}: {error}");
    let file = OpenOptions::new()
        .read(true)
        .write(true)
        .open(DEVICE)
        .map_err(words)?;
    // SAFETY: all bytes zero is a good value of this plain record.
    let mut request: libc::ifreq = unsafe { std::mem::zeroed() };
    for (to, byte) in request.ifr_name.iter_mut().zip(name.bytes()) {
        *to = byte as libc::c_char;
    }
    request.ifr_ifru.ifru_flags = (libc::IFF_TUN | libc::IFF_NO_PI) as libc::c_short;
    // SAFETY: the request is a whole `ifreq` with a name that ends in 0, and lives through the call.
    if unsafe { libc::ioctl(file.as_raw_fd(), MAKE_END, &request) } < 0 {
        return Err(words(std::io::Error::last_os_error()));
    }
    run(
        "ip",
        &["link", "set", &name, "netns", space.name(), "name", NAME],
    )?;
    space.ip(&["addr", "add", &format!("{}/24", address(k)), "dev", NAME])?;
    plug(space, true)?;
    Ok(file)
}

/// Whom a packet of the lines goes to.
fn receiver(packet: &[u8], n: usize) -> Option<usize> {
    match packet {
        [first, ..] if first >> 4 == 4 && packet.len() >= 20 => {
            Some((packet[19] as usize).checked_sub(1)?).filter(|&to| to < n)
        }
        _ => None,
    }
}

impl Shared {
    fn state(&self) -> MutexGuard<'_, State> {
        self.state.lock().expect("no thread of the lines panics")
    }

    /// Puts all that comes out of one device under way.
    fn take(&self, from: usize) {
        let mut bytes = [0; 65_536];
        loop {
            match (&self.ends[from]).read(&mut bytes) {
                Ok(length) => self.put(from, &bytes[..length]),
                // The device is down, or gone with its namespace.
                Err(_) => thread::sleep(Duration::from_millis(5)),
            }
            if self.state().ended {
                return;
            }
        }
    }

    fn put(&self, from: usize, packet: &[u8]) {
        let Some(to) = receiver(packet, self.ends.len()) else {
            return;
        };
        let mut state = self.state();
        let quality = state.quality[from][to];
        if quality.cut || state.random.below(1000) < quality.loss {
            return;
        }
        let jitter = quality.jitter.as_micros() as usize;
        let more = Duration::from_micros(state.random.below(jitter + 1) as u64);
        match quality.delay + more {
            Duration::ZERO => {
                drop(state);
                self.hand(to, packet);
            }
            later => {
                state.count += 1;
                let entry = (Instant::now() + later, state.count, to, packet.to_vec());
                state.under_way.push(Reverse(entry));
                self.earlier.notify_all();
            }
        }
    }

    /// Hands out what is under way, each at its time.
    fn carry(&self) {
        let mut state = self.state();
        while !state.ended {
            let now = Instant::now();
            let due = state.under_way.peek().map(|Reverse(entry)| entry.0);
            let waited = match due {
                Some(due) if due <= now => {
                    let Some(Reverse((_, _, to, packet))) = state.under_way.pop() else {
                        continue;
                    };
                    drop(state);
                    self.hand(to, &packet);
                    state = self.state();
                    continue;
                }
                Some(due) => due - now,
                None => Duration::from_secs(1),
            };
            let woken = self.earlier.wait_timeout(state, waited);
            state = woken.expect("no thread of the lines panics").0;
        }
    }

    /// A packet for a device that is down is lost.
    fn hand(&self, to: usize, packet: &[u8]) {
        let _ = (&self.ends[to]).write(packet);
    }
}
