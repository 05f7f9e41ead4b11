//! A group of drivers over a network, disks and a clock that are simulated.

use std::collections::{BTreeMap, BTreeSet};
use std::sync::Arc;
use std::time::Duration;

use super::sessions::Session;
use super::sheet::Sheet;
use super::{Disk, Plan, Random, Seen, Tamper};
use crate::driver::{Body, Driver, Event, Frame, Frames, Group, Input, Output, Peer};
use crate::{Notice, ITEMS};

/// A replica or a station, and its machine.
#[derive(Debug)]
pub(super) struct Member {
    pub disk: Disk,
    /// Nothing while the power is cut, or it is closed.
    pub driver: Option<Driver>,
    /// When it is started again.
    pub starts: Option<Duration>,
    /// How often it was started.
    pub incarnation: u64,
    /// The turn that it had at least when it ended.
    pub reached: u32,
    /// The place of the writeset that it has committed last.
    place: u32,
}

/// Frames on their way, by the time when they come.
type Net = BTreeMap<(Duration, u64), (usize, usize, Arc<[u8]>)>;

/// A simulated group: the drivers are real, with their journals; the network, the disks and the clock are not.
/// The same seed, plan and calls give the same run.
///
/// ```
/// use std::time::Duration;
/// use stemline::testing::{Plan, Simulation};
///
/// let mut group = Simulation::new(7, Plan::calm(3, 1));
/// group.transact(0, &[(5, Some(40))]);
/// group.cut(1);
/// group.run(Duration::from_secs(1));
/// // All is mended, and the group comes to rest: one sequence, equal copies, every told outcome true.
/// let seen = group.rest().unwrap();
/// assert_eq!((seen.committed, seen.cuts), (1, 1));
/// ```
pub struct Simulation {
    pub(super) seed: u64,
    pub(super) plan: Plan,
    pub(super) random: Random,
    pub(super) now: Duration,
    pub(super) group: Group,
    pub(super) members: Vec<Member>,
    net: Net,
    count: u64,
    /// The pairs that have a link, the lower number first; and those between which nothing comes through.
    links: BTreeSet<(usize, usize)>,
    pub(super) apart: BTreeSet<(usize, usize)>,
    /// Whether those that are apart know it by broken links, and until when.
    pub(super) broken: bool,
    pub(super) apart_until: Duration,
    pub(super) sheet: Sheet,
    pub(super) sessions: Vec<Session>,
    pub(super) clients: u64,
    pub(super) said: Vec<Notice>,
    pub(super) seen: Seen,
    pub(super) mending: bool,
    tamper: Box<dyn Tamper>,
}

impl Simulation {
    /// A group of just made replicas and stations, all up.
    pub fn new(seed: u64, plan: Plan) -> Simulation {
        Simulation::with(seed, plan, Box::new(super::Right))
    }

    /// As [`Simulation::new`], with somebody between the drivers and the rest: to see that it is found out.
    pub fn with(seed: u64, plan: Plan, tamper: Box<dyn Tamper>) -> Simulation {
        let mut random = Random::new(seed);
        let start: [i32; ITEMS] = std::array::from_fn(|_| -(random.below(1_000) as i32));
        let n = plan.replicas.clamp(2, 6);
        let group = Group::new("simulated", n, &start);
        let count = (n + plan.stations) as usize;
        let member = |_| Member {
            disk: Disk::new(),
            driver: None,
            starts: Some(Duration::ZERO),
            incarnation: 0,
            reached: 0,
            place: 0,
        };
        let mut simulation = Simulation {
            seed,
            plan,
            random,
            now: Duration::ZERO,
            group: group.expect("a name, and 2 to 6 replicas"),
            members: (0..count).map(member).collect(),
            net: Net::new(),
            count: 0,
            links: BTreeSet::new(),
            apart: BTreeSet::new(),
            broken: false,
            apart_until: Duration::ZERO,
            sheet: Sheet::new(n, start),
            sessions: Vec::new(),
            clients: 0,
            said: Vec::new(),
            seen: Seen::default(),
            mending: false,
            tamper,
        };
        simulation.start_due();
        simulation
    }

    /// The driver of a replica, or behind them of a station, while its power is on.
    pub fn driver(&mut self, member: usize) -> Option<&mut Driver> {
        self.members.get_mut(member)?.driver.as_mut()
    }

    pub(super) fn replicas(&self) -> usize {
        self.group.replicas() as usize
    }

    fn peer(&self, member: usize) -> Peer {
        match member.checked_sub(self.replicas()) {
            Some(station) => Peer::Station(station as u32),
            None => Peer::Replica(member as u32),
        }
    }

    fn member(&self, peer: Peer) -> usize {
        match peer {
            Peer::Replica(k) => k as usize,
            Peer::Station(station) => self.replicas() + station as usize,
        }
    }

    /// Starts those that are due.
    pub(super) fn start_due(&mut self) {
        for member in 0..self.members.len() {
            if self.members[member].starts.is_some_and(|at| at <= self.now) {
                self.start(member);
            }
        }
        self.connect();
    }

    fn start(&mut self, member: usize) {
        let of = &mut self.members[member];
        of.starts = None;
        if of.disk.is_off() {
            of.disk.power_on(&mut self.random);
        }
        self.tamper.starts(member, &mut of.disk);
        of.incarnation += 1;
        let (waits, group) = (self.plan.waits, &self.group);
        let opened = match self.peer(member) {
            Peer::Replica(own) => {
                let disk = &self.members[member].disk;
                let opened = disk.open(group, own, waits, &self.said);
                opened
                    .map_err(|failure| failure.to_string())
                    .map(|(driver, reopened)| (driver, reopened.committed))
            }
            Peer::Station(_) => {
                let made = Driver::station(group, waits, &self.said);
                made.map_err(|refusal| refusal.to_string())
                    .map(|made| (made, Vec::new()))
            }
        };
        self.seen.starts += 1;
        let of = &mut self.members[member];
        match opened {
            Ok((driver, committed)) => {
                of.place = driver.digest().commits;
                of.driver = Some(driver);
                self.sheet.reopened(member, of.incarnation, &committed);
            }
            Err(_) if of.disk.is_off() | of.disk.has_failed() => {
                of.starts = Some(self.now + Duration::from_millis(5));
            }
            Err(words) => self
                .sheet
                .complain(format!("member {member} does not start: {words}")),
        }
    }

    /// Makes the links that can be.
    pub(super) fn connect(&mut self) {
        for b in 0..self.members.len() {
            for a in 0..b.min(self.replicas()) {
                let both = [a, b].iter().all(|&of| self.members[of].driver.is_some());
                let cut_off = self.broken && self.apart.contains(&(a, b));
                if both && !cut_off && self.links.insert((a, b)) {
                    self.input(a, Input::Up(self.peer(b)));
                    self.input(b, Input::Up(self.peer(a)));
                }
            }
        }
    }

    /// Breaks a link.
    pub(super) fn disconnect(&mut self, a: usize, b: usize) {
        let (a, b) = (a.min(b), a.max(b));
        if self.links.remove(&(a, b)) {
            self.input(a, Input::Down(self.peer(b)));
            self.input(b, Input::Down(self.peer(a)));
        }
    }

    /// Ends a member's driver as it is: what it held is gone.
    pub(super) fn end(&mut self, member: usize) {
        let of = &mut self.members[member];
        if let Some(driver) = of.driver.take() {
            of.reached = of.reached.max(driver.digest().turn + 1);
        }
        self.sessions.retain(|session| session.member != member);
        for other in 0..self.members.len() {
            self.disconnect(member, other);
        }
    }

    /// Cuts the power of a member, and starts it again after a while.
    pub fn cut(&mut self, member: usize) {
        self.members[member].disk.cut();
        self.seen.cuts += u64::from(self.members[member].driver.is_some());
        self.end(member);
        let pause = Duration::from_micros(self.random.below(120_000));
        self.members[member].starts = Some(self.now + pause);
    }

    /// Hands an input to a member, if its power is on.
    pub(super) fn input(&mut self, member: usize, input: Input) {
        let Some(input) = self.tamper.input(member, input) else {
            return;
        };
        let now = self.now;
        if let Some(driver) = &mut self.members[member].driver {
            driver.handle(now, input);
        }
        self.look(member);
    }

    /// A driver whose disk has gone off is cut.
    pub(super) fn look(&mut self, member: usize) {
        let of = &self.members[member];
        if of.disk.is_off() && of.driver.is_some() {
            self.cut(member);
        }
    }

    /// Lets the time go on, with what comes in it.
    pub fn run(&mut self, span: Duration) {
        let end = self.now + span;
        while self.next(end) {}
    }

    /// Goes to the next moment at which something happens, if that is before the end.
    pub(super) fn next(&mut self, end: Duration) -> bool {
        let timers = self.members.iter().filter_map(|member| {
            let timer = member.driver.as_ref().and_then(Driver::timer);
            timer.into_iter().chain(member.starts).min()
        });
        let came = self.net.keys().next().map(|(at, _)| *at);
        let next = timers.chain(came).min().unwrap_or(end).max(self.now);
        self.seen.moments += 1;
        if next > end {
            self.now = end;
            return false;
        }
        // A driver whose timer is always due is not to stop the clock.
        self.now = next + Duration::from_micros(1);
        self.start_due();
        self.arrive();
        for member in 0..self.members.len() {
            self.flush(member);
        }
        true
    }

    /// Hands over the frames that come now.
    fn arrive(&mut self) {
        while let Some(entry) = self.net.first_entry() {
            if entry.key().0 > self.now {
                return;
            }
            let (from, to, bytes) = entry.remove();
            let peer = self.peer(from);
            let mut frames = Frames::new();
            frames.push(&bytes);
            while let Some(frame) = frames.next() {
                match frame {
                    Ok(frame) => self.input(to, Input::Frame { from: peer, frame }),
                    Err(error) => {
                        return self.sheet.complain(format!("member {from} sent {error}"))
                    }
                }
            }
        }
    }

    fn flush(&mut self, member: usize) {
        let now = self.now;
        let Some(driver) = &mut self.members[member].driver else {
            return;
        };
        let outputs = driver.flush(now);
        let is_over = driver.stopped().is_some();
        if self.members[member].disk.is_off() {
            // Nothing of this came out.
            return self.cut(member);
        }
        let mut outputs = self.tamper.outputs(member, outputs);
        let goes = self.plan.weights.cut > 0 && !self.mending && self.random.below(2_000) == 0;
        if goes {
            // The power goes while they go out.
            let out = self.random.below(outputs.len() as u64 + 1);
            outputs.truncate(out as usize);
        }
        for output in outputs {
            self.output(member, output);
        }
        if goes {
            return self.cut(member);
        }
        if is_over {
            self.end(member);
            let pause = Duration::from_micros(self.random.below(40_000));
            self.members[member].starts = Some(self.now + pause);
        }
    }

    fn output(&mut self, member: usize, output: Output) {
        match output {
            Output::Send { to, bytes } => {
                self.note(member, &bytes);
                let to = self.member(to);
                self.post(member, to, bytes);
            }
            Output::Tell { client, answer } => {
                self.seen.answer(&answer);
                self.sheet.told(member, client, answer);
            }
            Output::Committed(change) => {
                let due = self.members[member].place + 1;
                if change.place != due {
                    let words = format!(
                        "member {member} commits place {} and {due} is next",
                        change.place
                    );
                    self.sheet.complain(words);
                }
                self.members[member].place = change.place;
                self.sheet.committed(member, &change);
            }
            Output::Waits { .. } => {}
            Output::Close(peer) => self.disconnect(member, self.member(peer)),
            Output::Say(event) => self.event(member, &event),
        }
    }

    /// Notes what is handed out.
    fn note(&mut self, member: usize, bytes: &[u8]) {
        match Frame::decode(bytes.get(4..).unwrap_or_default()).map(|frame| frame.body) {
            Ok(Body::Block { block, .. }) => self.sheet.handed_out(member, &block),
            Ok(Body::Blocks { blocks, .. }) => {
                for block in &blocks {
                    self.sheet.handed_out(member, block);
                }
            }
            Ok(_) => {}
            Err(error) => self
                .sheet
                .complain(format!("member {member} sends {error}")),
        }
    }

    /// Puts a frame on its way: it may be lost, come twice, or be overtaken.
    pub(super) fn post(&mut self, from: usize, to: usize, bytes: Arc<[u8]>) {
        let pair = (from.min(to), from.max(to));
        let (loss, repeat) = match self.mending {
            true => (0, 0),
            false => (self.plan.loss, self.plan.repeat),
        };
        let times = 1 + u64::from(self.random.percent(repeat));
        for _ in 0..times {
            if self.random.percent(loss) || self.apart.contains(&pair) {
                self.seen.lost += 1;
                continue;
            }
            let delay = self.random.below(self.plan.delay.as_micros() as u64 + 1);
            self.count += 1;
            let at = (self.now + Duration::from_micros(delay), self.count);
            self.net.insert(at, (from, to, bytes.clone()));
        }
    }

    fn event(&mut self, member: usize, event: &Event) {
        self.seen.event(event);
        let expected = match event {
            Event::Disk(_) => self.members[member].disk.has_failed(),
            Event::OtherGroup { .. } => false,
            event => !event.is_fatal(),
        };
        if !expected {
            self.sheet.complain(format!("member {member}: {event}"));
        }
    }
}
