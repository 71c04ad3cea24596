// SPDX-License-Identifier: Apache-2.0
//! The backend that is checked: a socket, or a program that is started where it does not run.
use std::ffi::{OsStr, OsString};
use std::fs::{self, File, OpenOptions};
use std::io;
use std::os::unix::ffi::{OsStrExt, OsStringExt};
use std::os::unix::fs::PermissionsExt;
use std::os::unix::net::UnixStream;
use std::os::unix::process::ExitStatusExt;
use std::path::{Path, PathBuf};
use std::process::{Child, Command, ExitStatus, Stdio};
use std::thread::sleep;
use std::time::Duration;

use crate::connection::{Connection, Stop, Terms};
use crate::device::Kind;
use crate::patience::{family, is_alive, settle, Patience};
use crate::ring::Ring;
use crate::system::{in_own_group, send_signal};
use crate::trace::Trace;
use crate::wire::{u64s, Feature, Request};

/// How long a program may take to listen, and to end.
const START_LIMIT: Duration = Duration::from_secs(40);
const END_LIMIT: Duration = Duration::from_secs(3);
/// How long an ending process may take to be gone.
const GONE_LIMIT: Duration = Duration::from_millis(300);
/// How often a connection that is ended before its first reply is made again.
const TRIES: u32 = 4;
/// How a program says that it found a fault in itself.
const COMPLAINTS: &[&str] = &["Sanitizer:", "runtime error:", "panicked at", "Assertion", "PANIC in"];
/// The status of a shell whose program a signal ended is greater.
const SIGNALLED: i32 = 128;

/// Where the backend is.
pub enum Place {
    Socket(PathBuf),
    Program(Vec<OsString>),
}

/// What became of a backend after a case.
#[derive(Debug)]
pub enum Health {
    Well,
    /// A signal ended it, or it said that it is broken.
    Crashed(String),
    /// It ended by itself.
    Ended(String),
    /// It lives, and serves nobody.
    Deaf(String),
}

/// How far rings are set up.
#[derive(Clone, Copy)]
pub struct Setup {
    pub enabled: bool,
    pub base: u16,
}

impl Setup {
    pub const WHOLE: Setup = Setup { enabled: true, base: 0 };
    pub const DISABLED: Setup = Setup { enabled: false, base: 0 };
}

/// All rings of a device, of which one is driven.
pub struct Rings {
    pub all: Vec<Ring>,
    at: usize,
}

impl Rings {
    pub fn driven(&mut self) -> &mut Ring {
        &mut self.all[self.at]
    }
}

pub struct Target {
    pub place: Place,
    pub kind: Option<Kind>,
    pub image: Option<PathBuf>,
    pub limit: Duration,
    /// Whether it goes on after a connection.
    pub persists: bool,
    pub trace: Trace,
    pub starts: usize,
    child: Option<Child>,
    folder: PathBuf,
    process: Option<i32>,
    /// What became of one that ended in the middle of a case, which goes on with another.
    earlier: Option<Health>,
}

impl Target {
    pub fn new(place: Place, kind: Option<Kind>, image: Option<PathBuf>, limit: Duration) -> io::Result<Self> {
        let folder = std::env::temp_dir().join(format!("covretin-check.{}", std::process::id()));
        fs::create_dir_all(&folder)?;
        // (a backend may have the rights of another user)
        fs::set_permissions(&folder, fs::Permissions::from_mode(0o755))?;
        let trace = Trace::new();
        Ok(Target {
            place,
            kind,
            image,
            limit,
            persists: true,
            trace,
            starts: 0,
            child: None,
            folder,
            process: None,
            earlier: None,
        })
    }

    pub fn path(&self) -> PathBuf {
        match &self.place {
            Place::Socket(path) => path.clone(),
            Place::Program(_) => self.folder.join("socket"),
        }
    }

    fn log_path(&self) -> PathBuf {
        self.folder.join("log")
    }

    /// What the program has said.
    pub fn log(&self) -> String {
        fs::read(self.log_path()).map_or_else(|_| String::new(), |it| String::from_utf8_lossy(&it).into_owned())
    }

    fn last_words(&self) -> String {
        let log = self.log();
        log.trim().lines().last().unwrap_or("").chars().take(150).collect()
    }

    /// The device's kind, which says how a request looks.
    pub fn kind(&self) -> Result<Kind, Stop> {
        self.kind.ok_or_else(|| Stop::Skip("it takes --type=TYPE to make a request of the device".to_string()))
    }

    fn status(&mut self) -> Option<ExitStatus> {
        self.child.as_mut().and_then(|it| it.try_wait().ok().flatten())
    }

    /// The process that was started.
    pub fn child(&self) -> Option<i32> {
        self.child.as_ref().map(|it| it.id() as i32)
    }

    /// Starts the program, where it does not run.
    pub fn start(&mut self) -> Result<(), Stop> {
        let words = match &self.place {
            Place::Socket(_) => return Ok(()),
            Place::Program(words) => words.clone(),
        };
        if self.child.is_some() {
            match self.status() {
                None => return Ok(()),
                Some(status) => self.note_end(status),
            }
        }
        let _ = fs::remove_file(self.path());
        self.starts += 1;
        File::create(self.log_path())?;
        let log = OpenOptions::new().append(true).open(self.log_path())?;
        let words: Vec<OsString> = words.iter().map(|it| with_path(it, &self.path())).collect();
        let mut command = Command::new(&words[0]);
        command.args(&words[1..]).stdin(Stdio::piped()).stdout(log.try_clone()?).stderr(log);
        let child = in_own_group(&mut command).spawn().map_err(|cause| unstarted(&words[0], &cause.to_string()))?;
        let process = child.id() as i32;
        self.child = Some(child);
        let path = self.path();
        let listens = Patience::new(Some(process), START_LIMIT).wait_until(|| path.exists() || !is_alive(process));
        match listens && path.exists() {
            true => Ok(()),
            false => Err(unstarted(&words[0], &self.last_words())),
        }
    }

    /// Remembers how one ended that has to be started again, where that is a fault.
    fn note_end(&mut self, status: ExitStatus) {
        let complaint = complaint_in(&self.log());
        match self.ended(status, complaint) {
            Health::Ended(_) if !self.persists => {}
            health => self.earlier = self.earlier.take().or(Some(health)),
        }
    }

    fn connect(&self) -> Result<UnixStream, Stop> {
        let mut patience = Patience::new(self.child(), self.limit * 2);
        let path = self.path();
        let mut found = UnixStream::connect(&path);
        patience.wait_until(|| {
            if found.is_err() {
                found = UnixStream::connect(&path);
            }
            found.is_ok()
        });
        found.map_err(|cause| Stop::Silent(format!("nobody listens: {cause}")))
    }

    /// A new connection.
    pub fn open(&mut self) -> Result<Connection, Stop> {
        self.start()?;
        let connection = Connection::new(self.connect()?, self.limit, self.trace.clone());
        self.process = connection.process;
        Ok(connection)
    }

    pub fn negotiate(&mut self) -> Result<Connection, Stop> {
        self.negotiate_by(Terms::default())
    }

    pub fn negotiate_by(&mut self, terms: Terms) -> Result<Connection, Stop> {
        let mut connection = self.open()?;
        connection.negotiate(terms)?;
        Ok(connection)
    }

    /// A connection that accepted these protocol features.
    pub fn negotiate_with(&mut self, features: Feature) -> Result<Connection, Stop> {
        let connection = self.negotiate_by(Terms { with: features, ..Terms::default() })?;
        connection.want(features)?;
        Ok(connection)
    }

    /// All rings of the device, without their kicks.
    pub fn prepare(&self, connection: &mut Connection, base: u16) -> Result<Rings, Stop> {
        let kind = self.kind()?;
        if connection.memory.is_none() {
            connection.give_memory()?;
        }
        if connection.has(Feature::STATUS) {
            connection.send(Request::SET_STATUS, &u64s(&[11]), &[])?;
        }
        let mut all = Vec::new();
        for index in 0..kind.rings() {
            let mut ring = Ring::new(connection, index)?;
            ring.begin_at(base);
            ring.prepare(connection, base)?;
            all.push(ring);
        }
        Ok(Rings { all, at: kind.driven() as usize })
    }

    /// Says that the driver is ready, for which some devices wait.
    pub fn say_ready(&self, connection: &mut Connection) -> Result<(), Stop> {
        match connection.has(Feature::STATUS) {
            true => connection.send(Request::SET_STATUS, &u64s(&[15]), &[]),
            false => Ok(()),
        }
    }

    /// All rings of the device, started.
    pub fn rings(&self, connection: &mut Connection, setup: Setup) -> Result<Rings, Stop> {
        let rings = self.prepare(connection, setup.base)?;
        for ring in &rings.all {
            ring.give_kick(connection)?;
            if setup.enabled {
                ring.enable(connection, true)?;
            }
        }
        self.say_ready(connection)?;
        Ok(rings)
    }

    /// The process that listens, as the last connection knew it.
    pub fn process(&self) -> Option<i32> {
        self.process.or_else(|| self.child())
    }

    /// How many descriptors it has open.
    pub fn descriptors(&self) -> Result<usize, Stop> {
        let process = self.process().ok_or_else(|| Stop::Skip("its process is not known".to_string()))?;
        let entries = fs::read_dir(format!("/proc/{process}/fd"));
        entries.map(Iterator::count).map_err(|cause| Stop::Skip(format!("its descriptors cannot be counted: {cause}")))
    }

    /// The least number of its descriptors, once it had time to close some.
    pub fn settled_descriptors(&self, wanted: usize) -> Result<usize, Stop> {
        let mut count = self.descriptors()?;
        for _ in 0..TRIES {
            if count <= wanted {
                break;
            }
            settle(self.process());
            count = count.min(self.descriptors()?);
        }
        Ok(count)
    }

    /// What became of it, after the connections of a case.
    pub fn health(&mut self) -> Health {
        if let Place::Socket(_) = self.place {
            return self.health_of_socket();
        }
        settle(self.process());
        if let Some(earlier) = self.earlier.take() {
            // (the one after it belongs to the same case, and may be about to end for the same reason)
            self.stop();
            return earlier;
        }
        if !self.persists {
            let child = self.child();
            Patience::new(child, GONE_LIMIT).wait_until(|| !child.map_or(false, is_alive));
        }
        let complaint = complaint_in(&self.log());
        match (self.status(), complaint) {
            (Some(status), complaint) => self.ended(status, complaint),
            (None, Some(complaint)) => {
                self.stop();
                Health::Crashed(complaint)
            }
            (None, None) if self.persists => {
                // (one that was still about to end is seen once a new connection finds it gone)
                let health = self.is_served();
                self.earlier.take().unwrap_or(health)
            }
            (None, None) => {
                self.stop();
                Health::Well
            }
        }
    }

    fn ended(&mut self, status: ExitStatus, complaint: Option<String>) -> Health {
        self.child = None;
        let words = complaint.clone().unwrap_or_else(|| self.last_words());
        let signal = status.signal().or_else(|| status.code().filter(|it| *it > SIGNALLED).map(|it| it - SIGNALLED));
        match (signal, complaint) {
            (Some(signal), _) => Health::Crashed(format!("ended by signal {signal}: {words}")),
            (None, Some(complaint)) => Health::Crashed(complaint),
            (None, None) => Health::Ended(format!("status {}: {words}", status.code().unwrap_or(0))),
        }
    }

    /// Whether a new connection is served.
    fn is_served(&mut self) -> Health {
        let mut last = String::new();
        for _ in 0..TRIES {
            let asked = self.open().and_then(|mut it| it.number(Request::GET_FEATURES));
            match asked {
                Ok(_) => return Health::Well,
                Err(stop @ Stop::Silent(_)) => return self.is_deaf(stop.to_string()),
                Err(stop) => last = stop.to_string(),
            }
            settle(self.process());
        }
        self.is_deaf(last)
    }

    fn is_deaf(&mut self, why: String) -> Health {
        self.stop();
        Health::Deaf(format!("a new connection: {why}"))
    }

    fn health_of_socket(&mut self) -> Health {
        let process = self.process();
        match self.is_served() {
            Health::Deaf(why) if process.map_or(false, |it| !is_alive(it)) => {
                Health::Crashed(format!("its process has ended; {why}"))
            }
            health => health,
        }
    }

    /// The first connection, which a program that is not ready yet may end.
    fn ask_first(&mut self) -> Result<(), Stop> {
        let mut left = TRIES;
        loop {
            left -= 1;
            let asked = self.open().and_then(|mut it| it.number(Request::GET_FEATURES));
            match asked {
                Err(Stop::HungUp(_)) if left > 0 => self.rest(),
                asked => return asked.map(drop),
            }
        }
    }

    /// Finds out whether it goes on after a connection.
    pub fn find_persistence(&mut self) -> Result<(), Stop> {
        self.persists = true;
        self.ask_first()?;
        settle(self.process());
        let ended = self.child.is_some() && self.status().is_some();
        self.persists = !ended && matches!(self.is_served(), Health::Well);
        match (&self.place, self.persists) {
            (Place::Socket(_), false) => {
                Err(Stop::Silent("it serves one connection alone: start it as '-- PROGRAM .. %s ..'".to_string()))
            }
            _ => Ok(()),
        }
    }

    /// Asks the program to end: its status.
    pub fn terminate(&mut self) -> Result<Option<ExitStatus>, Stop> {
        let child = self.child();
        let started = child.ok_or_else(|| Stop::Skip("it was not started here".to_string()))?;
        // (one that a script started is the one to be asked; no other process is touched)
        let process = self.process().filter(|it| family(started).contains(it)).unwrap_or(started);
        send_signal(process, libc::SIGTERM);
        Patience::new(Some(process), END_LIMIT).wait_until(|| !is_alive(process));
        settle(self.child());
        let status = self.status();
        self.stop();
        Ok(status)
    }

    /// Kills the program: it has no time for anything, and that is no fault of it.
    pub fn kill(&mut self) {
        if let Some(mut child) = self.child.take() {
            send_signal(-(child.id() as i32), libc::SIGKILL);
            let _ = child.wait();
        }
        self.process = None;
    }

    /// Ends the program.
    pub fn stop(&mut self) {
        let mut child = match self.child.take() {
            Some(child) => child,
            None => return,
        };
        let process = child.id() as i32;
        if child.try_wait().ok().flatten().is_none() {
            send_signal(-process, libc::SIGTERM);
            Patience::new(Some(process), END_LIMIT).wait_until(|| !is_alive(process));
            send_signal(-process, libc::SIGKILL);
            let _ = child.wait();
        }
        self.process = None;
    }

    /// Lets the process do what a closed connection asks of it.
    pub fn rest(&self) {
        match self.process() {
            Some(process) => settle(Some(process)),
            None => sleep(GONE_LIMIT),
        }
    }
}

impl Drop for Target {
    fn drop(&mut self) {
        self.stop();
        let _ = fs::remove_dir_all(&self.folder);
    }
}

fn unstarted(program: &OsStr, why: &str) -> Stop {
    Stop::Trouble(format!("{} does not start: {why}", program.to_string_lossy()))
}

/// A word of the program with the socket's path in the place of %s.
pub fn with_path(word: &OsStr, path: &Path) -> OsString {
    let (mut bytes, mut rest) = (Vec::new(), word.as_bytes());
    while let Some(at) = rest.windows(2).position(|it| it == b"%s") {
        bytes.extend(&rest[..at]);
        bytes.extend(path.as_os_str().as_bytes());
        rest = &rest[at + 2..];
    }
    bytes.extend(rest);
    OsString::from_vec(bytes)
}

/// A line by which a program says that it found a fault in itself.
pub fn complaint_in(log: &str) -> Option<String> {
    let line = log.lines().find(|line| COMPLAINTS.iter().any(|it| line.contains(it)))?;
    Some(line.trim().chars().take(200).collect())
}
