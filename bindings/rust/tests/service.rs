//! Connections to the lock service, over a vlmd of its own: `cargo test -- --ignored` with the vlmd in VLM_PREFIX/bin.

use std::env;
use std::fs;
use std::io;
use std::net::{Shutdown, TcpListener, TcpStream};
use std::os::unix::net::UnixStream;
use std::panic::{self, AssertUnwindSafe};
use std::path::{Path, PathBuf};
use std::process::{self, Child, Command, Stdio};
use std::sync::atomic::{AtomicUsize, Ordering};
use std::sync::mpsc::{channel, Receiver, TryRecvError};
use std::sync::{Arc, Mutex};
use std::thread;
use std::time::{Duration, Instant};

use vlm::service::{Connection, TlsFiles};
use vlm::{
    AstKind, Client, Condition, DeqFlags, EnqFlags, Error, Event, Mode, ProcessId, Shared, Terms,
};

const LONG: Duration = Duration::from_secs(30);
const FORKS: u32 = 400;

/// A daemon with a folder of its own, which goes with it.
struct Daemon {
    folder: PathBuf,
    child: Child,
}

fn started(folder: &Path) -> Child {
    let prefix = env::var_os("VLM_PREFIX").expect("VLM_PREFIX is a folder with bin/vlmd");
    let vlmd = Path::new(&prefix).join("bin").join("vlmd");
    let words = [
        Path::new("-s"),
        &folder.join("socket"),
        Path::new("-c"),
        &folder.join("conf"),
    ];
    let made = Command::new(&vlmd)
        .args(words)
        .stderr(Stdio::null())
        .spawn();
    made.unwrap_or_else(|error| panic!("{}: {error}", vlmd.display()))
}

impl Daemon {
    fn new(name: &str) -> Daemon {
        let folder = env::temp_dir().join(format!("vlm-{}-{name}", process::id()));
        fs::create_dir_all(&folder).expect("a folder");
        fs::write(folder.join("conf"), "search 100\ngrace 0\n").expect("a file");
        let child = started(&folder);
        Daemon { folder, child }
    }

    /// Two connections, which hear of no loss.
    fn connections(&self) -> (Connection, Connection) {
        (self.connection(|| ()), self.connection(|| ()))
    }

    fn connection(&self, on_lost: impl FnMut() + Send + Clone + 'static) -> Connection {
        let end = Instant::now() + LONG;
        loop {
            match Connection::open_at(self.folder.join("socket"), on_lost.clone()) {
                Ok(connection) => return connection,
                Err(error) => assert!(error == Error::Lost && Instant::now() < end),
            }
            thread::sleep(Duration::from_millis(10));
        }
    }

    fn kill(&mut self) {
        self.child.kill().expect("a living daemon");
        self.child.wait().expect("its end");
    }
}

impl Drop for Daemon {
    fn drop(&mut self) {
        let _ = self.child.kill();
        let _ = self.child.wait();
        let _ = fs::remove_dir_all(&self.folder);
    }
}

/// Looks like a replica: carries bytes between a port and the socket of a daemon.
struct Replica {
    address: String,
    clients: Arc<Mutex<Vec<TcpStream>>>,
}

fn carry(client: TcpStream, service: UnixStream) {
    let (mut up, mut down) = (client.try_clone().unwrap(), client.try_clone().unwrap());
    let (mut to, mut from) = (service.try_clone().unwrap(), service.try_clone().unwrap());
    thread::spawn(move || {
        let _ = io::copy(&mut up, &mut to);
        let _ = to.shutdown(Shutdown::Both);
    });
    thread::spawn(move || {
        let _ = io::copy(&mut from, &mut down);
        let _ = down.shutdown(Shutdown::Both);
    });
}

impl Replica {
    fn new(daemon: &Daemon) -> Replica {
        let listener = TcpListener::bind("127.0.0.1:0").expect("a port");
        let address = listener.local_addr().expect("an address").to_string();
        let clients = Arc::new(Mutex::new(Vec::new()));
        let (path, kept) = (daemon.folder.join("socket"), clients.clone());
        thread::spawn(move || {
            for client in listener.incoming().map_while(Result::ok) {
                let Ok(service) = UnixStream::connect(&path) else {
                    return;
                };
                kept.lock().unwrap().push(client.try_clone().unwrap());
                carry(client, service);
            }
        });
        Replica { address, clients }
    }

    fn cut(&self) {
        for client in self.clients.lock().unwrap().drain(..) {
            let _ = client.shutdown(Shutdown::Both);
        }
    }
}

fn within(milliseconds: u64) -> Terms {
    Terms::new().within(Duration::from_millis(milliseconds))
}

#[test]
#[ignore = "needs VLM_PREFIX/bin/vlmd"]
fn locks_exclude_each_other_and_hand_values_over() {
    let daemon = Daemon::new("locks");
    let (one, other) = daemon.connections();
    let (p, q) = (one.declare(9, 2).unwrap(), other.declare(9, 2).unwrap());
    let keeper = one.lock(p, b"A", Mode::Nl).unwrap();
    let mut guard = one.lock(p, b"A", Mode::Ex).unwrap();
    assert_eq!(
        other.lock_with(q, b"A", Mode::Ex, within(20)).unwrap_err(),
        Error::Timeout
    );
    let terms = Terms::new().flags(EnqFlags::NOQUEUE);
    let refused = other.lock_with(q, b"A", Mode::Ex, terms).unwrap_err();
    assert_eq!(refused, Error::Notqueued);
    guard.write_wide([7; 64]);
    guard.release().unwrap();
    let mut reader = other
        .lock_with(q, b"A", Mode::Pr, Terms::new().flags(EnqFlags::WIDE))
        .unwrap();
    assert!(reader.is_valid() && reader.value() == [7; 64]);
    reader.convert(Mode::Ex, within(1000)).unwrap();
    reader.write([8; 16]);
    reader.convert(Mode::Nl, Terms::new()).unwrap();
    reader.convert(Mode::Pr, Terms::new()).unwrap();
    assert_eq!((reader.value(), reader.mode()), (&[8; 16][..], Mode::Pr));
    let below = other
        .lock_with(q, b"B", Mode::Nl, Terms::new().below_lock(reader.lock()))
        .unwrap();
    assert_eq!(reader.release(), Err(Error::Sublocks));
    drop((below, reader, keeper));
    other.rundown(q).unwrap();
    assert_eq!(other.rundown(q), Err(Error::Nonexpr));
}

#[test]
#[ignore = "needs VLM_PREFIX/bin/vlmd"]
fn tokens_rise_with_grants() {
    let daemon = Daemon::new("tokens");
    let (one, other) = daemon.connections();
    let (p, q) = (one.declare(9, 2).unwrap(), other.declare(9, 2).unwrap());
    let mut guard = one.lock(p, b"A", Mode::Ex).unwrap();
    let first = guard.token().unwrap();
    let waiting = other
        .start(q, b"A", Mode::Ex, Terms::new(), |_| ())
        .unwrap();
    assert_eq!(other.token(waiting), Err(Error::Ivlockid));
    guard.convert(Mode::Pr, Terms::new()).unwrap();
    let last = guard.token().unwrap();
    assert!(last > first);
    let lock = guard.lock();
    drop(guard);
    while other.deliver() == 0 {
        thread::sleep(Duration::from_millis(1));
    }
    assert!(other.token(waiting).unwrap() > last);
    assert_eq!(one.token(lock), Err(Error::Ivlockid));
}

#[test]
#[ignore = "needs VLM_PREFIX/bin/vlmd"]
fn routines_are_called_by_a_delivery() {
    let daemon = Daemon::new("routines");
    let (one, other) = daemon.connections();
    let (p, q) = (one.declare(9, 2).unwrap(), other.declare(9, 2).unwrap());
    let (told, events) = channel();
    let warned = told.clone();
    let terms = Terms::new().blocking(move |event| warned.send(event).unwrap());
    let guard = one.lock_with(p, b"A", Mode::Ex, terms).unwrap();
    let lock = other
        .start(q, b"A", Mode::Pr, Terms::new(), move |event| {
            told.send(event).unwrap()
        })
        .unwrap();
    while one.deliver() == 0 {
        thread::sleep(Duration::from_millis(1));
    }
    let event = events.recv().unwrap();
    assert_eq!((event.kind, event.lock), (AstKind::Blocking, guard.lock()));
    assert_eq!(other.deliver(), 0);
    drop(guard);
    while other.deliver() == 0 {
        thread::sleep(Duration::from_millis(1));
    }
    let event = events.recv().unwrap();
    assert_eq!(
        (event.kind, event.lock, event.status),
        (AstKind::Completion, lock, Some(Condition::Normal))
    );
    other.deq(q, Some(lock), DeqFlags::default()).unwrap();
    other.deq(q, None, DeqFlags::DEQALL).unwrap();
}

#[test]
#[ignore = "needs VLM_PREFIX/bin/vlmd"]
fn a_loss_is_told_and_a_new_session_holds_nothing() {
    let mut daemon = Daemon::new("loss");
    let losses = Arc::new(AtomicUsize::new(0));
    let counted = losses.clone();
    let connection = daemon.connection(move || {
        counted.fetch_add(1, Ordering::SeqCst);
    });
    let p = connection.declare(9, 2).unwrap();
    let mut guard = connection.lock(p, b"A", Mode::Ex).unwrap();
    let waiting = connection.clone();
    let q = connection.declare(9, 2).unwrap();
    let waiter = thread::spawn(move || waiting.lock(q, b"A", Mode::Ex).map(|it| it.lock()));
    thread::sleep(Duration::from_millis(50));
    daemon.kill();
    assert_eq!(waiter.join().unwrap(), Err(Error::Lost));
    assert_eq!(guard.release(), Err(Error::Lost));
    while losses.load(Ordering::SeqCst) == 0 {
        connection.deliver();
    }
    assert_eq!(
        (connection.declare(9, 1), connection.reopen()),
        (Err(Error::Lost), Err(Error::Lost))
    );
    daemon.child = started(&daemon.folder);
    drop(daemon.connection(|| ()));
    begins_anew(&connection, p);
    assert_eq!(losses.load(Ordering::SeqCst), 1);
}

/// A new session of a lost connection holds nothing, and has no process of the old one.
fn begins_anew(connection: &Connection, old: ProcessId) {
    connection.reopen().unwrap();
    let refused = connection.lock(old, b"A", Mode::Ex).unwrap_err();
    assert_eq!(refused, Error::Nonexpr);
    let p = connection.declare(9, 1).unwrap();
    let mut guard = connection
        .lock_with(p, b"A", Mode::Ex, within(1000))
        .unwrap();
    guard.release().unwrap();
    let absent = Connection::open_at("/nowhere", || ());
    assert_eq!(absent.unwrap_err(), Error::Lost);
    for (name, error) in [("/nowhere", Error::Lost), ("a\0", Error::Badparam)] {
        let (key, authority) = ("/nowhere".into(), "/nowhere".into());
        let files = TlsFiles {
            certificate: name.into(),
            key,
            authority,
        };
        let refused = Connection::open_secured("tls:127.0.0.1:1", Duration::ZERO, &files, || ());
        assert_eq!(refused.unwrap_err(), error);
    }
}

/// A file of TLS that the environment names.
fn file(name: &str) -> PathBuf {
    env::var_os(name).expect(name).into()
}

/// VLM_TLS_ADDRESS is a replica with TLS. VLM_TLS_OTHER is a folder with the files of a client whom it refuses.
#[test]
#[ignore = "needs a replica with TLS, which tests/service_tls.py of the repository has"]
fn sessions_by_tls() {
    let address = env::var("VLM_TLS_ADDRESS").expect("VLM_TLS_ADDRESS");
    let lease = Duration::from_secs(60);
    let own = TlsFiles {
        certificate: file("VLM_TLS_CERTIFICATE"),
        key: file("VLM_TLS_KEY"),
        authority: file("VLM_TLS_AUTHORITY"),
    };
    let other = TlsFiles {
        certificate: file("VLM_TLS_OTHER").join("stranger.pem"),
        key: file("VLM_TLS_OTHER").join("stranger.key"),
        ..own.clone()
    };
    let refused = Connection::open_secured(&address, lease, &other, || ()).unwrap_err();
    assert_eq!(refused, Error::Lost);
    for connection in [
        Connection::open_secured(&address, lease, &own, || panic!("lost")).unwrap(),
        Connection::open_leased(&address, lease, || panic!("lost")).unwrap(),
    ] {
        let p = connection.declare(9, 1).unwrap();
        let guard = connection.lock(p, b"A", Mode::Ex).unwrap();
        assert!(guard.token().unwrap() > 0);
    }
}

#[test]
#[ignore = "needs VLM_PREFIX/bin/vlmd"]
fn a_session_goes_on_at_another_replica() {
    let daemon = Daemon::new("replicas");
    let other = daemon.connection(|| ());
    let (one, two) = (Replica::new(&daemon), Replica::new(&daemon));
    let address = format!("tcp:{},{}", one.address, two.address);
    let lease = Duration::from_secs(120);
    let connection = Connection::open_leased(&address, lease, || panic!("lost")).unwrap();
    let p = connection.declare(9, 1).unwrap();
    let mut guard = connection.lock(p, b"A", Mode::Ex).unwrap();
    one.cut();
    guard.convert(Mode::Pr, Terms::new()).unwrap();
    guard.release().unwrap();
    assert_eq!(connection.deliver(), 0);
    drop((guard, connection));
    let q = other.declare(9, 1).unwrap();
    drop(other.lock_with(q, b"A", Mode::Ex, within(30_000)).unwrap());
    for lease in [Duration::from_millis(2500), Duration::from_secs(1)] {
        let refused = Connection::open_leased(&address, lease, || ()).unwrap_err();
        assert_eq!(refused, Error::Badparam);
    }
}

#[test]
#[ignore = "needs VLM_PREFIX/bin/vlmd"]
#[should_panic(expected = "of a routine")]
fn a_panic_of_a_routine_goes_on_in_the_delivery() {
    let daemon = Daemon::new("panic");
    let connection = daemon.connection(|| ());
    let p = connection.declare(9, 2).unwrap();
    connection
        .start(p, b"A", Mode::Ex, Terms::new(), |_| panic!("of a routine"))
        .unwrap();
    while connection.deliver() == 0 {
        thread::sleep(Duration::from_millis(1));
    }
}

#[test]
#[ignore = "needs VLM_PREFIX/bin/vlmd"]
fn closures_go_with_their_process_and_their_connection() {
    let daemon = Daemon::new("closures");
    let (one, other) = daemon.connections();
    let [p, q, r] = [&one, &other, &other].map(|it| it.declare(9, 2).unwrap());
    let _held = one.lock(p, b"A", Mode::Ex).unwrap();
    let started = |process| {
        let (told, events) = channel();
        let completion = move |event| told.send(event).unwrap();
        let terms = Terms::new();
        other
            .start(process, b"A", Mode::Ex, terms, completion)
            .unwrap();
        events
    };
    let (first, second) = (started(q), started(r));
    let (told, kept) = channel();
    let terms = Terms::new().blocking(move |event| told.send(event).unwrap());
    other.lock_with(q, b"B", Mode::Ex, terms).unwrap().keep();
    other.rundown(q).unwrap();
    let is_gone = |events: &Receiver<_>| events.try_recv() == Err(TryRecvError::Disconnected);
    assert!(is_gone(&first) && is_gone(&kept) && !is_gone(&second));
    assert_eq!(other.deliver(), 0);
    drop(other);
    assert!(is_gone(&second));
}

/// A value that panics as it is dropped.
struct Bomb;

impl Drop for Bomb {
    fn drop(&mut self) {
        panic::resume_unwind(Box::new("dropped"));
    }
}

fn with_bomb() -> impl FnMut(Event) + Send {
    let bomb = Bomb;
    move |_| {
        let _bomb = &bomb;
    }
}

fn panics<T>(call: impl FnOnce() -> T) -> bool {
    panic::catch_unwind(AssertUnwindSafe(call)).is_err()
}

#[test]
#[ignore = "needs VLM_PREFIX/bin/vlmd"]
fn a_panic_of_a_drop_goes_on_from_its_call() {
    let daemon = Daemon::new("bombs");
    let (one, other) = daemon.connections();
    let (p, q) = (one.declare(9, 9).unwrap(), one.declare(9, 9).unwrap());
    let start = |process, name, terms| one.start(process, name, Mode::Ex, terms, with_bomb());
    assert!(start(p, b"A", Terms::new()).is_ok());
    while !panics(|| one.deliver()) {
        thread::sleep(Duration::from_millis(1));
    }
    let noqueue = || Terms::new().flags(EnqFlags::NOQUEUE);
    assert!(panics(|| start(q, b"A", noqueue())));
    let terms = noqueue().blocking(with_bomb());
    assert!(panics(|| one.lock_with(q, b"A", Mode::Ex, terms)));
    // Two routines go with one process.
    assert!(start(q, b"A", Terms::new()).is_ok() && start(q, b"A", Terms::new()).is_ok());
    assert!(panics(|| one.rundown(q)));
    // A guard that goes in a panic drops its routine too.
    let terms = Terms::new().blocking(with_bomb());
    let r = other.declare(9, 9).unwrap();
    let guard = other.lock_with(r, b"B", Mode::Ex, terms).unwrap();
    assert!(panics(move || {
        let _guard = guard;
        panic::resume_unwind(Box::new("of the program"))
    }));
    assert!(!panics(|| (one.deliver(), other.deliver())));
}

#[test]
#[ignore = "needs VLM_PREFIX/bin/vlmd"]
fn a_parent_is_a_lock_of_the_service() {
    let daemon = Daemon::new("parents");
    let connection = daemon.connection(|| ());
    let p = connection.declare(9, 2).unwrap();
    let shared = Shared::new().unwrap();
    let q = shared.declare(&Client::default()).unwrap();
    let local = shared.lock(q, b"A", Mode::Ex).unwrap();
    let parent = connection.lock(p, b"A", Mode::Ex).unwrap();
    let below = || Terms::new().below(&local);
    let refused = connection.lock_with(p, b"B", Mode::Ex, below());
    assert_eq!(refused.unwrap_err(), Error::Badparam);
    let refused = connection.start(p, b"B", Mode::Ex, below(), |_| ());
    assert_eq!(refused, Err(Error::Badparam));
    // A parent lock whose guard goes first stays.
    let lock = parent.lock();
    let below = Terms::new().below_lock(lock);
    let child = connection.lock_with(p, b"B", Mode::Ex, below).unwrap();
    drop(parent);
    drop(child);
    connection.deq(p, Some(lock), DeqFlags::default()).unwrap();
}

extern "C" {
    fn alarm(seconds: u32) -> u32;
    fn fork() -> i32;
    fn waitpid(child: i32, status: &mut i32, options: i32) -> i32;
    fn _exit(status: i32) -> !;
}

/// Whether a fact is true in a forked child. One that does not end is no such child.
fn in_child(fact: impl FnOnce() -> bool) -> bool {
    let mut status = 1;
    // SAFETY: the child calls what the connection may be asked there, and ends without what its parent has begun.
    unsafe {
        match fork() {
            0 => {
                alarm(20);
                _exit(if fact() { 0 } else { 1 })
            }
            child => assert_eq!(waitpid(child, &mut status, 0), child),
        }
    }
    status == 0
}

/// Locks until it is told to stop, with a routine for each lock.
fn lock_often(connection: &Connection, process: ProcessId, name: &[u8], is_over: &AtomicUsize) {
    while is_over.load(Ordering::Relaxed) == 0 {
        let terms = Terms::new().blocking(|_| ());
        drop(connection.lock_with(process, name, Mode::Ex, terms));
    }
}

#[test]
#[ignore = "needs VLM_PREFIX/bin/vlmd"]
fn a_forked_child_is_refused_beside_threads() {
    let daemon = Daemon::new("forks");
    let connection = daemon.connection(|| ());
    let process = connection.declare(9, 9).expect("a process");
    let terms = Terms::new().blocking(|_| ());
    let mut guard = connection.lock_with(process, b"A", Mode::Ex, terms).ok();
    let is_over = AtomicUsize::new(0);
    thread::scope(|scope| {
        for name in [b"B", b"C", b"D"] {
            let (connection, is_over) = (&connection, &is_over);
            scope.spawn(move || lock_often(connection, process, name, is_over));
        }
        let are_refused = (0..FORKS).all(|_| {
            in_child(|| {
                drop(guard.take());
                connection.lock(process, b"E", Mode::Ex).err() == Some(Error::Badparam)
            })
        });
        is_over.store(1, Ordering::Relaxed);
        assert!(are_refused);
    });
    assert!(guard.is_some_and(|it| it.token().is_ok()));
}
