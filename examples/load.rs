//! Measures a chain of three as processes on this machine, over loopback: requests a second, and the 50th, 99th and 99.9th percentile of
//! how long one takes. In the same run, and in turn with it, stands a bare echo over UDP, of datagrams of the same sizes.
//!
//! ```sh
//! rustc --edition 2021 -O examples/load.rs -o /tmp/load && /tmp/load crates/hmd/out/hmd
//! ```
//!
//! The second word is how many rounds there are, 10 without it: of each kind of request the round with the highest rate counts, so that
//! what else this machine does matters little. Each client sends its next request when it has the reply to the one before.

use std::env;
use std::net::{SocketAddr, UdpSocket};
use std::process::{Child, Command, Stdio};
use std::thread;
use std::time::{Duration, Instant};

const REPLICAS: usize = 3;
const OBJECTS: u32 = 64;
const VALUE: [u8; 8] = [0x61; 8];
/// Each thread has a socket, over which this many clients ask.
const CLIENTS_OF_A_THREAD: usize = 8;
const MOST_THREADS: usize = 2;
const WAITING_TIME: Duration = Duration::from_millis(200);
/// How many reads a round has.
const READS: usize = 20_000;
/// How many writes a round has at most, and all rounds together: the log of a replica has room for 16,384.
const WRITES: usize = 600;
const ALL_WRITES: usize = 16_000;

/// What is asked, and of whom.
#[derive(Clone, Copy, PartialEq)]
enum Kind {
    /// A datagram that the echo sends back.
    Echo,
    /// A read with the stamp of the last write, as the switch sends it to a replica.
    StampedRead {
        stamp: u64,
    },
    Read,
    Write,
}

/// A datagram's first bytes: version, kind, source and destination.
fn head(code: u8, src: (u8, u32), dst: (u8, u32)) -> Vec<u8> {
    let mut bytes = vec![1, code, src.0];
    bytes.extend(src.1.to_be_bytes());
    bytes.push(dst.0);
    bytes.extend(dst.1.to_be_bytes());
    bytes
}

fn request_of(kind: Kind, client: u32, request: u64) -> Vec<u8> {
    let object = (request as u32).wrapping_mul(17).wrapping_add(client) % OBJECTS;
    let mut bytes = match kind {
        Kind::Echo | Kind::StampedRead { .. } => head(4, (2, 1), (3, 1)),
        Kind::Read => head(1, (1, client), (2, 1)),
        Kind::Write => head(2, (1, client), (2, 1)),
    };
    if let Kind::Echo | Kind::StampedRead { .. } = kind {
        let stamp = if let Kind::StampedRead { stamp } = kind {
            stamp
        } else {
            1
        };
        bytes.extend(1u32.to_be_bytes());
        bytes.extend(stamp.to_be_bytes());
        bytes.extend(client.to_be_bytes());
    }
    bytes.extend(request.to_be_bytes());
    bytes.extend(object.to_be_bytes());
    if kind == Kind::Write {
        bytes.push(VALUE.len() as u8);
        bytes.extend(VALUE);
    }
    bytes
}

fn word(bytes: &[u8], at: usize) -> u32 {
    u32::from_be_bytes(bytes[at..at + 4].try_into().unwrap())
}

fn long(bytes: &[u8], at: usize) -> u64 {
    u64::from_be_bytes(bytes[at..at + 8].try_into().unwrap())
}

/// The client, its request and the number of the write that a datagram answers with.
fn reply_in(kind: Kind, bytes: &[u8]) -> Option<(u32, u64, u64)> {
    match (kind, bytes.len()) {
        (Kind::Echo, 42..) => Some((word(bytes, 24), long(bytes, 28), 0)),
        (_, 33..) if bytes[1] == 7 => Some((word(bytes, 8), long(bytes, 12), long(bytes, 24))),
        _ => None,
    }
}

/// Sends back what comes, with two bytes more: a stamped read has 40 bytes, and its reply 42.
fn echo(port: &str) {
    let socket = UdpSocket::bind(format!("127.0.0.1:{port}")).expect("a port for the echo");
    socket
        .set_read_timeout(Some(WAITING_TIME))
        .expect("a waiting time");
    let mut buf = [0; 2048];
    loop {
        if let Ok((len, from)) = socket.recv_from(&mut buf) {
            let _ = socket.send_to(&buf[..len + 2], from);
        }
    }
}

/// Clients that ask over one socket.
struct Clients {
    socket: UdpSocket,
    first: u32,
    requests: Vec<u64>,
    /// The greatest number of a write that a reply told of.
    stamp: u64,
}

impl Clients {
    /// So many of the clients ask until there were so many replies. Answers how long each took.
    fn ask(&mut self, kind: Kind, to: SocketAddr, clients: usize, count: usize) -> Vec<Duration> {
        let mut times = Vec::with_capacity(count);
        let mut begun = vec![None; clients];
        let mut left = count;
        for (at, begin) in begun.iter_mut().enumerate() {
            *begin = self.begin(kind, to, at, &mut left);
        }
        let mut buf = [0; 2048];
        while times.len() < count {
            let Ok((len, _)) = self.socket.recv_from(&mut buf) else {
                for at in (0..clients).filter(|at| begun[*at].is_some()) {
                    self.send(kind, to, at);
                }
                continue;
            };
            let Some((client, request, stamp)) = reply_in(kind, &buf[..len]) else {
                continue;
            };
            let at = client.wrapping_sub(self.first) as usize;
            if at < clients && request == self.requests[at] {
                if let Some(begin) = begun[at] {
                    times.push(Instant::now() - begin);
                    self.stamp = self.stamp.max(stamp);
                    begun[at] = self.begin(kind, to, at, &mut left);
                }
            }
        }
        times
    }

    fn begin(
        &mut self,
        kind: Kind,
        to: SocketAddr,
        at: usize,
        left: &mut usize,
    ) -> Option<Instant> {
        *left = left.checked_sub(1)?;
        self.requests[at] += 1;
        let begin = Instant::now();
        self.send(kind, to, at);
        Some(begin)
    }

    fn send(&self, kind: Kind, to: SocketAddr, at: usize) {
        let bytes = request_of(kind, self.first + at as u32, self.requests[at]);
        let _ = self.socket.send_to(&bytes, to);
    }
}

/// A round: requests a second, and the times of all, the shortest first.
struct Round {
    rate: f64,
    times: Vec<Duration>,
}

impl Round {
    fn run(kind: Kind, to: SocketAddr, all: &mut [Clients], clients: usize, count: usize) -> Round {
        let begin = Instant::now();
        let share = count / all.len();
        let mut times: Vec<Duration> = thread::scope(|scope| {
            let threads: Vec<_> = all
                .iter_mut()
                .map(|one| scope.spawn(move || one.ask(kind, to, clients, share)))
                .collect();
            threads
                .into_iter()
                .flat_map(|thread| thread.join().expect("a thread"))
                .collect()
        });
        let rate = times.len() as f64 / begin.elapsed().as_secs_f64();
        times.sort();
        Round { rate, times }
    }

    /// The time within which so many of a thousand requests were answered, in microseconds.
    fn within(&self, share: usize) -> f64 {
        self.times[(self.times.len() * share / 1000).min(self.times.len() - 1)].as_secs_f64() * 1e6
    }
}

/// The processes, which are ended where this is dropped.
struct Processes(Vec<Child>);

impl Processes {
    fn start(&mut self, program: &str, words: &[String]) {
        let child = Command::new(program)
            .args(words)
            .stdin(Stdio::null())
            .stdout(Stdio::null())
            .spawn()
            .unwrap_or_else(|error| panic!("{program} doesn't start: {error}"));
        self.0.push(child);
    }
}

impl Drop for Processes {
    fn drop(&mut self) {
        for child in &mut self.0 {
            let _ = child.kill();
            let _ = child.wait();
        }
    }
}

fn address_of(socket: &UdpSocket) -> SocketAddr {
    socket.local_addr().expect("a bound socket")
}

/// So many addresses of this machine that nobody has.
fn free_addresses(count: usize) -> Vec<SocketAddr> {
    let bind = |_| UdpSocket::bind("127.0.0.1:0").expect("a free port");
    let sockets: Vec<UdpSocket> = (0..count).map(bind).collect();
    sockets.iter().map(address_of).collect()
}

fn open_clients(thread: usize) -> Clients {
    let socket = UdpSocket::bind("127.0.0.1:0").expect("a free port");
    socket
        .set_read_timeout(Some(WAITING_TIME))
        .expect("a waiting time");
    Clients {
        socket,
        first: (thread * CLIENTS_OF_A_THREAD) as u32 + 1,
        requests: vec![0; CLIENTS_OF_A_THREAD],
        stamp: 0,
    }
}

/// Starts the echo and the group. Answers where the switch and the replicas are, the switch first.
fn start(
    program: &str,
    all: &[Clients],
    processes: &mut Processes,
) -> (SocketAddr, Vec<SocketAddr>) {
    let mut nodes = free_addresses(2 + REPLICAS);
    let echo = nodes.pop().expect("an address");
    let mut listed = vec![format!("s1={}", nodes[0])];
    listed.extend((0..REPLICAS).map(|me| format!("r{me}={}", nodes[1 + me])));
    for one in all {
        let address = address_of(&one.socket);
        let last = one.first + CLIENTS_OF_A_THREAD as u32;
        listed.extend((one.first..last).map(|client| format!("c{client}={address}")));
    }
    let words = |text: String| {
        let words = text.split(' ').map(String::from);
        words.chain(listed.iter().cloned()).collect::<Vec<String>>()
    };
    processes.start(
        program,
        &words(format!(
            "switch 1 1 3 10 1048576 1000000000 chain {REPLICAS}"
        )),
    );
    for me in 0..REPLICAS {
        processes.start(
            program,
            &words(format!("replica {me} chain {REPLICAS} 16384 1000000000 0")),
        );
    }
    let own = env::current_exe().expect("this program");
    processes.start(
        own.to_str().expect("a name"),
        &["echo".into(), echo.port().to_string()],
    );
    (echo, nodes)
}

fn main() {
    let words: Vec<String> = env::args().skip(1).collect();
    if let [name, port] = &words[..] {
        if name == "echo" {
            return echo(port);
        }
    }
    let program = words.first().map_or("crates/hmd/out/hmd", String::as_str);
    let rounds: usize = words
        .get(1)
        .map_or(10, |word| word.parse().expect("a number of rounds"));
    let mut all: Vec<Clients> = (0..MOST_THREADS).map(open_clients).collect();
    let mut processes = Processes(Vec::new());
    let (echo, nodes) = start(program, &all, &mut processes);
    Round::run(Kind::Write, nodes[0], &mut all[..1], 1, OBJECTS as usize);
    for (threads, clients) in [(1, 1), (MOST_THREADS, CLIENTS_OF_A_THREAD)] {
        measure(rounds, echo, &nodes, &mut all[..threads], clients);
    }
}

/// Measures so many clients of each thread in turn with each kind of request.
fn measure(
    rounds: usize,
    echo: SocketAddr,
    nodes: &[SocketAddr],
    all: &mut [Clients],
    clients: usize,
) {
    let writes = WRITES.min(ALL_WRITES / 2 / rounds);
    let mut best: [Option<Round>; 4] = [const { None }; 4];
    for _ in 0..rounds {
        let stamp = all.iter().map(|one| one.stamp).max().unwrap_or(0);
        let kinds = [
            (Kind::Echo, echo, READS),
            (Kind::StampedRead { stamp }, nodes[2], READS),
            (Kind::Read, nodes[0], READS),
            (Kind::Write, nodes[0], writes),
        ];
        for (best, (kind, to, count)) in best.iter_mut().zip(kinds) {
            let round = Round::run(kind, to, all, clients, count);
            if best.as_ref().is_none_or(|other| other.rate < round.rate) {
                *best = Some(round);
            }
        }
    }
    let names = [
        "echo",
        "reads at one replica",
        "reads through the switch",
        "writes",
    ];
    println!(
        "{:25} {:>10} {:>9} {:>9} {:>9}",
        format!("clients: {}", all.len() * clients),
        "a second",
        "50 % us",
        "99 % us",
        "99.9 % us"
    );
    for (name, round) in names.iter().zip(best.iter().flatten()) {
        println!(
            "{name:25} {:10.0} {:9.1} {:9.1} {:9.1}",
            round.rate,
            round.within(500),
            round.within(990),
            round.within(999)
        );
    }
    if let [Some(echo), Some(read), ..] = &best {
        println!(
            "reads at one replica: {:.2} of the echo's rate",
            read.rate / echo.rate
        );
    }
}
