// Adds and deletes addresses through a daemon on the loopback, and prints how fast and what was checked.
//
// The words are the daemon's port, the folder of its file, how many addresses, how many connections, how many nodes
// and how many rounds, in each of which all addresses are added and deleted. Each connection has one call under way at a time, as a plugin has, and a thread of its own.
use std::collections::HashSet;
use std::fs::{remove_file, File};
use std::io::{Read, Write};
use std::net::TcpStream;
use std::path::Path;
use std::process::exit;
use std::sync::atomic::{AtomicUsize, Ordering};
use std::thread::{scope, sleep};
use std::time::{Duration, Instant};

const PATIENCE: Duration = Duration::from_secs(10);

const POOL: &str = "{\"request\":{\"pool\":{\"name\":\"pods\",\"cidr\":\"10.0.0.0/16\",\"size\":26}}}\n";

/// What a reply has where its call went well.
const GOOD: &str = "{\"status\":0,";

/// What stands before the address in a reply, whose output is a string.
const ADDRESS: &str = "\\\"address\\\":\\\"";

fn fail(why: &str) -> ! {
    println!("{why}");
    exit(1)
}

/// A call of a plugin, of the place'th address.
struct Call {
    place: usize,
    line: String,
}

impl Call {
    fn new(command: &str, place: usize, container: &str, nodes: usize) -> Call {
        let node = format!("node-{}", place % nodes);
        let line = format!(
            "{{\"env\":{{\"CNI_COMMAND\":\"{command}\",\"CNI_CONTAINERID\":\"{container}\",\"CNI_IFNAME\":\"eth0\",\
             \"CNI_NETNS\":\"/run/netns/x\"}},\"stdin\":\"{{\\\"cniVersion\\\":\\\"1.0.0\\\",\\\"name\\\":\\\"net\\\",\
             \\\"type\\\":\\\"calico\\\",\\\"nodename\\\":\\\"{node}\\\",\\\"ipam\\\":{{\\\"type\\\":\\\"calico-ipam\\\"}}}}\"}}\n"
        );
        Call { place, line }
    }
}

/// What was replied to a call, and how long that took.
struct Reply {
    place: usize,
    line: String,
    time: Duration,
}

/// A connection, as soon as the daemon listens.
fn connect(port: &str) -> TcpStream {
    let start = Instant::now();
    loop {
        match TcpStream::connect(format!("127.0.0.1:{port}")) {
            Ok(made) => {
                made.set_nodelay(true).unwrap();
                return made;
            }
            Err(_) if start.elapsed() < PATIENCE => sleep(Duration::from_millis(20)),
            Err(error) => fail(&format!("nobody listens: {error}")),
        }
    }
}

/// The reply line of a line.
fn asked(connection: &mut TcpStream, line: &str) -> String {
    connection.write_all(line.as_bytes()).unwrap();
    let (mut so_far, mut part) = (Vec::new(), [0; 4096]);
    while so_far.last() != Some(&b'\n') {
        match connection.read(&mut part) {
            Ok(length) if length > 0 => so_far.extend_from_slice(&part[..length]),
            _ => fail("the daemon closed a session"),
        }
    }
    String::from_utf8(so_far).unwrap()
}

/// Makes calls, each the next that nobody has taken, until there are no more.
fn work(connection: &mut TcpStream, calls: &[Call], taken: &AtomicUsize) -> Vec<Reply> {
    let mut replies = Vec::new();
    while let Some(call) = calls.get(taken.fetch_add(1, Ordering::Relaxed)) {
        let start = Instant::now();
        let line = asked(connection, &call.line);
        replies.push(Reply { place: call.place, line, time: start.elapsed() });
    }
    replies
}

/// Makes the calls over all connections. Gives the replies, and how long all took.
fn run(connections: &mut [TcpStream], calls: &[Call]) -> (Vec<Reply>, Duration) {
    let (taken, start) = (&AtomicUsize::new(0), Instant::now());
    let replies = scope(|threads| {
        let workers: Vec<_> = connections
            .iter_mut()
            .map(|connection| threads.spawn(move || work(connection, calls, taken)))
            .collect();
        workers.into_iter().flat_map(|worker| worker.join().unwrap()).collect()
    });
    (replies, start.elapsed())
}

/// What came of the calls of one command.
#[derive(Default)]
struct Calls {
    times: Vec<f64>,
    whole: Duration,
    good: usize,
    refusal: Option<String>,
}

impl Calls {
    /// Counts these replies, and gives those that are no errors.
    fn count(&mut self, (replies, whole): (Vec<Reply>, Duration)) -> Vec<Reply> {
        self.whole += whole;
        self.times.extend(replies.iter().map(|reply| reply.time.as_secs_f64() * 1000.0));
        let (good, bad): (Vec<_>, Vec<_>) = replies.into_iter().partition(|reply| reply.line.starts_with(GOOD));
        self.good += good.len();
        if let (None, Some(first)) = (&self.refusal, bad.into_iter().next()) {
            self.refusal = Some(first.line);
        }
        good
    }

    /// Prints one line on them.
    fn tell(&mut self, command: &str) {
        self.times.sort_by(f64::total_cmp);
        let count = self.times.len();
        println!(
            "  {command}: {:.0} a second, median {:.3} ms, 99th percentile {:.3} ms, {} of {count} refused",
            count as f64 / self.whole.as_secs_f64(),
            self.times[count / 2],
            self.times[(count * 99 / 100).min(count - 1)],
            count - self.good,
        );
        if let Some(first) = &self.refusal {
            println!("    the first refusal: {}", first.trim_end());
        }
    }
}

/// Adds so many addresses, deletes all that were given, and adds one more, which is deleted as well.
fn one_round(
    connections: &mut [TcpStream],
    calls: usize,
    nodes: usize,
    round: usize,
    added: &mut Calls,
    deleted: &mut Calls,
) {
    let name = |place: usize| format!("r{round}c{place}");
    let adds: Vec<_> = (0..calls).map(|place| Call::new("ADD", place, &name(place), nodes)).collect();
    let good = added.count(run(connections, &adds));
    let addresses: HashSet<_> = good.iter().map(address).collect();
    if addresses.len() != good.len() {
        fail("an address was given twice");
    }
    let dels: Vec<_> = good
        .iter()
        .map(|reply| Call::new("DEL", reply.place, &name(reply.place), nodes))
        .collect();
    deleted.count(run(connections, &dels));
    let again = asked(&mut connections[0], &Call::new("ADD", 0, "again", nodes).line);
    if !again.starts_with(GOOD) {
        fail(&format!("no address after all were deleted: {}", again.trim_end()));
    }
    asked(&mut connections[0], &Call::new("DEL", 0, "again", nodes).line);
}

/// The address in the reply of an ADD.
fn address(reply: &Reply) -> &str {
    match reply.line.split_once(ADDRESS).and_then(|(_, rest)| rest.split_once('\\')) {
        Some((found, _)) => found,
        None => fail(&format!("no address: {}", reply.line.trim_end())),
    }
}

/// The median time of a sync of a file in the folder, in milliseconds.
fn sync_time(folder: &str) -> f64 {
    let path = Path::new(folder).join("sync");
    let mut file = File::create(&path).unwrap();
    let mut times: Vec<f64> = (0..200)
        .map(|_| {
            file.write_all(&[b'x'; 512]).unwrap();
            let start = Instant::now();
            file.sync_data().unwrap();
            start.elapsed().as_secs_f64() * 1000.0
        })
        .collect();
    remove_file(&path).unwrap();
    times.sort_by(f64::total_cmp);
    times[times.len() / 2]
}

fn main() {
    let words: Vec<String> = std::env::args().skip(1).collect();
    let [port, folder, calls, count, nodes, rounds] = &words[..] else {
        fail("words: PORT FOLDER ADDRESSES CONNECTIONS NODES ROUNDS");
    };
    let number = |word: &String| word.parse::<usize>().unwrap();
    let (calls, count, nodes, rounds) = (number(calls), number(count), number(nodes), number(rounds));
    let mut connections: Vec<_> = (0..count).map(|_| connect(port)).collect();
    let made = asked(&mut connections[0], POOL);
    if !made.contains("\"done\"") {
        fail(&format!("no pool: {}", made.trim_end()));
    }
    println!(
        "{folder}, a sync takes {:.3} ms; {count} connections, {nodes} nodes, {rounds} rounds of {calls} addresses",
        sync_time(folder)
    );
    let (mut added, mut deleted) = (Calls::default(), Calls::default());
    for round in 0..rounds {
        one_round(&mut connections, calls, nodes, round, &mut added, &mut deleted);
    }
    added.tell("ADD");
    deleted.tell("DEL");
    println!(
        "  checked: {} addresses, none given twice at a time; {} deleted, without an error; and one more is given after that",
        added.good, deleted.good,
    );
}
