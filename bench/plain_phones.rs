//! Phones for `bench/subscriptions` and `bench/peers`, in plain Rust. In its first two ways this measures the processor time that a server
//! takes, which is run as a child of this program.
//!
//! `plain_phones subscribe <subscriptions> <window> <port> <program>...` has so many phones subscribe, each once, at most
//! `window` of them at a time without their NOTIFY, and answers each NOTIFY. `plain_phones echo <datagrams> <window> <port>
//! <program>...` sends so many datagrams of a SUBSCRIBE's length, at most `window` of them at a time without their echo. The
//! program is run with these words, and killed in the end. It prints nanoseconds of processor time (user and system) that one
//! of these takes: of the program, and then of each of its threads, the oldest first.
//!
//! `plain_phones lives <port>` has phones live at a notifier that somebody else runs. Each line of its standard input is `<first> <phones>
//! <window> <mailboxes> <seconds>..`: so many phones, numbered from the first on, at most `window` of them at a time, each with the mailbox
//! `m<its number modulo mailboxes>`. A phone sends a SUBSCRIBE for each of the seconds, the next one once the last one's answer and a NOTIFY
//! are there; 0 seconds end its subscription. Where nothing comes for half a second, requests that aren't answered are sent again. It prints
//! the nanoseconds that each line took, and how many requests were sent again.

use std::collections::HashSet;
use std::env;
use std::fs;
use std::io::{self, BufRead, ErrorKind, Write};
use std::net::UdpSocket;
use std::process::{exit, Child, Command};
use std::sync::Mutex;
use std::thread;
use std::time::{Duration, Instant};

/// How long the phones wait for a datagram.
const PATIENCE: Duration = Duration::from_secs(20);

/// When a request is sent again (RFC 3261 section 17.1.2.2).
const T1: Duration = Duration::from_millis(500);

/// The program that is measured.
static SERVER: Mutex<Option<Child>> = Mutex::new(None);

fn stop() {
    if let Some(mut server) = SERVER.lock().unwrap().take() {
        let _ = server.kill();
        let _ = server.wait();
    }
}

fn fail(why: &str) -> ! {
    eprintln!("plain_phones: {why}");
    stop();
    exit(1)
}

/// The processor time of each thread of the server in nanoseconds, the oldest thread first. A thread that has ended counts no
/// more, so it is read while the server still waits for datagrams.
fn busy_nanos(server: u32) -> Vec<u64> {
    let Ok(tasks) = fs::read_dir(format!("/proc/{server}/task")) else {
        fail("the program has ended too early");
    };
    let mut nanos = Vec::new();
    for task in tasks.flatten() {
        let number: u32 = task.file_name().to_string_lossy().parse().unwrap_or(0);
        let told = fs::read_to_string(task.path().join("schedstat")).unwrap_or_default();
        let busy = told.split(' ').next().and_then(|word| word.parse::<u64>().ok()).unwrap_or(0);
        nanos.push((number, busy));
    }
    nanos.sort();
    nanos.into_iter().map(|(_, busy)| busy).collect()
}

/// What each thread took since then.
fn since(server: u32, before: &[u64]) -> Vec<u64> {
    let now = busy_nanos(server);
    now.iter().zip(before).map(|(now, before)| now - before).collect()
}

/// A SUBSCRIBE of the phone of this number.
fn subscribe(number: u32, own: u16, port: u16) -> Vec<u8> {
    format!(
        "SUBSCRIBE sip:alice@127.0.0.1:{port} SIP/2.0\r\n\
         Via: SIP/2.0/UDP 127.0.0.1:{own};branch=z9hG4bK{number:08}\r\n\
         Max-Forwards: 70\r\n\
         From: <sip:alice@127.0.0.1>;tag=f{number:08}\r\n\
         To: <sip:alice@127.0.0.1>\r\n\
         Call-ID: c{number:08}\r\n\
         CSeq: 1 SUBSCRIBE\r\n\
         Contact: <sip:alice@127.0.0.1:{own}>\r\n\
         Event: message-summary\r\n\
         Content-Length: 0\r\n\r\n"
    )
    .into_bytes()
}

/// The 200 to a NOTIFY, with the lines that it repeats (RFC 3261 section 8.2.6.2).
fn answer(notify: &[u8], out: &mut Vec<u8>) {
    out.clear();
    out.extend_from_slice(b"SIP/2.0 200 OK\r\n");
    for line in notify.split_inclusive(|&octet| octet == b'\n') {
        if [&b"Via: "[..], b"From: ", b"To: ", b"Call-ID: ", b"CSeq: "].iter().any(|front| line.starts_with(front)) {
            out.extend_from_slice(line);
        }
        if line == b"\r\n" {
            break;
        }
    }
    out.extend_from_slice(b"Content-Length: 0\r\n\r\n");
}

/// The socket of all phones, which hears the server alone.
fn phones(port: u16) -> UdpSocket {
    let socket = UdpSocket::bind("127.0.0.1:0").unwrap_or_else(|_| fail("no socket"));
    socket.connect(("127.0.0.1", port)).unwrap_or_else(|_| fail("no socket"));
    socket.set_read_timeout(Some(PATIENCE)).unwrap_or_else(|_| fail("no socket"));
    socket
}

/// Sends a datagram until the server is there, and waits for what comes back.
fn find(socket: &UdpSocket, octets: &[u8], room: &mut [u8]) {
    let began = Instant::now();
    while began.elapsed() < PATIENCE {
        if socket.send(octets).is_ok() {
            match socket.recv(room) {
                Ok(_) => return,
                Err(fault) if fault.kind() == ErrorKind::ConnectionRefused => {}
                Err(_) => fail("no answer"),
            }
        }
        thread::sleep(Duration::from_millis(1));
    }
    fail("no server")
}

fn receive(socket: &UdpSocket, room: &mut [u8]) -> usize {
    socket.recv(room).unwrap_or_else(|_| fail("an answer is missing"))
}

fn run_subscribers(socket: &UdpSocket, server: u32, count: u32, window: u32, port: u16) -> Vec<u64> {
    let own = socket.local_addr().unwrap().port();
    let asks: Vec<Vec<u8>> = (0..count).map(|number| subscribe(number, own, port)).collect();
    let mut room = vec![0; 65536];
    let mut out = Vec::new();
    let question = subscribe(count, own, port);
    let question = String::from_utf8(question).unwrap().replace("SUBSCRIBE", "OPTIONS");
    find(socket, question.as_bytes(), &mut room);
    let before = busy_nanos(server);
    let (mut asked, mut notified, mut agreed) = (0, 0, 0);
    let mut seen = HashSet::new();
    while notified < count || agreed < count {
        while asked < count && asked - notified < window {
            socket.send(&asks[asked as usize]).unwrap_or_else(|_| fail("a send failed"));
            asked += 1;
        }
        let length = receive(socket, &mut room);
        let datagram = &room[..length];
        if datagram.starts_with(b"NOTIFY ") {
            let call = datagram.windows(10).find(|part| part.starts_with(b"\nCall-ID: ")).is_some();
            if !call {
                fail("a NOTIFY without a Call-ID")
            }
            answer(datagram, &mut out);
            if !seen.insert(out.clone()) {
                fail("a NOTIFY came twice")
            }
            socket.send(&out).unwrap_or_else(|_| fail("a send failed"));
            notified += 1;
        } else if datagram.starts_with(b"SIP/2.0 200 ") {
            agreed += 1;
        } else {
            fail(&String::from_utf8_lossy(datagram));
        }
    }
    // the server has handled the last answer once it has answered what came behind it
    socket.send(question.replace("z9hG4bK", "z9hG4bKlast").as_bytes()).unwrap_or_else(|_| fail("a send failed"));
    receive(socket, &mut room);
    since(server, &before)
}

fn run_echo(socket: &UdpSocket, server: u32, count: u32, window: u32, port: u16) -> Vec<u64> {
    let octets = subscribe(0, socket.local_addr().unwrap().port(), port);
    let mut room = vec![0; 65536];
    find(socket, &octets, &mut room);
    let before = busy_nanos(server);
    let (mut asked, mut back) = (0, 0);
    while back < count {
        while asked < count && asked - back < window {
            socket.send(&octets).unwrap_or_else(|_| fail("a send failed"));
            asked += 1;
        }
        if receive(socket, &mut room) != octets.len() {
            fail("an echo of another length");
        }
        back += 1;
    }
    since(server, &before)
}

/// A phone that lives at a notifier.
struct Phone {
    number: usize,
    /// How many requests it sent, and the last one.
    asked: usize,
    request: Vec<u8>,
    /// Whether the last one is answered, and whether a NOTIFY came since.
    is_answered: bool,
    is_told: bool,
    /// What it sends its requests to, and the notifier's tag with `;tag=` in front, once it is known.
    target: String,
    tag: String,
}

impl Phone {
    fn new(number: usize, mailboxes: usize, port: u16) -> Phone {
        let target = format!("sip:m{}@127.0.0.1:{port}", number % mailboxes);
        Phone { number, asked: 0, request: Vec::new(), is_answered: false, is_told: false, target, tag: String::new() }
    }

    /// Sends its next request, for so many seconds.
    fn ask(&mut self, socket: &UdpSocket, seconds: usize, mailboxes: usize, own: u16) {
        self.asked += 1;
        (self.is_answered, self.is_told) = (false, false);
        let (number, asked, target, tag) = (self.number, self.asked, &self.target, &self.tag);
        let user = format!("m{}", number % mailboxes);
        let request = format!(
            "SUBSCRIBE {target} SIP/2.0\r\n\
             Via: SIP/2.0/UDP 127.0.0.1:{own};branch=z9hG4bK{number:08}.{asked}\r\n\
             Max-Forwards: 70\r\n\
             From: <sip:{user}@127.0.0.1>;tag=f{number:08}\r\n\
             To: <sip:{user}@127.0.0.1>{tag}\r\n\
             Call-ID: c{number:08}\r\n\
             CSeq: {asked} SUBSCRIBE\r\n\
             Contact: <sip:{user}@127.0.0.1:{own}>\r\n\
             Event: message-summary\r\n\
             Expires: {seconds}\r\n\
             Content-Length: 0\r\n\r\n"
        );
        self.request = request.into_bytes();
        self.send(socket);
    }

    fn send(&self, socket: &UdpSocket) {
        socket.send(&self.request).unwrap_or_else(|_| fail("a send failed"));
    }

    /// Takes in a final answer: its tag and its Contact are those of the dialog.
    fn be_answered(&mut self, answer: &str) {
        self.is_answered = true;
        if self.tag.is_empty() {
            let tag = value(answer, "To").split(";tag=").nth(1).unwrap_or_else(|| fail(answer));
            self.tag = format!(";tag={tag}");
            let contact = value(answer, "Contact").split(['<', '>']).nth(1).unwrap_or_else(|| fail(answer));
            self.target = contact.to_string();
        }
    }
}

/// The value of the first line of this name.
fn value<'a>(message: &'a str, name: &str) -> &'a str {
    let values = message.lines().filter_map(|line| line.split_once(": "));
    let mut own = values.filter(|(own, _)| *own == name).map(|(_, value)| value);
    own.next().unwrap_or_else(|| fail(&format!("no {name} in {message}")))
}

/// The place of the phone of a message among those from the first on, unless it is of another one.
fn place(message: &str, first: usize, count: usize) -> Option<usize> {
    let number: usize = value(message, "Call-ID").strip_prefix('c')?.parse().ok()?;
    number.checked_sub(first).filter(|&place| place < count)
}

/// The length of what comes next. Until it comes these phones send again each half second what isn't answered, and count that.
fn receive_or_repeat(socket: &UdpSocket, room: &mut [u8], phones: &[Phone], repeats: &mut usize) -> usize {
    let began = Instant::now();
    while began.elapsed() < PATIENCE {
        match socket.recv(room) {
            Ok(length) => return length,
            Err(fault) if fault.kind() == ErrorKind::WouldBlock => {}
            Err(_) => fail("nobody hears"),
        }
        for phone in phones.iter().filter(|phone| !phone.is_answered) {
            phone.send(socket);
            *repeats += 1;
        }
    }
    fail("an answer or a NOTIFY is missing")
}

/// Has phones live, as a line of the input says. Answers the nanoseconds that they took, and how many requests were sent again.
fn run_lives(socket: &UdpSocket, line: &str, port: u16) -> (u128, usize) {
    let numbers: Vec<usize> = line.split(' ').map(|word| word.parse().unwrap_or_else(|_| fail(line))).collect();
    let [first, count, window, mailboxes, seconds @ ..] = &numbers[..] else {
        fail(line);
    };
    let own = socket.local_addr().unwrap().port();
    let mut phones: Vec<Phone> = (*first..first + count).map(|number| Phone::new(number, *mailboxes, port)).collect();
    let mut room = vec![0; 65536];
    let mut out = Vec::new();
    let (mut begun, mut done, mut repeats) = (0, 0, 0);
    let began = Instant::now();
    while done < *count {
        while begun < *count && begun - done < *window {
            phones[begun].ask(socket, seconds[0], *mailboxes, own);
            begun += 1;
        }
        let length = receive_or_repeat(socket, &mut room, &phones[..begun], &mut repeats);
        let message = std::str::from_utf8(&room[..length]).unwrap_or_else(|_| fail("no UTF-8"));
        if message.starts_with("NOTIFY ") {
            answer(message.as_bytes(), &mut out);
            socket.send(&out).unwrap_or_else(|_| fail("a send failed"));
        } else if !message.starts_with("SIP/2.0 2") {
            fail(message);
        }
        let Some(phone) = place(message, *first, *count).map(|place| &mut phones[place]) else {
            continue;
        };
        let was_ready = phone.is_answered && phone.is_told;
        if message.starts_with("NOTIFY ") {
            phone.is_told = true;
        } else if value(message, "CSeq").starts_with(&format!("{} ", phone.asked)) {
            phone.be_answered(message);
        }
        if was_ready || !(phone.is_answered && phone.is_told) {
            continue;
        }
        match seconds.get(phone.asked) {
            Some(&next) => phone.ask(socket, next, *mailboxes, own),
            None => done += 1,
        }
    }
    (began.elapsed().as_nanos(), repeats)
}

/// Has phones live as each line of the input says.
fn live(port: u16) {
    let socket = phones(port);
    socket.set_read_timeout(Some(T1)).unwrap_or_else(|_| fail("no socket"));
    for line in io::stdin().lock().lines() {
        let line = line.unwrap_or_else(|_| fail("no line"));
        let (nanos, repeats) = run_lives(&socket, &line, port);
        println!("{nanos} {repeats}");
        io::stdout().flush().unwrap_or_else(|_| fail("no output"));
    }
}

fn main() {
    let words: Vec<String> = env::args().collect();
    if let [_, kind, port] = &words[..] {
        if kind == "lives" {
            return live(port.parse().unwrap_or_else(|_| fail("a number is none")));
        }
    }
    let [_, kind, count, window, port, program, rest @ ..] = &words[..] else {
        fail("subscribe|echo <count> <window> <port> <program>...");
    };
    let (Ok(count), Ok(window), Ok(port)) = (count.parse(), window.parse(), port.parse()) else {
        fail("a number is none");
    };
    let child = Command::new(program)
        .args(rest)
        .spawn()
        .unwrap_or_else(|_| fail("the program can't be started"));
    let server = child.id();
    *SERVER.lock().unwrap() = Some(child);
    let socket = phones(port);
    let nanos = match kind.as_str() {
        "subscribe" => run_subscribers(&socket, server, count, window, port),
        "echo" => run_echo(&socket, server, count, window, port),
        _ => fail("subscribe or echo"),
    };
    let sum: u64 = nanos.iter().sum();
    let each: Vec<String> = nanos.iter().map(|busy| (busy / u64::from(count)).to_string()).collect();
    println!("{} {}", sum / u64::from(count), each.join(" "));
    stop();
}
