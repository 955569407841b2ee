//! A client of a cluster: client HOST:PORT [HOST:PORT ...]
//!
//! Reads commands from standard input, one a line, as words with spaces between them. Asks each at once,
//! and prints the replies as their bytes, in the order of the lines. Threads wait for what comes.

use slotroute::{CallerId, LinkId, NodeId, Session, SessionError, Settings};
use std::collections::{HashMap, VecDeque};
use std::io::{self, BufRead, Read, Write};
use std::net::{Shutdown, TcpStream};
use std::sync::{mpsc, Arc};
use std::time::{Duration, Instant};
use std::{env, error::Error, num::NonZeroU64, thread};

/// How many milliseconds a command may take, and a node may be silent.
const LIMIT: u64 = 5000;

/// What the threads tell.
enum Event {
    Line(io::Result<String>),
    EndOfLines,
    Connected(NodeId, io::Result<TcpStream>),
    Read(LinkId, Vec<u8>),
    Ended(LinkId),
}

struct Client {
    session: Session,
    events: mpsc::Sender<Event>,
    sockets: HashMap<LinkId, Arc<TcpStream>>,
    /// An entry for each command without a reply: the reply if the session refused the command.
    waiting: VecDeque<Option<Vec<u8>>>,
    may_end: bool,
}

impl Client {
    fn take(&mut self, event: Event, now: u64) -> Result<(), Box<dyn Error>> {
        match event {
            Event::Line(line) => self.begin(&line?, now + LIMIT),
            Event::EndOfLines => self.may_end = true,
            Event::Connected(node, Ok(socket)) => self.connected(node, socket)?,
            Event::Connected(node, Err(_)) => self.session.unreachable(node)?,
            Event::Read(link, bytes) => self.session.read(link, &bytes)?,
            Event::Ended(link) => self.end(link)?,
        }
        Ok(())
    }

    /// Begins a call of the words of a line.
    fn begin(&mut self, line: &str, deadline: u64) {
        let words: Vec<&str> = line.split_whitespace().collect();
        if words.is_empty() {
            return;
        }
        let mut request = format!("*{}\r\n", words.len());
        words.iter().for_each(|word| request += &format!("${}\r\n{word}\r\n", word.len()));
        let begun = self.session.begin(CallerId(0), request.as_bytes(), deadline);
        self.waiting.push_back(begun.err().map(|refusal| refusal.reply()));
    }

    /// Notes a connection, and begins to read it.
    fn connected(&mut self, node: NodeId, socket: TcpStream) -> Result<(), SessionError> {
        socket.set_nodelay(true).ok();
        socket.set_write_timeout(Some(Duration::from_millis(LIMIT))).ok();
        let socket = Arc::new(socket);
        let (link, events) = (self.session.connected(node)?, self.events.clone());
        self.sockets.insert(link, Arc::clone(&socket));
        thread::spawn(move || {
            let mut bytes = [0; 65536];
            while let Ok(count @ 1..) = (&*socket).read(&mut bytes) {
                events.send(Event::Read(link, bytes[..count].to_vec())).ok();
            }
            events.send(Event::Ended(link)).ok();
        });
        Ok(())
    }

    /// Ends a link, and by that the thread that reads it.
    fn end(&mut self, link: LinkId) -> Result<(), SessionError> {
        if let Some(socket) = self.sockets.remove(&link) {
            socket.shutdown(Shutdown::Both).ok();
        }
        self.session.ended(link)
    }

    /// Closes, connects and writes as the session wants, and prints the replies that are there. Returns
    /// whether more commands or replies can come.
    fn act(&mut self) -> Result<bool, Box<dyn Error>> {
        while let Some(link) = self.session.link_to_close() {
            self.end(link)?;
        }
        while let Some(node) = self.session.wanted_node() {
            let address = self.session.address(node).ok_or("no such node")?;
            let events = self.events.clone();
            thread::spawn(move || events.send(Event::Connected(node, TcpStream::connect(address))));
        }
        while let Some(link) = self.session.link_to_write() {
            self.write(link)?;
        }
        while let Some(refusal) = self.waiting.front() {
            if let Some(bytes) = refusal {
                io::stdout().write_all(bytes)?;
            } else if let Some(reply) = self.session.next_reply()? {
                io::stdout().write_all(reply.bytes)?;
            } else {
                break;
            }
            self.waiting.pop_front();
        }
        Ok(!self.may_end || !self.waiting.is_empty())
    }

    /// Writes all that is to be written on a link. It ends if its node takes nothing for a while.
    fn write(&mut self, link: LinkId) -> Result<(), SessionError> {
        while let Some(socket) = self.sockets.get(&link) {
            match self.session.unwritten(link) {
                [] => break,
                bytes => match socket.as_ref().write(bytes) {
                    Ok(count @ 1..) => self.session.wrote(link, count)?,
                    _ => self.end(link)?,
                },
            }
        }
        Ok(())
    }
}

fn main() -> Result<(), Box<dyn Error>> {
    let settings = Settings { silence: NonZeroU64::new(LIMIT), ..Settings::default() };
    let (events, told) = mpsc::channel();
    let (session, sockets, waiting) = (Session::open(&settings)?, HashMap::new(), VecDeque::new());
    let mut client = Client { session, events: events.clone(), sockets, waiting, may_end: false };
    for node in env::args().skip(1) {
        let (host, port) = node.rsplit_once(':').ok_or("usage: client HOST:PORT ...")?;
        client.session.add_node(host, port.parse()?)?;
    }
    thread::spawn(move || {
        io::stdin().lock().lines().try_for_each(|line| events.send(Event::Line(line)))?;
        events.send(Event::EndOfLines)
    });
    let start = Instant::now();
    let now = || start.elapsed().as_millis() as u64;
    while client.act()? {
        let wait = client.session.next_time().map_or(LIMIT, |time| time.saturating_sub(now()));
        let event = told.recv_timeout(Duration::from_millis(wait));
        client.session.advance(now())?;
        event.into_iter().chain(told.try_iter()).try_for_each(|it| client.take(it, now()))?;
    }
    Ok(())
}
