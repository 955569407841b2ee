//! Does what tests/session_runner.c does, with the session of the crate for Rust.
//!
//! The crate names a node, a link or a call by what an earlier call returned. A number that no call
//! returned is answered here as slotroute.h says of a number that is not there.

use slotroute::{CallId, CallerId, LinkId, NodeId, Refusal, Session, SessionError, Settings};
use std::collections::HashMap;
use std::error::Error;
use std::io::{self, BufRead};
use std::num::NonZeroU64;

struct Runner {
    session: Session,
    nodes: HashMap<usize, NodeId>,
    links: HashMap<usize, LinkId>,
    calls: HashMap<u64, CallId>,
}

type Answer = Result<String, Box<dyn Error>>;

/// A text with escapes as bytes.
fn bytes_of(text: &str) -> Result<Vec<u8>, Box<dyn Error>> {
    let mut pieces = if text == "\"\"" { "" } else { text }.split('\\');
    let mut bytes = pieces.next().unwrap_or_default().as_bytes().to_vec();
    for piece in pieces {
        let (byte, len) = match piece.as_bytes().first() {
            Some(b'x') => (u8::from_str_radix(&piece[1..3], 16)?, 3),
            Some(b'r') => (b'\r', 1),
            Some(b'n') => (b'\n', 1),
            _ => (b' ', 1),
        };
        bytes.push(byte);
        bytes.extend_from_slice(&piece.as_bytes()[len..]);
    }
    Ok(bytes)
}

/// The first word, and those after it.
fn two(words: &str) -> (&str, &str) {
    words.split_once(' ').unwrap_or((words, ""))
}

fn done(result: Result<(), SessionError>) -> String {
    result.map_or("NoMemory", |()| "OK").to_owned()
}

fn refused(refusal: Refusal) -> &'static str {
    match refusal {
        Refusal::RequestIncomplete => "Unread(Incomplete)",
        Refusal::RequestMalformed => "Unread(Malformed)",
        Refusal::AfterRequest => "AfterRequest",
        Refusal::NoForm => "NoOneReply",
        Refusal::NotRoutable => "NoRoute",
        Refusal::NotTaken => "NotTaken",
        Refusal::Blocking => "Blocking",
        Refusal::TooMany => "Limit",
        _ => "Memory",
    }
}

impl Runner {
    fn open(login: &str) -> Result<Self, Box<dyn Error>> {
        let settings = Settings {
            login: bytes_of(login)?,
            most_reply_bytes: 4_000,
            most_calls: 50,
            most_bytes: 3000,
            silence: NonZeroU64::new(60),
            pause: 10,
            retries: 16,
        };
        let session = Session::open(&settings)?;
        Ok(Runner { session, nodes: HashMap::new(), links: HashMap::new(), calls: HashMap::new() })
    }

    /// What a call of this name returns.
    fn call(&mut self, name: &str, words: &str) -> Answer {
        match name {
            "shell" => *self = Runner::open(words)?,
            "advance" => return Ok(done(self.session.advance(words.parse()?))),
            "node" => return self.add_node(words),
            "wanted" => return Ok(self.wanted()),
            "to-write" => return Ok(Runner::shown(self.session.link_to_write())),
            "close" => return Ok(Runner::shown(self.session.link_to_close())),
            "time" => return Ok(format!("{:?}", self.session.next_time())),
            "next" => return self.next_reply(),
            "begin" => return self.begin(words),
            "give-up" => return self.give_up(words),
            "address" | "connected" | "unreachable" => return self.of_node(name, words),
            _ => return self.of_link(name, words),
        }
        Ok("OK".to_owned())
    }

    fn shown(link: Option<LinkId>) -> String {
        format!("{:?}", link.map(LinkId::index))
    }

    fn add_node(&mut self, address: &str) -> Answer {
        let (host, port) = address.rsplit_once(':').ok_or("no port")?;
        let node = self.session.add_node(host, port.parse()?)?;
        self.nodes.insert(node.index(), node);
        Ok(format!("Some({})", node.index()))
    }

    fn wanted(&mut self) -> String {
        let node = self.session.wanted_node();
        self.nodes.extend(node.map(|node| (node.index(), node)));
        format!("{:?}", node.map(NodeId::index))
    }

    fn of_node(&mut self, name: &str, words: &str) -> Answer {
        let node = match self.nodes.get(&words.parse()?) {
            Some(node) => *node,
            None => return Ok("none".to_owned()),
        };
        Ok(match name {
            "address" => match self.session.address(node) {
                Some((host, port)) => format!("{host}:{port}"),
                None => "none".to_owned(),
            },
            "unreachable" => done(self.session.unreachable(node)),
            _ => {
                let link = self.session.connected(node)?;
                self.links.insert(link.index(), link);
                link.index().to_string()
            }
        })
    }

    fn of_link(&mut self, name: &str, words: &str) -> Answer {
        let (number, rest) = two(words);
        let link = self.links.get(&number.parse()?).copied();
        Ok(match (name, link) {
            ("unwritten", Some(link)) => self.session.unwritten(link).escape_ascii().to_string(),
            ("unwritten", None) => String::new(),
            ("wrote", Some(link)) => self.session.wrote(link, rest.parse()?).is_ok().to_string(),
            ("wrote", None) => "false".to_owned(),
            ("read", Some(link)) => done(self.session.read(link, &bytes_of(rest)?)),
            ("ended", Some(link)) => done(self.session.ended(link)),
            ("read" | "ended", None) => "OK".to_owned(),
            _ => return Err("no call of this name".into()),
        })
    }

    fn begin(&mut self, words: &str) -> Answer {
        let (caller, rest) = two(words);
        let (deadline, request) = two(rest);
        let caller = CallerId(caller.parse()?);
        Ok(match self.session.begin(caller, &bytes_of(request)?, deadline.parse()?) {
            Ok(call) => {
                self.calls.insert(call.number(), call);
                call.number().to_string()
            }
            Err(refusal) => refused(refusal).to_owned(),
        })
    }

    fn give_up(&mut self, words: &str) -> Answer {
        let call = self.calls.get(&words.parse()?);
        Ok(call.map_or(false, |call| self.session.give_up(*call)).to_string())
    }

    fn next_reply(&mut self) -> Answer {
        Ok(match self.session.next_reply()? {
            Some(reply) => {
                let (caller, call) = (reply.caller.0, reply.call.number());
                format!("{caller} {call} {}", reply.bytes.escape_ascii())
            }
            None => "none".to_owned(),
        })
    }
}

fn main() -> Result<(), Box<dyn Error>> {
    let mut runner = Runner::open("")?;
    for line in io::stdin().lock().lines() {
        let line = line?;
        let (name, words) = two(&line);
        if name != "==" {
            println!("{}", runner.call(name, words)?);
        }
    }
    Ok(())
}
