//! An everyday session: a pipeline, a redirect, a call that is given up, and a node that dies. It needs no
//! socket, since the code has what the nodes send.

use slotroute::{CallerId, LinkId, Session, Settings};
use std::error::Error;

const ME: CallerId = CallerId(1);
const MAP: &[u8] = b"*2\r\n*3\r\n:0\r\n:8191\r\n*2\r\n$8\r\n10.0.0.1\r\n:6379\r\n\
    *3\r\n:8192\r\n:16383\r\n*2\r\n$8\r\n10.0.0.2\r\n:6379\r\n";

fn main() -> Result<(), Box<dyn Error>> {
    let mut session = Session::open(&Settings::default())?;
    session.add_node("10.0.0.1", 6379)?;
    let first = connect(&mut session)?;
    write(&mut session, first)?;
    session.read(first, MAP)?;

    // a pipeline: the second command has a part at each node
    session.begin(ME, b"*3\r\n$3\r\nSET\r\n$3\r\nbar\r\n$1\r\n1\r\n", 5000)?;
    session.begin(ME, b"*3\r\n$4\r\nMGET\r\n$3\r\nfoo\r\n$3\r\nbar\r\n", 5000)?;
    write(&mut session, first)?;
    let second = connect(&mut session)?;
    write(&mut session, second)?;
    // a redirect: the slot of `bar` moves between the two commands
    session.read(first, b"+OK\r\n-MOVED 5061 10.0.0.2:6379\r\n")?;
    write(&mut session, second)?;
    session.read(second, b"*1\r\n$-1\r\n*1\r\n$1\r\n1\r\n")?;
    print_replies(&mut session)?;

    // a call that is given up: its late reply goes to nobody
    let call = session.begin(ME, b"*2\r\n$3\r\nGET\r\n$3\r\nfoo\r\n", 5000)?;
    write(&mut session, second)?;
    session.give_up(call);
    session.read(second, b"$3\r\nold\r\n")?;
    print_replies(&mut session)?;

    // a node that dies: nobody knows whether the command ran
    session.begin(ME, b"*2\r\n$4\r\nINCR\r\n$3\r\nbar\r\n", 5000)?;
    write(&mut session, second)?;
    session.ended(second)?;
    print_replies(&mut session)
}

/// Connects to the node that needs a link.
fn connect(session: &mut Session) -> Result<LinkId, Box<dyn Error>> {
    let node = session.wanted_node().ok_or("no node needs a link")?;
    let (host, port) = session.address(node).ok_or("no such node")?;
    println!("connect to {host}:{port}");
    Ok(session.connected(node)?)
}

/// Writes all that is to be written on a link.
fn write(session: &mut Session, link: LinkId) -> Result<(), Box<dyn Error>> {
    let bytes = session.unwritten(link);
    println!("write {}", bytes.escape_ascii());
    let count = bytes.len();
    Ok(session.wrote(link, count)?)
}

/// Prints the replies that are there.
fn print_replies(session: &mut Session) -> Result<(), Box<dyn Error>> {
    while let Some(reply) = session.next_reply()? {
        println!("reply {}", reply.bytes.escape_ascii());
    }
    Ok(())
}
