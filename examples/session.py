"""An everyday session: a pipeline, a redirect, a call that is given up, and a node that dies. It needs no
socket, since the code has what the nodes send."""

from slotroute import Session, request

ME = 1
MAP = (
    b"*2\r\n*3\r\n:0\r\n:8191\r\n*2\r\n$8\r\n10.0.0.1\r\n:6379\r\n"
    b"*3\r\n:8192\r\n:16383\r\n*2\r\n$8\r\n10.0.0.2\r\n:6379\r\n"
)


def show(what: str, data: bytes) -> None:
    print(what, repr(data)[2:-1])


def connect(session: Session) -> int:
    """Connects to the node that needs a link."""
    node = session.wanted_node()
    assert node is not None
    print("connect to {}:{}".format(*session.address(node)))
    return session.connected(node)


def write(session: Session, link: int) -> None:
    """Writes all that is to be written on a link."""
    data = session.unwritten(link)
    show("write", data)
    session.wrote(link, len(data))


def print_replies(session: Session) -> None:
    while reply := session.next_reply():
        show("reply", reply.data)


with Session() as session:
    session.add_node("10.0.0.1", 6379)
    first = connect(session)
    write(session, first)
    session.read(first, MAP)

    # a pipeline: the second command has a part at each node
    session.begin(ME, request("SET", "bar", 1), deadline=5000)
    session.begin(ME, request("MGET", "foo", "bar"), deadline=5000)
    write(session, first)
    second = connect(session)
    write(session, second)
    # a redirect: the slot of `bar` moves between the two commands
    session.read(first, b"+OK\r\n-MOVED 5061 10.0.0.2:6379\r\n")
    write(session, second)
    session.read(second, b"*1\r\n$-1\r\n*1\r\n$1\r\n1\r\n")
    print_replies(session)

    # a call that is given up: its late reply goes to nobody
    call = session.begin(ME, request("GET", "foo"), deadline=5000)
    write(session, second)
    session.give_up(call)
    session.read(second, b"$3\r\nold\r\n")
    print_replies(session)

    # a node that dies: nobody knows whether the command ran
    session.begin(ME, request("INCR", "bar"), deadline=5000)
    write(session, second)
    session.ended(second)
    print_replies(session)
