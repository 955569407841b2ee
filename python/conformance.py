"""Runs the vectors of a folder against the library for C, and prints each one that fails.

    python3 python/conformance.py LIBRARY vectors

vectors/README.md says how a client in any language does the same. Vectors are left out if the library
for C has no such call, or if RESP2 has no form for their input.
"""

import json
import sys
from collections import Counter
from pathlib import Path

import slotroute as sr

POLICIES = {
    None: sr.NO_POLICY,
    "one_succeeded": sr.ONE_SUCCEEDED,
    "first_not_empty": sr.FIRST_NOT_EMPTY,
    "all_succeeded": sr.ALL_SUCCEEDED,
    "agg_logical_and": sr.BITS_AND,
    "agg_logical_or": sr.BITS_OR,
    "agg_min": sr.LEAST,
    "agg_sum": sr.SUM,
    "join_arrays": sr.ARRAYS,
    "join_maps": sr.MAPS,
    "special": sr.SPECIAL,
}
KINDS = {
    "any_node": sr.TO_ANY,
    "slot": sr.TO_SLOT,
    "all_nodes": sr.TO_ALL,
    "all_primaries": sr.TO_ALL_PRIMARIES,
    "parts": sr.TO_SLOTS,
    "nowhere": sr.GOES_NOWHERE,
}
NODES = {"primary": sr.PRIMARY, "replica_optional": sr.REPLICA_OPTIONAL, "replica_required": sr.REPLICA}
# How a line that registers a name writes its pattern and its policy.
PATTERNS = {"keys": "keys", "pairs": "pairs", "keys_and_last": "last", "triples": "triples"}
LINE_POLICIES = {"all_succeeded": "ok", "agg_sum": "sum", "join_arrays": "list"}


# The calls of vectors that the library for C has.
CALLS = "answer combine nodes redirect register route slot slots_reply split table".split()


class LeftOut(Exception):
    """A vector that the library for C can't run."""


def octets(given):
    """The bytes of a text, or of hexadecimal digits."""
    return bytes.fromhex(given["hex"]) if isinstance(given, dict) else given.encode()


def encode(value):
    """A reply as bytes of RESP2, in which a map is an array."""
    match value:
        case None:
            return b"$-1\r\n"
        case int():
            return b":%d\r\n" % value
        case list():
            return b"*%d\r\n" % len(value) + b"".join(map(encode, value))
        case {"simple": text}:
            return f"+{text}\r\n".encode()
        case {"error": text}:
            return f"-{text}\r\n".encode()
        case {"map": pairs}:
            return encode([it for pair in pairs for it in pair])
    data = octets(value)
    return b"$%d\r\n%s\r\n" % (len(data), data)


def words_of(given):
    """The words of a command, none of which may be missing or a number."""
    if given is None or any(it is None or isinstance(it, int) for it in given):
        raise LeftOut
    return [octets(it) for it in given]


def line(it):
    """The line that registers a name."""
    if it["policy"] not in LINE_POLICIES:
        raise LeftOut
    return f"multi {PATTERNS[it['tuples']]} {LINE_POLICIES[it['policy']]} {it['name']}\n".encode()


def only_reads(words, names):
    """Whether a name of one word or of two is among these."""
    name = words[0].upper()
    both = b" ".join(words[:2]).upper()
    return any(it.upper().encode() in (name, both) for it in names)


class Runner:
    """What the library answers to the input of each call, in the form that vectors have."""

    def __init__(self, path):
        self.path = path
        self.library = sr.Library(path)

    def of_names(self, registered):
        """The library with these names registered."""
        return sr.Library(self.path, b"".join(map(line, registered))) if registered else self.library

    def slot(self, given):
        return self.library.slot(octets(given["key"]))

    def route(self, given):
        words = words_of(given["command"])
        library = self.of_names(given.get("registered", []))
        return route_and_slots(library, words, only_reads(words, given.get("only_reads", [])))

    def split(self, given):
        library = self.of_names(given.get("registered", []))
        return library.split(sr.request(*words_of(given["command"])))

    def combine(self, given):
        return self.library.combine_answers(POLICIES[given["policy"]], list(map(encode, given["replies"])))

    def answer(self, given):
        request = sr.request(*words_of(given["command"]))
        routed, answers = self.library.route(request), list(map(encode, given["answers"]))
        if routed.policy == sr.SPECIAL:
            raise LeftOut
        if routed.kind in (sr.TO_ALL, sr.TO_ALL_PRIMARIES):
            return self.library.combine_answers(routed.policy, answers)
        if routed.kind == sr.TO_SLOTS:
            return self.library.combine(request, answers)
        return answers[0]

    def redirect(self, given):
        return self.library.redirect(given["text"].encode(), given["answering"].encode())

    def register(self, given):
        self.of_names([*given["registered"], given])
        return True

    def table(self, given):
        """The name, of which `table_as` makes requests. Requests have names in any case."""
        if given["name"] != given["name"].upper():
            raise LeftOut
        return given["name"]

    def addresses(self, reply, answering, addr=sr.PRIMARY, pick=0):
        """The address of each slot, by the table of a reply to `CLUSTER SLOTS`."""
        if isinstance(reply, dict) and "map" in reply:
            raise LeftOut
        numbers, nodes = self.library.table(encode(reply), answering.encode(), addr, pick)
        names = [f"{host}:{port}" for host, port in nodes]
        return [None if it == sr.NO_NODE else names[it] for it in numbers]

    def slots_reply(self, given):
        return self.addresses(given["reply"], given["answering"])

    def nodes(self, given):
        if given["strategy"] != "none":
            raise LeftOut
        reply = given["reply"] if "reply" in given else list(map(reply_item, given["map"]))
        pick, answering = given.get("pick", 0), given.get("answering", "node")
        primaries = self.addresses(reply, answering)
        replicas = self.addresses(reply, answering, sr.REPLICA, pick)
        tables = {"primary": primaries, "replica_optional": primaries, "replica_required": replicas}
        return [tables[it["node"]][it["slot"]] for it in given["routes"]]


def node_of(address):
    host, _, port = address.rpartition(":")
    return [host, int(port)]


def reply_item(it):
    """A range as `CLUSTER SLOTS` has it."""
    return [it["start"], it["end"], node_of(it["primary"]), *map(node_of, it["replicas"])]


def holds(ranges):
    """The primary of each slot: that of the range with the least end from the slot on, if the range
    begins at the slot or before it."""
    by_end = sorted({it["end"]: it for it in ranges}.items())

    def at(slot):
        it = next((it for end, it in by_end if end >= slot), None)
        return it["primary"] if it and it["start"] <= slot else None

    return [at(slot) for slot in range(sr.SLOTS)]


def route_and_slots(library, words, reads=False):
    """The route of a request, and the slots of its parts."""
    request = sr.request(*words)
    routed = library.route(request, reads)
    return routed, [slot for slot, _ in library.split(request)] if routed.kind == sr.TO_SLOTS else []


def routed_as(found, result):
    """Whether a route is the one of a vector."""
    routed, slots = found
    if result is None:
        return routed.kind == sr.GOES_NOWHERE
    slot = result["to"] != "slot" or (routed.slot, routed.addr) == (result["slot"], NODES[result["node"]])
    policy = "policy" not in result or routed.policy == POLICIES[result["policy"]]
    parts = slots == [it["slot"] for it in result.get("parts", [])]
    return routed.kind == KINDS[result["to"]] and slot and policy and parts


def parts_as(parts, result):
    return parts == [(it["slot"], sr.request(*map(octets, it["command"]))) for it in result]


def redirected_as(found, result):
    if found is None or result is None:
        return found is result
    told, host = found
    kind = {"moved": sr.MOVED, "ask": sr.ASK}[result["redirect"]]
    return (told.kind, told.slot, host, told.port) == (kind, result["slot"], result["host"], result["port"])


def probe(name, way):
    """A request of a name with the key `a` where its way looks for a key, and of several keys with
    `b`, too; and where it has to go."""
    words = [name] if name.startswith("TFUNCTION") else name.split(" ")
    to_a = {"to": "slot", "slot": 15495, "node": "primary"}
    if "split" in way:
        tuples = {
            "keys": ["a", "b"],
            "pairs": ["a", 1, "b", 2],
            "keys_and_last": ["a", "b", "$"],
            "triples": ["a", "$", 1, "b", "$", 2],
        }
        return [*words, *tuples[way["split"]]], {"to": "parts", "parts": [{"slot": 15495}, {"slot": 3300}]}
    filled = words + ["x"] * (way.get("argument", 0) - len(words))
    match way["way"]:
        case "key_at":
            return [*filled, "a"], to_a
        case "count_at":
            return [*filled, 1, "a"], to_a
        case "slot_at":
            return [*filled, 7], {"to": "slot", "slot": 7, "node": "primary"}
        case "key_after_streams":
            return [*words, "streams", "a"], to_a
        case "nowhere":
            return [*words, "a", "b", "c"], None
        case to:
            return words, {"to": to}


def table_as(library, name, result):
    """Whether requests of a name go where its way says, with its policy."""
    if result["way"] is None:
        key = name.split(" ")[1] if " " in name else "a"
        to = {"to": "slot", "slot": library.slot(key.encode()), "node": "primary"}
        return routed_as(route_and_slots(library, [*name.split(" "), "a"]), to)
    words, to = probe(name, result["way"])
    if to and to["to"] in ("all_nodes", "all_primaries", "parts"):
        to["policy"] = result["policy"]
    return routed_as(route_and_slots(library, words), to)


def refused_as(error, vector):
    """Whether an error is the one that a vector wants."""
    call, result = vector["call"], vector.get("result")
    if call == "split" and result is None:
        return error.answer == sr.NOT_MULTI_KEY
    if isinstance(result, dict) and "error" in result:
        return error.answer == sr.REPLY_IS_ERROR
    codes = [sr.BAD_NAME] if call == "register" else [sr.UNFIT, sr.NO_FORM]
    return "refused" in vector and error.answer in codes


def is_right(runner, vector):
    """Whether the library answers as a vector says."""
    call, refused, result = vector["call"], vector.get("refused"), vector.get("result")
    if call not in CALLS:
        raise LeftOut
    try:
        answer = getattr(runner, call)(vector["input"])
    except sr.Refused as error:
        return refused_as(error, vector)
    match call:
        case "route":
            return routed_as(answer, result)
        case "split":
            return result is not None and parts_as(answer, result)
        case "redirect":
            return redirected_as(answer, result)
        case "table":
            return table_as(runner.library, answer, result)
        case "slots_reply":
            return answer == holds(result)
        case "combine" | "answer":
            return refused is None and answer == encode(result)
    return refused is None and answer == result


def run(runner, file):
    """How many vectors of a file pass and fail, and the calls of those that are left out."""
    passed, failed, left_out = 0, 0, []
    for text in file.read_text().splitlines():
        vector = json.loads(text)
        try:
            right = is_right(runner, vector)
        except LeftOut:
            left_out.append(vector["call"])
            continue
        if right:
            passed += 1
        else:
            failed += 1
            print(f"{file.name}: {text}")
    return passed, failed, left_out


def main():
    files = sorted(Path(sys.argv[2]).glob("*.jsonl")) if len(sys.argv) == 3 else []
    if not files:
        sys.exit("usage: conformance.py LIBRARY FOLDER, with a folder of .jsonl files")
    counts = [run(Runner(sys.argv[1]), it) for it in files]
    passed, failed = (sum(it[at] for it in counts) for at in (0, 1))
    for call, count in Counter(name for *_, names in counts for name in names).items():
        print(f"left out: {count} of {call}")
    print(f"{passed} passed, {failed} failed")
    sys.exit(failed > 0)


if __name__ == "__main__":
    main()
