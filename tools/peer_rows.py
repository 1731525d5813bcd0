"""Rows of the step of a gateway among other implementations, which `tools/peer_model.py --test` runs.

A row has a name, keys of the configuration, events, and what comes of them. Its moments begin at 1010000.

- `o 7: B6 B6b` is one red datagram with these octets, of session 7 of the node at the old face; `n` is that at the new one.
  `o 0c01090000` is a datagram as it stands. What goes out is taken from the outbox at once, where the link is open.
- `wait 5` moves the clock, and `tick` ticks.
- `>o` and `>n` are datagrams that go at a face. A line is its event and its keys, without the moment and the subject.
- `ro 17` and `rn 29` are the reports on 23 and on 41 octets of session 7. `P` is `passed face=old first=1 pieces=1
  session=7`, `P2` has `first=2 index=2` in it; `N` and `N2` are those of the new face.
"""
from datetime import timedelta

from format_model import BLOCK_MAX
from gate_model import YEAR_2000
from gateway_model import NEW, OLD
from ltp_model import RED, RED_END_BLOCK, REPORT, REPORT_ACK, sdnv, written
from peer_model import Gateway, refusal, takes
from quick_ends import QuickEngine

BEGIN = 1_010_000
FACES = {"o": OLD, "n": NEW}
NODES = {OLD: 1, NEW: 4}
SMALL = 1 << 25                 # the least memory of a face

B6 = "0681100d02010101000000008768053c00010803616263"
B7 = "9f8907000182028202018202820101820100821a000f42450019ea5b425a46850101000043616263ff"
NAMED = {
    "B6": B6, "B7": B7,
    "B6b": B6.replace("68053c", "68063c"),                              # the next sequence number
    "B6x": B6.replace("0d0201", "0c0201").replace("68053c", "68063c"),  # the length of its primary block is wrong
    "B7b": "9f8907000182028202018202820101820100821a000f42460019ea5a42cc2d850101000043616263ff",
    "C": "0681100f0201010100000000876805868d2000010803616263",     # a lifetime of 100,000 seconds
    "D": "069081100d02010101010100008768050100010803616263",       # expired, and a report is asked for
    "E6": "0682100d02010101000000008768053c001300020001010803616263",     # expedited, with a block of type 19
    "E7": "9f8907000182028202018202820101820100821a000f42450019ea5b425a468518c8020100554236374782100864746e3a6e6f6e650000"
          "000000008518c903000049423637471300000001850101000043616263ff",
    "S6": "0681120f010109000000000087720085a300000108111010018772008768050769706e3a312e31",   # the report on D
}
for name, block in (("Q7", "8518c102000043820100"), ("G7", "850702000043191388"), ("A7", "850702000043191f40")):
    NAMED[name] = B7.replace("850101", block + "850101")
for name, body in (("Q6", "0c423637478141020000820100"), ("A5", "0b4236374707020000191388"),
                   ("A6", "0b4236374707020000191770"), ("A35", "0b42363747070200001988b8"),
                   ("A11", "0b4236374707020000192af8")):
    NAMED[name] = B6.replace("010803", "c100" + body + "010803")
BAD = "bad_bundle cause=Version face=old place=0 session={}".format
P, N = ("passed face={} first={} {}pieces=1 session=7".format(face, "{0}", "{1}") for face in ("old", "new"))


def octets_of(words):
    """The octets of words, each a name or hex."""
    return bytes.fromhex("".join(NAMED.get(word, word) for word in words))


def block_of(session, face, octets, engine=None, service=1):
    """A whole block as one red datagram."""
    return written(RED_END_BLOCK, (engine or NODES[face], session), service, 0, len(octets), 1, 0, body=octets)


def piece_of(session, offset, size):
    """A red piece of the old node that is no checkpoint."""
    return written(RED, (1, session), 1, offset, size, body=bytes([97]) * size)


def with_payload(size, sequence=5):
    """The usual bundle of version 6 with so many octets."""
    return bytes.fromhex(B6[:34].replace("68053c", f"68{sequence:02x}3c")) + b"\1\x08" + sdnv(size) + bytes(size)


def contact_at(wait, length=1 << 30):
    """A contact that begins so many milliseconds after a row's first moment."""
    at = YEAR_2000 + timedelta(milliseconds=BEGIN + wait)
    return [{"from": at, "to": at + timedelta(milliseconds=length)}]


def shown(value):
    if isinstance(value, list):
        return "[" + ",".join(map(shown, value)) + "]"
    return str(value).lower() if isinstance(value, bool) else str(value)


class Played:
    """A gateway to which the events of a row come."""

    def __init__(self, keys=(), **kept):
        file = {"gateway": {"endpoint": "ipn:9.0"}, "old": {"first_session": 1}, "new": {"first_session": 1}}
        for key, value in dict(keys).items():
            table, _, name = key.partition(".")
            file[table][name] = value
        self.wall, self.gateway, self.records = BEGIN, Gateway(file, BEGIN, **kept), []
        self.first = self.told(self.gateway.start())[:-1]

    def told(self, step):
        """What came of a step, as a row has it."""
        for each in self.gateway.faces.values():
            while each.next() is not None:
                pass
            each.was_empty = not each.outbox
        self.records += step.records
        words = [f">{face[-1]} {datagram.hex()}" for face, datagram in step.out]
        for line in step.lines:
            keys = [f"{key}={shown(line[key])}" for key in sorted(line) if key not in ("event", "subject")]
            words.append(" ".join([line["event"], *keys]))
        return words

    def event(self, text):
        words = text.split()
        if words[0] == "wait":
            self.wall += int(words[1])
            return self.told(self.gateway.read(self.wall))
        if words[0] == "tick":
            return self.told(self.gateway.tick())
        if words[0] == "resume":
            return self.told(self.gateway.resume())
        face = FACES[words[0]]
        is_block = words[1].endswith(":")
        datagram = block_of(int(words[1][:-1]), face, octets_of(words[2:])) if is_block else bytes.fromhex(words[1])
        return self.arrive(face, datagram)

    def arrive(self, face, datagram):
        return self.told(self.gateway.arrive(face, datagram))

    def judged(self, session):
        """The lines of a block of the old node that is no bundle, and of the acknowledgement of its report."""
        ack = written(REPORT_ACK, (1, session), 1 + session % 16_383)
        found = self.arrive(OLD, block_of(session, OLD, b"abc")) + self.arrive(OLD, ack)
        return [text for text in found if text[0] != ">"]

    def lines(self, events, *only):
        """What comes of events, of which some lines alone count where they are named."""
        found = [text for event in events for text in self.event(event)]
        return [text for text in found if text.split()[0] in only] if only else found


def wanted_of(text):
    """What a row wants, written out."""
    words = text.split()
    if words[0] in ("ro", "rn"):
        node, length = ("01", "04")[words[0] == "rn"], words[1]
        return f">{words[0][1]} 08{node}07000801{length}000100{length}"
    if words[0][0] in "PN" and len(words) == 1:
        index = words[0][1:]
        return (P if words[0][0] == "P" else N).format(index or 1, f"index={index} " if index else "")
    return f"{words[0]} {octets_of(words[1:]).hex()}" if words[0][0] == ">" else text


ROWS = (
    ("two bundles in a block of version 6", {}, ["o 7: B6 B6b"],
     "ro 2e | >n 030301000100290200 B7 | >n 030302000100290300 B7b | P1 | P2"),
    ("two bundles in a block of version 7", {}, ["n 7: B7 B7b"],
     "rn 52 | >o 030201000100170200 B6 | >o 030202000100170300 B6b | N1 | N2"),
    ("a bad bundle between two good ones ends the block", {}, ["o 7: B6 B6x B6"],
     "ro 45 | >n 030301000100290200 B7 | P1 | bad_bundle cause=PrimaryEnd face=old index=2 place=40 session=7"),
    ("one octet after a bundle", {}, ["o 7: B6 00"],
     "ro 18 | >n 030301000100290200 B7 | P1 | bad_bundle cause=Version face=old index=2 place=23 session=7"),
    ("a bundle that ends too soon, after a good one", {}, ["n 7: B7 9f8907000182028202018202820101820100821a00"],
     "rn 3e | >o 030201000100170200 B6 | N1 | bad_bundle cause=Truncated face=new index=2 place=60 session=7"),
    ("a block that is no bundle", {}, ["o 7: 616263"],
     "ro 03 | bad_bundle cause=Version face=old place=0 session=7"),
    ("of two bundles the second waits for a session", {"new.sessions": 1}, ["o 7: B6 B6b", "n 0803010002022900010029"],
     "ro 2e | >n 030301000100290200 B7 | P1 | P2 | >n 0903010002 | >n 030302000100290300 B7b | sent face=new session=1"),
    ("two bundles go together once they are long enough", {"new.aggregate": 60},
     ["o 7: B6", "wait 5", "o 8: B6b", "n 0803010002025200010052"],
     "ro 17 | passed face=old pieces=1 session=7 | >o 0801080009011700010017 | >n 030301000100520200 B7 B7b | "
     "began bundles=2 face=new octets=82 session=1 | passed face=old pieces=1 session=8 | >n 0903010002 | "
     "sent bundles=2 face=new session=1"),
    ("a bundle goes alone once it has waited", {"new.aggregate": 60}, ["o 7: B6", "wait 999", "tick", "wait 1", "tick"],
     "ro 17 | passed face=old pieces=1 session=7 | >n 030301000100290200 B7 | "
     "began bundles=1 face=new octets=41 session=1"),
    ("with one octet wanted each bundle goes at once", {"new.aggregate": 1}, ["o 7: B6"],
     "ro 17 | >n 030301000100290200 B7 | began bundles=1 face=new octets=41 session=1 | "
     "passed face=old pieces=1 session=7"),
    ("the pieces of a bundle go in one block", {"new.aggregate": 80, "gateway.cut": 2}, ["o 7: B6"],
     "ro 17 | >n 030301000100530200 9f8b07010182028202018202820101820100821a000f42450019ea5b0003426fb0850101000042"
     "6162ff 9f8b07010182028202018202820101820100821a000f42450019ea5b020342793885010100004163ff | "
     "began bundles=2 face=new octets=83 session=1 | passed face=old pieces=2 session=7"),
    ("what waits for a session goes with the first that ends, and what isn't long enough waits on",
     {"new.aggregate": 60, "new.sessions": 1},
     ["o 7: B6 B6b B6 B6b B6", "n 0803010002025200010052", "n 0803020003025200010052", "wait 1000", "tick"],
     "ro 73 | >n 030301000100520200 B7 B7b | passed face=old index=1 pieces=1 session=7 | "
     "began bundles=2 face=new octets=82 session=1 | passed face=old index=2 pieces=1 session=7 | "
     "passed face=old index=3 pieces=1 session=7 | passed face=old index=4 pieces=1 session=7 | "
     "passed face=old index=5 pieces=1 session=7 | >n 0903010002 | >n 030302000100520300 B7 B7b | "
     "sent bundles=2 face=new session=1 | began bundles=2 face=new octets=82 session=2 | >n 0903020003 | "
     "sent bundles=2 face=new session=2 | >n 030303000100290400 B7 | began bundles=1 face=new octets=41 session=3"),
    ("with one number left two bundles go together", {"new.first_session": (1 << 32) - 1, "new.aggregate": 60},
     ["o 7: B6 B6b"],
     "ro 2e | >n 03038fffffff7f000100521000 B7 B7b | passed face=old index=1 pieces=1 session=7 | "
     "began bundles=2 face=new octets=82 session=4294967295 | passed face=old index=2 pieces=1 session=7"),
    ("green data is told and dropped", {}, ["o 0701090001000161"], "green face=old last=true octets=1 offset=0 session=9"),
    ("the cancel of a session that never was is acknowledged", {}, ["o 0c01090000"], ">o 0d010900"),
    ("a cancel of a session that never was closes nothing", {}, ["o 0c01070000", "o 7: B6"],
     ">o 0d010700 | ro 17 | >n 030301000100290200 B7 | P"),
    ("other types on the wire, into version 7", {"new.residue_block": 200, "new.wrap_block": 201}, ["o 7: E6"],
     "ro 1c | >n 030301000100550200 E7 | P"),
    ("other types on the wire, into version 6", {"new.residue_block": 200, "new.wrap_block": 201}, ["n 7: E7"],
     "rn 55 | >o 0302010001001c0200 E6 | N"),
    ("another's block of type 193 is wrapped", {"new.residue_block": 200, "new.wrap_block": 201}, ["n 7: Q7"],
     "rn 33 | >o 030201000100260200 Q6 | N"),
    ("and comes out of its wrap with the usual types", {}, ["o 7: Q6"], "ro 26 | >n 030301000100330200 Q7 | P"),
    ("what version 7 has no field for is left out", {"new.foreign_blocks": "drop"}, ["o 7: E6"],
     "ro 1c | >n 030301000100290200 B7 | P | left_out blocks=[19] face=old residue=true session=7"),
    ("in a row each bundle has its line of what was left out", {"new.foreign_blocks": "drop"}, ["o 7: E6 B6b"],
     "ro 33 | >n 030301000100290200 B7 | >n 030302000100290300 B7b | P1 | "
     "left_out blocks=[19] face=old index=1 residue=true session=7 | P2"),
    ("a block of version 7 stays where blocks of version 6 are left out", {"new.foreign_blocks": "drop"}, ["o 7: Q6"],
     "ro 26 | >n 030301000100330200 Q7 | P"),
    ("an age is raised by what a bundle waited", {"old.aggregate": 1000, "new.aggregate": 1000},
     ["n 7: G7", "wait 1000", "tick", "o 7: A6", "wait 2000", "tick"],
     "rn 32 | passed face=new pieces=1 session=7 | >o 030201000100250200 A6 | "
     "began bundles=1 face=old octets=37 session=1 | ro 25 | passed face=old pieces=1 session=7 | "
     ">n 030301000100320200 A7 | began bundles=1 face=new octets=50 session=1"),
    ("an age stays as it came", {"old.aggregate": 1000, "gateway.age": "keep"}, ["n 7: G7", "wait 1000", "tick"],
     "rn 32 | passed face=new pieces=1 session=7 | >o 030201000100250200 A5 | "
     "began bundles=1 face=old octets=37 session=1"),
    ("an age is raised up to the next contact", {"old.contact": contact_at(30_000)}, ["n 7: G7"],
     "rn 32 | >o 030201000100250200 A35 | N"),
    ("an age is as long as it may become: 43 octets are there", {"old.aggregate": 43}, ["n 7: G7"],
     "rn 32 | >o 030201000100250200 A5 | began bundles=1 face=old octets=37 session=1 | "
     "passed face=new pieces=1 session=7"),
    ("an age is as long as it may become: 44 octets aren't there", {"old.aggregate": 44}, ["n 7: G7"],
     "rn 32 | passed face=new pieces=1 session=7"),
    ("a report is told before the next bundle of its block", {}, ["o 7: D B6"],
     "ro 2f | >o 030201000100270200 S6 | >n 030301000100290200 B7 | expired face=old index=1 session=7 | "
     "reported face=old index=1 report=1 session=7 | passed face=old first=1 index=2 pieces=1 session=7"),
    ("a report waits as a bundle does", {"old.aggregate": 60}, ["o 7: D", "wait 1000", "tick"],
     "ro 18 | expired face=old session=7 | reported face=old session=7 | >o 030201000100270200 S6 | "
     "began bundles=1 face=old octets=39 session=1"),
    ("an unfinished session ends", {"old.remember_ms": 1000},
     ["o 000107000100026162", "wait 1000", "o 0301070001020204006364"],
     "evicted face=old session=7 | closed face=old session=7"),
    ("a session that is touched doesn't end", {"old.remember_ms": 1000},
     ["o 0001070001000161", "wait 999", "o 0001070001010162", "wait 999", "tick", "wait 1", "tick"],
     "evicted face=old session=7"),
    ("green data of a session that is over is told, and doesn't keep its number", {"old.remember_ms": 1000},
     ["o 7: 616263", "o 0901070008", "wait 1000", "tick", "wait 999", "o 0701070001000161", "wait 1", "o 7: 616263"],
     "ro 03 | bad_bundle cause=Version face=old place=0 session=7 | "
     "green face=old last=true octets=1 offset=0 session=7 | ro 03 | bad_bundle cause=Version face=old place=0 session=7"),
    ("a red piece keeps the number of a session that is over", {"old.remember_ms": 1000},
     ["o 7: 616263", "o 0901070008", "wait 1000", "tick", "wait 999", "o 7: 616263", "wait 1", "o 7: 616263"],
     "ro 03 | bad_bundle cause=Version face=old place=0 session=7 | closed face=old session=7 | closed face=old session=7"),
)


# ---- rows in words ----

def addresses():
    """Where datagrams come from."""
    peer = "192.0.2.1", 1113
    froms = [peer, ("192.0.2.1", 40001), ("192.0.2.2", 1113)]
    found = [[takes(accept, peer, come) for come in froms] for accept in ("address", "port")]
    mapped = takes("address", peer, ("::ffff:192.0.2.1", 40001)), takes("port", ("fe80::1%eth0", 5), ("fe80::1%lo", 5))
    return found + [list(mapped)], [[True, True, False], [True, False, False], [True, True]]


def engine_numbers():
    """Both faces have the engine number 7, and the old one's peer is 9."""
    played = Played({"old.engine": 7, "old.peer_engine": 9, "new.engine": 7, "new.peer_engine": 5})
    found = [text for engine in (9, 1) for text in played.arrive(OLD, block_of(7, OLD, bytes.fromhex(B6), engine))]
    return found, [">o 0809070008011700010017", f">n 030701000100290200{B7}", P.format(1, ""), "stranger face=old"]


def one_too_many():
    """65 sessions begin, where 64 and where 128 are kept."""
    found = [Played({"old.sessions": sessions}).lines(f"o {piece_of(n, 0, 1).hex()}" for n in range(1, 66))
             for sessions in (64, 128)]
    return found, [["evicted face=old session=1"], []]


def half_of_the_memory():
    """Four sessions of 3,900,000 octets, and a fifth of which 1,200,000 come."""
    played, found = Played({"old.memory": SMALL}), []
    for session, count in ((1, 65), (2, 65), (3, 65), (4, 65), (5, 20)):
        for at in range(count):
            found += played.arrive(OLD, piece_of(session, 60_000 * at, 60_000))
    return found, ["evicted face=old session=1"]


def room_of_a_closed_face():
    """The new link is closed, and there is room for one bundle of 4,000,000 octets: whether it has begun or waits."""
    found = []
    for aggregate in (0, BLOCK_MAX):
        played = Played({"new.memory": SMALL, "gateway.cut": 4_000_000, "new.contact": contact_at(1 << 30),
                         "new.aggregate": aggregate, "new.aggregate_ms": 60_000})
        found += [text for session in (7, 8) for text in played.arrive(OLD, block_of(session, OLD, with_payload(4_000_000)))
                  if text[0] != ">"]
    return found, [P.format(1, ""), "storage face=old session=8", "passed face=old pieces=1 session=7",
                   "storage face=old session=8"]


def room_of_a_row():
    """After one of 4,000,000 octets there is room for one of 2,000,000, which is the first of a block of two."""
    played = Played({"new.memory": SMALL, "gateway.cut": 4_000_000, "new.contact": contact_at(1 << 30)})
    blocks = with_payload(4_000_000), with_payload(2_000_000) + with_payload(2_000_000, 6)
    found = [text for session, block in enumerate(blocks, 7) for text in played.arrive(OLD, block_of(session, OLD, block))]
    return [text for text in found if text[0] != ">"], [
        P.format(1, ""), "passed face=old first=2 index=1 pieces=1 session=8", "storage face=old index=2 session=8"]


def put_at_new(played):
    """Whether each datagram is put that is made at the new face from here on."""
    face, puts = played.gateway.faces[NEW], []
    put = face.put
    face.put = lambda datagram: puts.append(put(datagram))
    return puts


def row_at_a_small_outbox():
    """Six bundles of 2,000,000 octets pass to a closed link whose outbox takes 65,507 octets, whether the last two come
    in one block or not."""
    found = []
    for blocks in ([[5], [6], [7], [8], [9], [10]], [[5], [6], [7], [8], [9, 10]]):
        played = Played({"new.memory": SMALL, "gateway.cut": 4_000_000, "new.contact": contact_at(1 << 30),
                         "new.outbox": 65_507})
        puts, lines = put_at_new(played), []
        for session, numbers in enumerate(blocks, 7):
            block = b"".join(with_payload(2_000_000, number) for number in numbers)
            lines += [text for text in played.arrive(OLD, block_of(session, OLD, block)) if text[0] != ">"]
        found.append([[text.split()[0] for text in lines], puts.count(True), puts.count(False),
                      played.gateway.faces[NEW].octets])
    return found, [[["passed"] * 6, 65, 11_659, 65_489]] * 2


def block_beside_resends():
    """960 sessions send again in the tick in which a block of 3,599,942 octets begins: 214 of them, and then there is
    room for all of its 440 datagrams."""
    played = Played({"new.memory": SMALL, "gateway.cut": 4_000_000, "new.sessions": 1024, "new.segment": 8192,
                     "new.aggregate": BLOCK_MAX, "new.aggregate_ms": 1})
    for session in range(7, 967):
        played.arrive(OLD, block_of(session, OLD, with_payload(8_100)))
        played.lines(["wait 1", "tick"])
    played.event("wait 20000")
    played.arrive(OLD, block_of(967, OLD, with_payload(3_599_900)))
    puts = put_at_new(played)
    began = played.lines(["wait 1", "tick"], "began")
    return [began, puts.count(True), puts.count(False), puts[-440:].count(True)], [
        ["began bundles=1 face=new octets=3599942 session=961"], 654, 746, 440]


def numbers_left():
    """One number is left: with 41 octets wanted the first bundle has it."""
    played = Played({"new.first_session": (1 << 32) - 1, "new.aggregate": 41})
    return played.lines(["o 7: B6 B6b"], "passed", "storage"), [
        "passed face=old index=1 pieces=1 session=7", "storage face=old index=2 session=7"]


def close_alone(engine, sessions, now=BEGIN):
    """So many sessions come whole and are acknowledged, none of them beside another."""
    for session in range(1, 2 * sessions, 2):
        engine.arrive(block_of(session, OLD, b"abc"), now)
        engine.arrive(written(REPORT_ACK, (1, session), 1 + session % 16_383), now)


def numbers_at_random():
    """65,536 sessions are over, none beside another, and one more comes: to an end that keeps them for good, and here."""
    engine, played = QuickEngine(2, 1), Played()
    engine.closed, engine.closed_runs = set(range(1, 131_072, 2)), 65_536
    for session in engine.closed:
        played.gateway.faces[OLD].engine.newer.add(session)
    found = [engine.arrive(block_of(131_073, OLD, b"abc"), BEGIN).notes, played.judged(131_073)]
    return found, [[["HistoryFull", 131_073]], [BAD(131_073)]]


def remembered_at(moments):
    """What a block of session 7 brings at moments; a tick comes each second."""
    played, found, at = Played(), [], 0
    for moment in moments:
        while at + 1000 <= moment:
            played.lines(["wait 1000", "tick"])
            at += 1000
        played.lines([f"wait {moment - at}"])
        at = moment
        found += [text.split()[0] for text in played.lines(["o 7: C", "o 0901070008"], "passed", "closed")]
    return found


def remembered_for_a_time():
    """A number is kept for an hour after its last touch, and until the second turn at most."""
    found = remembered_at([0, 7_199_999, 7_200_000, 14_400_000]), remembered_at([0, 7_200_000])
    return found, (["passed", "closed", "closed", "passed"], ["passed", "passed"])


def forgotten_early():
    """4,096 runs may be remembered: 2,048 newer and 2,048 older ones."""
    played = Played({"old.remember": 4096})
    close_alone(played.gateway.faces[OLD].engine, 4096)
    return [played.judged(session) for session in (8193, 8193, 3, 4097)], [
        ["forgotten face=old runs=2048", BAD(8193)], ["closed face=old session=8193"], [BAD(3)],
        ["closed face=old session=4097"]]


def touched_without_place():
    """2,048 newer runs and 2,048 older ones: a touch of an older number makes place, and the newer ones stay."""
    played = Played({"old.remember": 4096})
    close_alone(played.gateway.faces[OLD].engine, 4096)
    return [played.judged(session) for session in (1, 4097, 3)], [
        ["forgotten face=old runs=2048", "closed face=old session=1"], ["closed face=old session=4097"], [BAD(3)]]


def used_on_without_answer():
    """A session that ended for want of an answer, of which pieces come after it was forgotten, is a new one."""
    played, found, at = Played({"old.limit": 1}), [], 0
    for moment in (0, 10_000, 7_210_000):
        while at < moment:
            played.lines(["wait 10000", "tick"])
            at += 10_000
        found += [text.split()[0] for text in played.lines(["o 7: C"], "passed", "closed")]
    return found, ["passed", "closed", "passed"]


def refusals():
    """Types on the wire that can't be."""
    found = []
    for residue, wrap in ((193, 194), (200, 192), (200, 256), (200, 200), (200, 201)):
        found.append(refusal({"gateway": {}, "old": {}, "new": {"residue_block": residue, "wrap_block": wrap}}))
    found += [refusal({"gateway": {"age": "rise"}, "old": {}, "new": {}}),
              refusal({"gateway": {}, "old": {"memory": 1}, "new": {}})]
    return found, ["new.residue_block: another number than 193 is wanted",
                   "new.wrap_block: another number than 192 and residue_block is wanted",
                   "new.wrap_block: a whole number from 192 to 255 is wanted",
                   "new.wrap_block: another number than 192 and residue_block is wanted", None,
                   'gateway.age: "raise" or "keep" is wanted',
                   "old.memory: a whole number from 33554432 to 1099511627776 is wanted"]


def several_reports():
    """Two reports to one checkpoint, of parts of a block: the first has all resent that isn't claimed."""
    played = Played({"new.segment": 512})
    # in version 7 this bundle has 1,436 octets
    begun = [text[3:] for text in played.arrive(OLD, block_of(7, OLD, with_payload(1396))) if text.startswith(">n")]
    block = b"".join(bytes.fromhex(text)[-size:] for text, size in zip(begun, (512, 512, 412)))
    found = played.arrive(NEW, written(REPORT, (3, 1), 9, 2, 512, 0, 1, 0, 512))
    found += played.arrive(NEW, written(REPORT, (3, 1), 10, 2, 1436, 512, 1, 512, 412))
    again = [written(RED, (3, 1), 1, 512, 512, body=block[512:1024]),
             written(RED_END_BLOCK, (3, 1), 1, 1024, 412, 3, 9, body=block[1024:])]
    acks = [written(REPORT_ACK, (3, 1), serial) for serial in (9, 10)]
    return found, [f">n {each.hex()}" for each in (acks[0], *again, acks[1])]


def refused_pieces():
    """A client service that isn't there, and an octet past the longest block."""
    played = Played()
    found = played.arrive(OLD, block_of(7, OLD, b"abc", service=2)) + played.arrive(OLD, piece_of(8, BLOCK_MAX, 1))
    return found, [">o 0e01070001", "refused face=old service=2 session=7", "bad_bounds face=old session=8"]


def recorded():
    """The records of two bundles that go in one block."""
    played = Played({"new.aggregate": 60}, has_journal=True)
    played.lines(["o 7: B6", "wait 5", "o 8: B6b", "n 0803010002025200010052"])
    return played.records, [["begun", 1, NEW, bytes.fromhex(B7)], ["begun", 2, NEW, octets_of(["B7b"])],
                            ["done", 1, "sent"], ["done", 2, "sent"]]


def recorded_with_an_age():
    """A piece whose age is raised is recorded with the moment at which it came; a report isn't recorded."""
    played = Played({"old.aggregate": 1000}, has_journal=True)
    played.lines(["n 7: G7", "o 7: D"])
    return played.records, [["begun", 1, OLD, BEGIN, octets_of(["A5"])]]


def kept_pieces():
    """What an earlier run kept: its age is raised from when it came, or where no record says that, from now on."""
    kept = octets_of(["A6"])
    played = Played({"old.aggregate": 70, "old.aggregate_ms": 1000},
                    pending=[(4, OLD, kept, BEGIN - 5000), (5, NEW, octets_of(["B7"]), None), (6, OLD, kept, None),
                             (9, OLD, kept, BEGIN + 5000)], has_journal=True)
    found = played.lines(["resume", "wait 1000", "tick", "o 7: B6"])
    later = [f">n 030302000100290300{B7}", P.format(2, "")]
    return found + played.records, [
        f">o 0302010001004a0200{NAMED['A11']}{NAMED['A6']}", f">n 030301000100290200{B7}",
        "resumed face=old", "began bundles=2 face=old octets=74 session=1", "resumed face=old", "resumed face=old",
        "resumed face=new session=1", f">o 030202000100250300{NAMED['A6']}", "began bundles=1 face=old octets=37 session=2",
        ">o 0801070008011700010017", *later, ["begun", 10, NEW, bytes.fromhex(B7)]]


def kept_without_room():
    """A kept piece for which there is no room is left where it is."""
    kept = octets_of(["B7"])
    played = Played({"new.first_session": (1 << 32) - 1}, pending=[(1, NEW, kept, None), (2, NEW, kept, None)])
    found = played.lines(["resume", "resume"])
    return (found, played.gateway.pending), ([f">n 03038fffffff7f000100291000{B7}",
                                              "resumed face=new session=4294967295"], [(2, NEW, kept, None)])


def marked():
    """A session that an earlier run claimed in part is closed for the whole run, and its peer is told."""
    played = Played({"old.remember_ms": 1000}, marks=[(OLD, 7)])
    found = played.first + played.lines(["o 7: B6"] + ["wait 1000", "tick"] * 9 + ["o 7: B6"])
    return found, [">o 0e01070004", "closed face=old session=7", "closed face=old session=7"]


def told_in_order():
    """One arrival closes a session for the time, forgets early, and closes one for want of memory, and says so in order."""
    played = Played({"old.remember": 4096, "old.memory": SMALL, "old.remember_ms": 1000})
    played.arrive(OLD, piece_of(8999, 0, 1))
    played.lines(["wait 500"])
    close_alone(played.gateway.faces[OLD].engine, 4090, BEGIN + 500)
    for session in (9001, 9003, 9005, 9007):
        for at in range(4):
            played.arrive(OLD, piece_of(session, 1_035_000 * at, 1_035_000))
    played.lines(["wait 500"])
    found = played.arrive(OLD, piece_of(9009, 0, 300_000))
    return found, ["evicted face=old session=8999", "forgotten face=old runs=2047", "evicted face=old session=9001"]


CHECKS = (addresses, engine_numbers, one_too_many, half_of_the_memory, room_of_a_closed_face, room_of_a_row,
          row_at_a_small_outbox, block_beside_resends, numbers_left, numbers_at_random, remembered_for_a_time,
          forgotten_early, touched_without_place, used_on_without_answer, refusals, several_reports, refused_pieces,
          recorded, recorded_with_an_age, kept_pieces, kept_without_room, marked, told_in_order)


def rows():
    """Each row's name, what came of it, and what was wanted."""
    for name, keys, events, wanted in ROWS:
        yield name, Played(keys).lines(events), [wanted_of(text) for text in wanted.split(" | ")]
    for check in CHECKS:
        yield check.__doc__, *check()


def run():
    passed = failed = 0
    for name, found, wanted in rows():
        is_right = found == wanted
        passed, failed = passed + is_right, failed + (not is_right)
        if not is_right:
            print(f"{name}\n  found  {str(found)[:2000]}\n  wanted {str(wanted)[:2000]}")
    print(f"{passed} passed, {failed} failed")
    return int(failed > 0)
