"""What a configuration of the gateway for operators means, as `gate check` shows it: a model from the
rules of docs/gate.md, over the reader of TOML that comes with Python (3.11 or later).

It takes files that mean something, and whose texts are plain.
"""
from datetime import timezone

try:
    import tomllib
except ImportError:
    tomllib = None

TIMERS = {"segment": 1024, "timeout_ms": 10_000, "limit": 10}
LEAST_CAP = 160_000
OUTBOX = 536_870_912
BOUNDS = {"sessions": 64, "memory": 268_435_456, "aggregate": 0, "aggregate_ms": 1_000, "remember": 1_048_576,
          "remember_ms": 3_600_000}
BLOCKS = {"residue_block": 192, "wrap_block": 193}
NUMBERS = {"old": (2, 1), "new": (3, 4)}


def text_of(text):
    """A plain text as a TOML basic string."""
    return f'"{text}"'


def moment_of(moment):
    """A moment in UTC, with its milliseconds."""
    moment = moment.astimezone(timezone.utc)
    return f"{moment:%Y-%m-%dT%H:%M:%S}.{moment.microsecond // 1000:03}Z"


def gateway_lines(table):
    yield f"endpoint = {text_of(table['endpoint'])}"
    yield f"cut = {table.get('cut', 65_536)}"
    yield f"age = {text_of(table.get('age', 'raise'))}"
    for key in ("journal", "metrics"):
        if key in table:
            yield f"{key} = {text_of(table[key])}"


def face_lines(face, table):
    own, peer = NUMBERS[face]
    for key in ("bind", "peer"):
        yield f"{key} = {text_of(table[key])}"
    yield f"engine = {table.get('engine', own)}"
    yield f"peer_engine = {table.get('peer_engine', peer)}"
    for key, default in TIMERS.items():
        yield f"{key} = {table.get(key, default)}"
    timeout = table.get("timeout_ms", TIMERS["timeout_ms"])
    yield f"cap_ms = {table.get('cap_ms', max(LEAST_CAP, timeout))}"
    for key in ("first_session", "rate"):
        if key in table:
            yield f"{key} = {table[key]}"
    yield f"outbox = {table.get('outbox', OUTBOX)}"
    yield f"accept = {text_of(table.get('accept', 'address'))}"
    for key, default in (BOUNDS | BLOCKS if face == "new" else BOUNDS).items():
        yield f"{key} = {table.get(key, default)}"
    if face == "new":
        yield f"foreign_blocks = {text_of(table.get('foreign_blocks', 'wrap'))}"
    for contact in table.get("contact", []):
        yield ""
        yield f"[[{face}.contact]]"
        yield f"from = {moment_of(contact['from'])}"
        yield f"to = {moment_of(contact['to'])}"
        if "rate" in contact:
            yield f"rate = {contact['rate']}"


def shown(text):
    """What a file means, as a file that says all of it."""
    file = tomllib.loads(text)
    lines = ["[gateway]", *gateway_lines(file["gateway"])]
    for face in ("old", "new"):
        lines += ["", f"[{face}]", *face_lines(face, file[face])]
    return "".join(f"{line}\n" for line in lines)
