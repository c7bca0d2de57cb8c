"""The values that the library takes and gives."""

import dataclasses
import enum


class Code(enum.IntEnum):
    """What a call answers."""

    OK = 0
    BROKEN = 1
    BAD_ARGUMENT = 2
    NO_MEMORY = 3
    CLOSED = 4
    NOTHING = 5
    TOO_MANY = 6


class Level(enum.IntEnum):
    """The level of a link."""

    UL = 0
    UH = 1
    C = 2


class Liberty(enum.IntFlag):
    """What a link may do beyond profile 1 (docs/PROTOCOL.md, "Liberties"); a set of them is their union."""
    IDS = 1
    SINKS = 2
    WRITER = 4
    EARLY = 8
    DROPS = 16
    REPORTS = 32
    DENIED = 64
    UNCORRUPT = 128
    STANDARD = 127


class Channel(enum.IntEnum):
    """The channel of a beat."""

    A = 0
    B = 1
    C = 2
    D = 3
    E = 4


@dataclasses.dataclass(frozen=True)
class Beat:
    """The fields of a beat. `data` are the lanes from lane 0 on, and empty where there are none."""

    channel: Channel
    opcode: int = 0
    param: int = 0
    size: int = 0
    source: int = 0
    address: int = 0
    mask: int = 0
    sink: int = 0
    denied: bool = False
    data: bytes = b""
    corrupt: bool = False


class CommitKind(enum.IntEnum):
    """The kind of a commit."""

    STORE = 0
    LOAD = 1
    BEGIN = 2


@dataclasses.dataclass(frozen=True)
class Commit:
    """A store of a link's core to its cache's copy, a load from it, or the beginning of a load: of the `2**size` bytes from
    an address on, which `value` has, the lowest address in the lowest byte. A link that isn't wide has addresses of 32 bits."""

    kind: CommitKind
    size: int
    address: int
    value: int = 0


class Operation(enum.IntEnum):
    """The kind of an operation."""

    LOAD = 0
    STORE = 1
    ACQUIRE = 2
    ACQUIRE_WHOLE = 3
    RELEASE = 4
    ACCESS = 5


class Outcome(enum.IntEnum):
    """The kind of an answer to an operation."""

    VALUE = 0
    STORED = 1
    MISS = 2
    STARTED = 3
    BUSY = 4


class Reception(enum.IntEnum):
    """The kind of an answer to a beat."""

    STALLED = 0
    TAKEN = 1
    DONE_ACK = 2
    DONE_HINT = 3
    DONE_DATA = 4
    DONE_GRANTED = 5
    DONE_RELEASED = 6


class Perm(enum.IntEnum):
    """What is held of a block."""

    NONE = 0
    BRANCH = 1
    TRUNK = 2


@dataclasses.dataclass(frozen=True)
class Reply:
    """What a client answers to an operation: a value, a source, or by `busy` why nothing was done, 1 to 5."""

    kind: Outcome
    value: int
    source: int
    busy: int


@dataclasses.dataclass(frozen=True)
class Received:
    """What a client answers to a beat: where `code` is BROKEN the rule by which it is refused, else the rest."""

    code: Code
    rule: str
    kind: Reception
    source: int
    size: int
    perm: Perm
    data: bytes


@dataclasses.dataclass(frozen=True)
class Admitted:
    """What a manager answers to a beat: where `code` is BROKEN the rule by which it is refused, else whether it was
    taken; one that wasn't has to wait."""

    code: Code
    rule: str
    taken: bool


@dataclasses.dataclass(frozen=True)
class Verdict:
    """What a monitor or judge says of a beat or a commit: `rule` is the name of the rule that it breaks, or empty."""

    code: Code
    rule: str

    def __bool__(self):
        return self.code is Code.OK


@dataclasses.dataclass(frozen=True)
class Situation:
    """How often messages began in a situation, and in which line of a trace first: None where none did."""

    name: str
    text: str
    count: int
    line: "int | None"


@dataclasses.dataclass(frozen=True)
class Bin:
    """How often messages of a link began in a bin, and in which line of a trace first: None where none did. It isn't
    possible where they can't, by the link's level and its liberties."""

    name: str
    text: str
    count: int
    line: "int | None"
    possible: bool
