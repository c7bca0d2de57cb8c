"""The runs of the models as traces. A byte of a model is a word of four bytes."""
import pathlib

from trial.clients import CACHES, DEVICES
from trial.messages import BRANCH, NONE, TRUNK

OPCODES = {"Put": 1, "Atomic": 3, "Get": 4, "AccessAck": 0, "AccessAckData": 1, "Grant": 4, "GrantData": 5, "ReleaseAck": 6, "Probe": 6}
CAPS = {TRUNK: 0, BRANCH: 1, NONE: 2}
GROWS = {(NONE, BRANCH): 0, (NONE, TRUNK): 1, (BRANCH, TRUNK): 2}
REPORTS = {(TRUNK, BRANCH): 0, (TRUNK, NONE): 1, (BRANCH, NONE): 2, (TRUNK, TRUNK): 3, (BRANCH, BRANCH): 4, (NONE, NONE): 5}
HEADER = "tltrace 4 4 early,reports" + " C" * CACHES + " UH" * DEVICES


def line_of(beat):
    """The line of a beat."""
    message = beat.message
    return f"{message.link:02x} {message.channel} {LINES[message.channel](beat)}"


def address_of(message):
    return f"{64 * message.block + 4 * message.at:08x}"


def size_of(access):
    return 1 + access.size.bit_length()


def data_of(beat):
    return f"{beat.value or 0:02x}" * 4 if beat.message.data else "-"


def request_line(beat):
    message = beat.message
    if message.opcode == "Acquire":
        opcode, param = 7 if message.unread else 6, GROWS[message.was, message.want]
        return f"{opcode} {param} 6 {message.source:02x} {address_of(message)} f - 0"
    mask = "0" if message.opcode == "Put" and beat.value is None else "f"
    return f"{OPCODES[message.opcode]} 0 {size_of(message)} {message.source:02x} {address_of(message)} {mask} {data_of(beat)} 0"


def probe_line(beat):
    message = beat.message
    return f"{7 if getattr(message, 'perm_only', False) else 6} {CAPS[message.param]} 6 00 {address_of(message)} f - 0"


def report_line(beat):
    message = beat.message
    opcode = (4 if message.opcode == "ProbeAck" else 6) + (1 if message.data else 0)
    source = message.source if message.opcode == "Release" else 0
    return f"{opcode} {REPORTS[message.was, message.param]} 6 {source:02x} {address_of(message)} {data_of(beat)} 0"


def response_line(beat):
    message = beat.message
    param, sink = (CAPS[message.param], message.sink % 256) if message.opcode in ("Grant", "GrantData") else (0, 0)
    size = size_of(message.request) if message.opcode.startswith("Access") else 6
    return f"{OPCODES[message.opcode]} {param} {size} {message.source:02x} {sink:02x} 0 {data_of(beat)} 0"


def acknowledgement_line(beat):
    return f"{beat.message.sink % 256:02x}"


# The fields of a line behind its channel.
LINES = {"A": request_line, "B": probe_line, "C": report_line, "D": response_line, "E": acknowledgement_line}


def write(folder, name, header, lines, verdict):
    """Writes a trace, and beside it the verdict on its last line or on all of them."""
    said = f"coherent {len(lines)}" if verdict == "coherent" else f"line {len(lines) + 1} {verdict}"
    (folder / f"{name}.trace").write_text("\n".join([header] + lines) + "\n")
    (folder / f"{name}.verdict").write_text(said + "\n")


def folder_of(name):
    """The folder for traces."""
    folder = pathlib.Path(name)
    folder.mkdir(parents=True, exist_ok=True)
    return folder
