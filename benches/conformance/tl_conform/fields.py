"""The fields of a link by channel, with their bits: a number, or the name of an entry of the map."""

FIELDS = {
    "a": {"valid": 1, "ready": 1, "opcode": 3, "param": 3, "size": 4, "source": "source_bits", "address": 32, "mask": "width",
          "data": "data_bits", "corrupt": 1},
    "b": {"valid": 1, "ready": 1, "opcode": 3, "param": 3, "size": 4, "source": "source_bits", "address": 32, "mask": "width",
          "data": "data_bits", "corrupt": 1},
    "c": {"valid": 1, "ready": 1, "opcode": 3, "param": 3, "size": 4, "source": "source_bits", "address": 32, "data": "data_bits",
          "corrupt": 1},
    "d": {"valid": 1, "ready": 1, "opcode": 3, "param": 2, "size": 4, "source": "source_bits", "sink": 8, "denied": 1,
          "data": "data_bits", "corrupt": 1},
    "e": {"valid": 1, "ready": 1, "sink": 8},
}
BY_CLIENT = "ace"  # the channels that the client sends; `ready` goes the other way
OF_CACHES = "bce"  # the channels that a link of level UL or UH lacks
LEVELS = ["UL", "UH", "C"]
LIBERTIES = ["ids", "sinks", "writer", "early", "drops", "reports", "denied", "uncorrupt"]
# What a manager may take on channel A, in the order of the opcodes.
REQUESTS = ["PutFullData", "PutPartialData", "ArithmeticData", "LogicalData", "Get", "Intent", "AcquireBlock", "AcquirePerm"]
OF_LEVEL = {"UL": {"PutFullData", "PutPartialData", "Get"}, "UH": set(REQUESTS[:6]), "C": set(REQUESTS)}


def every_field():
    return [(channel, field) for channel, fields in FIELDS.items() for field in fields]


def sent_by_client(channel, field):
    return (channel in BY_CLIENT) == (field != "ready")
