"""The messages that the models exchange. All bytes of a beat are the same, so a beat is a byte."""

NONE, BRANCH, TRUNK = 0, 1, 2


class Thunk:
    """A byte that may be to come."""

    def __init__(self, get=None, value=None):
        self.get_, self.value = get, value

    def get(self):
        if self.value is None and self.get_:
            self.value = self.get_()
        return self.value


class Message:
    """A message of one of the five channels: how many beats it has, how many of them were sent, and what is done after each. `at` and
    `size` are the first byte and the number of bytes that an access is about."""

    def __init__(self, channel, link, opcode, block=0, **fields):
        self.channel, self.link, self.opcode, self.block = channel, link, opcode, block
        self.beats, self.sent, self.after = 1, 0, lambda beat: None
        self.data, self.source, self.sink, self.ready = None, 0, 0, lambda message: True
        self.at, self.size, self.param = 0, None, None
        self.__dict__.update(fields)
        if self.data:
            self.beats = len(self.data)


class Beat:
    """The next beat of a message."""

    def __init__(self, message, value):
        self.message, self.index, self.value = message, message.sent, value
        self.first, self.last = message.sent == 0, message.sent + 1 == message.beats


def could_be(value, known):
    """Whether a byte may have a value, if it is this known one, or unknown."""
    return known is None or known == value
