"""What has a handle of the library."""

import ctypes

from ._library import field, taken
from ._structs import BeatStruct
from .values import Beat, Channel, Code


class Agent:
    """What has a handle, is used by `with`, and shows beats of its width."""

    def __init__(self, handle, free, width):
        self._handle, self._free, self._width = handle, free, width

    def _make(self, call, lists, kind, number, *flags):
        """Makes it of lists of a number for each link, of flags, and of a number of this kind."""
        codes = [bytes(field(number, "a link's number", 256) for number in numbers) for numbers in lists]
        counted = [it for them in codes for it in (them, len(them))]
        flags = [field(flag, "a flag", 256) for flag in flags]
        taken(call(self._handle, *counted, *flags, field(self._width, "width", 256), field(number, kind, 256)),
               f"levels, width or {kind}")

    def _shown(self, call, *place):
        """The beat that a call shows, or None. Its data are zeros where it carries none."""
        shown = BeatStruct()
        if taken(call(self._handle, *place, shown), "link or channel") == Code.NOTHING:
            return None
        fields = {name: getattr(shown, name) for name, _ in BeatStruct._fields_[1:]}
        return Beat(**{**fields, "channel": Channel(shown.channel), "corrupt": shown.corrupt == 1,
                       "denied": shown.denied == 1, "data": bytes(shown.lanes)[: self._width]})

    def _told(self, call, *given):
        """The number that a call tells."""
        told = ctypes.c_uint8()
        taken(call(self._handle, *given, told), "what is asked for")
        return told.value

    def close(self):
        """Frees it. What it is asked for then is a bad argument."""
        self._free(self._handle)

    def __enter__(self):
        return self

    def __exit__(self, *_):
        self.close()

    def __del__(self):
        if hasattr(self, "_handle"):
            self.close()
