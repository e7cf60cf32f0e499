"""What ends a tap, or keeps it from being begun."""

from __future__ import annotations


class TapError(Exception):
    """`code` names what is wrong, by docs/FORMAT.md where the auditor would refuse the line."""

    code = "Tap"

    def __init__(self, message: str, *, code: str | None = None) -> None:
        super().__init__(message)
        if code is not None:
            self.code = code


class FieldError(TapError):
    """A field is missing, or of another type or form."""

    code = "Field"


class LimitError(TapError):
    """A length, a number or a count is outside its limits."""

    code = "Limit"


class UnknownKindError(TapError):
    """The record's kind is none of this tap at its version."""

    code = "UnknownKind"


class LineTooLongError(TapError):
    """The line would have more bytes than a line may have."""

    code = "LineTooLong"


class NotJsonError(TapError):
    """A text has half a surrogate pair, or a line is not JSON."""

    code = "NotJson"


class OffsetTwiceError(TapError):
    """The entry before has the same offset."""

    code = "OffsetTwice"


class TapNameError(TapError):
    """A tap's name is 1 to 32 bytes of A-Za-z0-9_.-"""

    code = "Name"


class HeaderError(TapError):
    """A tap's first line is no header, or a later one is, or the file is another tap's."""

    code = "Header"


class ExistsError(TapError):
    """The tap's file is there: a tap's name is used once."""

    code = "Exists"


class WriteError(TapError):
    """The system did not take a line."""

    code = "Write"


class EndedError(TapError):
    """The tap has ended before."""

    code = "Ended"


class MomentError(TapError):
    """A node's moments came in an order in which they can't have happened."""

    code = "Moment"


class LateError(TapError):
    """The client connects already."""

    code = "Late"


class KeyFileError(TapError):
    """The key of a redaction is too short, or can't be read."""

    code = "Key"


class TrimmedError(TapError):
    """Entries were trimmed from the stream before they were read."""

    code = "Trimmed"
