"""What can go wrong, and the exit status that says so. The statuses are the engine's."""

OK, REFUSED, BAD_INPUT, FAULT, USAGE, STOPPED = 0, 1, 2, 3, 64, 130


class DeskError(Exception):
    """Something that the user has to know. The message is for reading, the hint says what to do."""

    status = BAD_INPUT

    def __init__(self, message: str, hint: str = "") -> None:
        super().__init__(message)
        self.message, self.hint = message, hint


class BadInput(DeskError):
    """A plan or a journal was refused."""


class BadDigits(BadInput):
    """One was refused for digits in it. The hint says where they are wrong."""


class Refusal(DeskError):
    """A command was refused, and nothing was kept."""

    status = REFUSED


class Fault(DeskError):
    """A run, a read or a write didn't come to its end. Nothing was changed."""

    status = FAULT


class Usage(DeskError):
    status = USAGE
