"""What is raised where there is no result."""

from __future__ import annotations

from ._replies import Reply, replies_of
from ._texts import BYTES

FAULTS = {29: "InputTooLong", 30: "OutOfMemory", 31: "ReadFault", 32: "WriteFault"}


class Error(Exception):
    """There is no result. It has the number and the name of the reason."""

    number: int
    name: str


class BadInput(Error):
    """The plan or the journal was refused. `line` counts the lines of the input from 1: first the plan's."""

    def __init__(self, line: int, number: int, name: str) -> None:
        super().__init__(line, number, name)  # what pickle makes a copy of
        self.line, self.number, self.name = line, number, name

    def __str__(self) -> str:
        return f"line {self.line}: {self.number} {self.name}"


class Fault(Error):
    """The run didn't come to its end. `output` is what it printed until then."""

    def __init__(self, number: int, output: bytes = b"") -> None:
        super().__init__(number, output)
        self.number, self.name, self.output = number, FAULTS[number], output

    def __str__(self) -> str:
        return f"fault {self.number} {self.name}"

    @property
    def replies(self) -> list[Reply]:
        """The replies to the commands that were answered, where the editor ran."""
        whole = self.output[: self.output.rfind(b"\n") + 1]
        return replies_of((b"\n" + whole).partition(b"\nplan 1\n")[0][1:].decode(BYTES))


BAD_INPUT = 2


def unless_bad(answer: int, output: bytes) -> str:
    """What a run printed, where plan and journal weren't refused."""
    text = output.decode(BYTES)
    if answer == BAD_INPUT:
        _, line, number, name = text.split()
        raise BadInput(int(line), int(number), name)
    return text


def unless_fault(answer: int, output: bytes) -> tuple[int, bytes]:
    """What a call answered and printed, where that is no fault."""
    if answer in FAULTS:
        raise Fault(answer, output)
    return answer, output
