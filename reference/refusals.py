"""The refusals and faults, by number and name."""

from enum import IntEnum

Refusal = IntEnum(
    "Refusal",
    "BadLine BadHex BadLength SpareBits NotABalise NoEnd PacketCut LayoutMismatch PacketZero"
    " GroupSize HeaderDisagrees NumberReserved GroupTwice NoSuchGroup NoSuchTelegram"
    " NoSuchPacket NoSuchVariable Steering ValueTooWide NoRoom NumberTaken SamePlace"
    " NothingToUndo NothingToRedo NoSuchEdit DependsOn JournalMismatch Worn InputTooLong"
    " OutOfMemory ReadFault WriteFault",
)


class Refused(Exception):
    """An input or a command is refused; nothing has changed."""

    def __init__(self, refusal: Refusal, dependent: int | None = None) -> None:
        after = "" if dependent is None else f" {dependent}"
        super().__init__(f"{refusal.value} {refusal.name}{after}")
        self.refusal = refusal


class Fault(Exception):
    """The run ends here, with 29, 31 or 32."""

    def __init__(self, refusal: Refusal) -> None:
        super().__init__(f"{refusal.value} {refusal.name}")


class Broken(Exception):
    """The reference contradicts itself: a rule of it is wrong."""
