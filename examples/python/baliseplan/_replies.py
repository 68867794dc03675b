"""The replies of the editor."""

from __future__ import annotations

from dataclasses import dataclass, field


@dataclass(frozen=True)
class Reply:
    """The reply to one command, with the review lines of a turn."""

    text: str
    reviews: list[str] = field(default_factory=list)

    @property
    def refused(self) -> bool:
        return self.text.startswith("refused ")

    @property
    def number(self) -> int:
        """The serial of the edit that was done, undone, redone or struck; or the number of the refusal."""
        return int(self.text.split()[1])

    @property
    def name(self) -> str | None:
        """The name of the refusal, if there is one."""
        return self.text.split()[2] if self.refused else None


def replies_of(text: str) -> list[Reply]:
    replies: list[Reply] = []
    for line in text.splitlines():
        if line.startswith("review "):
            replies[-1].reviews.append(line)
        else:
            replies.append(Reply(line))
    return replies
