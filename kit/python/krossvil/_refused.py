"""What the library refuses, as an exception."""

from ._header import MEANINGS


class Refused(Exception):
    """The library's refusal: its number, and the place, as docs/RULES.md gives them."""

    __module__ = "krossvil"  # where it is public, for tracebacks

    def __init__(self, number: int, place: int) -> None:
        super().__init__(number, place)
        self.number = number
        self.place = place

    @property
    def meaning(self) -> str:
        """What the number means, in a few words."""
        return MEANINGS.get(self.number, "this version has no words for it")

    def __str__(self) -> str:
        return f"refused {self.number} at {self.place}: {self.meaning}"
