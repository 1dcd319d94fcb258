"""A source as its tokens of code, and their brackets."""
from collections.abc import Iterator

from rattle.lexer import Kind, Token, tokens
from rust.edits import Edit, Form, Refused

OPENING, CLOSING = "([{", ")]}"


class Source:
    """The code of a file, some of it perhaps erased. A place is an index into `code`."""

    def __init__(self, name: str, text: str, erased: list[Edit] | None = None) -> None:
        self.name = name
        self.text = text
        self.all = list(tokens(text))
        gone = {place for edit in erased or [] for place in range(edit.at, edit.at + len(edit.old))}
        self.code = [token for token in self.all if token.is_code and token.at not in gone]
        self.end_of = self._pairs()

    def _pairs(self) -> dict[int, int]:
        """Return the places of closing marks by those of opening ones."""
        pairs: dict[int, int] = {}
        waiting: list[int] = []
        for place, token in enumerate(self.code):
            if token.kind is not Kind.MARK:
                continue
            if token.text in OPENING:
                waiting.append(place)
            elif token.text in CLOSING:
                if not waiting or OPENING.index(self.code[waiting[-1]].text) != CLOSING.index(token.text):
                    raise self.refused(place, "this closes nothing")
                pairs[waiting.pop()] = place
        if waiting:
            raise self.refused(waiting[-1], "nothing closes this")
        return pairs

    def refused(self, place: int, why: str) -> Refused:
        """Return the reason of a refusal, with the line of a place."""
        at = self.code[place].at if place < len(self.code) else len(self.text)
        return Refused(f"{self.name}:{self.text.count(chr(10), 0, at) + 1}: {why}")

    def at(self, place: int) -> str:
        """Return the text of the token at a place; nothing before the first and after the last."""
        return self.code[place].text if 0 <= place < len(self.code) else ""

    def is_word(self, place: int) -> bool:
        """Return whether a place has a word."""
        return 0 <= place < len(self.code) and self.code[place].kind is Kind.WORD

    def stands(self, place: int, *texts: str) -> bool:
        """Return whether these texts follow from a place on."""
        return all(self.at(place + i) == text for i, text in enumerate(texts))

    def words(self, *texts: str) -> Iterator[int]:
        """Return the places of these words."""
        return (place for place, token in enumerate(self.code) if token.kind is Kind.WORD and token.text in texts)

    def closing(self, place: int) -> int:
        """Return the place of the mark that closes the one here."""
        if place not in self.end_of:
            raise self.refused(place, f"a bracket was expected, not `{self.at(place)}`")
        return self.end_of[place]

    def edit(self, first: int, last: int, new: str, form: Form) -> Edit:
        """Return the edit that puts `new` for the tokens from `first` to `last`, both included, and keeps the lines."""
        at, end = self.code[first].at, self.code[last].end
        old = self.text[at:end]
        return Edit(at, old, new + "\n" * (old.count("\n") - new.count("\n")), form)

    def erase(self, first: int, last: int, form: Form) -> Edit:
        """Return the edit that erases the tokens from `first` to `last`, and the blanks before them on their line."""
        edit = self.edit(first, last, "", form)
        line = self.text[:edit.at].rpartition("\n")[2]
        blanks = len(line) if not line.strip(" ") else 0
        return Edit(edit.at - blanks, " " * blanks + edit.old, edit.new, form)

    def comments_before(self, place: int) -> Iterator[Token]:
        """Return the comments right before a token, the last first."""
        at = self.all.index(self.code[place])
        while at > 0 and not self.all[at - 1].is_code:
            at -= 1
            if self.all[at].kind is Kind.COMMENT:
                yield self.all[at]
