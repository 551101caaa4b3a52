"""What a run leaves out or changes, with the place in the sources."""

from dataclasses import dataclass, field

LEFT_OUT, CHANGED, NOTE = "left out", "changed", "note"


class SourceError(Exception):
    """A source that can't be read on: its place and why."""

    def __init__(self, place, why):
        super().__init__(why)
        self.place, self.why = place, why


@dataclass(frozen=True)
class Note:
    kind: str
    place: str
    text: str

    def __str__(self):
        return f"{self.place}: {self.kind}: {self.text}"


@dataclass
class Notes:
    """The list of a run; the same line is kept once."""

    lines: list = field(default_factory=list)
    said: set = field(default_factory=set)

    def once(self, token, text):
        """A note that isn't said again at other places of its file."""
        if (token.file, text) not in self.said:
            self.said.add((token.file, text))
            self.note(token, text)

    def add(self, kind, token, text):
        note = Note(kind, token.place if token else "-", text)
        if note not in self.lines:
            self.lines.append(note)

    def left_out(self, token, text):
        self.add(LEFT_OUT, token, text)

    def changed(self, token, text):
        self.add(CHANGED, token, text)

    def note(self, token, text):
        self.add(NOTE, token, text)

    def counts(self):
        """Whether anything that counts was left out."""
        return any(note.kind == LEFT_OUT for note in self.lines)
