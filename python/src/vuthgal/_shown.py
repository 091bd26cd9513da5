"""What a notebook shows."""
import os
from typing import Dict, NamedTuple, Optional, Union

#: The inputs that can be refused, by their numbers in the library.
INPUTS = ("program", "plan", "schedule")


class Schedule(str):
    """The schedule of a plan."""

    #: whether the plan wanted one more choice than it might make
    stopped: bool = False

    @property
    def choices(self) -> int:
        """How many choices it has."""
        return sum(int(token.partition("*")[2] or 1) for token in self.split())


class Outcome(NamedTuple):
    """A state that runs by seeds ended in."""

    #: how many runs did
    times: int
    #: `all`, `stuck` or `live`, with `+died` where a thread died
    word: str
    #: the seed of the first such run, as the word of a plan: `?7`
    seed: str
    #: its schedule, or a plan with names
    schedule: str

    @staticmethod
    def parse(line: str) -> "Outcome":
        times, word, seed, schedule = (line + " ").split(" ", 3)
        return Outcome(int(times), word, seed, schedule.rstrip(" "))


class Mistake(NamedTuple):
    """Where an input is refused, and what helps."""

    #: the line of the refusal, as the program writes it
    told: str
    #: which input it is in: program, plan or schedule
    input: str
    #: the line of that input, from 1; None where no line is to blame
    line: Optional[int]
    #: the first byte of the wrong word, from 1; None where the whole line is meant
    column: Optional[int]
    #: how many bytes the word has
    length: int
    #: `near: ..` or `help: ..`; empty where nothing is known to help
    hint: str


class Page:
    """A page that shows a run. A notebook shows it in a frame of its own."""

    def __init__(self, text: str, height: int) -> None:
        #: the page
        self.html: str = text
        #: how many pixels high the frame is
        self.height: int = height

    def save(self, path: Union[str, "os.PathLike[str]"]) -> None:
        """Writes the page to a file, for a browser."""
        with open(path, "w", encoding="utf-8", newline="") as file:
            file.write(self.html)

    def _repr_html_(self) -> str:
        import html

        return (
            f'<iframe srcdoc="{html.escape(self.html, quote=True)}" sandbox="allow-scripts allow-modals allow-downloads" '
            f'style="width: 100%; height: {self.height}px; border: 0"></iframe>'
        )

    def __repr__(self) -> str:
        return f"<{type(self).__name__} of {len(self.html)} characters>"


class Drawing(str):
    """A run drawn as text. A notebook shows it as it stands."""

    def _repr_mimebundle_(self, include: object = None, exclude: object = None) -> Dict[str, str]:
        return {"text/plain": str(self)}
