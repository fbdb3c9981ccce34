"""Programs that are asked the same questions over one graph: each one's first answer is compared with the C++'s, and then they are
measured in turns."""
from dataclasses import dataclass, field

from .judge import Judge
from .measure import Measures
from .queries import Query
from .session import Engine, Session, Stopped


class Program:
    """A program that takes part: what its first answers come from, which are compared, and what is measured."""

    def __init__(self, name: str, asked: Session, measured: Session, out: str) -> None:
        self.name, self.asked, self.measured, self.out = name, asked, measured, out

    @staticmethod
    def of_graphq(name: str, path: str, folder: str, limit: float, out: str) -> "Program":
        """graphq, of which there are two processes: the replies of one stand in a file."""
        return Program(name, Engine(path, [], folder, limit, out), Engine(path, [], folder, limit), out)

    def first_line(self) -> str:
        """The first line of its last reply."""
        with open(self.out, encoding="utf8", errors="replace") as file:
            return file.readline().rstrip("\n")

    def close(self) -> None:
        for session in {self.asked, self.measured}:
            session.close()


@dataclass
class Outcome:
    """What was measured of a question. Programs go by their names: the least seconds, the second least, and why there are none."""

    rows: int | None = None
    seconds: dict[str, float] = field(default_factory=dict)
    second: dict[str, float] = field(default_factory=dict)
    words: dict[str, str] = field(default_factory=dict)


class Contest:
    """The programs over one graph; the first is the C++, whose answers are what others are compared with."""

    def __init__(self, programs: list[Program], judge: Judge, repeat: int) -> None:
        self.programs, self.judge, self.repeat = programs, judge, repeat

    def ask(self, query: Query) -> Outcome:
        """Has all answer a question, and measures those that answer it as the C++ does."""
        outcome, measured = Outcome(), dict[str, Measures]()
        wanted: list[str] | None = None
        for program in self.programs:
            try:
                first = program.asked.measure(query, out=program.out)
                if program is self.programs[0]:
                    wanted = self.judge.bag(query, program.out)
                word = self.word(program, query, wanted)
                if word:
                    outcome.words[program.name] = word
                else:
                    measured[program.name] = Measures(program.measured, query, first)
            except Stopped as why:
                self.give_up(program, outcome, why)
        for _ in range(self.repeat):
            for program in [one for one in self.programs if one.name in measured and measured[one.name].left()]:
                try:
                    measured[program.name].take()
                except Stopped as why:
                    del measured[program.name]
                    self.give_up(program, outcome, why)
        times = {name: sorted(one.times) for name, one in measured.items()}
        outcome.rows = int(wanted[0]) if wanted else None
        outcome.seconds = {name: all_of[0] for name, all_of in times.items()}
        outcome.second = {name: all_of[1] for name, all_of in times.items() if len(all_of) > 1}
        return outcome

    def word(self, program: Program, query: Query, wanted: list[str] | None) -> str | None:
        """Why a program's first answer has no time: it is a refusal, or another one than the C++'s, or there is none of the C++."""
        line = program.first_line()
        if line.startswith("error: "):
            return line
        if wanted is None:
            return "not compared"
        wrong = self.judge.wrong(query, program.out, wanted)
        return f"WRONG: {wrong}" if wrong else None

    def give_up(self, program: Program, outcome: Outcome, why: Stopped) -> None:
        """A question that a program does not end: it is loaded anew for the next."""
        limit = program.asked.limit
        outcome.words[program.name] = f"not in {limit:g} s" if str(why) == "timeout" else str(why)
        for session in {program.asked, program.measured}:
            session.again()

    def close(self) -> None:
        """Ends the programs."""
        for program in self.programs:
            program.close()
