"""Measures one graph: the loads, and each query by the programs that are there, in turns. All write to the null device.

Each program loads the graph once and is asked again and again. A measure is the processor time of so many requests in one go that
they stand out from the time that it takes to wake a process, through their number; a request goes before, so that its caches are
warm. The least measure counts: whatever else the machine does makes a measure greater, and never less."""
import argparse
import math
import os
import shutil
from collections.abc import Iterator, Sequence

from .engine import calls_of
from .judge import Judge
from .kept import Kept
from .queries import QUERIES, Query, busy
from .results import Answer, Load
from .session import Engine, Floor, Session, Sqlite, Stopped

ENOUGH = 0.03  # seconds that the requests of one measure take at least
MOST_COPIES = 100
LONG = 2       # seconds: the measures of one program and query take no longer, but for the first
LOADS = 10     # seconds: the loads of one program take no longer, but for the first


class Measures:
    """The measures of one program and query: how many requests go in each, and what each gave for one of them."""

    def __init__(self, session: Session, query: Query, first: float = 0) -> None:
        """`first` is what a request took that was checked: where it took long, it is the one measure. Else the first request that is
        not checked says how many make a measure."""
        self.session, self.query, self.copies = session, query, 1
        self.times: list[float] = []
        if first >= LONG:
            self.times, self.peak = [first], session.peak()
            return
        session.forget_peak()
        seconds = session.measure(query)
        self.peak = session.peak()
        self.copies = max(1, min(MOST_COPIES, math.ceil(ENOUGH / max(seconds, 1e-6))))

    def left(self) -> bool:
        """Whether there is time for one more."""
        return not self.times or (sum(self.times) + min(self.times)) * self.copies <= LONG

    def take(self) -> None:
        """One measure more."""
        if self.copies > 1:
            self.session.measure(self.query)
        self.times.append(self.session.measure(self.query, self.copies))


class Bench:
    """The programs over one graph."""

    def __init__(self, options: argparse.Namespace, kept: Kept, kind: str, count: int) -> None:
        self.options, self.kept, self.kind, self.count = options, kept, kind, count
        self.folder, self.room = kept.graph(kind, count), kept.room
        self.floor: Floor | None = None
        self.sqlite: Sqlite | None = None
        self.engine: Engine | None = None
        self.judge: Judge | None = None
        self.judged: Engine | None = None
        self.order = ["--order", options.order] if options.order else []
        self.failures: list[str] = []

    def place(self, name: str) -> str:
        """A file of this run."""
        return os.path.join(self.room, name)

    def fail(self, text: str) -> None:
        """Notes a failure, once."""
        failure = f"{self.kind}:{self.count}: {text}"
        if failure not in self.failures:
            self.failures.append(failure)

    def loads(self) -> dict[str, Load]:
        """Starts the programs, and gives the seconds of each one's load, its peak, and what it holds afterwards."""
        limit = self.options.timeout
        program, bag = self.kept.program("floor"), self.kept.program("bag")
        if program and bag:
            self.floor = Floor(program, self.kind, self.folder, limit)
            self.judge = Judge(bag, program, self.kind, self.folder)
        try:  # one has its replies checked, the other is measured
            self.judged = Engine(self.options.graphq, self.order, self.folder, limit, self.place("graphq"))
            self.engine = Engine(self.options.graphq, self.order, self.folder, limit)
        except Stopped as why:
            self.fail(f"no load: {why}: {self.first_line() or 'it wrote nothing'}")
        if shutil.which("sqlite3"):
            self.sqlite = Sqlite(self.kind, self.folder, limit)
        again: list[Session] = [one for one in (self.floor, self.engine) if one]
        seconds = {one: [one.load] for one in again}
        for _ in range(self.options.repeat - 1):
            for one in [one for one in again if sum(seconds[one]) < LOADS]:
                one.again()
                seconds[one].append(one.load)
        return {
            one.name: Load(seconds=min(seconds.get(one, [one.load])), peak_mb=one.load_peak, resident_mb=one.resident)
            for one in (self.floor, self.sqlite, self.engine) if one
        }

    def first_line(self) -> str:
        """The first line of graphq's last reply."""
        with open(self.place("graphq"), encoding="utf8", errors="replace") as file:
            return file.readline().rstrip("\n")

    def queries(self, only: set[str]) -> Iterator[Answer]:
        """What was measured of each query, one after another."""
        start = busy(self.folder) if self.kind == "social" else 1
        for query in QUERIES[self.kind](self.count, start) if self.engine else []:
            if not only or query.name in only:
                yield Turns(self, query).result()

    def close(self) -> None:
        """Ends the programs."""
        for session in (self.floor, self.sqlite, self.judged, self.engine):
            if session:
                session.close()


class Turns:
    """One query: its first answers, which are checked, and then its measures in turns."""

    def __init__(self, bench: Bench, query: Query) -> None:
        self.bench, self.query = bench, query
        self.notes: list[str] = []
        self.measures: dict[Session, Measures] = {}
        self.rows: int | None = None
        self.calls: dict[str, int] | None = None

    def result(self) -> Answer:
        """What was measured of the query."""
        wanted = self.first_floor()
        self.first_sqlite(wanted)
        self.first_graphq(wanted)
        for turn in range(self.bench.options.repeat):
            for session in [one for one, measures in self.measures.items() if len(measures.times) == turn and measures.left()]:
                self.measure(session)
        by_name = {session.name: measures for session, measures in self.measures.items()}
        times = {name: sorted(measures.times) for name, measures in by_name.items() if measures.times}
        return Answer(
            query=self.query.name, subject=self.query.subject, text=self.query.text, rows=self.rows,
            seconds={name: all_of[0] for name, all_of in times.items()},
            second={name: all_of[1] for name, all_of in times.items() if len(all_of) > 1},
            copies={name: measures.copies for name, measures in by_name.items()},
            peak_mb={name: measures.peak for name, measures in by_name.items()}, notes=self.notes, calls=self.calls,
        )

    def begin(self, session: Session, first: float = 0) -> None:
        """Begins to measure a program whose first answer, which is checked, took so long."""
        self.measures[session] = Measures(session, self.query, first)

    def first_floor(self) -> list[str] | None:
        """The bag of the floor's answer."""
        floor, judge = self.bench.floor, self.bench.judge
        if not floor or not judge:
            return None
        floor.measure(self.query, out=self.bench.place("floor"))
        wanted = judge.bag(self.query, self.bench.place("floor"))
        if wanted[0] == "BAD":
            raise SystemExit(f"bench/run: the floor's answer to {self.query.name}: {' '.join(wanted)}")
        self.rows = int(wanted[0])
        self.begin(floor)
        return wanted

    def wrong(self, name: str, wanted: Sequence[str] | None, sql: bool = False) -> str | None:
        """What is wrong with a program's first answer, where there is something to compare it with."""
        judge = self.bench.judge
        return judge.wrong(self.query, self.bench.place(name), wanted, sql) if judge and wanted else None

    def first_sqlite(self, wanted: Sequence[str] | None) -> None:
        """sqlite3's first answer, which is compared."""
        sqlite = self.bench.sqlite
        if not sqlite:
            return
        try:
            seconds = sqlite.measure(self.query, out=self.bench.place("sqlite"))
            self.begin(sqlite, seconds)
        except Stopped as why:
            self.give_up(sqlite, why)
            return
        wrong = self.wrong("sqlite", wanted, sql=True)
        if wrong:
            self.bench.fail(f"{self.query.name}: sqlite3's answer is not the floor's: {wrong}")

    def first_graphq(self, wanted: Sequence[str] | None) -> None:
        """graphq's first answer, which is compared."""
        bench = self.bench
        assert bench.judged and bench.engine
        try:
            bench.judged.measure(self.query)
        except Stopped as why:
            self.give_up(bench.judged, why)
            return
        line = bench.first_line()
        if line.startswith("error: "):
            self.notes.append(line)
            return
        wrong = self.wrong("graphq", wanted)
        if wrong:
            self.notes.append("WRONG: " + wrong)
            bench.fail(f"{self.query.name}: {wrong}")
            return
        try:
            self.begin(bench.engine)
        except Stopped as why:
            self.give_up(bench.engine, why)
        if shutil.which("strace") and bench.options.calls:
            self.calls = calls_of(bench.engine.command, self.query.text + ";", bench.folder, bench.room)

    def measure(self, session: Session) -> None:
        """One measure more."""
        try:
            self.measures[session].take()
        except Stopped as why:
            self.give_up(session, why)

    def give_up(self, session: Session, why: Stopped) -> None:
        """A query that a program does not end: it is loaded anew for the next. That graphq does not is a failure."""
        self.measures.pop(session, None)
        self.notes.append(f"{session.name}: {why}")
        if session.name == "graphq":
            self.bench.fail(f"{self.query.name}: {why}")
        session.again()
