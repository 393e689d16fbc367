"""Checks documents beside the answering of requests: a little after the last change, and again after the next."""

from __future__ import annotations

import gc
import os
import threading
import time
from typing import Callable, Iterator, NamedTuple, Optional

from ceptre_tools.program import MOST_LOG, CannotRun
from ceptre_tools.world import World

from . import findings, transcripts
from .asking import Asker, Stale
from .documents import SMALL, Document
from .findings import Findings
from .protocol import Closed

# How long after the last change of a text it is checked, in seconds.
PAUSE = 0.3

# After how many jobs cycles of objects are looked for, which takes too long to be done while somebody waits.
COLLECTED = 100


class Job(NamedTuple):
    """A text to be checked: of a transcript with the text of its world, of a world with what the program said."""

    uri: str
    version: int
    text: str
    world: str = ""
    is_log: bool = False
    refusal: Optional[str] = None


class Result(NamedTuple):
    """A part of what came of a job: findings, the world of the text, or what is said of the transcripts beside it."""

    job: Job
    findings: Optional[Findings] = None
    world: Optional[World] = None
    verdicts: Optional[dict[str, str]] = None
    failure: str = ""


class Worker(threading.Thread):
    """Does jobs one after another in its own thread. A job of a document takes the place of an earlier one."""

    def __init__(self, deliver: Callable[[Result], None]) -> None:
        super().__init__(daemon=True)
        self.deliver = deliver
        self.ready = threading.Condition()
        self.waiting: dict[str, tuple[float, Job]] = {}
        self.doing: Optional[Job] = None
        self.is_closed = False
        self.done = 0

    def ask(self, job: Job, pause: float = PAUSE) -> None:
        """Has a text checked after a pause."""
        with self.ready:
            self.waiting[job.uri] = (time.monotonic() + pause, job)
            self.ready.notify()

    def forget(self, uri: str) -> None:
        """Drops what is asked of a document."""
        with self.ready:
            self.waiting.pop(uri, None)
            if self.doing and self.doing.uri == uri:
                self.doing = None

    def close(self) -> None:
        """Ends the thread."""
        with self.ready:
            self.is_closed = True
            self.waiting.clear()
            self.ready.notify()

    def is_stale(self) -> bool:
        """Whether what is being done is not wanted any more."""
        job = self.doing
        return self.is_closed or job is None or job.uri in self.waiting

    def next_job(self) -> Optional[Job]:
        """Waits for the first job whose pause is over; None at the end."""
        with self.ready:
            while not self.is_closed:
                first = min(self.waiting.values(), default=None, key=lambda waiting: waiting[0])
                pause = first[0] - time.monotonic() if first else None
                if first and pause is not None and pause <= 0:
                    self.doing = first[1]
                    del self.waiting[first[1].uri]
                    return first[1]
                self.ready.wait(pause)
        return None

    def run(self) -> None:
        asker = Asker(self.is_stale)
        try:
            while True:
                job = self.next_job()
                if job is None:
                    return
                self.do(job, asker)
                self.done += 1
                if self.done % COLLECTED == 0:
                    gc.collect()
        except Closed:
            pass
        finally:
            asker.close()

    def do(self, job: Job, asker: Asker) -> None:
        """Does a job, and says what came of it."""
        try:
            for result in self.results(job, asker):
                self.deliver(result)
        except Stale:
            pass
        except CannotRun as error:
            self.deliver(Result(job, failure=str(error)))
        except Closed:
            raise
        except Exception as error:  # A text never ends the server: what went wrong is said.
            self.deliver(Result(job, failure=f"this text could not be checked: {type(error).__name__}: {error}"))

    def results(self, job: Job, asker: Asker) -> Iterator[Result]:
        """What comes of a job, part by part."""
        raise NotImplementedError


class Checker(Worker):
    """Asks what the program says of a text, and hands a world on to be explained."""

    def __init__(self, deliver: Callable[[Result], None], path_of: Callable[[str], str]) -> None:
        super().__init__(deliver)
        self.explainer = Explainer(deliver, path_of)

    def start(self) -> None:
        super().start()
        self.explainer.start()

    def forget(self, uri: str) -> None:
        super().forget(uri)
        self.explainer.forget(uri)

    def close(self) -> None:
        super().close()
        self.explainer.close()

    def results(self, job: Job, asker: Asker) -> Iterator[Result]:
        """The program's refusal, by its line alone, or that there is none."""
        if job.is_log:
            yield Result(job, transcripts.findings(job.world, job.text, asker))
            return
        refusal = asker.refusal_of(job.text)
        if refusal is not None or len(job.text) > SMALL:
            yield Result(job, findings.at_once(job.text, refusal))
        self.explainer.ask(job._replace(refusal=refusal), 0)


class Explainer(Worker):
    """Looks for causes, mends, hints and dead rules, and at the transcripts beside a world."""

    def __init__(self, deliver: Callable[[Result], None], path_of: Callable[[str], str]) -> None:
        super().__init__(deliver)
        self.path_of = path_of

    def results(self, job: Job, asker: Asker) -> Iterator[Result]:
        """First all that is found, of a large text after its world, and then what is said of transcripts."""
        is_large = len(job.text) > SMALL
        if is_large:
            yield Result(job, world=World(job.text).prepared())
        yield Result(job, findings.of_world(job.text, job.refusal, asker))
        yield Result(job, verdicts=self.verdicts(job, asker))

    def verdicts(self, job: Job, asker: Asker) -> dict[str, str]:
        """What the program says of the transcripts beside a world."""
        path = self.path_of(job.uri)
        found = {}
        for log in transcripts.transcripts_of(path) if path else []:
            if os.path.isfile(log) and os.path.getsize(log) <= MOST_LOG:
                found[os.path.basename(log)] = transcripts.verdict(job.text, log, asker)
        return found


def job_of(document: Document, world: str = "") -> Job:
    """The job of a document's present text."""
    return Job(document.uri, document.version, document.source, world, document.is_log)
