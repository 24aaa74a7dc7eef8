"""Trials of workers and their pool, over a program that does what its lines say."""

import asyncio
import logging
import sys
import tempfile

from serve_parts.pool import Counts, Limits, Pool
from serve_parts.problems import NoStart, Problem
from serve_parts.workers import Call

from .bench import demand

LONGEST = 300  # seconds that a trial may take

# Answers each line by its name. `once-die` and `once-hang` do so the first time that they are asked, over all programs of a folder.
PROGRAM = """\
import os, sys, time
for line in sys.stdin:
    word = line.strip()
    if word.startswith("once-"):
        try:
            os.mkdir(sys.argv[1] + "/" + word)
            word = word[5:]
        except FileExistsError:
            pass
    if word == "die":
        sys.exit("this is the end")
    if word == "hang":
        time.sleep(60)
    body = "x" * int(word[4:]) if word.startswith("long") else "refused command"
    print("query " + ("another" if word == "other" else line.strip()), body, "end", sep="\\n", flush=True)
"""


class Trial:
    """A pool over the program."""

    def __init__(self, folder: str, size: int, **limits: float) -> None:
        words = (sys.executable, "-c", PROGRAM, folder)
        self.counts = Counts()
        self.pool = Pool(Call(words, ()), size, Limits(**{"seconds": 2.0, "waiting": 5, "reply": 10_000, **limits}), self.counts)

    async def __aenter__(self) -> "Trial":
        await self.pool.open()
        return self

    async def __aexit__(self, *_: object) -> None:
        await self.pool.close()

    async def ask(self, word: str) -> int:
        """The status of what is said: 200 for the right reply."""
        due = b"query %b\n" % word.encode()
        try:
            reply = await self.pool.ask(word.encode(), lambda reply: reply.startswith(due))
        except Problem as problem:
            return problem.status
        demand(reply.startswith(due) and reply.endswith(b"\nend\n"), f"{word}: {reply[:60]!r}")
        return 200


async def try_faults(folder: str) -> None:
    """What a worker does once is made good; what it does again is told."""
    async with Trial(folder, 2) as trial:
        for word, status in (("a", 200), ("once-die", 200), ("once-hang", 200), ("die", 502), ("other", 502), ("hang", 504),
                             ("long9000", 200), ("long20000", 507), ("b", 200)):
            demand((found := await trial.ask(word)) == status, f"{word}: {found}, and not {status}")
        counts = trial.counts
        demand((counts.lost, counts.hung, counts.repeated) == (1 + 2 + 2, 1 + 2, 2 + 3), f"{counts}")
    async with Trial(folder, 2, seconds=20.0) as trial:
        pids = trial.pool.pids
        demand(await trial.ask("long99999") == 507 and sorted(trial.pool.pids) == sorted(pids), "a long reply ends no worker")


async def try_waiting(folder: str) -> None:
    """No more requests wait than may, and each gets its own reply."""
    async with Trial(folder, 1, seconds=20.0) as trial:
        demand(await asyncio.gather(*(trial.ask(f"w{number}") for number in range(6))) == [200] * 6, "one is answered, and five wait")
        statuses = await asyncio.gather(*(trial.ask(f"w{number}") for number in range(40)))
        demand(statuses.count(503) == 34 and statuses.count(200) == 6, f"{statuses}")
    async with Trial(folder, 1, waiting=0, seconds=20.0) as trial:
        demand(await trial.ask("alone") == 200, "a request that needs not wait")


async def try_ends(folder: str) -> None:
    """A pool ends at once, whatever its workers do: also while they begin, and while one is replaced."""
    for pause in (0.0, 0.02, 0.1, 0.3):
        async with Trial(folder, 2) as trial:
            asks = [asyncio.create_task(trial.ask(word)) for word in ("die", "hang")]
            await asyncio.sleep(pause)
            for task in asks:
                task.cancel()
        await asyncio.wait(asks)
        opening = asyncio.create_task(Trial(folder, 2).pool.open())
        await asyncio.sleep(pause)
        opening.cancel()
        await asyncio.wait({opening})


async def try_starts(folder: str) -> None:
    """A program that isn't there, ends at once, or says something else begins no pool."""
    for words, says in ((("/nowhere",), "No such file"), ((sys.executable, "-c", "raise SystemExit('no region')"), "no region"),
                        ((sys.executable, "-c", "print('x', 'end', sep='\\n', flush=True); input(); input()"), "doesn't reply as")):
        pool = Pool(Call(words, ()), 1, Limits(), Counts())
        try:
            await pool.open()
            demand(False, f"a pool began over {words}")
        except NoStart as error:
            demand(says in str(error), f"{words}: {error}")


def run() -> str:
    logging.getLogger("serve").setLevel(logging.CRITICAL)
    for trial in (try_faults, try_waiting, try_ends, try_starts):
        with tempfile.TemporaryDirectory() as folder:
            asyncio.run(asyncio.wait_for(trial(folder), LONGEST))
    return "pools: workers that die, hang, or say another's reply are made good once"
