"""Tries edits in copies of the repository: over the proof of their crate as it stands, or from nothing where they are few."""

import collections
import concurrent.futures
import contextlib
import dataclasses
import os
import shutil
import sys
import tempfile
import threading
import time
from collections.abc import Callable

from . import batches, checks, libraries
from .crate import FOLDERS

# A crate of at most so many batches is not proved first: to check the changed functions alone is less work.
FEW = 2

# Seconds before what the system broke off is done once more.
PAUSE = 5

# What the name of a kept file ends in that holds a proved module.
MODULE = ".oantt"

printing = threading.Lock()


def tell(text):
    with printing:
        print(text, file=sys.stderr, flush=True)


@dataclasses.dataclass
class Terms:
    """How edits are tried: how many checks at a time, which edits are of the sample, how many minutes there are for the others, whether
    memory has room for a check beside others, and what is done with judgements as they come."""

    jobs: int
    sample: frozenset = frozenset()
    minutes: float | None = None
    has_room: Callable = lambda: True
    keep: Callable = lambda judgements: None


class Runner:
    """Has as many checks at a time as jobs, but begins one beside others only where there is room for it. A batch is checked in a room,
    a copy of the repository for one crate. A crate of more than a few batches is proved first as it stands in another copy, the base, and
    its batches are checked over what that kept. Of others only the functions that a batch changes are checked, and those that they call,
    over kept work of the repository where there is some. That a crate itself is proved is then not looked at: the proofs say so, without
    which nothing lands.

    `tried` has the edits of each crate that are to be tried, the most wanted first. Those of the sample are tried whatever time it takes;
    the others only until the minutes are over."""

    def __init__(self, root, tried, terms):
        self.root, self.crates, self.open, self.terms = root, list(tried), tried, terms
        self.checks = checks.Checks()
        self.judgements = {}
        self.own_cpu, self.edits_cpu, self.tried = (collections.Counter() for _ in range(3))
        self.rooms, self.lock = collections.defaultdict(list), threading.Lock()
        self.modules, self.names, self.removals = {}, {}, []

    def run(self):
        """Judges all edits that are to be tried, and yields each crate once its edits are judged or the time is over."""
        done = [it for it in self.crates if not self.open[it]]
        yield from done
        self.crates = [it for it in self.crates if it not in done]
        if not self.crates:
            return
        with tempfile.TemporaryDirectory(prefix="edits-") as self.folder:
            self.base = self.new_folder("base")
            copy_texts(self.root, self.base)
            for name in libraries.take(self.root, self.base, self.crates):
                self.build_library(name)
            with concurrent.futures.ThreadPoolExecutor(self.terms.jobs) as pool, self.timer():
                try:
                    yield from self.run_in(pool)
                except BaseException:
                    # What runs has to end before the folders go.
                    self.checks.stop()
                    raise
            for it in self.removals:
                it.join()

    @contextlib.contextmanager
    def timer(self):
        timer = threading.Timer(60 * self.terms.minutes, self.checks.end_timed) if self.terms.minutes is not None else None
        if timer:
            timer.daemon = True
            timer.start()
        try:
            yield
        finally:
            if timer:
                timer.cancel()

    def due(self, crate):
        return [it for it in self.open[crate] if it not in self.terms.sample]

    def drawn(self, crate):
        """Returns the edits of the sample. They are batches by themselves, which need no base and have all the time that they need."""
        return [it for it in self.open[crate] if it in self.terms.sample]

    def is_timed(self, batch):
        return not self.terms.sample.issuperset(batch)

    def needs_base(self, crate):
        return len(batches.batches_of(self.due(crate))) > FEW

    def run_in(self, pool):
        unproved, ready, running = collections.deque(it for it in self.crates if self.needs_base(it)), [], {}
        due = {it: batches.batches_of(self.due(it)) for it in self.crates}
        left = {it: len(due[it]) for it in self.crates}
        for crate in self.crates:
            drawn = batches.batches_of(self.drawn(crate))
            left[crate] += len(drawn)
            make_ready(ready, crate, drawn if crate in unproved else drawn + due[crate])

        def may_start():
            return len(running) < self.terms.jobs and (not running or self.terms.has_room())

        def start():
            # One crate at a time is proved as it stands: two at once would build the same library. Each process loads the libraries
            # again, so that it has one job, or those that nothing else waits for.
            if unproved and not any(batch is None for _, batch in running.values()) and may_start():
                crate = unproved.popleft()
                jobs = max(1, self.terms.jobs - len(running) - len(ready))
                running[pool.submit(twice, self.prove, crate, jobs)] = crate, None
            while ready and may_start():
                crate, batch = ready.pop(0)
                running[pool.submit(twice, self.try_batch, crate, batch)] = crate, batch

        start()
        while running:
            for done in concurrent.futures.wait(running, return_when=concurrent.futures.FIRST_COMPLETED).done:
                crate, batch = running.pop(done)
                result = done.result()
                if batch is not None:
                    left[crate] -= 1
                elif result:
                    make_ready(ready, crate, due[crate])
                else:
                    left[crate] -= len(due[crate])
                if not left[crate]:
                    self.remove(self.rooms.pop(crate, []))
                    yield crate
            start()

    def prove(self, crate, jobs):
        """Proves a crate as it stands. Returns whether it is proved, and so its edits can be tried."""
        folder = f"{self.base}/crates/{crate.name}"
        try:
            answer = self.checks.run(folder, jobs, is_timed=True)
        except checks.OutOfTime:
            return False
        is_proved = answer.status == checks.PROVED
        self.own_cpu[crate] = answer.cpu
        how = "is proved" if is_proved else "IS NOT PROVED"
        tell(f"{crate.name}: the crate itself {how}, {answer.cpu:.0f} CPU s, {answer.wall:.0f} s")
        if is_proved:
            self.hand_over(crate)
        else:
            tell("\n".join(answer.lines[-12:]))
            for it in self.due(crate):
                self.judgements[it] = batches.Judgement(False, "not tried: the crate itself is not proved")
        if is_proved:
            self.modules[crate] = modules_of(self.kept(crate))
        return is_proved

    def build_library(self, name):
        """Builds a library in the base, which else each room would do, and change the kept work while edits are tried over it."""
        answer = self.checks.call(f"{self.base}/crates/{name}", "lib", "--jobs", str(self.terms.jobs))
        tell(f"{name}: its library for the crates above, {answer.cpu:.0f} CPU s, {answer.wall:.0f} s")

    def hand_over(self, crate):
        """Leaves the kept work where the repository has none of the crate, so that the next run starts over it. Where that can't be
        done, the next run proves the crate again."""
        target = f"{crate.folder}/out/incremental"
        if os.path.exists(target):
            return
        try:
            shutil.copytree(self.kept(crate), f"{target}.new")
            os.rename(f"{target}.new", target)
        except OSError as error:
            tell(f"{crate.name}: what was proved is not handed over: {error}")
            shutil.rmtree(f"{target}.new", ignore_errors=True)

    def expect_unchanged(self, crate):
        """Stops where a check wrote into a proved module, of which the rooms have no copies: then nothing that was tried counts."""
        if crate in self.modules and self.modules[crate] != modules_of(self.kept(crate)):
            sys.exit(f"{crate.name}: a check of an edit changed what was proved of the crate as it stands")

    def kept(self, crate):
        return f"{self.base}/crates/{crate.name}/out/incremental"

    def remove(self, rooms):
        """Removes rooms beside what runs: they have many large files."""
        self.removals.append(threading.Thread(target=lambda: [shutil.rmtree(it) for it in rooms]))
        self.removals[-1].start()

    def try_batch(self, crate, batch):
        with self.lock:
            free = self.rooms[crate]
            room = free.pop() if free else None
        room = room or self.new_room(crate)
        is_timed = self.is_timed(batch)
        try:
            found, cpu = batches.try_batch(crate, batch, lambda texts, edits: self.check(crate, room, texts, edits, is_timed), tell)
        finally:
            with self.lock:
                self.rooms[crate].append(room)
        self.expect_unchanged(crate)
        with self.lock:
            self.terms.keep(found)
            self.judgements.update(found)
            self.edits_cpu[crate] += cpu

    def check(self, crate, room, texts, edits, is_timed):
        """Checks the crate with these texts in place of its own, which the edits have made."""
        folder = f"{room}/crates/{crate.name}"
        has_base = crate in self.modules
        if has_base:
            mirror(self.kept(crate), f"{folder}/out/incremental")
        write_all(folder, texts)
        try:
            if has_base or not all(it.shares for it in edits):
                answer = self.checks.run(folder, is_timed=is_timed)
            else:
                answer = self.check_some(crate, folder, edits, is_timed)
        finally:
            write_all(folder, {path: crate.texts[path] for path in texts})
        with self.lock:
            self.tried[crate] += 1
        return answer

    def check_some(self, crate, folder, edits, is_timed):
        """Checks the functions that these edits change, and what they call; the whole crate where no name fits one of them."""
        functions, cpu = dict.fromkeys(function for it in edits for function in it.functions), 0
        for it in functions:
            self.names.setdefault(it, batches.likely_names(crate, it))
        while all(self.names[it] for it in functions):
            answer = self.checks.run(folder, only=[self.names[it][0] for it in functions], is_timed=is_timed)
            cpu += answer.cpu
            misfits = [it for it in functions if self.names[it][0] == answer.unknown()]
            if not misfits:
                answer.cpu = cpu
                return answer
            for it in misfits:
                del self.names[it][0]
        return self.checks.run(folder, is_timed=is_timed)

    def new_room(self, crate):
        room = self.new_folder(f"{crate.name}-")
        copy_texts(self.base, room)
        for it in crate.below:
            if os.path.isdir(f"{self.base}/crates/{it}/out/rlib"):
                shutil.copytree(f"{self.base}/crates/{it}/out/rlib", f"{room}/crates/{it}/out/rlib", copy_function=place)
        if not self.needs_base(crate) and os.path.isdir(self.kept(crate)):
            mirror(self.kept(crate), f"{room}/crates/{crate.name}/out/incremental")
        return room

    def new_folder(self, name):
        return tempfile.mkdtemp(prefix=name, dir=self.folder)


def twice(work, *given):
    """Does some work, and once more where the system broke it off: a file that another process took away, a process that didn't start."""
    try:
        return work(*given)
    except OSError as error:
        tell(f"{work.__name__} {given[0].name}: {error}: once more")
        time.sleep(PAUSE)
        return work(*given)


def make_ready(ready, crate, new):
    """Puts batches among those that are ready: the most wanted come first, and of these the most work. An edit that goes alone has its whole
    crate proved, which takes longest: begun last, it would leave all processors but one idle."""
    ready += [(crate, it) for it in new]
    ready.sort(key=lambda it: (min(edit.rank for edit in it[1]), all(edit.shares for edit in it[1]), -len(it[1])))


def good(crate):
    return [it for it in crate.edits if not it.fault]


def write_all(folder, texts):
    for path, text in texts.items():
        with open(f"{folder}/{path}", "w", encoding="utf-8") as it:
            it.write(text)


def copy_texts(root, to):
    """Copies what checks read of a repository: its own files, and its crates without edits and without what was made."""
    for it in os.listdir(root):
        if os.path.isfile(f"{root}/{it}"):
            shutil.copy2(f"{root}/{it}", to)
    for crate in os.listdir(f"{root}/crates"):
        os.makedirs(f"{to}/crates/{crate}")
        for part in os.listdir(f"{root}/crates/{crate}"):
            at, into = f"{root}/crates/{crate}/{part}", f"{to}/crates/{crate}/{part}"
            if os.path.isfile(at):
                shutil.copy2(at, into)
            elif part not in ("out", *FOLDERS):
                shutil.copytree(at, into)


def place(source, target):
    """Gives a file a second name, or a copy where that can't be. It is for what was built or proved: rt replaces such a file and never
    writes into it, and a room with copies of its own takes some gigabytes."""
    try:
        os.link(source, target)
    except OSError:
        shutil.copy2(source, target)


def mirror(kept, to):
    """Makes a folder of kept work equal to another, and replaces only the files whose size or time differs. What was proved is placed;
    the one file beside it that a check writes into is copied."""
    there = set()
    for at, _, files in os.walk(kept):
        into = to + at[len(kept) :]
        os.makedirs(into, exist_ok=True)
        there.add(into)
        for it in files:
            there.add(f"{into}/{it}")
            if not is_same(f"{at}/{it}", f"{into}/{it}"):
                remove_if_there(f"{into}/{it}")
                (place if it.endswith(MODULE) else shutil.copy2)(f"{at}/{it}", f"{into}/{it}")
    for at, _, files in os.walk(to, topdown=False):
        for it in files:
            if f"{at}/{it}" not in there:
                os.remove(f"{at}/{it}")
        if at not in there:
            os.rmdir(at)


def modules_of(kept):
    """Returns the proved modules of a folder of kept work, each with what tells whether something replaced it or wrote into it."""
    files = [f"{at}/{it}" for at, _, names in os.walk(kept) for it in names if it.endswith(MODULE)]
    return {it: (found.st_ino, found.st_size, found.st_mtime_ns) for it in files for found in [os.stat(it)]}


def remove_if_there(path):
    try:
        os.remove(path)
    except FileNotFoundError:
        pass


def is_same(one, other):
    try:
        one, other = os.stat(one), os.stat(other)
    except FileNotFoundError:
        return False
    return (one.st_size, one.st_mtime_ns) == (other.st_size, other.st_mtime_ns)
