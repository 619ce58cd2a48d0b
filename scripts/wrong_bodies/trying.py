"""Tries edits side by side: the controls of a crate first, then what they vouch for."""
import os
import shutil
import subprocess
import threading

from read_definitions.texts import ROOT

from .goals import PROVED
from .records import Record, record_of
from .trees import link, link_tree, trial_room
from .trial import Outcome, Tester


class Bench:
    """A crate's edits that are tried: those that wait, what came of them, and whether its controls proved."""

    def __init__(self, crate, states, known):
        self.crate = crate
        self.states = {it.edit.file: it for it in states}
        self.known = known
        self.controls = [it.edit for it in states if it.edit.is_control]
        self.others = [it.edit for it in states if not it.edit.is_control]
        self.control_failed = False
        self.outcomes = []

    def edits_left(self):
        """Returns how many edits nothing came of yet."""
        return len(self.states) - len(self.outcomes)


class Trial:
    """Benches that wait for a worker, as many checks at once as there are processors."""

    def __init__(self, checker, sources, room, keep):
        self.checker = checker
        self.tester = Tester(checker, sources)
        self.room = room
        # what is done with each outcome
        self.keep = keep
        self.changed = threading.Condition()
        self.waiting = []
        self.open_benches = []
        self.is_complete = False

    def add(self, bench):
        """Has a crate's edits tried."""
        link_tree(bench.crate, f"{self.room}/{bench.crate}", alone=not self.checker.needs_crates_below)
        with self.changed:
            self.open_benches.append(bench)
            self.queue(bench, bench.controls or bench.others)
            self.changed.notify_all()

    def queue(self, bench, edits):
        self.waiting += [(bench, it) for it in self.tester.batches(edits, bench.known)]

    def complete(self):
        """Says that no more crates come."""
        with self.changed:
            self.is_complete = True
            self.changed.notify_all()

    def stop(self):
        """Ends what runs, and tries nothing more."""
        self.checker.stop()
        with self.changed:
            self.waiting, self.open_benches, self.is_complete = [], [], True
            self.changed.notify_all()

    def next(self):
        with self.changed:
            while not self.waiting and not (self.is_complete and not self.open_benches):
                self.changed.wait()
            return self.waiting.pop(0) if self.waiting else None

    def work(self, lane):
        for bench, edits in iter(self.next, None):
            try:
                outcomes, left = self.tried(bench, edits, lane)
            finally:
                shutil.rmtree(lane, ignore_errors=True)
            with self.changed:
                if self.checker.is_stopped:
                    return
                self.waiting = [(bench, [it]) for it in left] + self.waiting
                for it in outcomes:
                    self.take(bench, it)
                self.changed.notify_all()

    def tried(self, bench, edits, lane):
        """Tries edits that one check takes, and returns what came of them, and which have to be tried alone."""
        try:
            link(f"{self.room}/{bench.crate}", lane)
            if len(edits) > 1:
                return self.tester.together(lane, edits, bench.known)
            return [self.tester.alone(lane, edits[0], bench.known)], []
        except (OSError, ValueError, subprocess.SubprocessError) as error:
            return [Outcome(it, 0, why=f"it can't be tried: {error}") for it in edits], []

    def take(self, bench, outcome):
        """Keeps what came of an edit. Behind the last control the crate's other edits are tried, or none if a control didn't prove."""
        bench.outcomes.append(outcome)
        if outcome.why:
            print(f"{outcome.edit}: {outcome.why}", flush=True)
        bench.control_failed = bench.control_failed or bool(outcome.edit.is_control and outcome.why)
        self.keep(bench, outcome)
        if len(bench.outcomes) == len(bench.controls) and bench.others:
            if bench.control_failed:
                print(f"{bench.crate}: a control doesn't prove, so nothing that the check refuses counts", flush=True)
                self.open_benches.remove(bench)
                return
            self.queue(bench, bench.others)
        if not bench.edits_left():
            self.open_benches.remove(bench)


class Writer:
    """Writes the records of crates as their edits are tried, so that a run that is cut off loses little."""

    def __init__(self, kit):
        self.kit = kit
        self.records = {}

    def keep(self, bench, outcome):
        if bench.crate not in self.records:
            self.records[bench.crate] = self.start(bench)
        record = self.records[bench.crate]
        if outcome.why:
            record.lines.pop(outcome.edit.file, None)
        else:
            record.lines[outcome.edit.file] = outcome.line(bench.states[outcome.edit.file].sums)
        record.write()

    def start(self, bench):
        """Returns the record that a crate's trial begins with: what it had of this kit's logic, of edits that are still there."""
        old = record_of(bench.crate)
        folder = f"{ROOT}/crates/{bench.crate}/wrong-bodies"
        lines = [it for it in old.lines.values() if old.is_of(self.kit) and os.path.isfile(f"{folder}/{it.file}")]
        return Record(bench.crate, self.kit, lines)


def run(states, checker, sources, keep, with_base):
    """Tries the edits of these states, and returns the benches with what came of them. With a base, a crate's edits come once the check
    says that it is proved as it stands, if nothing else has said so: only then does a refusal say something."""
    by_crate = {}
    for it in states:
        by_crate.setdefault(it.edit.crate, []).append(it)
    benches = []
    with trial_room() as room:
        trial = Trial(checker, sources, room, keep)
        lanes = range(int(os.environ.get("RT_JOBS") or os.cpu_count() or 1))
        workers = [threading.Thread(target=trial.work, args=(f"{room}/lane-{it}",), daemon=True) for it in lanes]
        for it in workers:
            it.start()
        try:
            for crate, of_crate in by_crate.items():
                known = base(checker, crate) if with_base and not checker.is_proved(crate) else known_of(of_crate)
                if known is not None:
                    benches.append(Bench(crate, of_crate, known))
                    trial.add(benches[-1])
            trial.complete()
            for it in workers:
                it.join()
        finally:
            trial.stop()
            for it in workers:
                it.join(10)
    return benches


def base(checker, crate):
    """Returns the functions that the check proves of a crate as it stands, and nothing if it isn't proved."""
    said = checker.check(ROOT, crate)
    if said.status:
        print(f"{crate} isn't proved as it stands: {said.text[-300:]}", flush=True)
        return None
    return list(dict.fromkeys(PROVED.findall(said.text)))


def known_of(states):
    """Returns what the check called functions, by the records of their edits."""
    return list(dict.fromkeys(name for it in states if it.line for name in it.line.functions()))
