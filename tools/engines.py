"""Runs the parts of a campaign on this machine, with GNU parallel or with Slurm, and reports progress."""
import collections
import os
import re
import selectors
import signal
import subprocess
import sys
import time
from concurrent.futures import ThreadPoolExecutor

from messages import NAME
from parts import remove, write

MOST_TASKS = 1_000
# The number of threads that take answers, and the maximum number of seconds that the local engine waits before it
# reports progress.
TAKERS, PATIENCE = 4, 0.5


class Progress:
    """Reports the progress of the campaign: on a terminal twice a second, otherwise every ten seconds."""

    def __init__(self, campaign):
        self.campaign, self.all = campaign, sum(campaign.counts)
        self.before, self.start, self.last = self.done(), time.monotonic(), -10.0

    def done(self):
        return self.all - sum(self.campaign.counts[part] for part in self.campaign.left())

    def tell(self, over=False):
        now, terminal = time.monotonic() - self.start, sys.stderr.isatty()
        if not over and now - self.last < (0.5 if terminal else 10):
            return
        self.last, done = now, self.done()
        new = done - self.before
        rest = f", {now / new * (self.all - done):.0f} s left" if new and done < self.all else ""
        line = f"{NAME}: {done} of {self.all} faults{rest}"
        end = "\n" if over or not terminal else ""
        print(f"\r\033[K{line}" if terminal else line, end=end, file=sys.stderr, flush=True)

    def clear(self):
        """Clears the line on a terminal, so that the next message starts a new line."""
        if sys.stderr.isatty():
            print("\r\033[K", end="", file=sys.stderr, flush=True)


def end(process):
    """Ends a process, and what it started."""
    try:
        os.killpg(process.pid, signal.SIGTERM)
    except ProcessLookupError:
        pass


def built(name):
    """The proved program itself, if a repository's script `talft` would run it: the script checks all sources at each
    call. Otherwise the name as it is."""
    top = os.path.dirname(name)
    if os.path.basename(name) != "talft" or not os.path.isfile(os.path.join(top, "build", "sources.sh")):
        return name
    words = ["bash", "-c", '. "$top/build/sources.sh" && is_built && echo "$program"']
    found = subprocess.run(words, env={**os.environ, "top": top}, stdin=subprocess.DEVNULL, stdout=subprocess.PIPE,
                           check=False)
    return os.fsdecode(found.stdout).rstrip("\n") or name


def local(campaign, asked, progress):
    """Runs several parts at once on this machine. Threads take the answers, so that no job waits for a comparison or a
    disk."""
    waiting, running, jobs = collections.deque(campaign.left()), {}, asked.jobs or os.cpu_count()
    campaign.called, taken = built(campaign.called), collections.deque()
    with ThreadPoolExecutor(TAKERS) as pool, selectors.DefaultSelector() as ends:
        try:
            while waiting or running:
                while waiting and len(running) < jobs:
                    part = waiting.popleft()
                    # Nothing is written to the pipe: it closes when the job ends.
                    running[part] = subprocess.Popen(["sh", "-c", campaign.job(f"{part:06}")], cwd=campaign.folder,
                                                     stdout=subprocess.PIPE, start_new_session=True)
                    ends.register(running[part].stdout, selectors.EVENT_READ, part)
                for key, _ in ends.select(PATIENCE):
                    ends.unregister(key.fileobj)
                    with running.pop(key.data) as process:
                        process.wait()
                    campaign.failures[key.data] = f"no answer (shell status {process.returncode})"
                    taken.append(pool.submit(campaign.take, key.data))
                while taken and taken[0].done():
                    taken.popleft().result()
                progress.tell()
            for answer in taken:
                answer.result()
        finally:
            pool.shutdown(wait=False, cancel_futures=True)
            for process in running.values():
                end(process)
                process.wait()


def spread(campaign, progress, command, stop, grace=0):
    """Runs an engine's command, and takes the answers as they arrive; once it has ended, waits for outstanding ones."""
    waiting, ended = campaign.left(), None
    out = os.path.join(campaign.folder, f"{campaign.run}.engine")
    with open(out, "wb") as told:
        engine = subprocess.Popen(command, cwd=campaign.folder, stdin=subprocess.DEVNULL, stdout=told,
                                  start_new_session=True)
    try:
        while waiting:
            ended = ended or (time.monotonic() if engine.poll() is not None else None)
            for part in waiting:
                campaign.take(part)
            waiting = [part for part in campaign.left() if part not in campaign.failures]
            progress.tell()
            if ended and time.monotonic() >= ended + grace:
                break
            time.sleep(0.1)
        engine.wait()
    except BaseException:
        stop(engine, out)
        raise
    remove(out)
    for part in waiting:
        campaign.failures[part] = ("no answer: a machine may have gone away "
                                   f"(engine status {engine.returncode})")


def parallel(campaign, asked, progress):
    """GNU parallel, here or on other machines."""
    words = ["parallel"] + (["--jobs", str(asked.jobs)] if asked.jobs else [])
    if asked.hosts:
        words += ["--sshlogin", asked.hosts, "--workdir", "...", "--cleanup", "--retries", "3",
                  "--transferfile", "object", "--transferfile", "{}.faults"]
        words += [word for kind in ("out", "err", "status") for word in ("--return", f"{{}}.{campaign.run}.{kind}")]
    write(os.path.join(campaign.folder, "jobs"), "".join(f"{part:06}\n" for part in campaign.left()).encode())

    def stop(engine, _):
        # At the first signal, parallel starts no further job; at the second, it ends the running ones.
        end(engine)
        time.sleep(0.1)
        end(engine)
        engine.wait()

    spread(campaign, progress, [*words, campaign.job("{}"), "::::", "jobs"], stop)


def slurm(campaign, asked, progress):
    """A job array; each job runs some of the parts."""
    parts = campaign.left()
    tasks = min(len(parts), MOST_TASKS)
    write(os.path.join(campaign.folder, "jobs"), "".join(f"{part:06}\n" for part in parts).encode())
    script = f"""#!/bin/sh
for part in $(awk -v task="$SLURM_ARRAY_TASK_ID" 'NR % {tasks} == task' jobs); do
  {campaign.job('$part')}
done
"""
    write(os.path.join(campaign.folder, "task"), script.encode())
    array = f"0-{tasks - 1}" + (f"%{asked.jobs}" if asked.jobs else "")

    def stop(engine, out):
        with open(out, encoding="ascii") as told:
            number = re.match(r"\d+", told.read())
        if number:
            subprocess.run(["scancel", number[0]], check=False)
        engine.terminate()
        engine.wait()

    words = ["sbatch", "--wait", "--parsable", f"--array={array}", "--job-name=campaign", "--output=/dev/null", "task"]
    spread(campaign, progress, words, stop, grace=10)


ENGINES = {"local": local, "parallel": parallel, "slurm": slurm}
# The command that each engine calls.
CALLS = {"local": "sh", "parallel": "parallel", "slurm": "sbatch"}
