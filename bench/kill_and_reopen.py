#!/usr/bin/env python3
"""Runs the program, kills it at random moments, and opens its file again.

    kill_and_reopen.py PROGRAM FOLDER [RUNS [SEED]]

All runs work on one new file in the folder. Each loads numbers and commits each of them, and is killed at a random
moment. The file is then opened again and asked for every commit. Each commit whose reply came has to be there with its
number, and at most one more, that of the reply that did not come. While a run has the file open, a second one has to
end with status 12 and to leave the file.

A process that is killed loses nothing that the system was given, so this shows no loss of power: it shows that a file
that is left between any two calls opens again with all that was answered.
"""

import random
import subprocess
import sys
import threading
import time
from pathlib import Path

COMMITS = 20_000
LONGEST = 0.3


def run_whole(program, path, script):
    """The replies of a run that is not killed."""
    ran = subprocess.run([program, "live", path], input=script.encode(), capture_output=True)
    if ran.returncode != 0:
        sys.exit(f"the program ended with status {ran.returncode}: {ran.stderr.decode()}")
    return ran.stdout.decode().splitlines()


def commits_in(program, path):
    """The numbers of all commits in the file, the first one first."""
    (latest,) = run_whole(program, path, "open latest\n")
    count = int(latest.removeprefix("ok "))
    script = "".join(f"open {i}\ntext 0\n" for i in range(1, count + 1))
    return [int(text.removeprefix("ok ")) for text in run_whole(program, path, script)[1::2]]


def feed(stream, script):
    try:
        stream.write(script.encode())
        stream.close()
    except BrokenPipeError:
        pass


def is_refused_beside(program, path):
    second = subprocess.run([program, "live", path], input=b"load 0\ncommit\n", capture_output=True)
    return second.returncode == 12 and second.stdout == b""


def killed_run(program, path, replies, first, moment):
    """Commits the numbers from the first on, until the run is killed. Tells how many were answered."""
    script = "".join(f"load {n}\ncommit\n" for n in range(first, first + COMMITS))
    with replies.open("wb") as out:
        run = subprocess.Popen([program, "live", path], stdin=subprocess.PIPE, stdout=out)
    feeder = threading.Thread(target=feed, args=(run.stdin, script))
    feeder.start()
    while replies.stat().st_size == 0:
        time.sleep(0.001)
    if not is_refused_beside(program, path):
        sys.exit("a second run opened the file beside the first one")
    time.sleep(moment)
    run.kill()
    run.wait()
    feeder.join()
    # A commit's reply has a revision and a time. One that was cut off did not come.
    whole = replies.read_text().split("\n")[:-1]
    return sum(len(reply.split()) == 3 for reply in whole)


def main():
    program, folder = sys.argv[1], Path(sys.argv[2])
    runs = int(sys.argv[3]) if len(sys.argv) > 3 else 100
    chance = random.Random(int(sys.argv[4]) if len(sys.argv) > 4 else 1)
    path, replies = folder / "killed.sirix", folder / "replies"
    path.unlink(missing_ok=True)
    subprocess.run([program, "create", path], check=True)
    kept, answered, unanswered = [], 0, 0
    for number in range(1, runs + 1):
        first = len(kept) + 1
        count = killed_run(program, path, replies, first, chance.uniform(0, LONGEST))
        now = commits_in(program, path)
        if now != list(range(1, len(now) + 1)) or not 0 <= len(now) - len(kept) - count <= 1:
            sys.exit(f"run {number}: {len(kept)} commits, {count} answered, and {len(now)} after the kill")
        answered += count
        unanswered += len(now) - len(kept) - count
        kept = now
    print(f"{runs} runs killed: {answered} commits answered and found again, {unanswered} more found")


if __name__ == "__main__":
    main()
