#!/usr/bin/env python3
"""Runs one test of a night and uploads its record.

    one_seed.py SEED -- COMMAND ..

In COMMAND the words `{seed}`, `{record}` and `{test}` stand for the seed, the file of the record that the command has to
write, and the test's id, NAME_SEED; the environment has the same as COV_SEED, COV_RECORD and COV_TEST. A command that fails
has failed its test, and its record, where it left one, is uploaded all the same: what a test ended with stands in its
record, and a record that was flushed before it was killed is a whole one.

    --server HOST:PORT   where `covd serve` listens; without it the record is only kept (COV_SERVER)
    --name NAME          the front of the tests' ids, seed where it isn't said
    --folder FOLDER      where records are kept, as NAME_SEED.rec (COV_FOLDER); records where it isn't said
    --tries N            how often an upload is tried, 8 where it isn't said
    --again              uploads a record that is there already, and runs nothing for it

An upload that can't reach the server or breaks off is tried again after a pause that doubles each time, by chance up to
half as long again, at most a minute. An upload that the server refuses isn't: its answer would be the same. A record that
the server has already, with the same content, is counted once and is no error, so each step can be done again.

Status 0; 1 where the server refuses the record; 2 where it can't be reached in so many tries; 3 where the command left no
record; 4 where it failed, and its record was uploaded.
"""

import argparse
import os
import random
import subprocess
import sys
import time
from dataclasses import dataclass
from pathlib import Path

sys.path.insert(0, str(Path(__file__).resolve().parent.parent))
sys.dont_write_bytecode = True
from covclient import Broken, Client, Refused  # noqa: E402

LONGEST_PAUSE, PATIENCE = 60.0, 120.0


@dataclass
class Test:
    """One test: its seed, its id and the file of its record."""

    seed: str
    name: str
    record: Path

    def words(self, command):
        values = {"{seed}": self.seed, "{record}": str(self.record), "{test}": self.name}
        found = []
        for word in command:
            for mark, value in values.items():
                word = word.replace(mark, value)
            found.append(word)
        return found

    def environment(self):
        return {**os.environ, "COV_SEED": self.seed, "COV_RECORD": str(self.record), "COV_TEST": self.name}


def pauses(tries, first, chance=random.random):
    """The seconds between tries."""
    pause = first
    for _ in range(tries - 1):
        yield min(pause, LONGEST_PAUSE) * (1 + chance() / 2)
        pause *= 2


def upload(server, contents, tries, first=0.5, sleep=time.sleep):
    """Uploads a record: whether it is new, and the point at which it holds. Raises what the last try raised."""
    for pause in [*pauses(tries, first), None]:
        try:
            with Client(server, PATIENCE) as covd:
                return covd.upload(contents)
        except (Broken, OSError) as error:
            if pause is None:
                raise
            print(f"{server}: {error}; again in {pause:.1f} s", file=sys.stderr)
            sleep(pause)
    raise AssertionError("a list of tries has an end")


def run(test, command):
    """Runs the command; whether it succeeded."""
    test.record.parent.mkdir(parents=True, exist_ok=True)
    test.record.unlink(missing_ok=True)
    try:
        return subprocess.run(test.words(command), env=test.environment(), check=False).returncode == 0
    except OSError as error:
        print(f"{test.name}: {error}", file=sys.stderr)
        return False


def send(test, server, tries):
    """Uploads the record of a test, and says what came of it; a status."""
    try:
        is_new, point = upload(server, test.record.read_bytes(), tries)
    except Refused as refused:
        print(f"{test.name}: refused: {refused}", file=sys.stderr)
        return 1
    except (Broken, OSError) as error:
        print(f"{test.name}: {error}", file=sys.stderr)
        return 2
    print(f"{'new' if is_new else 'there'} {test.name} {point}")
    return 0


def parsed(words):
    parser = argparse.ArgumentParser(description=__doc__, formatter_class=argparse.RawTextHelpFormatter)
    parser.add_argument("seed")
    parser.add_argument("--server", default=os.environ.get("COV_SERVER"))
    parser.add_argument("--name", default="seed")
    parser.add_argument("--folder", default=os.environ.get("COV_FOLDER", "records"))
    parser.add_argument("--tries", type=int, default=8)
    parser.add_argument("--again", action="store_true")
    parser.add_argument("command", nargs=argparse.REMAINDER)
    return parser.parse_args(words)


def main(words):
    words = parsed(words)
    name = f"{words.name}_{words.seed}"
    test = Test(words.seed, name, Path(words.folder) / f"{name}.rec")
    command = words.command[1:] if words.command[:1] == ["--"] else words.command
    passed = True
    if not (words.again and test.record.exists()):
        passed = run(test, command)
    if not test.record.exists():
        print(f"{name}: no record was written", file=sys.stderr)
        return 3
    status = send(test, words.server, words.tries) if words.server else 0
    return status or (0 if passed else 4)


if __name__ == "__main__":
    sys.exit(main(sys.argv[1:]))
