"""The program that a benchmark runs: the one that `--program` names, else the repository's own, built if necessary."""

import argparse
import pathlib
import resource
import subprocess

TOP = pathlib.Path(__file__).resolve().parent.parent


def parser(description):
    """A parser of the benchmark's arguments, with `--program`; `--help` builds nothing."""
    made = argparse.ArgumentParser(description=description, formatter_class=argparse.RawDescriptionHelpFormatter)
    made.add_argument("--program", type=pathlib.Path, help="a built program, in place of this repository's")
    return made


def path_of(asked, *flags):
    """The path of the program: the proved one if it is built, else the one without proofs; flags are those of `simdram`."""
    if asked.program:
        return asked.program.resolve()
    ended = subprocess.run([TOP / "simdram", *flags, "build"], stdout=subprocess.PIPE, text=True, check=False)
    if ended.returncode:
        raise SystemExit(ended.returncode)
    return pathlib.Path(ended.stdout.strip())


def seconds_of(command):
    """The processor time that a command takes; it must succeed."""
    before = resource.getrusage(resource.RUSAGE_CHILDREN)
    subprocess.run(command, check=True, capture_output=True)
    after = resource.getrusage(resource.RUSAGE_CHILDREN)
    return after.ru_utime + after.ru_stime - before.ru_utime - before.ru_stime
