"""What compare/run and compare/streams share: the list is put to the oracle and to our program, and the answers are compared.
compare/plant builds the oracle by it, too."""

import argparse
import pathlib
import shlex
import subprocess
import sys

import difference

TOP = pathlib.Path(__file__).resolve().parent.parent
KEPT = TOP / "target" / "compare"


def arguments(description):
    """The arguments of both commands; each adds its own."""
    parser = argparse.ArgumentParser(description=description)
    parser.add_argument("folder", help="the src folder of bgpkit-parser 0.23.0")
    parser.add_argument("--ours", metavar="COMMAND", help="a program that speaks the replay language, in place of ./run replay")
    return parser


def ask(command, asked, answers):
    with open(asked, "rb") as source, open(answers, "wb") as sink:
        status = subprocess.run(command, stdin=source, stdout=sink).returncode
    if status:
        sys.exit(f"{shlex.join(map(str, command))} ended with {status}")


def build_oracle(folder):
    if subprocess.run([TOP / "oracle" / "build", folder]).returncode:
        sys.exit("the oracle could not be built")


def compare(folder, ours, asked):
    """Builds the oracle from the folder, puts the lines to both, and tells whether nothing differs. The answers are kept beside the list."""
    build_oracle(folder)
    ask([TOP / "target" / "oracle" / "oracle"], asked, KEPT / "oracle")
    ask(shlex.split(ours) if ours else [TOP / "run", "replay"], asked, KEPT / "ours")
    return difference.compare(KEPT / "ours", KEPT / "oracle", asked)


def list_file():
    """Where the list goes."""
    KEPT.mkdir(parents=True, exist_ok=True)
    return KEPT / "list"
