"""Asks a command the questions in the files beside this one, and compares its answers: README.md tells how.

    python3 vectors/run.py COMMAND [ARGUMENT ..]

Exit status: 0 all answers are right, 1 some are not, 2 the command cannot be run.
"""

import pathlib
import subprocess
import sys

# How many faults of a file are shown, and how much of each answer.
SHOWN, WIDTH = 5, 60


def cases(path):
    """The number, the question and the answer of each line that is a case."""
    for number, line in enumerate(path.read_text(encoding="ascii").splitlines(), 1):
        if not line.startswith("#"):
            question, answer = line.split(" = ")
            yield number, question, answer


def asked(command, questions):
    """What a command answers to all questions of a file, and its exit status."""
    lines = "".join(question + "\n" for question in questions).encode("ascii")
    run = subprocess.run(command, input=lines, stdout=subprocess.PIPE, check=False)
    return run.stdout.decode("ascii", "replace").splitlines(), run.returncode


def compared(path, command):
    """Asks the questions of a file and prints what is wrong; whether all is right."""
    expected = list(cases(path))
    answers, status = asked(command, [question for _, question, _ in expected])
    faults, right = [], 0
    if status != 0:
        faults.append(f"{path}: the command ended with status {status}")
    if len(answers) != len(expected):
        faults.append(f"{path}: {len(answers)} lines for {len(expected)} questions")
    for (number, _, answer), found in zip(expected, answers):
        if found.strip().lower() == answer:
            right += 1
        else:
            faults.append(f"{path}:{number}: {found[:WIDTH]}; right is {answer[:WIDTH]}")
    print(f"{path.name}: {right} of {len(expected)} right", *faults[:SHOWN], sep="\n  ")
    return not faults


def main(command):
    """Asks the questions of all files; the exit status."""
    try:
        results = [compared(path, command) for path in sorted(pathlib.Path(__file__).parent.glob("*.txt"))]
    except OSError as error:
        print(f"run.py: give a command that can be run: {error}", file=sys.stderr)
        return 2
    return 0 if all(results) else 1


if __name__ == "__main__":
    sys.exit(main(sys.argv[1:] or [""]))
