#!/usr/bin/env python3
"""samples.py COMMAND DOCUMENT: runs the fenced samples of a document in a new directory, in order, and compares what they print
with the document. COMMAND is the built command; the archive must be built too. Exits 1 on any difference.

    ```c            a program: compiled with warnings as errors, and run
    ```c NAME       saved under that name for a later sample; so is a block of any other kind with a name
    ```text         what the program right before it prints
    ```console      lines `$ COMMAND`, each followed by all it prints; a line of .. stands for any lines
    ```rust         a test of binding/, which must include the document

The directory has links to the repository's directories, so that a sample may name them as from its root."""
import os
import re
import subprocess
import sys
import tempfile

ROOT = os.path.realpath(os.path.join(os.path.dirname(__file__), "..", ".."))
LINKED = ["binding", "examples", "include", "target"]
FENCE = re.compile(r"^```(\w+)(?: (\S+))?\n(.*?)^```$", re.MULTILINE | re.DOTALL)
COMPILE = "gcc -std=c99 -Wall -Wextra -Wpedantic -Werror -O2 -Iinclude -o sample sample.c target/library/libmritvelja.a"


def blocks(text):
    """Each fenced block: its line, kind, name and text."""
    for found in FENCE.finditer(text):
        yield 1 + text.count("\n", 0, found.start()), *found.groups()


def printed(directory, command):
    """What a shell command prints, on standard output and error, and its status."""
    done = subprocess.run(["bash", "-c", command], cwd=directory, stdin=subprocess.DEVNULL, stdout=subprocess.PIPE,
                          stderr=subprocess.STDOUT, timeout=300, check=False)
    return done.stdout.decode(errors="backslashreplace"), done.returncode


def save(directory, name, text):
    with open(os.path.join(directory, name), "w", encoding="utf-8") as file:
        file.write(text)


def run_program(directory, text):
    save(directory, "sample.c", text)
    output, status = printed(directory, COMPILE)
    if status == 0:
        output, status = printed(directory, "./sample")
    return output, None if status == 0 else f"status {status}: {output}"


def sessions(text):
    """Each command of a console block, and what it is to print."""
    for part in re.split(r"^\$ ", text, flags=re.MULTILINE)[1:]:
        command, _, expected = part.partition("\n")
        yield command, expected


def is_as_said(output, expected):
    pattern = "".join(r"(?:.*\n)*?" if line == "..\n" else re.escape(line) for line in expected.splitlines(keepends=True))
    return re.fullmatch(pattern, output) is not None


def complaints(directory, document, text):
    """What the document says otherwise than it is."""
    before = None
    for line, kind, name, block in blocks(text):
        at = f"{document}:{line}"
        after, before = before, None
        if name is not None:
            save(directory, name, block)
        elif kind == "c":
            before, complaint = run_program(directory, block)
            if complaint is not None:
                yield f"{at}: {complaint}"
        elif kind == "text" and after is not None and block != after:
            yield f"{at}: the program before it prints:\n{after}"
        elif kind == "console":
            for command, expected in sessions(block):
                output, _ = printed(directory, command)
                if not is_as_said(output, expected):
                    yield f"{at}: {command}\nprints:\n{output}"
        elif kind == "rust":
            with open(os.path.join(ROOT, "binding/src/lib.rs"), encoding="utf-8") as library:
                if f'include_str!("../../{document}")' not in library.read():
                    yield f"{at}: binding/src/lib.rs does not include the document"


def main():
    if len(sys.argv) != 3:
        sys.exit("usage: samples.py COMMAND DOCUMENT")
    command, document = sys.argv[1:]
    os.environ["PATH"] = os.path.dirname(os.path.realpath(command)) + ":" + os.environ["PATH"]
    os.environ["LC_ALL"] = "C"
    with open(os.path.join(ROOT, document), encoding="utf-8") as file:
        text = file.read()
    with tempfile.TemporaryDirectory() as directory:
        for name in LINKED:
            os.symlink(os.path.join(ROOT, name), os.path.join(directory, name))
        found = list(complaints(directory, document, text))
    for complaint in found:
        print(complaint, file=sys.stderr)
    sys.exit(1 if found else 0)


if __name__ == "__main__":
    main()
