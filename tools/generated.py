"""Where the pages go that the tools write whole: docs/generated/NAME.md, or standard output if the tool's argument is -."""
import os
import sys

FOLDER = "docs/generated"


def write(name, text):
    if "-" in sys.argv[1:]:
        sys.stdout.write(text)
        return
    os.makedirs(FOLDER, exist_ok=True)
    path = f"{FOLDER}/{name}.md"
    with open(path, "w", encoding="utf-8") as f:
        f.write(text)
    print(f"written: {path}", file=sys.stderr)


def crates():
    """The crates in the order of crates.txt, leaves first."""
    with open("crates.txt", encoding="utf-8") as f:
        return [line.split(":")[0].split()[0] for line in f if ":" in line and not line.startswith("#")]
