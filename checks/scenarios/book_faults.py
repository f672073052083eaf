#!/usr/bin/env python3
"""Lets the program read each text of rows/books/faults.txt as a partner book, and compares the output of `check` with the expected one.

The last line is `N passed, M failed`.

Shows: texts of partner books, with the error of each
"""

import subprocess
import sys
import tempfile
from pathlib import Path

sys.path.insert(0, str(Path(__file__).resolve().parents[1] / "lib"))

from book_texts import TEXTS, cases
from program import PROGRAM, ROOT


def main():
    passed = failed = 0
    with tempfile.TemporaryDirectory(prefix="book-faults-") as room:
        book = Path(room) / "book.toml"
        for at, wanted, text in cases():
            book.write_text(text)
            words = [PROGRAM, "check", "--book", book]
            ran = subprocess.run(words, text=True, stdout=subprocess.PIPE, stderr=subprocess.STDOUT, timeout=60, check=False)
            well = ran.stdout == f"{wanted}\n" and ran.returncode == wanted.startswith("fault")
            passed, failed = passed + well, failed + (not well)
            if not well:
                print(f"{TEXTS.relative_to(ROOT)}:{at}: wanted {wanted!r}, got {ran.stdout.strip()!r} with status {ran.returncode}")
    print(f"{passed} passed, {failed} failed")
    return 1 if failed or not passed else 0


if __name__ == "__main__":
    sys.exit(main())
