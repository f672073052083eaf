"""The texts of rows/books/faults.txt, each with what the program has to say about it as a partner book."""

from row_files import ROWS

STATION = '[station]\ncode = "O0013SUPPLIER"\nbuffer = 128\ncredit = 2\nrestart = true\n'
PARTNER = '[[partner]]\ncode = "O0177CARMAKER"\nexpects = "CARPW"\nsends = "SUPPW"\nmode = "B"\naddress = "127.0.0.1:3305"\n'
TEXTS = ROWS / "books" / "faults.txt"


def cases():
    """Each text with the line that `check` has to print, and its place."""
    wanted, text, at = None, "", 0
    for number, line in enumerate([*TEXTS.read_text().splitlines(), ""], 1):
        if line.startswith("    "):
            text += {"@station": STATION, "@partner": PARTNER}.get(line.strip(), line.strip() + "\n")
            continue
        if wanted:
            yield at, wanted, text
        word, _, count = line.partition(" ")
        wanted = {"fault": f"fault: 5 book {count}", "partners": f"ok: {count} partners"}.get(word)
        text, at = "", number
