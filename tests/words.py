"""The words of the scripts beside this one."""
import sys


def given(doc, known=()):
    """The words that a script was called with, each one of these. `--help` prints what the script does and ends with status 0, another word ends it with status 2."""
    words = sys.argv[1:]
    if any(word in ("-h", "--help") for word in words):
        print(doc.strip())
        sys.exit()
    unknown = [word for word in words if word not in known]
    if unknown:
        print(f"{sys.argv[0]}: unexpected word {unknown[0]!r}; it takes {', '.join([*known, '--help'])}", file=sys.stderr)
        sys.exit(2)
    return words
