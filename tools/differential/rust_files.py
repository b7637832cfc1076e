"""The Rust files below folders, each with its bytes; what is left out is counted by reason."""
import os
import sys

MOST_BYTES = 500_000


def why_not(content, seen):
    """Why a file is left out, if it is."""
    if len(content) > MOST_BYTES:
        return f"more than {MOST_BYTES:,} bytes"
    if content in seen:
        return "equal to another file"
    try:
        content.decode()
    except UnicodeDecodeError:
        return "no UTF-8"
    return None


def files_below(folders, left_out, only=""):
    """Each file *.rs that has the word in its path. `left_out` counts the others."""
    seen = set()
    for folder in folders:
        if not os.path.isdir(folder):
            sys.exit(f"there is no folder {folder}")
        for top, below, names in os.walk(os.path.abspath(folder)):
            below.sort()
            for path in (f"{top}/{it}" for it in sorted(names) if it.endswith(".rs")):
                if only not in path:
                    left_out[f"without '{only}' in the path"] += 1
                    continue
                with open(path, "rb") as file:
                    content = file.read()
                reason = why_not(content, seen)
                if reason:
                    left_out[reason] += 1
                    continue
                seen.add(content)
                yield path, content


def told(what, counts):
    """A line that tells how many there are, by reason."""
    listed = [f"{count:,} {reason}" for reason, count in sorted(counts.items()) if count]
    return f"{what}: {'; '.join(listed) or 'nothing'}"


def end(passed, failed):
    """Prints the last line, and ends."""
    print(f"{passed} passed, {failed} failed")
    sys.exit(2 if passed + failed == 0 else failed > 0)
