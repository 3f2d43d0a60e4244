"""What the tests of Python's unittest came to."""
import re

from suite import FAILED, PASSED, SKIPPED


def of_unittest(text):
    """Each test by its name, of what `-v` prints: its name and its class, a line of what it says of itself at times, and how it ended."""
    found = {}
    for name, of, came in re.findall(r"^(\w+) \(([\w.]+)\)(?:\n[^\n]*)? \.\.\. (?:.*\n)*?.*?(ok|FAIL|ERROR|skipped|expected failure)\b", text, re.MULTILINE):
        found[f"{of}.{name}"] = PASSED if came in ("ok", "expected failure") else SKIPPED if came == "skipped" else FAILED
    return found
