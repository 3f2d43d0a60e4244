"""What the scripts of this folder share: a client's own tests, run against memcached and against micad, and which of them fail here that pass there.

Each script is `bench/suites/NAME [--mode cache|store] [--show]`. It installs the client by apt, gets its tests as Debian's source package (into out/, where they are found the next time), and starts
both servers at free ports. It prints how many tests each passed, and each test that memcached passes and micad does not, with what is missing for it: a subject of the repository's issues, or what is
left out for good. It ends with `passed`, or with status 1 where one fails for no reason that the script knows. With --show it prints what the tests print. MICAD names another build than
crates/micad/out/micad, and each script tries both modes unless --mode names one.
"""
import argparse
import dataclasses
import os
import pathlib
import random
import re
import socket
import subprocess
import sys
import tarfile
import tempfile
import typing

HERE = pathlib.Path(__file__).resolve().parent
sys.path.insert(0, str(HERE.parent))

from peers import MICAD, started  # noqa: E402

OUT = HERE / "out"
ARCHIVE = "deb-src http://deb.debian.org/debian bookworm main\n"
PASSED, FAILED, SKIPPED = "passed", "failed", "skipped"

# what is missing: subjects of issues
NUMBERS = "Numbers and listing"


@dataclasses.dataclass
class Suite:
    name: str
    packages: list  # by apt
    run: typing.Callable  # what each test came to, by its name; of a folder and a port
    source: str | None = None  # Debian's source package that has the tests
    causes: dict = dataclasses.field(default_factory=dict)  # a pattern of the names of tests: what is missing for them
    starts: bool = False  # its tests start their servers: they are run with the mode in place of a port


def installed(packages):
    has = lambda package: "install ok installed" in subprocess.run(["dpkg-query", "-W", "-f", "${Status}", package], capture_output=True, text=True).stdout
    missing = [package for package in packages if not has(package)]
    if missing:
        ended = subprocess.run(["apt-get", "install", "-y", *missing], env=os.environ | {"DEBIAN_FRONTEND": "noninteractive"}, capture_output=True, text=True)
        if ended.returncode:
            sys.exit(f"apt-get install {' '.join(missing)}: {ended.stderr}")


def tar_of(package):
    """The tar of a source package as its authors made it. The system's own list of archives stays as it is."""
    folder = OUT / "sources" / package
    folder.mkdir(parents=True, exist_ok=True)
    if not (found := list(folder.glob("*.orig.tar.*"))):
        lists = OUT / "lists"
        (lists / "partial").mkdir(parents=True, exist_ok=True)
        (OUT / "archive.list").write_text(ARCHIVE)
        options = [f"Dir::Etc::sourcelist={OUT / 'archive.list'}", "Dir::Etc::sourceparts=-", f"Dir::State::lists={lists}", "APT::Sandbox::User=root"]
        apt = ["apt-get", "-q", "-q", *(word for option in options for word in ("-o", option))]
        subprocess.run([*apt, "update"], check=True)
        subprocess.run([*apt, "source", "--download-only", "--tar-only", package], check=True, cwd=folder)
        found = list(folder.glob("*.orig.tar.*"))
    return found[0]


def unpacked(package, into):
    with tarfile.open(tar_of(package)) as tar:
        tar.extractall(into)
    (top,) = pathlib.Path(into).iterdir()
    return top


def at_port(folder, port, pattern="*"):
    """Has the tests of a folder ask that port in place of memcached's own."""
    for file in pathlib.Path(folder).rglob(pattern):
        if file.is_file() and b"11211" in (text := file.read_bytes()):
            file.write_bytes(text.replace(b"11211", b"%d" % port))


def output(words, folder, seconds=600, **environment):
    """What a command prints, which is ended after so many seconds."""
    ended = subprocess.run(
        ["timeout", "-k", "5", str(seconds), *map(str, words)],
        cwd=folder,
        env=os.environ | environment,
        stdin=subprocess.DEVNULL,
        stdout=subprocess.PIPE,
        stderr=subprocess.STDOUT,
    )
    text = ended.stdout.decode(errors="replace")
    if SHOWN:
        print(text)
    return text


def of_tap(text):
    """What each test of a file of Perl's came to, by its number."""
    found = {}
    for bad, number, rest in re.findall(r"^(not )?ok (\d+)(.*)", text, re.MULTILINE):
        found[int(number)] = SKIPPED if re.search(r"# (skip|todo)", rest, re.IGNORECASE) else FAILED if bad else PASSED
    return found


def by_perl(folder, *libraries, seconds=120, **environment):
    """Each test of the files t/*.t of a folder."""
    found = {}
    for file in sorted((folder / "t").glob("*.t")):
        text = output(["perl", *(f"-I{library}" for library in libraries), f"t/{file.name}"], folder, seconds, **environment)
        found |= {f"{file.name} {number}": came for number, came in of_tap(text).items()}
    return found


def free_port():
    """One below those that the system gives to clients: else a client could be connected to itself, or a server find its port taken."""
    while True:
        port = random.randrange(20_000, 32_000)
        with socket.socket() as one:
            try:
                one.bind(("127.0.0.1", port))
                return port
            except OSError:
                pass


def server(mode):
    """The words that start a server, and its port. Without a mode it is memcached."""
    port = free_port()
    if mode:
        return [MICAD, "--mode", mode, "--memory", "64M", "--memcached", port], port
    return ["memcached", "-l", "127.0.0.1", "-p", port, "-U", 0, "-m", 64, "-u", "root"], port


def results(suite, mode):
    with tempfile.TemporaryDirectory(prefix="suite-") as made:
        folder = unpacked(suite.source, made) if suite.source else pathlib.Path(made)
        if suite.starts:
            return suite.run(folder, mode)
        words, port = server(mode)
        with started(words, [port]):
            return suite.run(folder, port)


def cause(suite, test):
    return next((why for pattern, why in suite.causes.items() if re.search(pattern, test)), None)


def counts(found):
    return ", ".join(f"{sum(came == what for came in found.values())} {what}" for what in (PASSED, FAILED, SKIPPED))


def main(suite):
    global SHOWN
    asked = argparse.ArgumentParser(description=sys.modules["__main__"].__doc__, formatter_class=argparse.RawDescriptionHelpFormatter)
    asked.add_argument("--mode", choices=("cache", "store"))
    asked.add_argument("--show", action="store_true")
    asked = asked.parse_args()
    SHOWN = asked.show
    if not MICAD.is_file():
        sys.exit(f"{MICAD} is not there")
    installed(["memcached", *suite.packages])
    there = results(suite, None)
    print(f"{suite.name}, memcached: {counts(there)}", flush=True)
    unknown = not any(came == PASSED for came in there.values())
    for mode in [asked.mode] if asked.mode else ("cache", "store"):
        here = results(suite, mode)
        fails = [test for test, came in there.items() if came == PASSED and here.get(test) != PASSED]
        print(f"{suite.name}, micad, {mode}: {counts(here)}; {len(fails)} that pass there do not here", flush=True)
        for test in fails:
            print(f"  {test}: {here.get(test, 'not reached')}: {cause(suite, test) or 'for no known reason'}")
        unknown |= any(cause(suite, test) is None for test in fails)
    if unknown:
        sys.exit(1)
    print("passed")


SHOWN = False
