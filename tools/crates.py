"""The crates of this repository, for the scripts beside this file: what crates.txt lists, what stands on what, and whether one changed."""
import fcntl
import hashlib
from pathlib import Path

TOP = Path(__file__).resolve().parent.parent
PARTS = ('src', 'specs', 'proofs', 'must-fail', 'wrong')


def listed():
    """Each crate of crates.txt with what it depends on, in the order of that file."""
    found = {}
    for line in (TOP / 'crates.txt').read_text().split('\n'):
        name, colon, needs = line.split('#')[0].partition(':')
        if colon:
            found[name.split()[0]] = needs.split()
    return found


def static_libraries():
    """The crates that crates.txt lists as static libraries, for C."""
    heads = [line.split('#')[0].partition(':')[0].split() for line in (TOP / 'crates.txt').read_text().split('\n') if ':' in line.split('#')[0]]
    return [head[0] for head in heads if 'staticlib' in head[1:]]


def below(crate):
    """Every crate of the repository that a crate stands on, in the order of crates.txt."""
    needs, found, new = listed(), set(), {crate}
    while new:
        new = {need for one in new for need in needs[one] if need in needs} - found
        found |= new
    return [c for c in needs if c in found]


def libraries():
    """The crates that are no programs."""
    return [c for c in listed() if (TOP / 'crates' / c / 'src' / 'lib.rt').is_file()]


def above(crates):
    """These crates and every crate that stands on one of them, in the order of crates.txt."""
    found, needs = set(crates), listed()
    while True:
        more = {c for c in needs if c not in found and found & set(needs[c])}
        if not more:
            return [c for c in needs if c in found]
        found |= more


def rt_alone():
    """Waits until no other script runs rt in this tree, where two at once read each other's unfinished files. Others wait until this is closed."""
    held = open(TOP / 'crates.txt', 'rb')
    try:
        fcntl.flock(held, fcntl.LOCK_EX | fcntl.LOCK_NB)
    except BlockingIOError:
        print('rt is at work in this tree already; waiting for it', flush=True)
        fcntl.flock(held, fcntl.LOCK_EX)
    return held


def digest_of(crate, parts=PARTS):
    """A digest of a crate's own files, its edits included."""
    whole = hashlib.sha256()
    for part in parts:
        for path in sorted((TOP / 'crates' / crate / part).rglob('*')):
            if path.is_file():
                whole.update(path.relative_to(TOP).as_posix().encode() + b'\0' + hashlib.sha256(path.read_bytes()).digest())
    return whole.hexdigest()
