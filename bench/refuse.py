#!/usr/bin/env python3
"""Refuses memory at each call by which a built `ledgerd` takes some, one call at a time, and judges what is left.

    refuse.py PROGRAM [--jobs N] [--most BYTES] [--part WORD] [--at K] [NAME ..]

The inputs are those of the stored runs: each `step` of crates/test_commands/stdin with what it reads, and that of
crates/ledgerd, if it has at most BYTES (32,768). One is called by the line of its command there, or by its file, and
by the comment above. With NAMEs those are taken that have one of them in what they are called.

For each input the calls of malloc and realloc that `step` makes are counted, N of them, and then it is run N times in
an empty folder, the k-th call being refused. The same is done with `verify` of each image that `step` leaves, with
`replay` of the journal, and with `extract` of the first and the last image. The lines of `verify`, `replay`,
`upgrade`, `extract`, `receipt`, `join` and `check` of crates/test_commands/stdin whose files lie in data/ come behind.
A run may end in these ways:

    12      out of memory is said and nothing else, and no file was put
    files   the same, but the first of the files were put, each with the bytes of the full run
    E30     `step` answered a statement E30. All else, files and transcript, is as where that statement isn't in the
            input (where it was assigned an id: as where it is a SELECT on a table of the system), `verify` says Yes
            of the images, and `replay` of the journal leads to the image and the journal
    full    all is as without a refusal; what is told of it on standard error may be shorter

Any other is unstated; it is told, its folder stays, and the status is 1. A run that takes more than 60 seconds hangs.

--jobs      processes that work side by side (1)
--part      the words to do this for, as step,verify (all)
--at        refuses this call alone

refuse.c does the refusing; cc compiles it. It replaces functions of the GNU C library in a program that is linked
with it dynamically, as the kit links one. Each folder of a run is made below the system's for temporary files
(TMPDIR); one that lies in memory saves time. `run` and `gen`, whose threads take memory in an order that changes from
run to run, are left out, and so is --workers.
"""
import argparse
import collections
import json
import mmap
import multiprocessing
import os
import re
import shutil
import struct
import subprocess
import sys
import tempfile
import time

HERE = os.path.dirname(os.path.abspath(__file__))
CRATES = os.path.join(os.path.dirname(HERE), "crates")
PARTS = ["step", "verify", "replay", "upgrade", "extract", "receipt", "join", "check"]
SHOWN = {"step": ["12", "files", "E30", "full"], "verify": ["12", "full"], "replay": ["12", "files", "full"],
         "upgrade": ["12", "files", "full"], "extract": ["12", "full"], "receipt": ["12", "files", "full"],
         "join": ["12", "files", "full"], "check": ["12", "full"]}
MOST_SECONDS = 60
CHUNK = 64
LAST_TICK = 2534023007999999999
NO_DIGEST = 17
LACKS_MEMORY = b"ledgerd: out of memory\n"

# Words, standard input and the files that lie in the folder.
Call = collections.namedtuple("Call", "words text files")
Ended = collections.namedtuple("Ended", "status out err files calls refused bytes")
# A call, and how it ends where no memory is refused.
Case = collections.namedtuple("Case", "call full")


class Unstated(Exception):
    pass


def want(holds, text):
    if not holds:
        raise Unstated(text)


# The inputs of the stored runs.

def bytes_of(*path):
    with open(os.path.join(CRATES, *path), "rb") as file:
        return file.read()


def short(path, most):
    return os.path.isfile(path) and os.path.getsize(path) <= most


def with_moment(words, moment):
    """The words with a moment in the clock's place. The server keeps no greater one than the last tick of 9999."""
    given = any(w.startswith("--clock") for w in words)
    return words if given else words + ["--clock", str(min(moment, LAST_TICK))]


def commands(most):
    """Each command of the stored run of test_commands: its line, the comment above it, its words, and its input; None
    where that is longer than `most` or calls of the outside fail."""
    comment, text, moment, fails = "", b"", 0, False
    for number, line in enumerate(bytes_of("test_commands", "stdin").rstrip(b"\n").split(b"\n"), 1):
        first, _, rest = line.partition(b" ")
        if line.startswith(b"#"):
            comment = rest.decode()
        elif first == b"line":
            text += rest + b"\n"
        elif first == b"bytes":
            count, digits = rest.split()
            text += int(count) * bytes.fromhex(digits.decode()) if int(count) <= most else (most + 1) * b" "
        elif first == b"clock":
            moment = int(rest)
        elif first == b"fails":
            fails = True
        else:
            words, name = line.decode().split(" "), None
            if words[0] == "input":
                name, words = words[1], words[2:]
                path = os.path.join(CRATES, "test_commands", "data", name)
                text = bytes_of("test_commands", "data", name) if short(path, most) else (most + 1) * b" "
            if words[0] == "step":
                words = with_moment(words, moment)
            name = os.path.splitext(name)[0] if name else str(number)
            yield name, comment, words, None if fails or len(text) > most else text
            text, moment, fails = b"", 0, False


def inputs(most):
    """Name and call of each `step`, each once."""
    seen = set()
    for name, comment, words, text in commands(most):
        if words[0] == "step" and text is not None and (tuple(words), text) not in seen:
            seen.add((tuple(words), text))
            yield f"{name} {comment}", Call(words, text, {})
    text = bytes_of("ledgerd", "stdin")
    if len(text) <= most:
        words = bytes_of("ledgerd", "args").decode().split()
        yield "ledgerd Its stored run.", Call(with_moment(words, 0), text, {})


def lines_on_files(most):
    """Name and call of each call of the commands behind `step` whose files lie in data/, each once."""
    seen = set()
    for name, comment, words, text in commands(most):
        threads = any(w.startswith("--workers") for w in words)
        if words[0] not in PARTS[1:] or text != b"" or threads or tuple(words) in seen:
            continue
        seen.add(tuple(words))
        count = {"verify": 3, "replay": 2, "upgrade": 2, "extract": 4, "receipt": 3, "join": 3, "check": 3}[words[0]]
        paths = [os.path.join(CRATES, "test_commands", "data", w) for w in words[1:count]]
        if len(words) >= count and all(short(p, most) for p in paths):
            files = {w: bytes_of("test_commands", "data", w) for w in words[1:count]}
            yield f"{name} {' '.join(words)}", Call(words, b"", files)


# Runs.

class Place:
    """A folder for runs of one process, and the page that it shares with the program."""

    def __init__(self, program, library, root):
        self.program, self.there = program, {}
        self.root = tempfile.mkdtemp(dir=root)
        self.folder, self.input = os.path.join(self.root, "run"), os.path.join(self.root, "input")
        os.mkdir(self.folder)
        name = os.path.join(self.root, "page")
        with open(name, "wb+") as file:
            file.write(bytes(32))
            file.flush()
            self.page = mmap.mmap(file.fileno(), 32)
        self.env = {"LD_PRELOAD": library, "REFUSE": name}
        self.text = None
        self.oracles, self.accepted = {}, {}

    def look(self):
        found = {}
        for name in os.listdir(self.folder):
            with open(os.path.join(self.folder, name), "rb") as file:
                found[name] = file.read()
        return found

    def lay(self, files):
        """Makes the folder hold these files alone."""
        for name in self.there.keys() - files.keys():
            os.remove(os.path.join(self.folder, name))
        for name, content in files.items():
            if self.there.get(name) != content:
                with open(os.path.join(self.folder, name), "wb") as file:
                    file.write(content)
        self.there = dict(files)

    def run(self, call, at=0):
        """Runs a call of the program, the call for memory with this number being refused."""
        self.lay(call.files)
        if self.text != call.text:
            with open(self.input, "wb") as file:
                file.write(call.text)
            self.text = call.text
        self.page[:] = struct.pack("4Q", at, 0, 0, 0)
        with open(self.input, "rb") as stdin:
            child = subprocess.Popen([self.program, *call.words], cwd=self.folder, env=self.env, stdin=stdin,
                                     stdout=subprocess.PIPE, stderr=subprocess.PIPE)
            try:
                out, err = child.communicate(timeout=MOST_SECONDS)
                status = child.returncode
            except subprocess.TimeoutExpired:
                child.kill()
                out, err = child.communicate()
                status = "none: it hangs"
        _, calls, refused, size = struct.unpack("4Q", self.page[:])
        self.there = self.look()
        return Ended(status, out, err, self.there, calls, refused, size)

    def keep(self):
        """Leaves the folder to who looks for the fault."""
        kept = tempfile.mkdtemp(prefix="refuse-")
        shutil.copytree(self.folder, kept, dirs_exist_ok=True)
        return kept


# What a `step` leaves.

def save_of(words):
    for n, word in enumerate(words):
        if word.startswith("--save="):
            return word[7:]
        if word == "--save" and n + 1 < len(words):
            return words[n + 1]
    return None


def images_of(save, files):
    """The names of the images, that of the whole journal last."""
    kept = [n for n in files if re.fullmatch(re.escape(save) + r"-\d+\.img", n)]
    kept.sort(key=lambda n: int(n[len(save) + 1:-4]))
    return kept + [save + ".img"]


def files_in_order(words, files):
    """The names of the files that a `step`, a `replay`, an `upgrade`, a `receipt` or a `join` puts, in their order."""
    save = save_of(words)
    if not files:
        return []
    if words[0] == "replay":
        return [save + ".img", save + ".journal"]
    if words[0] == "upgrade":
        return [save + ".img"]
    if words[0] == "receipt":
        return [save + ".receipt"]
    if words[0] == "join":
        return [save + ".chain"]
    return images_of(save, files) + [save + ".digests", save + ".journal"]


def statements(text):
    """Session and statement of each line of an input that is one, as they stand in the transcript."""
    found = []
    for line in text.split(b"\n"):
        line = line.removesuffix(b"\r").strip(b" \t")
        if line and not line.startswith(b"--"):
            session, _, rest = line.partition(b":")
            found.append((session, rest.lstrip(b" \t")))
    return found


def entries(transcript):
    """The lines of each entry."""
    found = []
    for line in re.findall(rb"[^\n]*\n", transcript):
        if line.startswith(b"  "):
            want(found, "the transcript begins with a reply")
            found[-1].append(line)
        else:
            found.append([line])
    return found


# A SELECT that is always answered where no transaction is open: it is assigned an id and leaves nothing.
DRAWS_AN_ID = b"SELECT COUNT(*) FROM sys_ledger_tables"


def without(place, call, at, drew):
    """The entries and the files that a `step` leaves without the statement with this number, counted from 0: where it
    was assigned an id, with one in its place that is assigned one too and changes nothing."""
    key = (tuple(call.words), call.text, at, drew)
    if key not in place.oracles:
        said = statements(call.text)
        # In front a COMMIT of each session, which changes nothing, so that the sessions keep their order.
        front = [(session, b"COMMIT") for session in dict.fromkeys(session for session, _ in said)]
        instead = [(said[at][0], DRAWS_AN_ID)] if drew else []
        lines = front + said[:at] + instead + said[at + 1:]
        ended = place.run(Call(call.words, b"".join(b": ".join(line) + b"\n" for line in lines), {}))
        want(ended.status == 0, f"without the statement `step` ends with {ended.status}")
        place.oracles[key] = entries(ended.out)[len(front):], ended.files
    return place.oracles[key]


def judge_lacking(place, call, ended):
    """Judges a `step` that ended with status 0, but not as without a refusal."""
    found, said = entries(ended.out), statements(call.text)
    lacking = [n for n, entry in enumerate(found) if entry[1:2] == [b"  E30\n"]]
    want(len(lacking) == 1, f"the transcript or the files are others, and {len(lacking)} statements are answered E30")
    at = lacking[0]
    drew = len(found[at]) > 2
    want(at < len(said) and found[at][0] == b": ".join(said[at]) + b"\n", f"entry {at} is that of another statement")
    others, files = without(place, call, at, drew)
    end = others[at][-1:] if drew else []
    want(found[at][2:] == end, f"entry {at}, which is answered E30, has the end {found[at][2:]}")
    want(found[:at] + found[at + 1:] == others[:at] + others[at + drew:],
         f"the entries but {at} aren't those that come without the statement")
    want(ended.files == files, "the files aren't those without the statement: " + differing(ended.files, files))


def differing(found, wanted):
    return " ".join(sorted(n for n in found.keys() | wanted.keys() if found.get(n) != wanted.get(n)))


def judge_accepted(place, words, out, files):
    """`verify` has to accept the images, each with the digests of its blocks, and `replay` to lead to the last."""
    key = tuple(sorted(files.items()))
    if key in place.accepted:
        return
    save = save_of(words)
    digests, journal = save + ".digests", save + ".journal"
    for image in images_of(save, files):
        said = place.run(Call(["verify", image, digests], b"", files))
        later = re.fullmatch(rb"No V1 digest (\d+)\n", said.out)
        if later and image != save + ".img":
            first = json.dumps(json.loads(files[digests])[:int(later[1])]).encode()
            said = place.run(Call(["verify", image, digests], b"", {**files, digests: first}))
        want(said.status in (0, NO_DIGEST) and said.out == b"Yes\n", f"verify says {said.out} of {image}")
    again = place.run(Call(["replay", journal, "--save", "Again"], b"", files))
    want(again.status == 0, f"replay ends with {again.status}: {again.err}")
    count = len(re.findall(rb"^  committed ", out, re.M))
    want(again.out == b"replayed %d\n" % count, f"{count} were committed, and replay says {again.out}")
    for end in (".img", ".journal"):
        want(again.files["Again" + end] == files[save + end], f"replay leads to another {end}")
    place.accepted[key] = True


# The verdict on a run.

def judge_first_files(words, before, whole, found):
    """Whether the folder has, besides what lay there, the first of the files of the full run. Says which."""
    order = files_in_order(words, {n: c for n, c in whole.items() if before.get(n) != c})
    new = {n: c for n, c in found.items() if before.get(n) != c}
    want(all(n in found for n in before), "a file is gone")
    want(list(new.keys() - set(order)) == [], "there is another file: " + " ".join(sorted(new.keys() - set(order))))
    want(all(n in new for n in order[:len(new)]), "files were put, but not the first: " + " ".join(sorted(new)))
    want(all(new[n] == whole[n] for n in new), "the files are others: " + differing(new, whole))
    return "files" if new else "12"


def judge(place, case, ended):
    """In which of the stated ways a run ended."""
    call, full = case.call, case.full
    want(ended.refused == 1, f"memory was refused {ended.refused} times")
    if ended.status == 12:
        want(ended.err == LACKS_MEMORY, f"standard error has {ended.err[:200]}")
        want(ended.out == b"", f"standard output has {ended.out[:200]}")
        return judge_first_files(call.words, call.files, full.files, ended.files)
    want(b"out of memory" not in ended.err, f"standard error has {ended.err[:200]}")
    if (ended.status, ended.out, ended.files) == (full.status, full.out, full.files):
        return "full"
    want(call.words[0] == "step" and full.status == 0 and ended.status == 0,
         f"status {ended.status} (without a refusal {full.status}), {ended.out[:200]} {ended.err[:200]} "
         + differing(ended.files, full.files))
    judge_lacking(place, call, ended)
    judge_accepted(place, call.words, ended.out, ended.files)
    return "E30"


# Processes.

PLACE = None


def begin(program, library, root):
    global PLACE
    PLACE = Place(program, library, root)


def calls_behind(call, full):
    """The calls that read the files which a `step` left, if it left any."""
    if call.words[0] != "step" or not full.files:
        return []
    save = save_of(call.words)
    images, digests = images_of(save, full.files), save + ".digests"
    calls = [["verify", image, digests] for image in images]
    calls += [["replay", save + ".journal", "--save", "Again"], ["extract", images[0], images[-1], digests]]
    return [Call(words, b"", full.files) for words in calls]


def case_of(call):
    full, twice = PLACE.run(call), PLACE.run(call)
    want(full == twice, f"two runs of {' '.join(call.words)} differ")
    want(full.calls > 0, "the program takes no memory by malloc")
    return Case(call, full)


def prepared(name, calls, parts):
    """The cases of an input; and what is wrong with it, if anything is."""
    cases = []
    try:
        for call in calls:
            full = PLACE.run(call)
            if call.words[0] == "step" and full.files:
                judge_accepted(PLACE, call.words, full.out, full.files)
            cases += [case_of(one) for one in [call, *calls_behind(call, full)] if one.words[0] in parts]
    except Unstated as fault:
        return name, [], [f"{name}: {fault}"]
    return name, cases, []


def tried(case, ks):
    """The word of the case, counts of the ways in which the runs with these calls refused ended, the seconds that
    they took, and the faults."""
    counts, faults, began = collections.Counter(), [], time.monotonic()
    for k in ks:
        ended = PLACE.run(case.call, k)
        try:
            counts[judge(PLACE, case, ended)] += 1
        except Unstated as fault:
            counts["unstated"] += 1
            PLACE.run(case.call, k)
            faults.append(f"    {' '.join(case.call.words)}, call {k} of {case.full.calls}, for {ended.bytes} bytes: "
                          f"{fault} ({PLACE.keep()})")
    return case.call.words[0], counts, time.monotonic() - began, faults


def apply(given):
    function, *rest = given
    return function(*rest)


def chunks(cases, at):
    for case in cases:
        ks = range(1, case.full.calls + 1) if at is None else range(at, min(at, case.full.calls) + 1)
        for first in range(0, len(ks), CHUNK):
            yield tried, case, ks[first:first + CHUNK]


# The table.

def row(name, counts):
    cells = ["".join(f"{counts[part][kind]:8}" for kind in kinds) for part, kinds in SHOWN.items()]
    return f"{name[:48]:48}" + " |".join(cells)


def heads():
    above = "".join(f"{part:>8}" + " " * (8 * len(kinds) - 6) for part, kinds in SHOWN.items())
    return f"{'':48}{above}".rstrip() + "\n" + f"{'input':48}" + " |".join(
        "".join(f"{kind:>8}" for kind in kinds) for kinds in SHOWN.values())


def units(options):
    """Name and calls of each line of the table."""
    silent = []
    for name, call in inputs(options.most):
        if call.text:
            yield name, [call]
        else:
            silent.append(call)
    yield f"{len(silent)} lines of step that read nothing", silent
    for part in PARTS[1:]:
        calls = [call for _, call in lines_on_files(options.most) if call.words[0] == part]
        yield f"{len(calls)} lines of {part} on data/", calls


def sweep(pool, options):
    """Tries all; prints a line for each input, and the faults. Answers the totals by word, and how many faults."""
    totals, seconds, failed, count = {part: collections.Counter() for part in PARTS}, collections.Counter(), 0, 0
    works = [(prepared, name, calls, options.part) for name, calls in units(options)
             if not options.names or any(n in name for n in options.names)]
    for name, cases, faults in pool.imap(apply, works):
        counts = {part: collections.Counter() for part in PARTS}
        for part, new, took, told in pool.imap_unordered(apply, chunks(cases, options.at)):
            counts[part] += new
            totals[part] += new
            seconds[part] += took
            faults += told
        print(row(name, counts), *faults, sep="\n", flush=True)
        failed += len(faults)
        count += 1
    print(row("all", totals))
    return count, totals, seconds, failed


def main():
    parser = argparse.ArgumentParser(usage=__doc__)
    parser.add_argument("program", type=os.path.abspath)
    parser.add_argument("--jobs", type=int, default=1)
    parser.add_argument("--most", type=int, default=32768)
    parser.add_argument("--part", type=lambda words: words.split(","), default=PARTS)
    parser.add_argument("--at", type=int)
    parser.add_argument("names", nargs="*")
    options = parser.parse_intermixed_args()
    began = time.monotonic()
    with tempfile.TemporaryDirectory(prefix="refuse-") as root:
        library = os.path.join(root, "refuse.so")
        subprocess.run(["cc", "-O2", "-shared", "-fPIC", "-o", library, os.path.join(HERE, "refuse.c")], check=True)
        print(heads())
        with multiprocessing.Pool(options.jobs, begin, (options.program, library, root)) as pool:
            count, totals, seconds, failed = sweep(pool, options)
    runs = ", ".join(f"{sum(totals[p].values())} of {p} ({seconds[p]:.0f} s)" for p in PARTS)
    print(f"{count} lines, runs with memory refused: {runs}; {time.monotonic() - began:.0f} s by the clock, "
          f"{options.jobs} at a time; {failed} unstated")
    return failed > 0


if __name__ == "__main__":
    sys.exit(main())
