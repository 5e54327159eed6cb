"""Tries wrong programs of a crate together, if each changes the bodies of other functions.

A function is proved against the contracts of what it calls. So the body of one says nothing of the proof of another, and what the prover
says of a function in a check of several wrong programs is what it says of the only one that changes it. An edit counts as refused here only by
a line about one of its own functions. Each edit without such a line has a check of its own, and without one then too is left to be tried alone.
So is an edit of a definition or a contract, as those of a crate of laws are: its refusal stands in a lemma or in the proof of another function.
"""
import os
import re
import shutil
import subprocess
import sys
import tempfile
from concurrent.futures import ThreadPoolExecutor
from dataclasses import dataclass, field
from threading import Lock, Semaphore

sys.path.insert(0, os.path.dirname(os.path.dirname(os.path.realpath(__file__))) + "/bench")
from kit import load, remember_stamps, stamp_libraries

PARTS = ("src", "specs", "proofs")
FUNCTION = re.compile(r"^( *)(?:pub(?:\([a-z]+\))? )?(?:(?:final|const|unsafe) )*fn (\w+)")
# What the prover says of a goal: at a place of the source, or in the proof that a function has by hand.
AT_SOURCE = re.compile(r"^note: (src/\S+\.rt):(\d+):\d+: (it is not proved .*)", re.M)
IN_ANSWERS = re.compile(r"^(?:\./)?proofs/(\S+)/\w+\.antt:\d+:\d+: (error: .*)", re.M)
# A proof that names what the edit took away says little of a contract.
BY_NAME = re.compile(r"has no field|is not in scope|has no `|was not admitted")
PROVED = re.compile(r"^logic=proved", re.M)
WORDS_SHOWN = 120
# Edits that are tried in one check, which has one processor.
EDITS_A_CHECK = 8


@dataclass(frozen=True)
class Function:
    """A function of a source file, with its first line, that of its body, and its last one, from 0."""

    file: str
    owner: str
    name: str
    first: int
    body: int
    last: int

    def proof_folder(self):
        """Returns the folder below proofs/ of the function's proof by hand."""
        module = self.file[len("src/") : -len(".rt")]
        module = module.removesuffix("/mod")
        return "/".join(word for word in (module, self.owner, self.name) if word)


@dataclass
class Edit:
    """A wrong program: its texts to be replaced by file, and the functions whose bodies hold these; None if one stands elsewhere."""

    name: str
    pairs: dict = field(default_factory=dict)
    functions: frozenset = None


def text_of(path):
    with open(path, encoding="utf-8") as file:
        return file.read()


# ---- the functions that an edit changes


def owner_of(lines, at, indent):
    """Returns the type of the impl block around a line, or an empty text."""
    if not indent:
        return ""
    above = next((line for line in reversed(lines[:at]) if line and not line[0].isspace() and line[0] not in "})#/"), "")
    named = re.match(r"(?:impl|trait|pub trait)(?:<[^>]*>)? (?:.* for )?(\w+)", above)
    return named[1] if named else ""


def functions_of(file, text):
    """Returns the functions of a source file as `rt fmt` lays it out."""
    lines, found = text.split("\n"), []
    for first, line in enumerate(lines):
        begun = FUNCTION.match(line)
        if not begun:
            continue
        indent = begun[1]
        # The prover names the first line of a function's attributes.
        while first and lines[first - 1].startswith(f"{indent}#["):
            first -= 1
        last = next((at for at in range(first, len(lines)) if lines[at] == indent + "}"), None)
        body = next((at for at in range(first, len(lines)) if lines[at] == indent + "{" or re.match(rf"{indent}\S.*\{{$", lines[at])), None)
        if last is not None and body is not None and body < last:
            found.append(Function(file, owner_of(lines, first, indent), begun[2], first, body, last))
    return found


def read_edit(path, folder):
    """Reads an edit of the crate in this folder."""
    edit, file, old, places = Edit(os.path.basename(path)[: -len(".edit")]), None, None, []
    for line in text_of(path).split("\n"):
        word, _, rest = line.partition(": ")
        if word == "file":
            file = rest.strip()
            functions = functions_of(file, text_of(f"{folder}/{file}")) if file.startswith("src/") else []
        elif word == "old":
            old = rest
            at = text_of(f"{folder}/{file}").partition(old)[0].count("\n")
            places.append(next((it for it in functions if it.body <= at <= it.last), None))
        elif old is not None and (word == "new" or line == "new:"):
            edit.pairs.setdefault(file, []).append((old, rest))
            old = None
    edit.functions = None if None in places else frozenset(places)
    return edit


def edited_texts(edits, folder):
    """Returns the texts of the files that these edits change, by file. None if one of them cannot be applied after the others."""
    texts = {}
    for edit in edits:
        for file, pairs in edit.pairs.items():
            text = texts.get(file) or text_of(f"{folder}/{file}")
            for old, new in pairs:
                if text.count(old) != 1:
                    return None
                text = text.replace(old, new)
            texts[file] = text
    return texts


def groups_of(edits, folder):
    """Returns groups of edits, of about the same size, of which no two change the same function."""
    groups = [[] for _ in range(-(-len(edits) // EDITS_A_CHECK))]
    for edit in filter(lambda it: it.functions, edits):
        for group in sorted(groups, key=len):
            apart = all(edit.functions.isdisjoint(other.functions) for other in group)
            if apart and edited_texts([*group, edit], folder) is not None:
                group.append(edit)
                break
        else:
            groups.append([edit])
    return list(filter(None, groups))


# ---- what the prover says


def says_of(said, functions):
    """Returns the first line of the prover about a goal of one of these functions, or None."""
    for file, line, words in AT_SOURCE.findall(said):
        # Each edit is one line for one line, so that no place moves.
        if any(it.file == file and it.first <= int(line) - 1 <= it.last for it in functions):
            return f"{file}:{line}: {words[:WORDS_SHOWN]}"
    for place, words in IN_ANSWERS.findall(said):
        if any(it.proof_folder() == place for it in functions) and not BY_NAME.search(words):
            return f"proofs/{place}: {words[:WORDS_SHOWN]}"
    return None


def link_or_copy(one, other):
    """Copies what was proved by a link: a check replaces such a file, and changes none."""
    try:
        if one.endswith(".oantt"):
            return os.link(one, other)
    except OSError:
        pass
    return shutil.copy2(one, other)


class Batches:
    """Tries the edits of crates of a repository."""

    def __init__(self, root, lanes):
        self.rtlib = load("rtlib", "rtlib.py")
        remember_stamps(self.rtlib.Crate)
        self.guard = self.rtlib.guarded()
        self.crates = {it.name: it for it in self.rtlib.crates_below(root)}
        self.free, self.building = Semaphore(lanes), Lock()

    def stamp_libraries(self):
        """Marks each library that is there as proved from the sources as they stand."""
        stamp_libraries(self.crates.values())

    def build_below(self, crate):
        """Builds the libraries below a crate that are not built. Returns whether all are proved."""
        with self.building:
            return not any(below.build_rlib(["--jobs", "1"], anew=False) for below in crate.below())

    def check(self, crate, texts, kept):
        """Checks the crate with these texts in place of its own, over what `kept` holds. Returns what the prover says."""
        with self.free, tempfile.TemporaryDirectory(prefix="batch-") as room:
            for part in PARTS:
                if os.path.isdir(f"{crate.folder}/{part}"):
                    shutil.copytree(f"{crate.folder}/{part}", f"{room}/{part}")
            for path, text in texts.items():
                with open(f"{room}/{path}", "w", encoding="utf-8") as file:
                    file.write(text)
            words = [self.rtlib.RATTLE, "check", *crate.words(["--jobs", "1"], keeps=False), "--incremental", kept]
            how = {"cwd": room, "stdin": subprocess.DEVNULL, "stdout": subprocess.PIPE, "stderr": subprocess.STDOUT, "text": True, "errors": "replace"}
            return subprocess.run([*self.guard, *words], **how, check=False).stdout

    def try_group(self, crate, group, seed):
        """Returns the edits of a group that are refused, with what the prover said of each."""
        texts = edited_texts(group, crate.folder)
        with tempfile.TemporaryDirectory(prefix="batch-kept-") as room:
            kept = shutil.copytree(seed, f"{room}/kept", copy_function=link_or_copy)
            said = self.check(crate, texts, kept)
        if not re.search(r"^logic=", said, re.M):
            # One of them does not reach the prover, and keeps the others from it.
            half = len(group) // 2
            return {**self.try_group(crate, group[:half], seed), **self.try_group(crate, group[half:], seed)} if half else {}
        told = {it.name: says_of(said, it.functions) for it in group}
        return {name: line for name, line in told.items() if line}

    def try_crate(self, name, edits):
        """Returns the edits of a crate that are refused together with others, with what the prover said of each."""
        crate, started = self.crates[name], f"{self.crates[name].folder}/out/incremental"
        groups = groups_of([read_edit(it, crate.folder) for it in edits], crate.folder)
        if not groups and os.path.isdir(started):
            print(f"edits: {name}: none of {len(edits)} changes the body of a function, each is tried by itself", flush=True)
            return {}
        with tempfile.TemporaryDirectory(prefix="batch-seed-") as room, ThreadPoolExecutor(len(groups) or 1) as pool:
            # Where no check kept anything, the edits that are tried alone begin with what this one keeps.
            seed = shutil.copytree(started, f"{room}/seed", copy_function=link_or_copy) if os.path.isdir(started) else started
            os.makedirs(seed, exist_ok=True)
            if not self.build_below(crate) or not PROVED.search(self.check(crate, {}, seed)):
                print(f"edits: {name} is not proved as it stands", flush=True)
                return {}
            refused = {}
            for found in pool.map(lambda group: self.try_group(crate, group, seed), groups):
                refused.update(found)
            # A goal waits for the proof of each function that its own one calls, and so for that of another edit of its group.
            left = [[edit] for group in groups if len(group) > 1 for edit in group if edit.name not in refused]
            for found in pool.map(lambda group: self.try_group(crate, group, seed), left):
                refused.update(found)
        for edit, line in sorted(refused.items()):
            print(f"edits: {name}/{edit} is refused: {line}", flush=True)
        print(f"edits: {name}: {len(refused)} of {len(edits)} refused in {len(groups) + len(left)} checks", flush=True)
        return refused
