#!/usr/bin/env python3
"""Tries the wrong bodies of crates, in `must-fail/` and beside the gate in `wrong-bodies/`: the prover has to refuse each.

    python3 bench/wrong_bodies.py                 says which are overdue, and ends with 1 where some are
    python3 bench/wrong_bodies.py NAME..          tries those of these crates that are overdue
    python3 bench/wrong_bodies.py --all           tries all that are overdue
    python3 bench/wrong_bodies.py --anew NAME..   tries those of these crates, overdue or not
    --jobs N                                      so many side by side, 2 where nothing is said

A wrong body is overdue where its text, or the src/, specs/ or proofs/ of its crate, isn't as it stood when it was last refused;
`bench/wrong_bodies.txt` says at which commit that was. What stands below the crate isn't looked at: what a crate claims of itself
stands in its own folders.

Each is tried on a copy of its crate, over the libraries that `rt ci` kept on this machine: call `rt ci NAME` first. Those of a crate
that stand in different functions are tried in one check of these functions alone: a function is held to its contract by what those
that it calls promise, so none of them hides another. One that isn't refused so is tried by itself, its function alone, in ten to
twenty seconds, and then with its whole crate, since a caller may refuse it. This reads `rt` itself (a Python program) for how a crate
is checked.
"""
import concurrent.futures
import hashlib
import importlib.machinery
import importlib.util
import os
import re
import shutil
import subprocess
import sys
import tempfile
import threading

TOP = os.path.dirname(os.path.dirname(os.path.abspath(__file__)))
RECORD = f"{TOP}/bench/wrong_bodies.txt"


def git(*words):
    return subprocess.run(["git", "-C", TOP, *words], capture_output=True, text=True).stdout


def edits_of(name):
    found = []
    for folder in ("must-fail", "wrong-bodies"):
        at = f"{TOP}/crates/{name}/{folder}"
        if os.path.isdir(at):
            found += [f"{folder}/{it}" for it in sorted(os.listdir(at)) if it.endswith(".edit")]
    return found


def sum_of(name, edit):
    """A sum of what the edit's refusal stands on: its text and the crate's own folders."""
    sum = hashlib.sha1()
    for part in ("src", "specs", "proofs"):
        for at, folders, files in os.walk(f"{TOP}/crates/{name}/{part}"):
            folders.sort()
            for it in sorted(files):
                with open(f"{at}/{it}", "rb") as text:
                    sum.update(repr((os.path.relpath(f"{at}/{it}", f"{TOP}/crates/{name}"), text.read())).encode())
    with open(f"{TOP}/crates/{name}/{edit}", "rb") as text:
        sum.update(text.read())
    return sum.hexdigest()[:12]


def record():
    """Of each wrong body the commit at which it was last refused, and the sum of what it stood on."""
    found = {}
    if os.path.isfile(RECORD):
        with open(RECORD, encoding="utf-8") as it:
            for line in it:
                words = line.split()
                if len(words) == 3:
                    found[words[0]] = words[1:]
    return found


def write_record(found):
    with open(f"{RECORD}.new", "w", encoding="utf-8") as it:
        it.write("".join(f"{key} {commit} {sum}\n" for key, (commit, sum) in sorted(found.items())))
    os.replace(f"{RECORD}.new", RECORD)


def function_of(crate, edit):
    """The path of the function in which the edit's first text stands, or of its module."""
    with open(edit, encoding="utf-8") as it:
        lines = it.read().split("\n")
    file = next(it[6:].strip() for it in lines if it.startswith("file: "))
    old = next(it[5:] for it in lines if it.startswith("old: "))
    if not file.startswith("src/"):
        return None
    parts = file[4:-3].split("/")
    if parts[-1] in ("lib", "main", "mod"):
        parts.pop()
    with open(f"{os.path.dirname(os.path.dirname(edit))}/{file}", encoding="utf-8") as it:
        text = it.read()
    before = text[: text.index(old)].split("\n")
    if re.match(r"\s*(pub(\([a-z]+\))? )?(const )?fn ", old):
        before.append(old)
    else:
        before[-1] += old.split("\n")[0]
    function, kind = None, None
    for line in reversed(before):
        if not function:
            found = re.match(r"(\s*)(pub(\([a-z]+\))? )?(const )?fn (\w+)", line)
            if found:
                function = found[5]
                if not found[1]:
                    break
        elif re.match(r"impl\b", line):
            found = re.match(r"impl(<.*?>)? (?:[\w:]+(?:<.*>)? for )?(\w+)", line)
            kind = (found and found[2]) if " for " not in line else ""
            break
        elif re.match(r"(trait|pub trait)\b", line):
            kind = ""
            break
    module = "::".join([crate, *parts])
    if not function or kind == "":
        return module
    return "::".join([module, *([kind] if kind else []), function])


def added(texts, edit, folder):
    """The texts of a crate's files with one more edit in them; none where it can't be applied beside the others."""
    texts, file, old = dict(texts), "", None
    with open(edit, encoding="utf-8") as it:
        lines = it.read().split("\n")
    for line in lines:
        if line.startswith("file: "):
            file = line[6:].strip()
            if file not in texts:
                with open(f"{folder}/{file}", encoding="utf-8") as it:
                    texts[file] = it.read()
        elif line.startswith("old: "):
            old = line[5:]
        elif line.startswith("new:") and old:
            if texts[file].count(old) != 1:
                return None
            texts[file] = texts[file].replace(old, line[4:].removeprefix(" "))
            old = None
    return texts


class Tries:
    """The crates of a copy of this checkout, over the libraries that `rt ci` kept."""

    def __init__(self, copy):
        loader = importlib.machinery.SourceFileLoader("rt_of_the_kit", shutil.which("rt"))
        spec = importlib.util.spec_from_loader("rt_of_the_kit", loader)
        self.rt = importlib.util.module_from_spec(spec)
        loader.exec_module(self.rt)
        os.chdir(copy)
        self.rt.rtlib.guarded()
        self.rt.Crate.cuts_libraries = True
        self.rt.Crate.allowed = self.rt.handles_of(copy)
        self.crates = {it.name: it for it in self.rt.crates_of(copy)}
        self.kept = self.rt.Kept([*self.crates.values()])
        self.given = {}
        self.alone = threading.Lock()

    def has_libraries(self, name):
        """Are the libraries below the crate at hand?"""
        with self.alone:
            return all(self.give(it) for it in self.crates[name].below())

    def give(self, crate):
        if crate.name not in self.given:
            self.given[crate.name] = all(self.give(it) for it in crate.below()) and self.kept.give(crate, False, self.kept.key(crate))
            if self.given[crate.name]:
                self.kept.is_built(crate)
        return self.given[crate.name]

    def together(self, name, edits):
        """Tries edits of different functions in one check, and gives those that were refused, each with its function, and those
        that stand in a function of another one."""
        crate, texts, only, left = self.crates[name], {}, {}, []
        for edit in edits:
            path = f"{crate.folder}/{edit}"
            if self.rt.read_edit(path, crate.folder)[1]:
                continue
            function = function_of(name, path)
            if not function or function.count("::") < 2:
                continue
            more = None if function in only.values() else added(texts, path, crate.folder)
            if more is None:
                left.append(edit)
                continue
            texts, only[edit] = more, function
        if len(only) < 2:
            return {}, left
        words = [word for function in only.values() for word in ("--only", function)]
        ran = self.rt.checked(crate, texts, ["--jobs", "1", *words], None)
        refused = {*re.findall(r"^fn (\S+): not proved", ran.stdout, re.M)} if re.search(r"^only=", ran.stdout, re.M) else set()
        return {edit: function for edit, function in only.items() if function in refused}, left

    def outcome(self, name, edit):
        """What a try of the edit comes to, and what is said of it."""
        crate, path = self.crates[name], f"{self.crates[name].folder}/{edit}"
        texts, why = self.rt.read_edit(path, crate.folder)
        if why:
            return "BAD EDIT", why
        only = function_of(name, path)
        while only:
            ran = self.rt.checked(crate, texts, ["--jobs", "1", "--only", only], None)
            refused = re.search(r"^fn \S+: not proved", ran.stdout, re.M)
            if ran.returncode == 1 and refused and re.search(r"^only=", ran.stdout, re.M):
                return "refused", only
            if ran.returncode == 0 and re.search(r"^only=[1-9]", ran.stdout, re.M):
                break
            if ran.returncode == 1 and re.search(r"\berror\[[\w-]+\]", ran.stdout) and "only" not in ran.stdout:
                return "BAD EDIT", ran.stdout.strip().split("\n")[0][:200]
            # (no function of this path: its module)
            only = only.rpartition("::")[0] if only.count("::") > 1 else None
        kind, said = self.rt.must_fail(crate, path, ["--jobs", "1"])
        return {"refused": "refused", "limit": "refused", "bad": "BAD EDIT", "missed": "NOT REFUSED"}.get(kind, "NOT TRIED"), said[:300]


def main(words):
    jobs, is_all, is_anew, names = 2, False, False, []
    while words:
        word = words.pop(0)
        if word == "--jobs" and words:
            jobs = max(1, int(words.pop(0)))
        elif word == "--all":
            is_all = True
        elif word == "--anew":
            is_anew = True
        else:
            names.append(word)
    found = record()
    every = [(name, edit) for name in sorted(os.listdir(f"{TOP}/crates")) for edit in edits_of(name)]
    is_overdue = lambda name, edit: found.get(f"{name}/{edit}", ["", ""])[1] != sum_of(name, edit)
    for key in {*found} - {f"{name}/{edit}" for name, edit in every}:
        del found[key]
    if not names and not is_all:
        overdue = [f"{name}/{edit}" for name, edit in every if is_overdue(name, edit)]
        print("\n".join([*overdue, f"{len(overdue)} of {len(every)} wrong bodies are overdue"]))
        return 1 if overdue else 0
    todo = [(name, edit) for name, edit in every if (is_all or name in names) and (is_anew or is_overdue(name, edit))]
    commit, failed, alone = git("rev-parse", "--short=10", "HEAD").strip(), 0, threading.Lock()
    if git("status", "--porcelain", "--", *[f"crates/{name}" for name in {it[0] for it in todo}]).strip():
        print("commit first: the record says at which commit a wrong body was refused")
        return 2
    with tempfile.TemporaryDirectory(prefix="wrong-bodies-") as copy:
        shutil.copytree(f"{TOP}/crates", f"{copy}/crates", ignore=lambda at, names: ["out"] if os.path.dirname(at).endswith("crates") else [])
        for it in ("crates.txt", "HANDLES"):
            shutil.copyfile(f"{TOP}/{it}", f"{copy}/{it}")
        os.mkdir(f"{copy}/.git")
        tries = Tries(copy)

        def tell(name, edit, kind, said):
            nonlocal failed
            with alone:
                print(f"{name}/{edit}: {kind}: {said}", flush=True)
                if kind == "refused":
                    found[f"{name}/{edit}"] = [commit, sum_of(name, edit)]
                    write_record(found)
                else:
                    failed += 1

        def of_crate(name, edits):
            if not tries.has_libraries(name):
                for edit in edits:
                    tell(name, edit, "NOT TRIED", f"the libraries below aren't kept: call rt ci {name}")
                return
            next_round, single = edits, [*edits]
            while next_round:
                refused, next_round = tries.together(name, next_round)
                for edit, function in refused.items():
                    tell(name, edit, "refused", function)
                    single.remove(edit)
            for edit in single:
                tell(name, edit, *tries.outcome(name, edit))

        of = {}
        for name, edit in todo:
            of.setdefault(name, []).append(edit)
        with concurrent.futures.ThreadPoolExecutor(jobs) as pool:
            for it in [pool.submit(of_crate, *it) for it in of.items()]:
                it.result()
        os.chdir(TOP)
    print(f"{len(todo) - failed} refused, {failed} not")
    return 1 if failed else 0


if __name__ == "__main__":
    sys.exit(main(sys.argv[1:]))
