"""What the tools here take from the kit's command `rt`: the crates, their wrong bodies, and one check of a crate with some texts changed.

It loads the `rt` that is on the path. The libraries below a crate are taken as they stand built (`rt check` in its folder builds them).
"""
import glob
import os
import shutil
import subprocess
import sys
import tempfile
from collections import namedtuple
from importlib.machinery import SourceFileLoader
from importlib.util import module_from_spec, spec_from_loader

sys.dont_write_bytecode = True
# The first tier of wrong bodies, and the second.
TIERS = ("must-fail", "mutants")

Checked = namedtuple("Checked", "status said seconds stages")


def loaded(path, name):
    loader = SourceFileLoader(name, path)
    made = module_from_spec(spec_from_loader(name, loader))
    sys.modules[name] = made
    loader.exec_module(made)
    return made


def rt():
    if "rt_main" not in sys.modules:
        found = shutil.which("rt")
        if not found:
            sys.exit("rt is not on the path: the kit's folder bin/ has it")
        loaded(os.path.realpath(found), "rt_main")
    return sys.modules["rt_main"]


def crates():
    """The crates of the repository, at whose top this runs, lowest first."""
    return rt().rtlib.crates_below(os.getcwd())


def crate_named(name):
    found = [it for it in crates() if it.name == name]
    if not found:
        sys.exit(f"{name} is no crate below this folder: run this at the top of the repository")
    return found[0]


def edits_of(name, words=()):
    """The wrong bodies of a crate in both tiers, or those whose names have one of the words."""
    found = [it for tier in TIERS for it in sorted(glob.glob(f"crates/{name}/{tier}/*.edit"))]
    return [it for it in found if not words or any(word in os.path.basename(it) for word in words)]


def texts_of(edit, crate):
    """The texts of the files that an edit changes, or why it can't be applied."""
    return rt().read_edit(edit, crate.folder)


def take_kept():
    """Gives each library of the repository, the lowest first, what an earlier `rt ci` on this machine proved of the same text, so that it
    is not proved here once more. A kit from 13f on keeps that. What stands built here stays."""
    main, top = rt(), os.getcwd()
    if not hasattr(main, "Kept"):
        return
    main.Crate.cuts_libraries, main.Crate.allowed = True, main.handles_of(top)
    # (a library for C has no such folder, and none stands on it)
    found = [it for it in main.crates_of(top) if not it.is_program and not it.is_static]
    kept = main.Kept(found)
    for crate in found:
        if not crate.is_built():
            # (what is given is linked, and must not be linked onto itself)
            shutil.rmtree(f"{crate.folder}/out/rlib", ignore_errors=True)
            if not kept.give(crate, False, kept.key(crate)):
                continue
            with open(f"{crate.folder}/out/rlib/stamp", "w", encoding="utf-8") as it:
                it.write(crate.stamp())
        kept.is_built(crate)


def linked(folder, to):
    """A copy of kept work. What was proved is linked where it can be: a check replaces such a file, and never writes into one."""

    def copy(one, other):
        try:
            if one.endswith(".oantt"):
                return os.link(one, other)
        except OSError:
            pass
        return shutil.copy2(one, other)

    shutil.rmtree(to, ignore_errors=True)
    shutil.copytree(folder, to, symlinks=True, copy_function=copy)
    return to


def rt_check(crate):
    """`rt check` in the crate's folder, by one job: its status, and what it said."""
    how = {"stdin": subprocess.DEVNULL, "stdout": subprocess.PIPE, "stderr": subprocess.STDOUT, "text": True, "errors": "replace"}
    ran = subprocess.run(["rt", "check", "--jobs", "1"], cwd=crate.folder, **how)
    return ran.returncode, ran.stdout


def proved(crate):
    """Checks the crate by one job, over what was kept, with the libraries below it, and gives the folder of its kept work."""
    status, said = rt_check(crate)
    if status:
        sys.exit(f"{said[-2000:]}\n{crate.name} is not proved")
    return f"{crate.folder}/out/incremental"


def check(crate, texts, kept, is_again=False):
    """A check of the crate with these texts in the place of its own, by one job, over a folder of kept work, as `rt ci` makes it
    of an edit. One that was killed is made once more."""
    rtlib = rt().rtlib
    with tempfile.TemporaryDirectory(prefix="kit-check-") as room:
        for part in rtlib.PARTS:
            if os.path.isdir(f"{crate.folder}/{part}"):
                shutil.copytree(f"{crate.folder}/{part}", f"{room}/{part}")
        for path, text in texts.items():
            with open(f"{room}/{path}", "w", encoding="utf-8") as it:
                it.write(text)
        words = [rtlib.RATTLE, "check", *crate.words(["--jobs", "1"], keeps=False)]
        words += ["--incremental", kept, "--stage-times", f"{room}/stages"]
        how = {"stdin": subprocess.DEVNULL, "stdout": subprocess.PIPE, "stderr": subprocess.STDOUT, "errors": "replace"}
        ran = subprocess.Popen([*rtlib.guarded(), *words], cwd=room, **how)
        said = ran.stdout.read()
        _, status, spent = os.wait4(ran.pid, 0)
        ran.returncode = os.waitstatus_to_exitcode(status)
        lines = (rtlib.text_of(f"{room}/stages") or "").split("\n")
        stages = {it[1]: float(it[2]) for it in map(str.split, lines) if it[:1] == ["stage"]}
    if ran.returncode < 0 and not is_again:
        return check(crate, texts, kept, True)
    return Checked(ran.returncode, said, spent.ru_utime + spent.ru_stime, stages)


def is_refused(tried):
    return tried.status == 1 and tried.said.rstrip("\n").split("\n")[-1].startswith("logic=not-proved")
