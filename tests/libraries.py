"""The repository's crates with the libraries below them, by the parts of `rt` itself. What `rt ci` passed is kept beside the kit by the checksum
of all that it read, and is taken from there, into a copy of the crates; other commands of rt would prove it once more."""

import atexit
import importlib.machinery
import importlib.util
import os
import shutil
import sys
import tempfile

sys.dont_write_bytecode = True
ROOT = os.path.dirname(os.path.dirname(os.path.realpath(__file__)))


def rt_itself():
    found = shutil.which("rt")
    if not found:
        sys.exit("rt isn't on the path")
    loader = importlib.machinery.SourceFileLoader("rt", os.path.realpath(found))
    rt = importlib.util.module_from_spec(importlib.util.spec_from_loader("rt", loader))
    loader.exec_module(rt)
    return rt


class Libraries:
    def __init__(self):
        self.rt = rt = rt_itself()
        os.chdir(ROOT)
        # (its first call sets a signal's handler, which only the main thread may)
        rt.rtlib.guarded()
        rt.Crate.allowed = rt.handles_of(ROOT)
        # (builds begin with what checks on this machine kept, and leave no word of the copy)
        rt.share_work(False)
        rt.offer = lambda *_: None
        self.own = {it.name: it for it in rt.rtlib.crates_below(ROOT)}
        room = tempfile.mkdtemp(prefix=f"rt-copy-{os.getpid()}-")
        atexit.register(shutil.rmtree, room, ignore_errors=True)
        rt.copy_crates(ROOT, f"{room}/repo")
        os.mkdir(f"{room}/repo/.git")
        os.chdir(f"{room}/repo")
        self.copies = {it.name: it for it in rt.rtlib.crates_below(f"{room}/repo")}
        os.chdir(ROOT)
        self.kept, self.given = rt.Kept([*self.copies.values()]), {}

    def give(self, crate):
        """Gives a crate of the copy the library that rt ci made of the same text over the same libraries, and returns whether it could."""
        if crate.name not in self.given:
            found = all([self.give(it) for it in crate.deps])
            if found:
                os.makedirs(f"{crate.folder}/out", exist_ok=True)
                found = self.kept.give(crate, False, self.kept.key(crate))
            if found:
                self.kept.is_built(crate)
            self.given[crate.name] = found
        return self.given[crate.name]

    def ready(self, name):
        """The crate with the libraries below it: in the copy, where rt ci passed them, or else as `rt lib` builds them; None where they don't build."""
        crate = self.copies[name]
        if all([self.give(it) for it in crate.below()]):
            return crate
        crate = self.own[name]
        built = all(it.is_built() or it.build_rlib(["--jobs", "1"], anew=False) == 0 for it in crate.below())
        return crate if built else None
