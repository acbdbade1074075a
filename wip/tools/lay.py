#!/usr/bin/env python3
"""At a clone's top: lays the kept rlibs of all crates whose files and libraries are kept."""
import sys, os, shutil
from importlib.machinery import SourceFileLoader
import importlib.util
sys.path.insert(0, "/opt/rattle/bin")
import rtlib
original = rtlib.Crate.stamp
loader = SourceFileLoader("rtmain", "/usr/local/bin/rt")
spec = importlib.util.spec_from_loader("rtmain", loader)
rt = importlib.util.module_from_spec(spec)
loader.exec_module(rt)
rt.Crate.allowed = ("Threads", "Wait", "Net")
root = os.getcwd()
crates = rt.crates_of(root)
kept = rt.Kept(crates)
laid = []
for crate in crates:
    if crate.is_program: continue
    if not all(d in kept.rlibs for d in crate.below()) and hasattr(kept, 'rlibs'):
        pass
    try:
        key = kept.key(crate)
    except Exception as e:
        continue
    place = kept.place(crate, False, key)
    if os.path.isdir(place):
        shutil.rmtree(f"{crate.folder}/out/rlib", ignore_errors=True)
        kept.give(crate, False, key)
        kept.is_built(crate)
        with open(f"{crate.folder}/out/rlib/stamp", "w") as f: f.write(original(crate))
        laid.append(crate.name)
print(len(laid), ' '.join(laid))
