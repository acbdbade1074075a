#!/usr/bin/env python3
"""In a crate's folder: rattle check of it; kept libraries are laid and taken as they are, the
others as source. Flags go to rattle. One of two places, and only while memory is free."""
import sys, os, fcntl, time, subprocess
sys.path.insert(0, "/opt/rattle/bin")
import rtlib
def free_mb():
    for line in open("/proc/meminfo"):
        if line.startswith("MemAvailable"):
            return int(line.split()[1]) // 1024
held = None
said = False
while held is None:
    for n in (1, 2):
        f = open(f"/tmp/src-place-{n}", "w")
        try:
            fcntl.flock(f, fcntl.LOCK_EX | fcntl.LOCK_NB)
        except OSError:
            continue
        if free_mb() > 5000:
            held = f
            break
        f.close()
    if held is None:
        if not said:
            print("waiting for memory: other checks run", file=sys.stderr, flush=True)
            said = True
        time.sleep(5)
os.set_inheritable(held.fileno(), True)
here = os.getcwd()
root = rtlib.root_above(here)
laid = subprocess.run([sys.executable, os.path.join(os.path.dirname(os.path.abspath(__file__)), "lay.py")], cwd=root, capture_output=True, text=True)
print("laid:", laid.stdout.strip()[:400], file=sys.stderr, flush=True)
crate = rtlib.Crate(here, root, {})
KIT = rtlib.KIT
built, source = [], []
for dep in crate.below():
    ok = os.path.isdir(f"{dep.folder}/out/rlib") and all(d in built for d in dep.below())
    (built if ok else source).append(dep)
print("as source:", [d.name for d in source], file=sys.stderr, flush=True)
words = ["--crate-name", crate.name, "src/main.rt" if crate.is_program else "src/lib.rt"]
kits = {"core", *crate.of_kit, *[it for dep in crate.below() for it in dep.of_kit]}
for name in sorted(kits):
    words += ["--extern", f"{name}={KIT}/rlibs/{name}.rlib"]
words += ["-L", f"dependency={KIT}/rlibs"]
for dep in built:
    words += ["--extern", f"{dep.name}={dep.rlib}"]
    words += ["-L", f"dependency={os.path.dirname(dep.rlib)}"]
for dep in source:
    kit = [name for it in dep.below() for name in it.of_kit]
    uses = dict.fromkeys(["core", *dep.of_kit, *kit, *[it.name for it in dep.below()]])
    words += ["--lib", f"{dep.name}:{','.join(uses)}={dep.folder}/src/lib.rt"]
words += ["--antt-project", f"{KIT}/rattle/logic/antt-project.json", "--logic-built", f"{KIT}/logic_built"]
words += ["--jobs", "2"] + sys.argv[1:]
os.execv("/opt/rattle/bin/rattle", ["rattle", "check", *words])
