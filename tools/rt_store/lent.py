"""What tools/rt-over-store does over a kit whose `rt ci` keeps what it proved: it is lent from there."""
import contextlib, fcntl, hashlib, importlib.machinery, importlib.util, json, os, shutil, sys, time
sys.dont_write_bytecode = True
ROOM = os.environ.get("RT_STORE", "/tmp/rt-store")
os.makedirs(f"{ROOM}/locks", exist_ok=True)
def load(path, name):
    loader = importlib.machinery.SourceFileLoader(name, path)
    spec = importlib.util.spec_from_loader(name, loader)
    made = importlib.util.module_from_spec(spec); sys.modules[name] = made; loader.exec_module(made); return made
rt = load("/opt/rattle/bin/rt", "rtmod"); rtlib = rt.rtlib
def below(self):
    found = getattr(self, "_below", None)
    if found is None:
        found, seen = [], set()
        for dep in self.deps:
            for it in [*dep.below(), dep]:
                if id(it) not in seen: seen.add(id(it)); found.append(it)
        self._below = found
    return found
rtlib.Crate.below = below
rt.Crate.below = below
def log(text):
    with open(f"{ROOM}/log", "a") as it: it.write(f"{time.strftime('%H:%M:%S')} {text}\n")
@contextlib.contextmanager
def slot(what):
    said = False
    if os.environ.get("RT_NO_SLOT"): yield; return
    while True:
        try: slots = int(open(f"{ROOM}/slots").read())
        except Exception: slots = 3
        for i in range(slots):
            it = open(f"{ROOM}/locks/slot-{i}", "w")
            try: fcntl.flock(it, fcntl.LOCK_EX | fcntl.LOCK_NB)
            except BlockingIOError: it.close(); continue
            try: yield
            finally: it.close()
            return
        if not said: print(f"rt-over-store: waiting for a place ({what})", file=sys.stderr, flush=True); said = True
        time.sleep(1.5)
class View:
    "keys of Kept, without building anything"
    def __init__(self, top):
        rt.Crate.allowed = rt.handles_of(top)
        self.rlibs, self.paths = {}, {}
    def see(self, crate):
        if crate.name in self.paths: return self.paths[crate.name]
        ds = crate.below()
        if any(self.see(it) is None for it in ds): self.paths[crate.name] = None; return None
        key = hashlib.sha256(repr((rt.own_sum(crate), [(it.name, self.rlibs.get(it.name)) for it in ds])).encode()).hexdigest()
        at = f"{rt.STORE}/proof-{crate.name}-{key}"
        self.paths[crate.name] = None
        try:
            made = json.load(open(f"{at}/made.json"))
        except OSError: return None
        files = [] if crate.is_program else [(p, s) for p, s in made["files"]]
        self.rlibs[crate.name] = hashlib.sha256(repr(files).encode()).hexdigest()
        self.paths[crate.name] = (at, made)
        return self.paths[crate.name]
def lend(crate, view):
    at, made = view.paths[crate.name]
    out = f"{crate.folder}/out"; mark = f"{out}/rlib/lent"
    if rtlib.text_of(mark) == at and crate.is_built(): os.utime(at); return
    room = f"{out}/rlib-new-{os.getpid()}"; shutil.rmtree(room, ignore_errors=True)
    for number, (path, _) in enumerate(made["files"]):
        to = f"{room}/{path.removeprefix('rlib/')}"
        os.makedirs(os.path.dirname(to), exist_ok=True)
        rt.link_or_copy(f"{at}/{number}", to)
    open(f"{room}/stamp", "w").write(crate.stamp()); open(f"{room}/lent", "w").write(at)
    shutil.rmtree(f"{out}/rlib", ignore_errors=True)
    os.rename(room, f"{out}/rlib")
    os.utime(at)
def main(words):
    verb = words[0] if words else ""
    if verb == "ci":
        rest = words[1:]
        if "--no-edits" in rest: rt.edits_of = lambda crate: ([], [])
        if "--no-tests" in rest:
            rt.Crate.has_tests = lambda self: False
        names = [it for it in rest if not it.startswith("-")]
        if os.environ.get("RT_PROOF_JOBS"):
            made = rt.Crate.ci
            rt.Crate.ci = lambda self, flags, tests: made(self, ["--jobs", os.environ["RT_PROOF_JOBS"]], tests)
        t = time.time()
        status = rt.main(["ci", *names])
        log(f"ci {' '.join(names)} -> {status} {time.time()-t:.0f}s {os.getcwd()}")
        return status
    if verb == "status":
        rtlib.Crate = rt.Crate
        view = View(os.getcwd())
        for it in rtlib.crates_below(os.getcwd()):
            if not words[1:] or it.name in words[1:]:
                print(f"{it.name:24} {'kept' if view.see(it) else '-'}")
        return 0
    heavy = verb in ("check", "test", "run", "lib", "tidy", "try")
    here = os.getcwd()
    if heavy:
        rtlib.guarded() if hasattr(rtlib, "guarded") else None
        root = rtlib.root_above(here)
        Base = rtlib.Crate
        rtlib.Crate = rt.Crate
        view = View(root)
        every = {it.name: it for it in rtlib.crates_below(root)}
        rtlib.Crate = Base
        me = every[os.path.basename(here)]
        lacks = []
        for it in me.below():
            if view.see(it): lend(it, view)
            else: lacks.append(it.name)
        if lacks and not os.environ.get("RT_BUILD"):
            print("rt-over-store: not kept yet: " + " ".join(lacks) + " (rt-over-store ci --no-edits --no-tests NAME .. proves and keeps them;"
                  " RT_BUILD=1 proves them here)", file=sys.stderr)
            return 3
        with slot(verb):
            if verb in ("check", "test", "lib", "tidy") and not any(it.startswith("--jobs") for it in words):
                cut = words.index("--") if "--" in words else len(words)
                words = [*words[:cut], "--jobs", "2", *words[cut:]]
            t = time.time()
            status = rt.main(words)
            log(f"{' '.join(words)} {me.name} -> {status} {time.time()-t:.0f}s {here}")
        return status
    return rt.main(words)
