"""What tools/rt-over-store does over a kit whose `rt ci` keeps nothing: proved libraries, tests and programs go into a store of its own."""

import copy, fcntl, hashlib, importlib.machinery, importlib.util, os, re, shutil, subprocess, sys, tempfile, time, contextlib
sys.dont_write_bytecode = True
ROOM = os.environ.get("RT_STORE", "/tmp/rt-store")
STORE, LOCKS, SLOTS = f"{ROOM}/kept", f"{ROOM}/locks", 5
for it in (STORE, LOCKS):
    os.makedirs(it, exist_ok=True)

def load(path, name):
    loader = importlib.machinery.SourceFileLoader(name, path)
    spec = importlib.util.spec_from_loader(name, loader)
    made = importlib.util.module_from_spec(spec)
    sys.modules[name] = made
    loader.exec_module(made)
    return made

rt = load("/opt/rattle/bin/rt", "rtmod")
rtlib = rt.rtlib
KIT = rtlib.KIT
Base = rtlib.Crate

def below(self):
    found = getattr(self, "_below", None)
    if found is None:
        found, seen = [], set()
        for dep in self.deps:
            for it in [*dep.below(), dep]:
                if id(it) not in seen:
                    seen.add(id(it)); found.append(it)
        self._below = found
    return found
Base.below = below

KITSUM = hashlib.sha256(open(f"{KIT}/WHAT","rb").read()+open(f"{KIT}/KIT-ID","rb").read()).hexdigest()
_own = {}
def own_sum(folder):
    if folder not in _own:
        s = hashlib.sha256()
        for file in rtlib.files_of(folder):
            with open(file, "rb") as it:
                s.update(repr((file.replace(folder, ""), hashlib.sha256(it.read()).hexdigest())).encode())
        _own[folder] = s.hexdigest()
    return _own[folder]

def key(self):
    if getattr(self, "_key", None) is None:
        said = {k: v for k, v in self.said.items() if k not in ("args","status")}
        s = hashlib.sha256(repr((KITSUM, self.name, sorted(said.items(), key=str), self.is_program, own_sum(self.folder))).encode())
        for dep in self.deps:
            s.update((dep.name + dep.key()).encode())
        self._key = s.hexdigest()[:24]
    return self._key
Base.key = key

def fresh(self):
    "forget sums: files may have changed"
    for it in [self, *self.below()]:
        it._key = None
        _own.pop(it.folder, None)

def place(self):
    return f"{STORE}/{self.name}-{self.key()}"

@contextlib.contextmanager
def locked(name):
    with open(f"{LOCKS}/{name}", "w") as it:
        fcntl.flock(it, fcntl.LOCK_EX)
        yield

@contextlib.contextmanager
def slot(what):
    "one of a few places for heavy work"
    said = False
    if os.environ.get("RT_NO_SLOT"):
        yield
        return
    while True:
        try: slots = int(open(f"{ROOM}/slots").read())
        except Exception: slots = SLOTS
        for i in range(slots):
            it = open(f"{LOCKS}/slot-{i}", "w")
            try:
                fcntl.flock(it, fcntl.LOCK_EX | fcntl.LOCK_NB)
            except BlockingIOError:
                it.close(); continue
            try:
                yield
            finally:
                it.close()
            return
        if not said:
            print(f"rt-over-store: waiting for a place ({what})", file=sys.stderr, flush=True); said = True
        time.sleep(1.5)

_stamp = rtlib.Crate.stamp
def stamp(self):
    return self.key()
Base.stamp = stamp

def is_built(self):
    return os.path.isfile(f"{place(self)}/lib/ok")
Base.is_built = is_built

_init = Base.__init__
def init(self, *a, **k):
    _init(self, *a, **k)
    rt.read_files(self)
Base.__init__ = init

# the library's folder is the store's
def get_rlib(self): return f"{place(self)}/lib/{self.name}.rlib"
Base.rlib = property(get_rlib, lambda self, v: None)

def log(text):
    with open(f"{ROOM}/log", "a") as it:
        it.write(f"{time.strftime('%H:%M:%S')} {text}\n")

def prove_into(self, flags, out):
    """Proves the library into the store, by rt ci's own words."""
    with locked(f"{self.name}-{self.key()}"):
        if is_built(self):
            return 0
        room = f"{place(self)}/part"
        shutil.rmtree(room, ignore_errors=True); os.makedirs(room)
        crate = copy.copy(self)
        crate.__class__ = RtCrate
        crate.out = out
        started = time.time()
        if os.environ.get("RT_PROOF_JOBS"):
            flags = ["--jobs", os.environ["RT_PROOF_JOBS"]]
        words = crate.words(flags, keeps=False) + ["--statements"]
        status = crate.prove(["build", *words, "-o", f"{room}/{self.name}.rlib"])
        took = time.time() - started
        log(f"lib {self.name} {'ok' if not status else 'FAILED'} {took:.0f}s {self.folder}")
        if not status:
            open(f"{room}/ok", "w").write(f"{took:.0f}\n")
            shutil.rmtree(f"{place(self)}/lib", ignore_errors=True)
            os.rename(room, f"{place(self)}/lib")
        else:
            shutil.rmtree(room, ignore_errors=True)
        return status

class RtCrate(rt.Crate):
    pass

def build_rlib(self, flags, anew):
    """For rt check and its like: the library from the store, proved into it where it is not there."""
    if is_built(self):
        return 0
    for dep in self.deps:
        if build_rlib(dep, flags, anew): return 1
    print(f"rt-over-store: {self.name} is not in the store: proving it", file=sys.stderr, flush=True)
    with slot(self.name):
        return prove_into(self, ["--jobs", "2"], self.out)
Base.build_rlib = build_rlib

def ci_of(self, flags, tests):
    """rt.Crate.ci over the store."""
    kind = "tests" if tests else "prog" if self.is_program else "static" if self.is_static else "lib"
    if kind == "lib":
        return prove_into(self, flags, self.out)
    kept = f"{place(self)}/{kind}"
    made = [f"{self.name}_tests"] if tests else [self.name, f"{self.name}.by-rattle"] if kind == "prog" else []
    with locked(f"{self.name}-{self.key()}-{kind}"):
        if not os.path.isfile(f"{kept}/ok"):
            started = time.time()
            status = _ci(self, flags, tests)
            log(f"{kind} {self.name} {'ok' if not status else 'FAILED'} {time.time()-started:.0f}s {self.folder}")
            if status: return status
            os.makedirs(kept, exist_ok=True)
            for it in made:
                if os.path.isfile(f"{self.folder}/out/{it}"):
                    shutil.copy2(f"{self.folder}/out/{it}", f"{kept}/{it}")
            open(f"{kept}/ok", "w").write("")
        os.makedirs(f"{self.folder}/out", exist_ok=True)
        for it in made:
            if os.path.isfile(f"{kept}/{it}"):
                shutil.copy2(f"{kept}/{it}", f"{self.folder}/out/{it}")
    return 0
_ci = rt.Crate.ci
rt.Crate.ci = ci_of
NO_EDITS = NO_TESTS = False
_all = rt.must_fail_all
def must_fail_all(crate, edits, flags):
    if NO_EDITS or not edits: return []
    s = hashlib.sha256(crate.key().encode())
    for it in edits: s.update(open(it,"rb").read())
    kept = f"{STORE}/{crate.name}-edits-{s.hexdigest()[:24]}"
    if os.path.isfile(kept):
        return [tuple(it) for it in eval(open(kept).read())]
    found = _all(crate, edits, flags)
    log(f"edits {crate.name} {found}")
    if all(it[0] for it in found):
        open(kept,"w").write(repr(found))
    return found
rt.must_fail_all = must_fail_all
_edits_of = rt.edits_of
def edits_of(crate):
    return ([], []) if NO_EDITS else _edits_of(crate)
rt.edits_of = edits_of
_has_tests = Base.has_tests
def has_tests(self):
    if NO_TESTS: return False
    return _has_tests(self)

def ci(words):
    global NO_EDITS, NO_TESTS
    NO_EDITS, NO_TESTS = "--no-edits" in words, "--no-tests" in words
    if NO_TESTS: Base.has_tests = has_tests
    names = [it for it in words if not it.startswith("-")]
    _crates_below = rtlib.crates_below
    def crates_below(root):
        rtlib.Crate.__init__ = rtlib.Crate.__init__
        found = _crates_below(root)
        if names:
            wanted = [it for it in found if it.name in names]
            if len(wanted) < len(names): rtlib.stop("no such crate among: " + " ".join(names))
            keep = {id(it) for w in wanted for it in [w, *w.below()]}
            found = [it for it in found if id(it) in keep]
        return found
    rtlib.crates_below = crates_below
    # what is in out/ stays: a named run reads none of it
    def crates_of(root, aside):
        rtlib.Crate = rt.Crate
        crates = rtlib.crates_below(root)
        return sorted(crates, key=lambda it: len(it.below()))
    rt.crates_of = crates_of
    rtlib.lock = lambda crates: None
    if names: rtlib.stop_on_unread = lambda *a: None
    with tempfile.TemporaryDirectory() as aside:
        return rt.ci_from_nothing(aside)

def main(words):
    verb = words[0] if words else ""
    if verb == "ci":
        rt.Crate.__init__ = rtlib.Crate.__init__
        return ci(words[1:])
    if verb == "lib-below":
        rtlib.guarded()
        for it in rtlib.crates_below(os.getcwd()):
            if it.name in words[1:]:
                for dep in it.below():
                    if dep.build_rlib([], False): return 1
        return 0
    if verb == "status":
        for it in rtlib.crates_below(os.getcwd()):
            kinds = [k for k in ("lib","prog","static","tests") if os.path.isfile(f"{place(it)}/{k}/ok")]
            print(f"{it.name:24} {' '.join(kinds) or '-'}")
        return 0
    os.environ.pop(rtlib.ALLOW_C, None)
    heavy = verb in ("check", "test", "run", "lib", "tidy", "verdict")
    if heavy:
        rtlib.guarded()
        # the libraries below first, each in a place of its own; then this check in one
        above = os.getcwd()
        said = rtlib.declared(above)
        if said:
            crate = rtlib.Crate(above, rtlib.root_above(above) or above, {})
            for dep in crate.below():
                if dep.build_rlib([], False):
                    print(f"rt-over-store: {dep.name} is not proved", file=sys.stderr); return 1
        with slot(verb):
            if verb in ("check","test","lib","tidy") and not any(it.startswith("--jobs") for it in words):
                cut = words.index("--") if "--" in words else len(words)
                words = [*words[:cut], "--jobs", "2", *words[cut:]]
            t = time.time()
            status = rtlib.main(*words)
            log(f"{verb} {os.path.basename(above)} {' '.join(words[1:])} -> {status} {time.time()-t:.0f}s {above}")
        if verb in ("check", "tidy", "fmt"):
            rt.look_at_edits(os.getcwd())
        return status
    return rtlib.main(*words)


class View:
    "which libraries stand in the store"
    def __init__(self, top):
        pass
    def see(self, crate):
        return is_built(crate)


def lend(crate, view):
    "a library is read where it stands"

