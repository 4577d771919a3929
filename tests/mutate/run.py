"""Runs the project's tests over mutants, one at a time, and logs what became of each.

usage: run.py c|py|rust --repo CLONE --list LIST --log LOG --work FOLDER [--stages a,b,..] [--minutes N]
              [--survivors LOG] [--only ID,ID] [--arrow LIBRARY[,OBJECT..]] [--count N]

LIST is what the mutators write. Each mutant goes through the stages in their order until one kills it. A
mutant that is in LOG already is left out, so that a run goes on where it stopped. With --survivors only
mutants that survived in that log are taken. `original` as the only ID runs the stages on the code as it is.

Stages of c, in bindings/c/tests: quick (the tests of the shim, with 300 random columns), bytes (answers over
memory with other contents), sanitized (quick under clang's sanitizers), threads (2,000 random columns under
its thread sanitizer), long (20,000 random columns), valgrind (quick under valgrind, with 60 random columns).
Stages of py: the names of test modules, or of tests in them, with a count of random calls after a colon.
The native module must be built (`bindings/python/build`): it is copied with the package.
Stages of rust: the names of the crate's integration tests, doc (the examples in comments) and valgrind (the
test `arrow` under valgrind). Names are joined by `+`. A count of random calls may follow a colon, and then the
slowest tests are left out.
"""

import argparse
import fnmatch
import json
import os
import pathlib
import re
import resource
import shutil
import signal
import subprocess
import sys
import time

PATTERN = "-ftrivial-auto-var-init=pattern"
C_KINDS = {
    "plain": ["cc", PATTERN],
    "sanitized": ["clang", "-O1", PATTERN, "-fsanitize=address,undefined", "-fno-sanitize-recover=all"],
    "threads": ["clang", "-O1", "-fsanitize=thread"],
}
SLOW = "deep_columns", "too_many_columns"  # tests of Rust
C_TESTS = [
    (f"check_arrow_{name}",)
    for name in (
        "faults", "contents", "dictionaries", "flat", "formats", "pages", "shared", "slices", "steps", "streams",
        "strict", "zeros",
    )
]


class Ended(Exception):
    pass


def limited(cpu, memory):
    def limit():
        resource.setrlimit(resource.RLIMIT_CPU, (cpu, cpu + 1))
        resource.setrlimit(resource.RLIMIT_CORE, (0, 0))
        if memory:
            resource.setrlimit(resource.RLIMIT_AS, (memory, memory))
        os.nice(0)
    return limit


def ran(words, cwd, cpu, env=None, memory=4 << 30, wall=None):
    """The status, the end of the output, and the processor seconds of a command and all below it."""
    before = resource.getrusage(resource.RUSAGE_CHILDREN)
    process = subprocess.Popen(
        [str(w) for w in words], cwd=cwd, env=dict(os.environ, **(env or {})), stdin=subprocess.DEVNULL,
        stdout=subprocess.PIPE, stderr=subprocess.STDOUT, start_new_session=True, preexec_fn=limited(cpu, memory),
    )
    try:
        said, _ = process.communicate(timeout=wall or 20 * cpu)
        status = process.returncode
    except subprocess.TimeoutExpired:
        os.killpg(process.pid, signal.SIGKILL)
        said, _ = process.communicate()
        status = "timeout"
    try:
        os.killpg(process.pid, signal.SIGKILL)  # what it left behind
    except ProcessLookupError:
        pass
    after = resource.getrusage(resource.RUSAGE_CHILDREN)
    used = after.ru_utime + after.ru_stime - before.ru_utime - before.ru_stime
    return status, said.decode(errors="replace")[-600:], used


class C:
    """The programs of bindings/c/tests over the shim, of which one file is changed."""

    def __init__(self, options):
        self.src, self.tests = options.repo / "shim", options.repo / "bindings/c/tests"
        self.include = [f"-I{options.repo / 'include'}", f"-I{self.src}"]
        self.libraries = options.arrow or [options.repo / "crates/vortex_arrow_c/out/libvortex_arrow_c.a"]
        self.work, self.count = options.work, options.count or 300
        self.files = sorted(path.name for path in self.src.glob("*.c"))
        self.changed, self.built = None, set()
        for kind in C_KINDS:
            (self.work / kind).mkdir(parents=True, exist_ok=True)

    def compile(self, kind, source, out):
        flags = ["-std=c99", "-w", "-ffunction-sections", *self.include]
        status, said, _ = ran([*C_KINDS[kind], *flags, "-c", source, "-o", out], self.work, 60, memory=None)
        if status:
            raise Ended("uncompiled " + said)

    def plant(self, mutant):
        """Puts a mutant in place of the file that it is of."""
        self.changed, self.built = mutant and mutant["file"], set()
        if mutant:
            text = (self.src / mutant["file"]).read_text()
            assert text[mutant["start"] : mutant["end"]] == mutant["old"]
            source = self.work / "mutant" / mutant["file"]
            source.parent.mkdir(exist_ok=True)
            source.write_text(text[: mutant["start"]] + mutant["new"] + text[mutant["end"] :])

    def object(self, kind, source):
        """The object of a file, which is compiled once, but for the one that is changed."""
        is_changed = source.parent == self.src and source.name == self.changed
        out = self.work / kind / (("mutant_" if is_changed else "") + source.name[:-2] + ".o")
        if out not in self.built and (is_changed or not out.exists()):
            self.compile(kind, self.work / "mutant" / source.name if is_changed else source, out)
        self.built.add(out)
        return out

    def program(self, kind, name):
        out = self.work / kind / name
        if out in self.built:
            return out
        wrapped = ["-Wl,--wrap=malloc,--wrap=calloc,--wrap=realloc,--wrap=free"]
        objects = [self.object(kind, self.tests / f"{name}.c"), *(self.object(kind, self.src / file) for file in self.files)]
        words = [*C_KINDS[kind], *(wrapped if name == "check_arrow_memory" else []), *objects, *self.libraries, "-lpthread"]
        status, said, _ = ran([*words, "-o", out], self.work, 60, memory=None)
        if status:
            raise Ended("unlinked " + said)
        self.built.add(out)
        return out

    def each(self, kind, programs, cpu, before=()):
        """Runs programs until one fails. `before` are the words before a program."""
        used = 0
        for name, *words in programs:
            env = {"TSAN_OPTIONS": "halt_on_error=1", "ASAN_OPTIONS": "allocator_may_return_null=1"}
            memory = 4 << 30 if kind == "plain" and not before else None
            status, said, more = ran([*before, self.program(kind, name), *words], self.work, cpu, env, memory)
            used += more
            if status:
                return status, f"{name}: {said}", used
        return 0, "", used

    def bytes(self):
        """Whether answers are the same over memory with other contents."""
        hashes, used = [], 0
        for fill in "85", "170":
            words = [self.program("plain", "check_arrow_bytes"), self.work / fill, 2000]
            status, said, more = ran(words, self.work, 20, {"MALLOC_PERTURB_": fill})
            used += more
            if status:
                return status, said, used
            hashes.append((self.work / fill).read_bytes())
        return int(hashes[0] != hashes[1]), "hashes differ", used

    def run(self, stage):
        if stage == "quick":
            return self.each("plain", [*C_TESTS, ("check_arrow_memory",), ("check_arrow", self.count)], 10)
        if stage == "bytes":
            return self.bytes()
        if stage == "sanitized":
            return self.each("sanitized", [*C_TESTS, ("check_arrow_memory",), ("check_arrow", self.count)], 20)
        if stage == "threads":
            return self.each("threads", [("check_arrow", 2000)], 60)
        if stage == "long":
            return self.each("plain", [("check_arrow", 20000)], 90)
        if stage == "valgrind":
            return self.each("plain", [*C_TESTS, ("check_arrow", 60)], 120, ["valgrind", "-q", "--error-exitcode=9"])
        raise SystemExit(f"no stage {stage}")


class Py:
    """The module's tests, over a copy of the module of which one file is changed."""

    def __init__(self, options):
        self.work, self.source = options.work, options.repo / "bindings/python/src/vortex_select"
        module = self.work / "bindings/python"
        self.tests, self.package = module / "tests", module / "src/vortex_select"
        if self.work.exists():
            shutil.rmtree(self.work)
        # The package is copied with its built module. Tests read pages.
        for name in "bindings/python/src", "bindings/python/tests", "docs":
            ignored = shutil.ignore_patterns("__pycache__")
            shutil.copytree(options.repo / name, self.work / name, ignore=ignored)
        self.dirty, self.cpu, self.wall = None, options.cpu, options.wall

    def plant(self, mutant):
        if self.dirty:
            shutil.copy(self.source / self.dirty, self.package / self.dirty)
        self.dirty = mutant and mutant["file"]
        if mutant:
            data = (self.source / mutant["file"]).read_bytes()
            assert data[mutant["start"] : mutant["end"]].decode() == mutant["old"]
            changed = data[: mutant["start"]] + mutant["new"].encode() + data[mutant["end"] :]
            (self.package / mutant["file"]).write_bytes(changed)

    def run(self, stage):
        names, _, calls = stage.partition(":")
        env = {"PYTHONPATH": str(self.package.parent)}
        if calls:
            env.update(VORTEX_ARROW_CALLS=calls, VORTEX_PLANS=calls, VORTEX_CALLS=calls)
            env.update(VORTEX_BORDER_SECONDS="0.3", VORTEX_DAMAGE="400")
        words = ["python3", "-B", "-m", "unittest", "-f", *names.split("+")]
        return ran(words, self.tests, self.cpu, env, 4 << 30, self.wall)


class Rust:
    """The crate's own tests by cargo, in a copy of the crate. The libraries are found by their folder."""

    def __init__(self, options):
        self.work, self.libs, self.features = options.work, options.libs, options.features
        self.crate, self.source = self.work / "bindings/rust" / options.crate, options.repo / "bindings/rust" / options.crate
        if not self.crate.exists():
            for name in "bindings/rust", "bindings/c", "include", "shim":
                shutil.copytree(options.repo / name, self.work / name, ignore=shutil.ignore_patterns("target"))
        # A run that was ended in the middle leaves a mutant behind.
        shutil.rmtree(self.crate / "src")
        shutil.copytree(self.source / "src", self.crate / "src")
        for path in (self.crate / "src").rglob("*.rs"):
            os.utime(path)
        self.dirty = None
        self.cargo = ["cargo", "test", "--offline", "--features", self.features]

    def plant(self, mutant):
        if self.dirty:
            shutil.copyfile(self.source / "src" / self.dirty, self.crate / "src" / self.dirty)
            os.utime(self.crate / "src" / self.dirty)
        self.dirty = mutant and mutant["file"]
        if mutant:
            text = (self.source / "src" / mutant["file"]).read_text()
            assert text[mutant["start"] : mutant["end"]] == mutant["old"]
            changed = text[: mutant["start"]] + mutant["new"] + text[mutant["end"] :]
            (self.crate / "src" / mutant["file"]).write_text(changed)

    def run(self, stage):
        names, _, calls = stage.partition(":")
        env, skipped = self.environment(), []
        if calls:
            env.update(VORTEX_CALLS=calls, VORTEX_ARROW_CALLS=calls)
            skipped = [word for name in SLOW for word in ("--skip", name)]
        if names == "valgrind":
            return self.valgrind(env, skipped)
        words = self.cargo + [word for name in names.split("+")
                              for word in (["--doc"] if name == "doc" else ["--test", name])]
        used = 0
        if names != "doc":
            status, said, used = ran([*words, "--quiet", "--no-run"], self.crate, 300, env, None, 1200)
            if status:
                raise Ended("uncompiled " + said)
        status, said, more = ran([*words, "--quiet", "--", *skipped], self.crate, 60, env, None, 600)
        return status, said, used + more

    def environment(self):
        env = {"VORTEX_SELECT_LIB_DIR": str(self.libs), "CARGO_BUILD_JOBS": "1", "RUST_TEST_THREADS": "1",
               "CARGO_TARGET_DIR": str(self.work / "target")}
        for name in ("DEV", "TEST"):
            env[f"CARGO_PROFILE_{name}_OPT_LEVEL"] = "0"
            env[f"CARGO_PROFILE_{name}_DEBUG"] = "0"
        return env

    def valgrind(self, env, skipped):
        """The tests of columns under valgrind, where a leak fails."""
        words = [*self.cargo, "--test", "arrow", "--no-run"]
        status, said, used = ran(words, self.crate, 300, env, None, 1200)
        program = re.search(r"Executable .*\((.*)\)", said)
        if status or not program:
            raise Ended("uncompiled " + said)
        leaks = "definite,indirect"
        words = ["valgrind", "-q", "--leak-check=full", f"--show-leak-kinds={leaks}",
                 f"--errors-for-leak-kinds={leaks}", "--error-exitcode=9", program.group(1)]
        status, said, more = ran([*words, *skipped], self.crate, 300, env, None, 900)
        return status, said, used + more


def stages_of(of_file, name):
    """The stages of the first pattern that a file's name matches."""
    return next(stages for pattern, stages in of_file.items() if fnmatch.fnmatch(name, pattern)).split(",")


def main():
    parser = argparse.ArgumentParser()
    parser.add_argument("kind", choices=["c", "py", "rust"])
    for word in "repo", "list", "log", "work", "libs":
        parser.add_argument("--" + word, type=lambda text: pathlib.Path(text).absolute())
    parser.add_argument("--stages", required=True)
    parser.add_argument("--survivors", type=pathlib.Path)
    parser.add_argument("--only", default="")
    parser.add_argument("--minutes", type=float, default=1e9)
    parser.add_argument("--arrow", type=lambda text: text.split(","))
    parser.add_argument("--count", type=int, default=0)
    parser.add_argument("--most", type=int, default=10**9, help="how many mutants that compile")
    parser.add_argument("--features", default="arrow")
    parser.add_argument("--crate", default="vortex-select", help="of rust: the folder in bindings/rust")
    parser.add_argument("--cpu", type=int, default=240, help="processor seconds of a Python stage at the most")
    parser.add_argument("--wall", type=int, default=900, help="seconds of a Python stage at the most")
    parser.add_argument("--by-file", action="store_true", help="stages are PATTERN=a,b;PATTERN=c;*=d")
    options = parser.parse_args()
    stop = time.time() + 60 * options.minutes
    options.work.mkdir(parents=True, exist_ok=True)
    subject = {"c": C, "py": Py, "rust": Rust}[options.kind](options)
    of_file = {"*": options.stages}
    if options.by_file:
        of_file = dict(part.split("=") for part in options.stages.split(";"))
    if options.only == "original":
        subject.plant(None)
        for stage in options.stages.split(","):
            start = time.time()
            status, said, used = subject.run(stage)
            print(stage, status, f"{used:.1f} s of a processor, {time.time() - start:.1f} s", said[-200:])
        return
    mutants = [json.loads(line) for line in options.list.read_text().splitlines()]
    mutants = [m for m in mutants if m.get("is", "mutant") == "mutant"]
    if options.only:
        mutants = [m for m in mutants if m["id"] in options.only.split(",")]
    if options.survivors:
        lines = map(json.loads, options.survivors.read_text().splitlines())
        left = {line["id"] for line in lines if line["end"] == "survived"}
        mutants = [m for m in mutants if m["id"] in left]
    made = [json.loads(line) for line in options.log.read_text().splitlines()] if options.log.exists() else []
    known = {line["id"] for line in made}
    left = options.most - sum(line["end"] != "uncompiled" for line in made)
    with open(options.log, "a") as log:
        for m in mutants:
            if m["id"] in known:
                continue
            if time.time() > stop or left <= 0:
                break
            made, used = {"id": m["id"], "file": m["file"], "line": m["line"], "end": "survived", "stages": {}}, 0
            try:
                subject.plant(m)
                for stage in stages_of(of_file, m["file"]):
                    status, said, used = subject.run(stage)
                    made["stages"][stage] = [status, round(used, 1)]
                    if status:
                        made["end"], made["by"], made["said"] = "killed", stage, said[-300:]
                        break
            except Ended as why:
                made["end"], made["said"] = str(why).split()[0], str(why)[-300:]
            left -= made["end"] != "uncompiled"
            log.write(json.dumps(made) + "\n")
            log.flush()
    subject.plant(None)


if __name__ == "__main__":
    main()
