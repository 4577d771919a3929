"""Runs the programs of docs/ARROW.md and the README, and compares their output with the page.

usage: arrow_programs.py FOLDER LIBRARY    (after bindings/python/build)
"""

import os
import pathlib
import re
import subprocess
import sys

HERE = pathlib.Path(__file__).resolve().parent
SHIM = sorted((HERE.parent / "shim").glob("*.c"))


def programs_of(page, languages):
    """The language of each program of a page, its text, and what it prints."""
    form = r"```(\w+)\n((?:(?!```)[\s\S])*)```\n\n((?:    .*\n)+)"
    for language, program, printed in re.findall(form, (HERE.parent / page).read_text()):
        if language in languages.split():
            yield language, program, re.sub("(?m)^    ", "", printed)


def programs():
    """The programs of Arrow's page, and those in Python of the README."""
    yield from programs_of("docs/ARROW.md", "python c rust")
    yield from programs_of("README.md", "python")


def run_python(program, folder):
    environment = dict(os.environ, PYTHONPATH=str(HERE / "python" / "src"), PYTHONDONTWRITEBYTECODE="1")
    return subprocess.run([sys.executable, "-c", program], env=environment, stdout=subprocess.PIPE)


def run_c(program, folder, linked):
    source = folder / "page_program.c"
    source.write_text(program)
    made = folder / "page_program"
    words = ["cc", "-std=c99", "-Wall", "-Wextra", "-Wno-missing-field-initializers", "-Werror"]
    words += ["-I", HERE.parent / "include", source, *linked]
    subprocess.run([*words, "-o", made], check=True)
    return subprocess.run([made], stdout=subprocess.PIPE)


def run_rust(program, folder, feature):
    caller = folder / f"{feature}_caller"
    (caller / "src").mkdir(parents=True, exist_ok=True)
    (caller / "src" / "main.rs").write_text("#![forbid(unsafe_code)]\n" + program)
    crate = HERE / "rust" / "vortex-select"
    (caller / "Cargo.toml").write_text(
        f'[package]\nname = "{feature}_caller"\nversion = "0.0.0"\nedition = "2021"\n[dependencies]\n'
        f'vortex-select = {{ path = "{crate}", features = ["{feature}"] }}\n[workspace]\n'
    )
    words = ["cargo", "run", "--offline", "--quiet"]
    return subprocess.run(words, cwd=caller, stdout=subprocess.PIPE)


def compare(language, done, printed):
    """Print whether a program ended well, and printed what the page says."""
    agrees = done.returncode == 0 and done.stdout.decode() == printed
    print(f"{language} ... {'ok' if agrees else 'FAIL'}")
    if not agrees:
        print(done.returncode, done.stdout.decode())


def main():
    folder, library = map(pathlib.Path, sys.argv[1:])
    calls = {
        "python": lambda program: run_python(program, folder),
        "c": lambda program: run_c(program, folder, [*SHIM, library]),
        "rust": lambda program: run_rust(program, folder, "arrow"),
    }
    seen = []
    for language, program, printed in programs():
        compare(language, calls[language](program), printed)
        seen.append(language)
    if sorted(seen) != sorted([*calls, "python", "python"]):
        print(f"languages {seen} ... FAIL")


if __name__ == "__main__":
    main()
