#!/usr/bin/env python3
"""Installs below a prefix of its own, uses what is there as a new user would, and takes it away again.

Usage: harness/install_cases.py (after `./build`). The last line is 'N passed, M failed'.
"""
import os
import re
import shutil
import stat
import subprocess
import sys
from pathlib import Path

from cases import Cases

ROOT = Path(__file__).resolve().parent.parent
EXAMPLE = ROOT / "harness" / "c" / "example.c"
EXPECTED = (ROOT / "harness" / "c" / "example.expected").read_text()
HEADER = (ROOT / "include" / "terravisco.h").read_text()
PROGRAMS = ("gateway", "readings", "fields", "card", "propose", "gateway_check")
PAGES = [*((program, 1) for program in PROGRAMS), ("terravisco", 3), ("terravisco-rules", 7)]
STRICT = ["-std=c99", "-pedantic", "-Wall", "-Wextra", "-Werror"]

# each place below the prefix, with its mode
PLACES = {
    "include/terravisco.h": 0o644,
    "lib/libterravisco.a": 0o644,
    "lib/libterravisco.so": "libterravisco.so.0",
    "lib/libterravisco.so.0": 0o755,
    "lib/pkgconfig/terravisco.pc": 0o644,
    "share/terravisco/installed": 0o644,
    **{"bin/" + program: 0o755 for program in PROGRAMS},
    **{"share/man/man%d/%s.%d" % (number, name, number): 0o644 for name, number in PAGES},
}
USAGE = "usage: ./install PREFIX\n       ./install --uninstall PREFIX\n"


def tree(folder):
    """Every file below a folder: its mode, or where a link leads to; and every folder."""
    found = {}
    for path in sorted(folder.rglob("*")):
        name = str(path.relative_to(folder))
        if path.is_symlink():
            found[name] = os.readlink(path)
        elif path.is_dir():
            found[name + "/"] = "folder"
        else:
            found[name] = stat.S_IMODE(path.stat().st_mode)
    return found


class Installs(Cases):
    def same(self, name, got, expected):
        """Trees and truths are compared as their texts."""
        super().same(name, *(value if isinstance(value, (str, bytes, list)) else repr(value) for value in (got, expected)))

    def ran(self, command, status=0, **options):
        """What a command prints. It ends with this status, and where that is 0 it says nothing on standard error."""
        words = [str(word) for word in command]
        ran = subprocess.run(words, capture_output=True, text=True, stdin=subprocess.DEVNULL, timeout=300, **options)
        name = " ".join(words)[:120]
        self.same("%s, status" % name, "%d %s" % (ran.returncode, ran.stderr if status == 0 else ""), "%d " % status)
        return ran.stdout if status == 0 else ran.stderr

    def install(self, *words, status=0, script=ROOT / "install", **options):
        return self.ran([script, *words], status, **options)


def environment(prefix):
    """What the last lines of an installation say to set."""
    return {**os.environ, "PATH": "%s/bin:%s" % (prefix, os.environ["PATH"]), "PKG_CONFIG_PATH": "%s/lib/pkgconfig" % prefix, "LD_LIBRARY_PATH": "%s/lib" % prefix,
            "MANPATH": "%s/share/man:" % prefix}


def put_and_taken(t):
    """All that is put there, and nothing that is left; of a new prefix not even its folders."""
    prefix = Path("new/one").resolve()
    # what is installed can be read by all, whoever installs it
    said = t.install(prefix, umask=0o077)
    t.same("what is said", said.split("\n")[0], "Installed below %s. Where this prefix is not searched already:" % prefix)
    found = tree(prefix)
    t.same("files", {name: mode for name, mode in found.items() if mode != "folder"}, dict(sorted(PLACES.items())))
    t.same("folders", sorted({stat.S_IMODE(path.stat().st_mode) for path in prefix.rglob("*") if path.is_dir()}), [0o755])
    for program in PROGRAMS:
        t.same("bytes of " + program, (prefix / "bin" / program).read_bytes(), (ROOT / "target" / "bin" / program).read_bytes())
    t.same("nothing is said when it is taken away", t.install("--uninstall", prefix), "")
    t.same("nothing is left", Path("new").exists(), False)


def beside_others(t):
    """Files and folders of others stay, and those that were shared with them."""
    prefix = Path("shared").resolve()
    others = ["bin/other", "share/man/man1/other.1", "lib/pkgconfig/other.pc"]
    for name in others:
        (prefix / name).parent.mkdir(parents=True, exist_ok=True)
        (prefix / name).write_text("other\n")
    before = tree(prefix)
    t.install(prefix)
    (prefix / "include" / "later.h").write_text("later\n")
    t.install(prefix)
    t.same("a second time", [name for name in tree(prefix) if not name.endswith("/")], sorted([*PLACES, *others, "include/later.h"]))
    t.install("--uninstall", prefix)
    t.same("others stay", tree(prefix), dict(sorted({**before, "include/": "folder", "include/later.h": 0o644}.items())))


def in_the_way(t):
    """A file of somebody else is not written over, and then nothing is installed."""
    prefix = Path("taken").resolve()
    for name in ("bin/fields", "include/terravisco.h", "lib/libterravisco.so"):
        shutil.rmtree(prefix, ignore_errors=True)
        (prefix / name).parent.mkdir(parents=True)
        if name.endswith(".so"):
            (prefix / name).symlink_to("nowhere")
        else:
            (prefix / name).write_text("somebody else's\n")
        before = tree(prefix)
        wanted = "install: %s/%s is there already, and was not put there by this script: nothing is installed\n" % (prefix, name)
        t.same("%s in the way" % name, t.install(prefix, status=1), wanted)
        t.same("%s in the way, what is there" % name, tree(prefix), before)
    shutil.rmtree(prefix)
    prefix.mkdir()
    (prefix / "lib").write_text("a file, where a folder has to be\n")
    t.install(prefix, status=123)
    t.same("an installation that broke off is taken away", tree(prefix), {"lib": 0o644})


def mistakes(t):
    for words in ([], ["a", "b"], ["--uninstall"], ["--uninstall", "a", "b"], ["--help"], ["-x"], [""], ["--uninstall", ""]):
        t.same("arguments %r" % words, t.install(*words, status=2), USAGE)
    none = Path.cwd() / "none"
    wanted = "install: nothing is installed below %s: there is no %s/share/terravisco/installed\n" % (none, none)
    t.same("nothing to take away", t.install("--uninstall", "none", status=1), wanted)
    wanted = "install: pkg-config could not tell this prefix to a compiler: take one of letters, digits and / . _ + ~ @ % -\n"
    for name in ("a b", "a$b", "a'b", "a\nb", "é"):
        t.same("prefix %r" % name, t.install(name, status=1), wanted)
    t.same("no prefix was made", sorted(name for name in os.listdir() if name in ("a", "b", "none", "a b")), [])


def moved(t):
    """What was moved is not taken away by a list that speaks of another place."""
    t.install("here")
    Path("here").rename("there")
    t.same("a list of another place", t.install("--uninstall", "there", status=1),
           "install: %s/there/share/terravisco/installed was written for another prefix: move it back there first\n" % Path.cwd())
    t.same("it is as it was", Path("there/bin/card").exists(), True)
    Path("there").rename("here")
    t.install("--uninstall", "here")
    t.same("nothing is left of it", Path("here").exists(), False)


def not_built(t):
    """What is missing is told with the command that builds it."""
    clone = Path("clone")
    for name in ("install", "include", "bindings", "docs/man"):
        source = ROOT / name
        (clone / name).parent.mkdir(parents=True, exist_ok=True)
        if source.is_dir():
            shutil.copytree(source, clone / name, ignore=shutil.ignore_patterns("__pycache__", "*.so"))
        else:
            shutil.copy(source, clone / name)
    script = (clone / "install").resolve()
    t.same("no library", t.install("p", status=1, script=script), "install: there is no static library yet: ./build library\n")
    t.same("no library to link", t.ran([clone / "bindings" / "link-shared", "l.so"], 1), "link-shared: there is no static library yet: ./build library\n")
    (clone / "target" / "staticlib").mkdir(parents=True)
    shutil.copy(ROOT / "target" / "staticlib" / "libterravisco.a", clone / "target" / "staticlib")
    (clone / "target" / "bin").mkdir()
    for program in PROGRAMS:
        wanted = "install: the program %s is not built yet: ./build\n" % program
        t.same("no " + program, t.install("p", status=1, script=script), wanted)
        shutil.copy(ROOT / "target" / "bin" / program, clone / "target" / "bin")
    t.same("nothing was installed", Path("p").exists(), False)
    t.install("p", script=script)
    t.install("--uninstall", "p", script=script)
    t.same("nothing is left of it", Path("p").exists(), False)


def c_programs(t, prefix):
    """The example, by what pkg-config says and nothing else."""
    env = environment(prefix)
    flags = t.ran(["pkg-config", "--cflags", "--libs", "terravisco"], env=env).split()
    t.same("flags", sorted(flags), sorted(["-I%s/include" % prefix, "-L%s/lib" % prefix, "-lterravisco"]))
    version = re.search(r'^version = "(.*)"$', (ROOT / "bindings" / "python" / "pyproject.toml").read_text(), re.M).group(1)
    t.same("version", t.ran(["pkg-config", "--modversion", "terravisco"], env=env), version + "\n")
    t.ran(["pkg-config", "--validate", "terravisco"], env=env)
    t.ran(["gcc", *STRICT, EXAMPLE, *flags, "-o", "shared-example"])
    t.same("the example, shared", t.ran(["./shared-example"], env=env), EXPECTED)
    t.same("what it needs", re.findall(r"NEEDED.*\[(libterra.*)\]", t.ran(["readelf", "-d", "shared-example"])), ["libterravisco.so.0"])
    static = t.ran(["pkg-config", "--static", "--cflags", "--libs", "terravisco"], env=env).split()
    t.ran(["gcc", "-static", *STRICT, EXAMPLE, *static, "-o", "static-example"])
    t.same("the example, static", t.ran(["./static-example"]), EXPECTED)


def library(t, prefix):
    """The shared library has the header's calls, and no other name."""
    names = re.findall(r" [A-Z] (\S+)", t.ran(["nm", "-D", "--defined-only", prefix / "lib" / "libterravisco.so"]))
    t.same("its names", sorted(names), sorted(re.findall(r"^void (\w+)\(", HEADER, re.M)))
    t.same("its soname", re.findall(r"SONAME.*\[(.*)\]", t.ran(["readelf", "-d", prefix / "lib" / "libterravisco.so.0"])), ["libterravisco.so.0"])


def programs(t, prefix):
    """The example of 01, and the usage texts: each program is the one of its name."""
    env = environment(prefix)
    Path("rule.txt").write_bytes(b"(\\d+),(\\d+)\n")
    Path("lines").write_bytes(b"1,5\nab\n")
    with open("lines", "rb") as lines:
        t.same("gateway", subprocess.run(["gateway"], stdin=lines, capture_output=True, env=env).stdout, b"M 0 3 0-1 2-3\nN\n")
    with open("proposed", "w+b") as lines:
        lines.write(b"01000000 a1,5\n")
        lines.seek(0)
        t.same("gateway_check", subprocess.run(["gateway_check"], stdin=lines, capture_output=True, env=env).stdout, b"A 1 4 1-2 3-4\n")
    for program in PROGRAMS[1:-1]:
        t.same(program, subprocess.run([program], capture_output=True, text=True, env=env).stderr.startswith("usage: %s " % program), True)


def pages(t, prefix):
    """Each page is found by its name, without a warning; and it is what docs/man/write-pages writes today."""
    env = {**environment(prefix), "LC_ALL": "C.UTF-8", "MANWIDTH": "100"}
    for name, number in PAGES:
        file = prefix / "share" / "man" / ("man%d" % number) / ("%s.%d" % (name, number))
        t.ran(["groff", "-man", "-Tutf8", "-ww", "-z", file])
        shown = t.ran(["man", "--warnings", str(number), name], env=env)
        t.same("the page of %s" % name, shown.split("\n")[0].split()[:1], ["%s(%d)" % (name.upper(), number)])
        t.same("its name", re.search(r"NAME\n +(\S+) [-\u2013\u2014] ", shown).group(1), name)
        # what is typed off a page has to be ASCII; a hyphen at a line's end is groff's own, and the signs around a byte are shown by a browser and not typed
        t.same("its signs", sorted(set(re.sub("\u2010\n", "", shown)) - set(map(chr, range(128))) - set("\u2039\u203a")), [])
    Path("pages").mkdir()
    t.ran([sys.executable, ROOT / "docs" / "man" / "write-pages", "pages"])
    for name, number in PAGES:
        file = "%s.%d" % (name, number)
        t.same("docs/man/%s is behind: docs/man/write-pages" % file, (ROOT / "docs" / "man" / file).read_text(), Path("pages", file).read_text())


def python_module(t, prefix):
    """The module with the library that is installed, and as pip installs it with one beside it."""
    program = "import terravisco; print(terravisco.compile(r'(\\d+) L').search('820 L').group(1), terravisco.__file__)"
    source = ROOT / "bindings" / "python"
    plain = {name: value for name, value in os.environ.items() if name not in ("PYTHONPATH", "TERRAVISCO_LIBRARY", "LD_LIBRARY_PATH")}
    said = t.ran([sys.executable, "-c", program], env={**plain, "LD_LIBRARY_PATH": "%s/lib" % prefix, "PYTHONPATH": str(source)})
    t.same("with the installed library", said, "820 %s\n" % (source / "terravisco" / "__init__.py"))
    shutil.copytree(source, "source", ignore=shutil.ignore_patterns("__pycache__", "*.so"))
    t.ran([ROOT / "bindings" / "link-shared", "source/terravisco/libterravisco.so"])
    pip = {**plain, "PIP_ROOT_USER_ACTION": "ignore", "PIP_DISABLE_PIP_VERSION_CHECK": "1"}
    t.ran([sys.executable, "-m", "pip", "install", "-q", "--no-index", "--target", "packages", "./source"], env=pip)
    said = t.ran([sys.executable, "-c", program], env={**plain, "PYTHONPATH": str(Path("packages").resolve())})
    t.same("by pip", said, "820 %s\n" % Path("packages/terravisco/__init__.py").resolve())
    t.same("its hints are there", Path("packages/terravisco/py.typed").exists(), True)


def main():
    t = Installs(ROOT / "install")
    put_and_taken(t)
    beside_others(t)
    in_the_way(t)
    mistakes(t)
    moved(t)
    not_built(t)
    prefix = Path("prefix").resolve()
    t.install(prefix)
    for cases in (c_programs, library, programs, pages, python_module):
        cases(t, prefix)
    t.install("--uninstall", prefix)
    t.same("nothing is left", prefix.exists(), False)
    t.end()


if __name__ == "__main__":
    main()
