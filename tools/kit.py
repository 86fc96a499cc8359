"""The kit's own check of a crate, with the words that `rt check` gives it, for tools that check a crate often."""
import pathlib
import re
import subprocess
import sys

ROOT = pathlib.Path(__file__).resolve().parent.parent
LONGEST = 600  # seconds that a check may take


def bad_usage(words):
    print("%s: %s" % (pathlib.Path(sys.argv[0]).name, words), file=sys.stderr)
    sys.exit(2)


class Kit:
    def __init__(self):
        try:
            self.home = pathlib.Path(subprocess.run(["rt", "doc"], capture_output=True, text=True).stdout.strip()).parent
        except FileNotFoundError:
            bad_usage("rt is not to be found: put the bin folder of the Rattle kit in PATH")
        self.rests_on = {}
        self.archives = set()
        for line in re.sub(r"#.*", "", (ROOT / "crates.txt").read_text(encoding="utf-8")).split("\n"):
            head, colon, names = line.partition(":")
            if colon:
                name, *kind = head.split()
                self.rests_on[name] = names.split()
                if "staticlib" in kind:
                    self.archives.add(name)

    def prove(self, crates):
        """Whether the crates are proved as they stand; it leaves the libraries that `check` needs."""
        return not any(subprocess.run(["rt", "check"], cwd=ROOT / "crates" / name, stdout=subprocess.DEVNULL).returncode for name in crates)

    def below(self, crate):
        """The repository's crates that a crate rests on, those of others among them."""
        own = [name for name in self.rests_on[crate] if name in self.rests_on]
        return {name for it in own for name in (it, *self.below(it))}

    def check(self, crate, folder, incremental, *more):
        """Status, None where it took too long, and what was said."""
        main, kit = folder / "src/main.rt", self.home / "rlibs"
        words = [self.home / "bin/rattle", "check", "--crate-name", crate, main if main.is_file() else folder / "src/lib.rt"]
        words += ["--extern", "std=%s/std.rlib" % kit, "-L", "dependency=%s" % kit]
        for name in self.rests_on[crate]:
            words += ["--extern", "%s=%s/%s.rlib" % (name, ROOT / "crates" / name / "out/rlib" if name in self.rests_on else kit, name)]
        for name in sorted(self.below(crate)):
            words += ["-L", "dependency=%s" % (ROOT / "crates" / name / "out/rlib")]
        words += ["--antt-project", self.home / "rattle/logic/antt-project.json", "--logic-built", self.home / "logic_built"]
        words += ["--links", crate + "=", "--incremental", incremental, *more]
        if crate in self.archives:
            words += ["--crate-type", "staticlib"]
        try:
            ran = subprocess.run(words, stdin=subprocess.DEVNULL, stdout=subprocess.PIPE, stderr=subprocess.STDOUT, timeout=LONGEST)
            return ran.returncode, ran.stdout.decode("utf-8", "replace")
        except subprocess.TimeoutExpired as late:
            return None, (late.stdout or b"").decode("utf-8", "replace")
