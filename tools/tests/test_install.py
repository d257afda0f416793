"""Installing, removing and packing, and the completions."""

import gzip
import os
import shutil
import subprocess
import tempfile
import unittest

import helping
import completions
import reference
from abuflib import program

INSTALL = os.path.join(helping.TOOLS, "install.sh")
FOLDER = os.path.join(helping.TOOLS, "completions")


class Install(unittest.TestCase):
    def setUp(self):
        folder = tempfile.TemporaryDirectory()
        self.addCleanup(folder.cleanup)
        self.folder = folder.name
        self.program = helping.write(os.path.join(self.folder, "program"), b'#!/bin/sh\n# GLIBC_2.34\nprintf "<%s> " "$GLIBC_TUNABLES" "$@"\n')
        os.chmod(self.program, 0o755)
        self.prefix = os.path.join(self.folder, "there")

    def install(self, *words, status=0, **variables):
        done = subprocess.run(["sh", INSTALL, *words], capture_output=True, text=True, cwd=self.folder,
                              env={**os.environ, "ABUF": self.program, "GLIBC_TUNABLES": "", **variables})
        self.assertEqual(done.returncode, status, done.stderr)
        return done.stdout if status == 0 else done.stderr

    def files(self, folder=None):
        top = folder or self.prefix
        return sorted(os.path.relpath(os.path.join(here, name), top) for here, _, names in os.walk(top) for name in names)

    def test_what_is_installed_starts_and_is_removed(self):
        told = self.install(self.prefix)
        files = self.files()
        self.assertEqual(told.splitlines(), [f"installed: {self.prefix}/{name}" for name in
                         ("bin/abuf", "libexec/abuf", "share/man/man1/abuf.1", "share/bash-completion/completions/abuf",
                          "share/zsh/site-functions/_abuf", "share/fish/vendor_completions.d/abuf.fish")])
        self.assertEqual(len(files), 6)
        env = {name: value for name, value in os.environ.items() if name != "GLIBC_TUNABLES"}
        run = subprocess.run([os.path.join(self.prefix, "bin/abuf"), "demo", "a b"], capture_output=True, text=True, env=env)
        self.assertEqual(run.stdout, f"<{program.launcher_tunables()}> <demo> <a b> ")
        run = subprocess.run([os.path.join(self.prefix, "bin/abuf")], capture_output=True, text=True, env={**env, "GLIBC_TUNABLES": "own"})
        self.assertEqual(run.stdout, "<own> ")
        own = helping.write(os.path.join(self.prefix, "share/man/man1/other.1"), b"")
        self.install("--uninstall", self.prefix)
        self.assertEqual(self.files(), [os.path.relpath(own, self.prefix)])

    def test_another_root(self):
        root = os.path.join(self.folder, "root")
        self.install("/opt/abuf", DESTDIR=root)
        self.assertIn(b'exec "/opt/abuf/libexec/abuf"', helping.read(os.path.join(root, "opt/abuf/bin/abuf")))
        self.install("--uninstall", "/opt/abuf", DESTDIR=root)
        self.assertEqual(self.files(root), [])

    def test_what_is_missing_or_not_understood(self):
        for words in (["--abuf", "/no/abuf", self.prefix], ["--abuf"], ["--no-such-option"], [self.prefix, self.prefix], ["--deb", "/no/folder"],
                      [os.path.join(self.program, "below")]):
            self.assertEqual(self.install(*words, status=2).count("install.sh: "), 1, words)

    def test_help_shows_an_example(self):
        self.assertIn("\n    sudo tools/install.sh\n", self.install("--help"))

    @unittest.skipIf(shutil.which("dpkg-deb") is None, "dpkg-deb isn't installed (Debian's package dpkg)")
    def test_a_package(self):
        told = self.install("--deb", self.folder)
        package = told.removeprefix("written: ").strip()
        field = subprocess.run(["dpkg-deb", "--field", package], capture_output=True, text=True, check=True).stdout
        self.assertIn("Depends: libc6 (>= 2.34)\n", field)
        version = next(line.split()[1].rstrip(",") for line in helping.read(os.path.join(helping.TOP, "CHANGELOG.md")).decode().splitlines()
                       if line.startswith("## "))
        self.assertIn(f"Version: {version}\n", field)
        tree = os.path.join(self.folder, "tree")
        subprocess.run(["dpkg-deb", "--extract", package, tree], check=True)
        self.assertEqual(helping.read(os.path.join(tree, "usr/libexec/abuf")), helping.read(self.program))
        with gzip.open(os.path.join(tree, "usr/share/man/man1/abuf.1.gz")) as file:
            self.assertEqual(file.read(), helping.read(os.path.join(helping.TOP, "docs", "abuf.1")))
        self.assertIn("usr/share/zsh/vendor-completions/_abuf", self.files(tree))
        self.assertEqual(os.stat(os.path.join(tree, "usr/bin/abuf")).st_mode & 0o777, 0o755)


class Completions(unittest.TestCase):
    def test_the_files_are_those_of_the_table(self):
        for name, text in completions.FILES.items():
            self.assertEqual(helping.read(os.path.join(FOLDER, name)).decode(), text(), f"{name}: tools/completions.py writes it anew")

    def test_all_commands_and_options_have_a_text(self):
        self.assertEqual(set(completions.COMMANDS), set(reference.POSITIONALS))
        named = {name for command in completions.COMMANDS for name in completions.options_of(command)}
        self.assertEqual(named, set(completions.OPTIONS))

    @unittest.skipIf(shutil.which("bash") is None, "bash isn't installed")
    def test_bash(self):
        text = 'source "$0"; COMP_WORDS=("$@"); COMP_CWORD=$(($# - 1)); _abuf; printf "%s\\n" "${COMPREPLY[@]}"'
        for words, wanted in ((["r"], ["render"]), (["render", "--s"], ["--size", "--samples"]), (["pick", "1,1", "--b"], ["--background"]),
                              (["render", "--samples", "1"], ["1", "16"]), (["render", "--samples", "=", "1"], ["1", "16"]),
                              (["render", "--samples", "="], ["1", "2", "4", "8", "16"]), (["render", "--size", "4x4", "--s"], ["--samples"]),
                              (["sequence", "--t"], ["--threads"]), (["sequence", "lan"], ["lantern.path"]), (["render", "x"], [""])):
            done = subprocess.run(["bash", "-c", text, os.path.join(FOLDER, "abuf.bash"), "abuf", *words], capture_output=True, text=True,
                                  cwd=helping.EXAMPLES)
            self.assertEqual((done.stdout.rstrip("\n").split("\n"), done.stderr), (wanted, ""), words)

    @unittest.skipIf(shutil.which("fish") is None, "fish isn't installed")
    def test_fish(self):
        for line, wanted in (("abuf r", ["render"]), ("abuf render --s", ["--samples", "--size"]), ("abuf sequence --t", ["--threads"]),
                             ("abuf pick --samples ", ["1", "2", "4", "8", "16"]), ("abuf demo --bands", [])):
            with tempfile.TemporaryDirectory() as home:
                done = subprocess.run(["fish", "--no-config", "-c", f"source {FOLDER}/abuf.fish; complete -C {line!r}"], capture_output=True,
                                      text=True, env={**os.environ, "HOME": home, "XDG_CONFIG_HOME": home})
            self.assertEqual([one.split("\t")[0] for one in done.stdout.splitlines()], wanted, line + done.stderr)

    @unittest.skipIf(shutil.which("zsh") is None, "zsh isn't installed")
    def test_zsh(self):
        done = subprocess.run(["zsh", "-f", "-n", os.path.join(FOLDER, "_abuf")], capture_output=True, text=True)
        self.assertEqual((done.returncode, done.stderr), (0, ""))


if __name__ == "__main__":
    unittest.main()
