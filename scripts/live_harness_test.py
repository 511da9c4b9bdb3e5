#!/usr/bin/env python3
"""Tests that the checks for leftovers in live_harness.py fail where something is left.

Usage: live_harness_test.py

Each test plants one leftover in a repository, or starts one process, and wants `leaves_nothing` and `is_clean` to report it.
"""
import pathlib
import subprocess
import tempfile
import types
import unittest

from live_harness import USERS, Tester, files_left, is_clean, leaves_nothing, left_of_packs

LEFT = ["objects/tmp_objdir-gixp.7.8-1", "objects/pack/tmp_obj_pack-" + "0" * 40 + ".pack", "objects/ab/tmp_obj_" + "0" * 38,
        "objects/pack/pack-" + "0" * 40 + ".keep", "shallow.lock"]


class Room(Tester):
    """A tester without programs."""

    def __init__(self, room):
        self.room, self.environment = room, {"PATH": "/usr/bin:/bin", "HOME": str(room)}
        self.remote = types.SimpleNamespace(name="gixp_remote")


class Leftovers(unittest.TestCase):
    def setUp(self):
        begun = tempfile.TemporaryDirectory()
        self.addCleanup(begun.cleanup)
        self.t = Room(pathlib.Path(begun.name))
        self.git_dir = self.t.room / "client"
        self.t.git("init", "-q", "--bare", self.git_dir)

    def verdicts(self):
        return leaves_nothing(self.t), is_clean(self.t, self.git_dir)[0]

    def test_nothing_left(self):
        self.assertEqual(self.verdicts(), (True, True))

    def test_files(self):
        for name in LEFT:
            with self.subTest(name):
                path = self.git_dir / name
                path.parent.mkdir(exist_ok=True)
                path.touch()
                self.assertEqual(files_left(self.t.room), [path])
                self.assertEqual(self.verdicts(), (False, False))
                path.unlink()

    def test_a_folder(self):
        (self.git_dir / "objects/tmp_objdir-gixp.7.8-1/pack").mkdir(parents=True)
        self.assertEqual(self.verdicts(), (False, False))

    def test_a_lock_of_the_user(self):
        (self.git_dir / "shallow.lock").write_bytes(USERS)
        self.assertEqual(self.verdicts(), (True, True))

    def test_parts_of_packs(self):
        (self.git_dir / "objects/pack/tmp_pack_abc").touch()
        self.assertEqual(left_of_packs(self.t, self.git_dir), ["tmp_pack"])

    def test_a_process(self):
        with subprocess.Popen(["cat", "gixp_remote", "-"], cwd=self.t.room, stdin=subprocess.PIPE, stderr=subprocess.PIPE) as process:
            # Its message about the missing file says that /proc has its command line: just behind `exec` that is still empty.
            process.stderr.readline()
            self.assertFalse(leaves_nothing(self.t))
            process.stdin.close()
        self.assertTrue(leaves_nothing(self.t))

    def test_a_missing_object(self):
        self.t.git("update-ref", "refs/heads/main", self.t.git("commit-tree", "-m", "x", EMPTY_TREE, at=self.git_dir, more=NAMES).strip(),
                   at=self.git_dir)
        self.assertFalse(is_clean(self.t, self.git_dir)[0])


EMPTY_TREE = "4b825dc642cb6eb9a060e54bf8d69288fbee4904"
NAMES = {f"GIT_{who}_{what}": "x" for who in ("AUTHOR", "COMMITTER") for what in ("NAME", "EMAIL")}

if __name__ == "__main__":
    unittest.main()
