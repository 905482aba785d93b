"""Words of folders, slots and grants."""
from __future__ import annotations

import unittest

from agent.faults import UsageFault
from agent.words import EMPTY, grant_of, is_folder, short_name, slot_of, folder_text, version_of, versions_of, want_of

KEY = "a" * 64


class Words(unittest.TestCase):
    def test_folders(self) -> None:
        rows = [("locked:a", True), ("shared:/go/pkg", True), ("private:", True), ("locked:a b", False), ("Locked:a", False),
                ("locked:a%2f", False), ("locked:a%2F", True), ("locked:a#1", False), (f"locked:a@{KEY}.0", True), ("locked:a@b", False),
                ("locked:a\nb", False), ("", False)]
        for text, wanted in rows:
            self.assertEqual(is_folder(text), wanted, text)

    def test_spelling(self) -> None:
        rows = [("../../etc", "locked:../../etc"), ("a#b%c@d é", "locked:a%23b%25c%40d%20%C3%A9"), ("x=y", "locked:x=y"), ("\n", "locked:%0A"), ("\udcff", "locked:%FF")]
        for identifier, wanted in rows:
            self.assertEqual(folder_text("locked", identifier), wanted)
            self.assertTrue(is_folder(wanted))
            self.assertRegex(short_name(wanted), r"\Afarm-[0-9a-f]{32}\Z")

    def test_wants(self) -> None:
        want = want_of("ro=locked:a=b=/tmp/x")
        self.assertEqual((want.folder, want.path, want.writable, want.word), ("locked:a=b", "/tmp/x", False, "ro=locked:a=b"))
        for word, folder, path in (("locked:c=/a=b/w", "locked:c", "/a=b/w"), ("locked:a=b=/c=/d", "locked:a=b", "/c=/d"), ("locked:c=w", "locked:c", "w")):
            self.assertEqual(want_of(word)[:2], (folder, path))
        with self.assertRaisesRegex(UsageFault, "several ="):
            want_of("ro=locked:c=label=linux/w")
        for word in ("locked:a", "locked:a b=/x", "a=/x", "=", "locked:a=", "=/x"):
            with self.assertRaises(UsageFault, msg=word):
                want_of(word)
        for word, hint in (("locked:c=~/w", "replaced the ~"), ("locked:" + "a" * 4090 + "=/x", "at most 4096")):
            with self.assertRaisesRegex(UsageFault, hint):
                want_of(word)
        for word, hint in (("locked:a b=/x", "locked:a%20b"), ("locked:\udcff=/x", "locked:%FF")):
            with self.assertRaisesRegex(UsageFault, hint):
                want_of(word)

    def test_grants(self) -> None:
        grant = grant_of(f"1 77 2 9 plain locked:a=b=3:{KEY} ro=private:p#4=0:{EMPTY}".split(" "))
        self.assertEqual((grant.node, grant.life, grant.ask, grant.ticket, grant.kind), (1, 77, 2, 9, "plain"))
        first, second = grant.slots
        self.assertEqual((first.name, first.folder, first.base, first.digest, first.writable), ("locked:a=b", "locked:a=b", 3, KEY, True))
        self.assertEqual((second.name, second.folder, second.writable), ("private:p#4", "private:p", False))
        self.assertEqual(grant_of("1 77 2 9 plain".split(" ")).slots, ())
        for word in ("locked:a=1:zz", "locked:a", f"locked:a=x:{KEY}"):
            with self.assertRaises(ValueError, msg=word):
                slot_of(word)

    def test_versions(self) -> None:
        self.assertEqual(versions_of([f"locked:a=b=7:{KEY}"]), {"locked:a=b": (7, KEY)})
        self.assertEqual(version_of("locked:a@3"), ("locked:a", 3))
        self.assertEqual(version_of("locked:a"), ("locked:a", None))
        self.assertEqual(version_of(f"locked:a@{KEY}.0"), (f"locked:a@{KEY}.0", None))
        self.assertEqual(version_of(f"locked:a@{KEY}.0@12"), (f"locked:a@{KEY}.0", 12))


if __name__ == "__main__":
    unittest.main()
