"""The judge of the trials: what it has to find."""
from __future__ import annotations

import unittest

from agent.store.folder import FolderStore
from agent.trials.chaos import Copy
from agent.trials.verdict import Lines, Told, Verdict, told_of

from agent.tests import support

GOOD: Lines = {"locked:a": [(1, 2, "d1"), (2, 5, "d2")]}
HISTORY = "1 finish 2 locked:a=d1\n1 learned 2 locked:a=1:d1\n2 finish 5 locked:a=d2\n2 dropped BadMac\n2 dropped 7\n"


class Judged(support.RoomTest):
    def wrong(self, lines: Lines = GOOD, told: list[Told] | None = None, history: str = HISTORY) -> str:
        verdict = Verdict(lines, told or [], self.write("history", history))
        verdict.judge_lines()
        verdict.judge_told()
        return "; ".join(verdict.wrong)

    def test_lines(self) -> None:
        self.assertEqual(self.wrong(), "")
        rows: list[tuple[Lines, str, str]] = [
            ({"locked:a": [(1, 2, "d1"), (3, 5, "d2")]}, HISTORY, "aren't 1, 2"), ({"locked:a": [(1, 5, "d2"), (2, 2, "d1")]}, HISTORY, "don't rise"),
            ({"locked:a": [(1, 2, "d1"), (2, 5, "d3")]}, HISTORY, "no node handed"), ({"locked:a": [(1, 2, "d1"), (2, 6, "d2")]}, HISTORY, "no node handed"),
            ({"locked:a": []}, HISTORY, "a node learned locked:a version 1"), (GOOD, HISTORY + "1 dropped 5\n", "ticket 5 was fenced"),
        ]
        for lines, history, said in rows:
            self.assertIn(said, self.wrong(lines, history=history))

    def test_told(self) -> None:
        self.assertEqual(self.wrong(told=[told_of("x", [], 0, "farm: committed 2 locked:a version 1\n"), told_of("y", [], 0, "farm: fenced 7: late")]), "")
        rows = [("farm: committed 2 locked:a version 2", "isn't on its line so"), ("farm: committed 9 locked:a version 1", "isn't on its line so"),
                ("farm: fenced 5: the lease had ended", "doesn't count"), ("farm: released 2: the command failed", "doesn't count")]
        for said, wanted in rows:
            self.assertIn(wanted, self.wrong(told=[told_of("x", [], 0, said)]))

    @unittest.skipUnless(support.has("casync"), support.needs("casync"))
    def test_contents(self) -> None:
        store = FolderStore(self.path("store"))

        def version(*tokens: str, **files: str) -> str:
            self.write(f"made{tokens}{files}/lineage", "".join(f"{token}\n" for token in tokens))
            for name, text in files.items():
                self.write(f"made{tokens}{files}/{name}", text)
            return support.kept(store, self.path(f"made{tokens}{files}"))[1]

        one, two = version("a"), version("a", "b")
        told = [told_of("a", [], 0, "farm: committed 1 locked:x version 1"), told_of("b", [], 0, ""), told_of("c", [], 0, "farm: fenced 9: late")]
        rows = [
            ([one, two], ""), ([two], "isn't the one before it and one token"), ([one, one], "isn't the one before it"), ([one, "0" * 64], "is nowhere"),
            ([one, version("a", "z")], "a token of no command"), ([one, version("a", "c")], "which was told fenced"),
            ([one, version("a", "b", half="")], "hadn't ended"), ([one, version("a", "b", blob="x", sum="1  -\n")], "of different commands"),
        ]
        for digests, said in rows:
            lines = {"locked:x": [(number, number, digest) for number, digest in enumerate(digests, 1)]}
            verdict = Verdict(lines, told, self.path("none"))
            verdict.judge_contents([Copy("store", store, True, "", set())], self.room)
            self.assertIn(said, "; ".join(verdict.wrong))
            self.assertEqual(not said, not verdict.wrong, verdict.wrong)


if __name__ == "__main__":
    unittest.main()
