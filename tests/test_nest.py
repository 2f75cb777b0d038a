"""Assemblies inside assemblies, by the client, whatever breaks."""

import unittest

from designers import PART, WithServer

from vault import MisusedError, RefusedError


class Nest(WithServer):
    """An assembly is made inside an assembly, and what stands there is seen."""

    def test_nested(self) -> None:
        for name, cut in zip(("s", "t"), self.both()):
            place = "/engine/block/" + name
            cut.append(b"nest")
            self.anna.nest(place)
            self.anna.make(place + "/p")
            self.assertIn(place + "/p", list(self.anna.tree("/engine")))
        self.assertEqual(self.notices, [])

    def test_refused(self) -> None:
        for place, code in (("/wing", 22), ("/engine/wing", 22), ("/engine/block", 22), (PART, 21), ("/wing/a/b", 20)):
            with self.assertRaises(RefusedError) as refused:
                self.anna.nest(place)
            self.assertEqual(refused.exception.code, code, place)

    def test_down_to_the_seventh_name(self) -> None:
        place = "/engine/block"
        for name in "cdef":
            place += "/" + name
            self.anna.nest(place)
        with self.assertRaises(RefusedError):
            self.anna.nest(place + "/g")
        self.anna.make(place + "/g")
        with self.assertRaises(MisusedError):
            self.anna.make(place + "/g/h")


if __name__ == "__main__":
    unittest.main()
