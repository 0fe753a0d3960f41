"""Tests of when signatures begin and end, at the borders of what is odd."""
import unittest

from dnssec_check_tools.odd import answers, times

from .helper import DAY, TURN, link, rrset, scene, signature, texts, zone


class Times(unittest.TestCase):
    def test_ends_soon(self):
        for ends, is_odd in ((7 * DAY, True), (7 * DAY + 1, False), (0, True), (-1, False)):
            found = list(times.ends_soon(scene(), link(by=signature(ends=ends))))
            self.assertEqual(len(found), is_odd, ends)
        self.assertEqual(texts(times.ends_soon(scene(soon=DAY), link(by=signature(ends=2 * DAY)))), [])

    def test_times_begin_anew(self):
        """An end behind the 32 bits of a time is near all the same."""
        told = scene()
        told.now = TURN - DAY
        by = signature()._replace(expiration=DAY)
        self.assertEqual(len(list(times.ends_soon(told, link(by=by)))), 1)
        self.assertEqual(told.ahead(DAY), 2 * DAY)
        self.assertEqual(told.ahead(TURN - 2 * DAY), -DAY)

    def test_ends_before_ttl(self):
        for ends, ttl, is_odd in ((299, 300, True), (300, 300, False), (-1, 300, False)):
            found = list(times.ends_before_ttl(scene(), link(by=signature(ends=ends, ttl=ttl))))
            self.assertEqual(len(found), is_odd, ends)

    def test_begins_soon(self):
        for begins, is_odd in ((0, False), (1, True), (7 * DAY, True), (7 * DAY + 1, False)):
            found = link()
            found.rrset.signatures.append(signature(tag=2, begins=begins))
            self.assertEqual(len(list(times.begins_soon(scene(), found))), is_odd, begins)

    def test_ends_at_once(self):
        def told(*ends):
            rrsets = [rrset(owner=(str(number), "a"), signatures=[signature(ends=each)]) for number, each in enumerate(ends)]
            return len(list(times.ends_at_once(scene(*rrsets), zone())))
        self.assertEqual([told(), told(9, 9), told(9, 9, 9), told(9, 9, 8), told(-9, -9, -9)], [0, 0, 1, 0, 0])

    def test_one_that_came_twice_is_one(self):
        rrsets = [rrset(owner=(owner, "a"), signatures=[signature()]) for owner in ("b", "b", "c")]
        self.assertEqual(list(times.ends_at_once(scene(*rrsets), zone())), [])

    def test_ttls(self):
        two = [b"1234", b"1235"]
        for ttls, differs, is_above in (([300, 300], 0, 0), ([300, 299], 1, 0), ([301, 301], 0, 1), ([301, 300], 1, 1)):
            found = link(rdata=two, ttls=ttls)
            self.assertEqual(len(list(answers.ttl_differs(scene(), found))), differs, ttls)
            self.assertEqual(len(list(answers.ttl_above_original(scene(), found))), is_above, ttls)


class Aliases(unittest.TestCase):
    def test_a_chain(self):
        def told(*names):
            value = {"aliases": [{"name": name} for name in names], "verdict": "SecureAnswer"}
            return texts(answers.alias_chain(scene(value=value)))
        self.assertEqual([told(), told("b.")], [[], []])
        self.assertEqual(told("b.", "c."), ["it leads to another alias: c."])
        self.assertEqual(told("b.", "c.", "d."), ["it leads to other aliases: c. and d."])

    def test_into_what_is_unsigned(self):
        for verdict, names, count in (("Insecure", ["b."], 1), ("Insecure", [], 0), ("SecureAnswer", ["b."], 0)):
            value = {"aliases": [{"name": name} for name in names], "verdict": verdict, "cut": "c."}
            self.assertEqual(len(list(answers.alias_into_unsigned(scene(value=value)))), count)


if __name__ == "__main__":
    unittest.main()
