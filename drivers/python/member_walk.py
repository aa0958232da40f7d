"""Walks a table of members against its façade: each name is there or refused by its sentence, each argument taken or refused.

A test case of a façade stands on `Walk`, and gives it what it needs to try.
"""
import copy
import os
import sys

sys.path.insert(0, os.path.dirname(os.path.abspath(__file__)))
from torfyllan.members import REFUSED


class Walk:
    """Tests of a façade by its table. Beside it stands `unittest.TestCase`."""

    table = None
    module = None
    maxDiff = None
    own = ()
    """Public names of the façade that the real library doesn't have."""

    def samples(self):
        """An object for each class that has members of objects, by the class's path."""
        raise NotImplementedError

    def calls(self):
        """For each call whose arguments are in the table: a function that makes it with a dict of further arguments, by the call's name."""
        raise NotImplementedError

    def values(self):
        """A value for each argument, by its name, or by the member's where that differs: `Client.get(missing)`."""
        raise NotImplementedError

    def found(self, path, samples):
        """What stands at the end of a path, from the module on."""
        at, walked = self.module, []
        for part in path:
            owner = ".".join(walked)
            walked.append(part)
            if isinstance(at, type) and not hasattr(at, part) and owner in samples:
                at = samples[owner]
            at = getattr(at, part)
        return at

    def test_each_name_is_there_or_refused(self):
        samples, tried = self.samples(), 0
        for member in self.table.members.values():
            if member.argument is not None:
                continue
            tried += 1
            with self.subTest(member.name):
                if member.does != REFUSED:
                    self.found(member.path, samples)
                    continue
                owner = self.found(member.path[:-1], samples)
                owner = samples.get(".".join(member.path[:-1]), owner)
                with self.assertRaises(NotImplementedError) as caught:
                    getattr(owner, member.path[-1])
                self.assertIn(member.told, str(caught.exception))
        self.assertTrue(tried)

    def test_each_argument_is_taken_or_refused(self):
        calls, values, tried = self.calls(), self.values(), 0
        for member in self.table.members.values():
            if member.argument is None:
                continue
            tried += 1
            call = member.name.partition("(")[0]
            with self.subTest(member.name):
                if member.name in values or not member.has_value:
                    value = copy.copy(values[member.name if member.name in values else member.argument])
                else:
                    value = member.value
                if member.does != REFUSED:
                    calls[call]({member.argument: value})
                    continue
                with self.assertRaises(NotImplementedError) as caught:
                    calls[call]({member.argument: value})
                self.assertIn(member.told, str(caught.exception))
        self.assertTrue(tried)

    def test_an_argument_that_the_table_has_not_is_a_type_error(self):
        for name, call in self.calls().items():
            with self.subTest(name):
                with self.assertRaises(TypeError) as caught:
                    call({"no_such_argument": 1})
                self.assertIn("no_such_argument", str(caught.exception))

    def test_the_table_has_each_public_name_of_the_facade(self):
        names, samples, seen = set(self.module.__all__), self.samples(), set()
        told = {".".join(member.path[-2:]) for member in self.table.members.values() if member.argument is None}
        for member in sorted(self.table.members.values(), key=lambda member: len(member.path)):
            at = self.found(member.path, samples) if member.argument is None and member.does != REFUSED else None
            if not isinstance(at, type) or at in seen:
                continue
            seen.add(at)
            for each in vars(at):
                if not each.startswith("_") and not any(f"{base.__name__}.{each}" in told for base in at.__mro__):
                    names.add(f"{member.name}.{each}")
        self.assertEqual(sorted(names - set(self.table.members) - set(self.own)), [])

    def test_a_name_that_nobody_has_is_an_attribute_error(self):
        with self.assertRaises(AttributeError):
            self.module.no_such_name
        for name, sample in self.samples().items():
            with self.subTest(name):
                self.assertFalse(hasattr(sample, "no_such_name"))
