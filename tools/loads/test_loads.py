"""Tests of loads. Run them by `python3 -m unittest` in this folder."""

import importlib.machinery
import importlib.util
import pathlib
import unittest

loader = importlib.machinery.SourceFileLoader("loads", str(pathlib.Path(__file__).with_name("loads")))
spec = importlib.util.spec_from_loader("loads", loader)
loads = importlib.util.module_from_spec(spec)
loader.exec_module(loads)

PLACES = [hex(8 * place) for place in range(3, 18)]  # of the fields, behind that of the mark
MARK = "0x10"


def function(name, at, *texts):
    return [f"{at:016x} <{name}>:", *(f"    {at + 4 * k:x}:\t{text}" for k, text in enumerate(texts)), ""]


def stores(*places):
    return [f"xchg   %rsi,{place}(%rdx,%rax,1)" for place in places]


def loads_of(*places):
    return [f"mov    {place}(%rdx,%rax,1),%rcx" for place in places]


PUBLISHER = function("publish", 0x1000, *stores(MARK, *PLACES, MARK), "ret")


def reader(within, behind="nop", places=PLACES):
    """A reader's loop with one instruction in it and one behind it, each after an endless outer loop's start."""
    return function("read", 0x2000, "nop", *loads_of(*places), within, "jne    2004 <read+0x4>", behind, "jne    2000 <read>", "ret")


def judged(*parts):
    return loads.judge("\n".join(line for part in parts for line in part))


class Loads(unittest.TestCase):
    def test_a_reader_that_loads_alone(self):
        self.assertEqual(judged(PUBLISHER, reader("xchg   %ax,%ax")), [])

    def test_a_reader_that_changes_a_word(self):
        for change in ("xchg   %rax,0x10(%rdi)", "lock xadd %rax,(%rdi)", "mfence"):
            self.assertEqual(judged(PUBLISHER, reader(change)), [f"read: {change}"])

    def test_a_change_behind_the_loop(self):
        self.assertEqual(judged(PUBLISHER, reader("nop", "lock decq (%rdi)")), [])

    def test_a_reader_that_calls_one_that_changes_a_word(self):
        helper = function("helper", 0x4000, "lock cmpxchg %rcx,(%rdi)", "ret")
        found = judged(PUBLISHER, reader("call   4000 <helper>"), helper)
        self.assertEqual(found, ["helper: lock cmpxchg %rcx,(%rdi)"])

    def test_a_program_without_readers(self):
        none = ["no loop of a reader stands in the program"]
        self.assertEqual(judged(PUBLISHER), none)
        self.assertEqual(judged(PUBLISHER, reader("mfence", places=PLACES[1:])), none)
        self.assertEqual(judged(PUBLISHER, function("once", 0x3000, *loads_of(*PLACES), "ret")), none)

    def test_a_program_whose_publisher_is_not_known(self):
        for publisher in ([], function("publish", 0x1000, *stores(MARK, *PLACES[1:], MARK), "ret"),
                          function("publish", 0x1000, *stores(MARK, *PLACES, "0x90", MARK), "ret")):
            self.assertRegex(judged(publisher, reader("nop"))[0], "^nothing here stores the fields of a tick")


if __name__ == "__main__":
    unittest.main()
