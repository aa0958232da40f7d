"""The program that serves a load and counts: small loads and the largest, words that it refuses, and an outside that fails.

What a load is to be told of is counted here from its items, property by property. The largest load has to be served within seconds of processor time and
a number of bytes.
"""
import resource

from tests.case import WHOLE, Case, load_program, run

LOADS = ["1", "23", "24", "93", "94", "2000", "000024"]
# Loads between these and the largest: some are served, and the others begun with a little memory, where what is refused as invalid differs from
# what runs out of memory.
LARGER = ["2001", "20000", *(["50000", "99999"] if WHOLE else [])]
BEGUN = ["2001", "002500", "4096", "4097", "9999", "10000", "32768", "50000", "65535", "65536", "099999", "99999"]
REFUSED = [[], ["0"], ["000000"], ["100001"], ["0000024"], ["a"], ["2a"], ["+24"], ["-1"], [""], ["24", "24"], ["--shards", "4"], [b"\xff"]]
LARGEST, MOST_SECONDS, MOST_BYTES = 100_000, 12, 1_000_000_000
# What a run may map that is to run out of memory, in bytes.
SMALL_MEMORY = 60_000_000


def told(count):
    """The three lines for so many items: those are found whose `a` is 3 and whose `b` is 2, by `c`."""
    items = [{"a": i % 10, "b": i % 7, "c": i} for i in range(count)]
    found = [item["c"] for item in items if item["a"] == 3 and item["b"] == 2]
    return f"items {count}\nmatches {len(found)}\nlast {found[-1] if found else 'none'}\n".encode()


def filled(words, **how):
    """How a run with these words ends."""
    return run(b"", words, of=load_program(), **how).end


class Filled(Case):
    def is_slow(self):
        return load_program().endswith(".unproved")

    def test_loads(self):
        for load in LOADS:
            self.expect(f"a load of {load}", filled([load]), (0, told(int(load)), ""))

    def test_larger_loads(self):
        if self.is_slow() and not WHOLE:
            self.skipTest("no proved load: larger ones are served by the unproved one only by --whole")
        for load in LARGER:
            self.expect(f"a load of {load}", filled([load]), (0, told(int(load)), ""))
        for load in BEGUN:
            found = filled([load], most=SMALL_MEMORY)
            self.expect(f"a load of {load} in {SMALL_MEMORY} bytes", found, (6, b"", "no memory") if found[0] else (0, told(int(load)), ""))

    def test_words(self):
        for words in REFUSED:
            self.expect(f"the words {words}", filled(words), (1, b"", "usage"))

    def test_a_full_disk(self):
        with open("/dev/full", "wb") as full:
            self.expect("an output that takes nothing", filled(["24"], stdout=full), (4, b"", "write fault"))

    def test_the_largest(self):
        if self.is_slow():
            self.skipTest("no proved load: the largest isn't served by the unproved one")
        self.expect(f"the largest load in {SMALL_MEMORY} bytes", filled([str(LARGEST)], most=SMALL_MEMORY), (6, b"", "no memory"))
        before = resource.getrusage(resource.RUSAGE_CHILDREN)
        self.expect("the largest load", filled([str(LARGEST)]), (0, told(LARGEST), ""))
        after = resource.getrusage(resource.RUSAGE_CHILDREN)
        seconds = after.ru_utime + after.ru_stime - before.ru_utime - before.ru_stime
        # The greatest of all runs so far, of which this is the largest.
        size = after.ru_maxrss * 1024
        print(f"a load of {LARGEST:,} items: {seconds:.1f} s of processor time, {size / 1e6:.0f} MB")
        self.expect(f"whether {seconds:.1f} seconds are at most {MOST_SECONDS}", seconds <= MOST_SECONDS, True)
        self.expect(f"whether {size} bytes are at most {MOST_BYTES}", size <= MOST_BYTES, True)
