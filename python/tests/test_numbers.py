"""What the Rust crate does with file numbers, through the library: its cache scans a path when the core adds it, and
here the caller says the number that the scan would find."""
import unittest

import ndf

FROM, TO, ANY = ndf.NAME_FROM, ndf.NAME_TO, ndf.KIND_OF_WORD["Modify(Any)"]


def moved(number):
    """A file that is written at /a and moved to /b, where it has this number: what is emitted."""
    with ndf.Debouncer(50) as debouncer:
        debouncer.set_number("/a", 1, 7)
        debouncer.feed(ANY, "/a", moment=0)
        assert debouncer.number_of("/a") == (1, 7)
        debouncer.feed(FROM, "/a", moment=1)
        assert debouncer.number_of("/a") is None
        debouncer.set_number("/b", *number)
        debouncer.feed(TO, "/b", moment=2)
        batch = debouncer.tick(100)
        assert debouncer.number_of("/b") == number and debouncer.counts().numbers == 1
        return [(event.word, *event.paths, event.time) for event in batch]


class Numbers(unittest.TestCase):
    def test_halves_of_one_number_are_joined(self):
        self.assertEqual(moved((1, 7)), [("Modify(Name(Both))", "/a", "/b", 1), ("Modify(Any)", "/b", 0)])
        halves = [("Modify(Any)", "/a", 0), ("Modify(Name(From))", "/a", 1), ("Modify(Name(To))", "/b", 2)]
        self.assertEqual(moved((1, 8)), halves)

    def test_a_rescan_looks_below_the_roots_and_keeps_what_it_does_not_find(self):
        with ndf.Debouncer(50) as debouncer:
            debouncer.set_number("/a", 1, 7)
            debouncer.watch("/a")
            debouncer.set_number("/a/b", 1, 8)
            debouncer.feed(ndf.OTHER, moment=0, rescan=True)
            self.assertEqual((debouncer.number_of("/a"), debouncer.number_of("/a/b")), ((1, 7), (1, 8)))

    def test_of_two_numbers_for_one_path_the_later_one_counts(self):
        with ndf.Debouncer(50) as debouncer:
            debouncer.set_number("/a", 1, 1)
            debouncer.set_number("/a", 1, 2)
            self.assertEqual((debouncer.number_of("/a"), debouncer.counts().numbers), ((1, 2), 1))

    def test_a_first_half_that_is_joined_late_takes_out_what_has_come_to_its_path_since(self):
        with ndf.Debouncer(50) as debouncer:
            debouncer.set_number("/a", 1, 7)
            debouncer.feed(FROM, "/a", moment=0)
            debouncer.set_number("/a", 1, 9)
            debouncer.feed(ndf.CREATE_FILE, "/a", moment=1)
            debouncer.set_number("/b", 1, 7)
            debouncer.feed(TO, "/b", moment=2)
            self.assertEqual((debouncer.number_of("/a"), debouncer.number_of("/b")), (None, (1, 7)))


if __name__ == "__main__":
    unittest.main()
