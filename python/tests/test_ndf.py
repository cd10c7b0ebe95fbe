"""The class of Python: what is fed comes out, faults are raised, and what was closed is empty."""
import gc
import threading
import unittest
import warnings
from unittest import mock

import ndf


class Calls(unittest.TestCase):
    def setUp(self):
        self.debouncer = ndf.Debouncer(50)
        self.addCleanup(self.debouncer.close)

    def refuses(self, code, call, *words, **named):
        with self.assertRaises(ndf.Refused) as refused:
            call(*words, **named)
        self.assertEqual(ndf.CODES[refused.exception.code], code)

    def test_modes(self):
        self.debouncer.watch("/w")
        self.assertTrue(self.debouncer.is_recursive("/w/x"))
        self.assertFalse(self.debouncer.is_recursive("/v"))
        self.debouncer.unwatch("/w")
        self.assertFalse(self.debouncer.is_recursive("/w/x"))

    def test_an_event_comes_out_with_all_it_has(self):
        more = dict(tracker=7, info="i" * 2000, source="source", process=11)
        self.debouncer.feed(ndf.DATA_ANY, "/w//a/", "/w/b", moment=10, **more)
        self.debouncer.feed(ndf.OTHER, moment=10, rescan=True)
        self.assertEqual(self.debouncer.tick(59), [])
        rescan, event = self.debouncer.tick(60)
        self.assertEqual((rescan.rescan, rescan.paths, rescan.word), (True, [], "Other"))
        self.assertEqual(event, ndf.Event(ndf.DATA_ANY, 10, ["/w/a", "/w/b"], **more))

    def test_halves_are_joined_and_what_waits_is_seen(self):
        self.debouncer.feed(ndf.NAME_FROM, "/w/a", moment=70, tracker=1)
        self.debouncer.feed(ndf.NAME_TO, "/w/b", moment=71, tracker=1)
        (both,) = self.debouncer.outlook()
        self.assertEqual((both.word, both.paths), ("Modify(Name(Both))", ["/w/a", "/w/b"]))
        self.assertEqual((self.debouncer.counts().waiting, self.debouncer.counts().given), (1, 0))

    def test_errors_wait(self):
        self.debouncer.add_error(ndf.GENERIC, "text", "/w")
        self.debouncer.add_error(ndf.WATCH_NOT_FOUND)
        self.assertEqual(self.debouncer.errors(), [ndf.Error(0, "text", "/w"), ndf.Error(3, "", None)])
        self.assertEqual(self.debouncer.errors(), [])

    def test_file_numbers(self):
        self.debouncer.set_number("/w/c", 1, 7)
        self.debouncer.set_number("/w/c/1", 1, 8)
        self.assertEqual((self.debouncer.number_of("/w/c"), self.debouncer.counts().numbers), ((1, 7), 2))
        self.debouncer.forget("/w")
        self.assertEqual((self.debouncer.number_of("/w/c"), self.debouncer.counts().numbers), (None, 0))

    def test_a_journal_has_what_was_done(self):
        self.debouncer.keep_journal()
        self.debouncer.watch("/w", recursive=False)
        self.debouncer.feed(ndf.CREATE_FILE, "/w/d", moment=80, info="i" * 2000)
        batch = self.debouncer.tick(200)
        self.debouncer.add_error(ndf.GENERIC, "text")
        self.debouncer.unwatch("/w")
        self.assertEqual(self.debouncer.errors(), [ndf.Error(0, "text", None)])
        self.assertEqual([event.paths for event in batch], [["/w/d"]])
        wanted = [
            ndf.Entry("watch", path="/w"),
            ndf.Entry("event", 80, events=[ndf.Event(ndf.CREATE_FILE, 80, ["/w/d"], info="i" * 2000)]),
            ndf.Entry("tick", 200, events=batch),
            ndf.Entry("error", errors=[ndf.Error(0, "text", None)]),
            ndf.Entry("unwatch", path="/w"),
            ndf.Entry("errors", errors=[ndf.Error(0, "text", None)]),
        ]
        self.assertEqual(self.debouncer.journal(), wanted)
        self.debouncer.keep_journal()
        self.assertEqual(self.debouncer.journal(), [])

    def test_looks(self):
        look = self.debouncer
        look.found("/", "folder")
        look.found("/a", "file", 1, 5, (1, 2))
        look.found("/d", "folder", number=(1, 3))
        look.end_look_known()
        known = look.known("/a")
        self.assertEqual((known.length, known.modified, known.number, known.is_folder), (1, 5, (1, 2), False))
        self.assertIsNone(look.known("/b"))
        look.gone("/a")
        look.found("/b", "file", 1, 5, (1, 2))
        look.found("/d/x", "file")
        look.end_look(10)
        words = [(event.word, *event.paths, event.tracker) for event in look.tick(100)]
        self.assertEqual(words, [("Remove(File)", "/a", 0), ("Create(File)", "/b", 0), ("Create(File)", "/d/x", None)])
        look.changed("/b")
        look.found("/b", "file", 1, 5, (1, 2))
        look.gone("/d")
        look.begin_look()
        look.found("/b", "file", 1, 5, (1, 2))
        look.end_look(200)
        self.assertEqual([event.word for event in look.tick(300)], ["Modify(Data(Any))"])
        look.gone("/")
        look.found("/", "folder")
        look.still("/d")
        look.end_look(400)
        self.assertEqual([event.paths for event in look.tick(500)], [["/b"]])
        self.refuses("no_folder", look.found, "/e/x", "file")
        self.refuses("no_folder", look.still, "/e/x")
        self.refuses("not_text", look.found, b"/\xff", "file")
        self.refuses("begun", look.end_look_known)
        self.assertRaises(ValueError, look.found, "/c", "file", -1)

    def test_refusals(self):
        self.refuses("not_text", self.debouncer.watch, b"/\xff")
        self.refuses("no_kind", self.debouncer.feed, 41, moment=0)
        self.refuses("too_many_paths", self.debouncer.feed, 0, "a", "b", "c", moment=0)
        self.refuses("bad_counts", ndf.Debouncer, 0, taken=1, given=2)
        self.refuses("full", ndf.Debouncer(0, taken=2**64 - 1).feed, 0, moment=0)
        self.debouncer.close()
        self.refuses("empty", self.debouncer.tick, 0)

    def test_numbers_out_of_range(self):
        feed = self.debouncer.feed
        for call in (
            lambda: ndf.Debouncer(-1),
            lambda: ndf.Debouncer(2**64),
            lambda: feed(ndf.CREATE_FILE, "/a", moment=-1),
            lambda: feed(ndf.CREATE_FILE, "/a", moment=2**64),
            lambda: feed(-1, "/a", moment=0),
            lambda: feed(2**32 + ndf.CREATE_FILE, "/a", moment=0),
            lambda: feed(ndf.CREATE_FILE, "/a", moment=0, tracker=-1),
            lambda: feed(ndf.CREATE_FILE, "/a", moment=0, process=2**32),
            lambda: self.debouncer.set_number("/a", 1, 2**64),
            lambda: self.debouncer.tick(-1),
        ):
            self.assertRaises(ValueError, call)
        # Nothing of these was taken, and no moment was raised.
        feed(ndf.CREATE_FILE, "/b", moment=5)
        self.assertEqual([event.paths for event in self.debouncer.tick(10**9)], [["/b"]])

    def test_a_broken_off_reading_is_gone_on_with(self):
        paths = [f"/w/{number}" for number in range(5)]
        for turn, path in enumerate(paths):
            self.debouncer.feed(ndf.CREATE_FILE, path, moment=turn)
            self.debouncer.add_error(ndf.GENERIC, path)
        for _ in range(5):
            with mock.patch.object(self.debouncer, "_event_of", side_effect=KeyboardInterrupt):
                self.assertRaises(KeyboardInterrupt, self.debouncer.outlook)
            with mock.patch.object(self.debouncer, "_error_of", side_effect=MemoryError):
                self.assertRaises(MemoryError, self.debouncer.errors)
        read = self.debouncer.tick(1000)
        # Those of the outlook that was broken off, and then those of the tick.
        self.assertEqual([event.paths[0] for event in read], paths + paths)
        self.assertEqual([error.text for error in self.debouncer.errors()], paths)

    def test_another_thread(self):
        faults = []

        def call():
            try:
                self.debouncer.tick(0)
            except RuntimeError as fault:
                faults.append(fault)

        thread = threading.Thread(target=call)
        thread.start()
        thread.join()
        self.assertEqual(len(faults), 1)
        self.assertEqual(self.debouncer.tick(0), [])

    def test_one_that_another_thread_left_is_not_freed(self):
        left = []
        thread = threading.Thread(target=lambda: left.append(ndf.Debouncer(0)))
        thread.start()
        thread.join()
        with warnings.catch_warnings(record=True) as said:
            warnings.simplefilter("always")
            left.clear()
            gc.collect()
        self.assertEqual([warning.category for warning in said], [ResourceWarning])


class Version(unittest.TestCase):
    def test_a_library_of_another_version_is_refused(self):
        for version in (0, 100, 20000):
            library = mock.Mock(ndf_version=lambda: version, _name="libndf.so.0")
            self.assertRaises(ImportError, ndf._check_version, library)
        self.assertRaises(ImportError, ndf._check_version, mock.Mock(spec=["_name"], _name="libndf.so.0"))


if __name__ == "__main__":
    unittest.main()
