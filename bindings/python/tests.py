"""What the examples do not show of the package: threads, ends of sessions, texts of each kind, arguments out of range, and what is said where
something is not there."""
import array
import copy
import gc
import inspect
import mmap
import os
import pickle
import re
import subprocess
import sys
import tempfile
import threading
import unittest
import warnings
from concurrent.futures import ProcessPoolExecutor, ThreadPoolExecutor

import hongpilas
from hongpilas import Find, Limits, Messages, Modification, Note, Notification, Refusal, Refused, Session, View, constants, note_name
from hongpilas.scripts import ScriptFault, assemble


def send_unknown(number):
    """What a process of its own refuses."""
    with Session() as session:
        return session.new_view().send(number)


# A signal comes at many moments of a call. Its handler makes a call of its own, which is done or raises RuntimeError; or it raises, and then other threads
# can use the session.
SIGNALS = """
import faulthandler, signal, threading
from hongpilas import Session

faulthandler.dump_traceback_later(60, exit=True)
with Session() as session:
    view = session.new_view()
    seen = set()

    def ask(*_):
        try:
            seen.add(view.get_length())
        except RuntimeError as fault:
            seen.add(str(fault))

    signal.signal(signal.SIGALRM, ask)
    signal.setitimer(signal.ITIMER_REAL, 0.0001, 0.0001)
    for _ in range(100_000):
        view.get_length()
    signal.setitimer(signal.ITIMER_REAL, 0)
    assert seen <= {0, "a session is used by one call at a time"}, seen

    def leave(*_):
        raise KeyboardInterrupt

    signal.signal(signal.SIGALRM, leave)
    for turn in range(1000):
        try:
            signal.setitimer(signal.ITIMER_REAL, 0.0001 + turn % 10 * 0.00001)
            while True:
                view.get_length()
        except KeyboardInterrupt:
            pass
        other = threading.Thread(target=view.get_length)
        other.start()
        other.join()
print("done")
"""


class Sessions(unittest.TestCase):
    def test_a_session_is_handed_from_thread_to_thread(self):
        with Session() as session:
            view = session.new_view()
            for _ in range(20):
                thread = threading.Thread(target=view.append_text, args=("line\n",))
                thread.start()
                thread.join()
            self.assertEqual((view.get_length(), view.get_line_count()), (100, 21))

    def test_threads_share_a_session_one_call_at_a_time(self):
        with Session() as session, ThreadPoolExecutor(4) as pool:
            view = session.new_view()
            view.set_text("x" * 10_000)

            def work(_):
                view.append_text("y")
                return len(view.get_text()) > 10_000 and len(view.read_range(0, 10_000)) == 10_000 and isinstance(session.notes(), list)

            self.assertTrue(all(pool.map(work, range(400))))
            self.assertEqual(view.get_length(), 10_400)

    def test_a_session_is_closed_by_another_thread(self):
        session = Session()
        thread = threading.Thread(target=session.close)
        thread.start()
        thread.join()
        self.assertTrue(session.closed)

    def test_a_session_is_closed_once(self):
        session = Session()
        view = session.new_view()
        session.close()
        session.close()
        self.assertTrue(session.closed)
        for call in (view.get_text, session.notes, session.new_view, session.text, session.value, session.__enter__):
            self.assertRaises(ValueError, call)

    def test_with_of_a_closed_session_raises(self):
        session = Session()
        session.close()
        with self.assertRaises(ValueError):
            with session:
                self.fail("the session is closed")

    def test_a_dropped_session_is_freed_with_a_warning(self):
        before = resident()
        for _ in range(10):
            with warnings.catch_warnings(record=True) as caught:
                warnings.simplefilter("always")
                session = Session()
                session.new_view().set_text(b"x" * 10_000_000)
                del session
                gc.collect()
            self.assertEqual([warning.category for warning in caught], [ResourceWarning])
        self.assertLess(resident() - before, 100_000_000)

    def test_a_closed_session_is_dropped_without_a_warning(self):
        with warnings.catch_warnings(record=True) as caught:
            warnings.simplefilter("always")
            with Session() as session:
                session.new_view()
            del session
            gc.collect()
        self.assertEqual(caught, [])

    def test_a_session_is_not_copied(self):
        with Session() as session:
            view = session.new_view()
            for call in (copy.copy, copy.deepcopy, pickle.dumps):
                self.assertRaises(TypeError, call, session)
            self.assertRaises(TypeError, copy.deepcopy, view)
            self.assertEqual(copy.copy(view), view)

    def test_a_call_amid_a_call_of_the_same_thread_raises(self):
        with Session() as session:
            view = session.new_view()
            with session._turn():
                self.assertRaises(RuntimeError, view.get_length)
                self.assertRaises(RuntimeError, session.close)
            self.assertEqual(view.get_length(), 0)

    def test_signals_between_the_steps_of_a_call(self):
        """In a process of its own, since it waited for ever once."""
        it = subprocess.run([sys.executable, "-c", SIGNALS], capture_output=True, timeout=120, text=True)
        self.assertEqual((it.returncode, it.stdout, it.stderr), (0, "done\n", ""))

    def test_an_argument_that_closes_its_session(self):
        session = Session()
        view = session.new_view()

        class Closing:
            def __index__(self):
                session.close()
                return 0

        self.assertRaises(ValueError, view.send, 2025, Closing())

    def test_views_by_their_ids(self):
        with Session() as session:
            first, second = session.new_view(), session.new_view()
            self.assertEqual((first.id, second.id), (1, 2))
            second.set_doc_pointer(first.get_doc_pointer())
            session.view(1).add_text("ab")
            told = [session.view(note.view) for note in session.notes()]
            self.assertEqual(told, [first, second] * 3)
            self.assertNotEqual(first, second)
            with self.assertRaises(Refused) as caught:
                session.view(3).get_length()
            self.assertEqual(caught.exception.refusal, Refusal.NO_SUCH_VIEW)

    def test_notes_of_a_view(self):
        with Session() as session:
            first, second = session.new_view(), session.new_view()
            second.set_doc_pointer(first.get_doc_pointer())
            first.add_text("ab")
            self.assertEqual([note.view for note in second.notes()], [2, 2, 2])
            self.assertEqual(first.notes() + second.notes(), sorted(session.notes(), key=lambda note: note.view))
            self.assertEqual([note_name(note.code) for note in first.notes()], ["SCN_MODIFIED", "SCN_SAVEPOINTLEFT", "SCN_MODIFIED"])
            kept = first.notes()
            second.set_sel(0, 1)
            self.assertEqual((first.notes(), len(kept), kept[2].text), ([], 3, b"ab"))

    def test_questions_keep_the_reply(self):
        with Session() as session:
            view = session.new_view()
            view.insert_text(0, "one\ntwo")
            notes = session.notes()
            self.assertEqual((view.get_length(), view.get_line(1), view.can_undo(), list(view.lines())), (7, b"two", True, [b"one\n", b"two"]))
            self.assertEqual((session.notes(), session.text()), (notes, b""))
            self.assertEqual(view.send(constants.SCI_GETLINE, 1), 3)
            self.assertEqual((session.notes(), session.text(), view.value()), ([], b"two", 3))
            with self.assertRaises(Refused) as caught:
                view.ask(constants.SCI_UNDO)
            self.assertEqual(caught.exception.refusal, Refusal.UNKNOWN_MESSAGE)

    def test_kinds_and_codes_are_enumerations(self):
        with Session() as session:
            view = session.new_view()
            view.add_text("ab")
            note = session.notes()[-1]
            self.assertIs(note.code, Notification.MODIFIED)
            self.assertEqual(note.kind, Modification.INSERTTEXT | Modification.PERFORMED_USER | Modification.STARTACTION)
            self.assertTrue(note.kind & constants.SC_MOD_INSERTTEXT and not note.kind & Modification.DELETETEXT)
            self.assertEqual((note.code, note.kind), (2008, 0x2011))
            view.set_search_flags(Find.MATCHCASE | Find.WHOLEWORD)
            self.assertEqual(view.get_search_flags(), constants.SCFIND_MATCHCASE | constants.SCFIND_WHOLEWORD)
            self.assertEqual((Notification(9999), constants.EndOfLine(2)), (9999, constants.SC_EOL_LF))
            self.assertIsInstance(note, Note)
            self.assertRaises(AttributeError, setattr, note, "code", 0)

    def test_a_later_version_may_add_fields(self):
        """So nobody unpacks them."""
        with Session() as session:
            session.new_view().add_text("ab")
            self.assertRaises(TypeError, iter, session.notes()[0])
        self.assertRaises(TypeError, iter, Limits())

    def test_undo_groups(self):
        with Session() as session:
            view = session.new_view()
            with self.assertRaises(Refused), view.undo_group():
                view.insert_text(0, "one ")
                view.insert_text(99, "two ")
            view.append_text("three")
            view.undo()
            self.assertEqual(view.get_text(), b"one ")

    def test_what_leaves_an_undo_group_is_raised(self):
        for close in (View.close, lambda view: view.session.close()):
            with Session() as session:
                view = session.new_view()
                with self.assertRaises(ZeroDivisionError), view.undo_group():
                    close(view)
                    raise ZeroDivisionError
        with Session() as session:
            view = session.new_view()
            with self.assertRaises(Refused) as caught, view.undo_group():
                view.close()
            self.assertEqual(caught.exception.refusal, Refusal.NO_SUCH_VIEW)

    def test_names_of_notes(self):
        self.assertEqual((note_name(2008), note_name(2000), note_name(1)), ("SCN_MODIFIED", "SCN_STYLENEEDED", None))

    def test_limits(self):
        with Session(Limits(views=1)) as session:
            session.new_view()
            with self.assertRaises(Refused) as caught:
                session.new_view()
            self.assertEqual(caught.exception.refusal, Refusal.TOO_MANY)
        self.assertRaises(Refused, Session, Limits(views=0))
        self.assertRaises(OverflowError, Session, Limits(views=-1))
        self.assertEqual(Limits(depth=2), Limits(depth=2))


class Refusals(unittest.TestCase):
    def test_a_refusal_is_pickled(self):
        for refusal in (*Refusal, Refusal(77)):
            found = pickle.loads(pickle.dumps(Refused(refusal)))
            self.assertEqual((type(found), found.refusal, str(found)), (Refused, refusal, str(Refused(refusal))))
        self.assertEqual((str(Refused(Refusal.TOO_LONG)), str(Refused(Refusal(77)))), ("text too long", "unknown refusal"))
        self.assertRaises(ValueError, Refusal, 0)

    def test_a_refusal_comes_back_from_another_process(self):
        with ProcessPoolExecutor(1) as pool:
            with self.assertRaises(Refused) as caught:
                pool.submit(send_unknown, 9999).result()
            self.assertEqual(caught.exception.refusal, Refusal.UNKNOWN_MESSAGE)
            self.assertEqual(pool.submit(send_unknown, constants.SCI_GETLENGTH).result(), 0)


def resident():
    """The bytes of memory that the process has."""
    with open("/proc/self/statm", encoding="ascii") as file:
        return int(file.read().split()[1]) * mmap.PAGESIZE


def peak_of(call):
    """By how much a call raises the peak of the process's memory."""
    with open("/proc/self/clear_refs", "w", encoding="ascii") as file:
        file.write("5")
    before = resident()
    call()
    with open("/proc/self/status", encoding="ascii") as file:
        return int(next(line for line in file if line.startswith("VmHWM:")).split()[1]) * 1024 - before


class Texts(unittest.TestCase):
    def test_texts_of_each_kind(self):
        with Session() as session:
            view = session.new_view()
            for text in (b"a\0b", bytearray(b"a\0b"), memoryview(b"a\0b"), array.array("b", b"a\0b"), memoryview(b"a-\0-b")[::2], "a\0b"):
                view.set_text(text)
                self.assertEqual(view.get_text(), b"a\0b")
            view.set_text("")
            self.assertEqual((view.get_text(), view.read_range(0, 0)), (b"", b""))

    def test_what_is_no_text_is_not_sent(self):
        with Session() as session:
            view = session.new_view()
            for wrong in (3, [65, 66], (65,), 1.5, None, True, {"a": 1}, iter(b"ab")):
                for call in (view.append_text, view.set_text, lambda text: view.insert_text(0, text), lambda text: view.send(2181, text=text)):
                    self.assertRaises(TypeError, call, wrong)
            self.assertEqual((view.get_length(), view.can_undo()), (0, False))

    def test_a_text_that_another_thread_writes_to(self):
        lines, words = b"\n" * (1 << 18), b"x" * (1 << 18)
        text, ended = bytearray(words), threading.Event()

        def flip():
            while not ended.is_set():
                text[:] = lines
                text[:] = words

        thread = threading.Thread(target=flip)
        thread.start()
        try:
            with Session() as session:
                view = session.new_view()
                for _ in range(20):
                    view.clear_all()
                    for sent in (text, memoryview(text).toreadonly()):
                        view.insert_text(0, sent)
                        read = view.get_text()[: len(text)]
                        self.assertTrue(read in (lines, words), "one text or the other")
                    self.assertEqual(view.get_line_count(), view.get_text().count(b"\n") + 1)
        finally:
            ended.set()
            thread.join()

    def test_a_text_of_another_length_than_it_says(self):
        class Long(bytes):
            def __len__(self):
                return 1 << 20

        with Session() as session:
            view = session.new_view()
            for text in (Long(b"ab"), memoryview(Long(b"ab"))):
                view.set_text(text)
                view.append_text(text)
                self.assertEqual(view.get_text(), b"abab")

    def test_buffers_are_sent_as_they_are(self):
        with Session() as session, tempfile.TemporaryFile() as file:
            view = session.new_view()
            file.write(b"a\0b")
            file.flush()
            mapped = mmap.mmap(file.fileno(), 3, access=mmap.ACCESS_READ)
            square, part = memoryview(bytearray(b"abcd")).cast("B", (2, 2)), memoryview(b"abcd")[1:3]
            for text in (mapped, memoryview(mapped), array.array("i", [1, 2]), square, part, b"", bytearray()):
                view.set_text(text)
                self.assertEqual(view.get_text(), bytes(text))
                self.assertEqual(view.read_range(0, view.get_length()), bytes(text))
                view.clear_all()
                view.append_text(text)
                self.assertEqual(view.get_text(), bytes(text))
            mapped.close()

    def test_a_text_is_copied_once(self):
        size = 64 << 20
        library = 3.4 * size  # the text, the history and the notification
        for text, copies in ((b"x" * size, 0), (memoryview(b"x" * size), 0), (bytearray(size), 1), ("x" * size, 1)):
            with Session() as session:
                view = session.new_view()
                self.assertLess(peak_of(lambda: view.append_text(text)), library + copies * size, type(text))
                view.empty_undo_buffer()
                self.assertLess(peak_of(lambda: view.read_range(0, size)), 1.4 * size)
                self.assertLess(peak_of(view.get_text), 2.4 * size)  # the library's, which it lends, and the copy

    def test_a_lone_surrogate_is_no_text(self):
        with Session() as session:
            self.assertRaises(UnicodeEncodeError, session.new_view().set_text, "\udc80")

    def test_a_range_is_copied(self):
        with Session() as session:
            view = session.new_view()
            view.set_text("hello, world")
            view.send(constants.SCI_GETLINE, 0)
            self.assertEqual((view.read_range(7, 5), session.value()), (b"world", 12))
            for start, count in ((5, -3), (-1, 2), (7, 6), (13, 0), (1 << 64, 0), (0, 1 << 64)):
                with self.assertRaises(Refused) as caught:
                    view.read_range(start, count)
                self.assertEqual(caught.exception.refusal, Refusal.BAD_ARGUMENT, (start, count))

    def test_a_length_is_counted_in_bytes(self):
        with Session() as session:
            view = session.new_view()
            view.append_text("größer")
            self.assertEqual(view.get_length(), 8)
            view.target_whole_document()
            self.assertEqual(view.replace_target("ß"), 2)

    def test_the_last_reply(self):
        with Session() as session:
            view = session.new_view()
            view.insert_text(0, "one\ntwo")
            self.assertEqual(len(session.notes()), 3)
            view.goto_pos(6)
            self.assertEqual((view.send(constants.SCI_GETCURLINE), session.value(), session.text()), (2, 2, b"two"))
            self.assertRaises(Refused, view.get_text_range, 3, 2)
            self.assertEqual(view.get_line(0), b"one\n")
            self.assertEqual((view.value(), view.text()), (2, b"two"))


class Methods(unittest.TestCase):
    def test_each_message_has_a_method_that_names_it(self):
        told = [name for method in vars(Messages).values() for name in re.findall(r"Message:\s`(\w+)`\.$", inspect.getdoc(method) or "")]
        sent = {name for name in vars(constants) if name.startswith("SCI_")}
        self.assertEqual((set(told), len(told)), (sent, len(sent)))

    def test_arguments_have_the_names_of_the_method(self):
        """A docstring names no argument by the letter of a definition."""
        for name, method in inspect.getmembers(Messages, inspect.isfunction):
            self.assertNotRegex(inspect.getdoc(method) or "", r"\b[A-Z] is `|\bHere [a-z] is\b", name)

    def test_types_are_hinted(self):
        for name, method in inspect.getmembers(View, inspect.isfunction):
            hints = inspect.signature(method)
            self.assertTrue(name == "__init__" or hints.return_annotation is not inspect.Signature.empty, name)


class Program(unittest.TestCase):
    """What `python -m hongpilas` says, with other arguments and surroundings."""

    def said(self, *words, named=None):
        surroundings = {name: value for name, value in os.environ.items() if name != "HONGPILAS"}
        if named is not None:
            surroundings["HONGPILAS"] = named
        it = subprocess.run([sys.executable, "-m", "hongpilas", *words], stdin=subprocess.DEVNULL, capture_output=True, env=surroundings, text=True)
        return it.returncode, it.stdout, it.stderr

    def test_a_file_that_is_not_there_is_named(self):
        self.assertEqual(self.said("run", "nope.sci"), (3, "", "read fault: nope.sci\n"))
        self.assertEqual(self.said("run", "-", "no.file"), (3, "", "read fault: no.file\n"))

    def test_how_it_is_used(self):
        usage = "usage: python -m hongpilas [-h] run [--quiet] SCRIPT [FILE ...]\n"
        for words in ((), ("run",), ("walk", "a.sci"), ("run", "--loud", "a.sci")):
            status, printed, said = self.said(*words)
            self.assertEqual((status, printed, said[: len(usage)]), (2, "", usage), words)
        self.assertEqual(self.said("--help")[1][: len(usage)], usage)
        self.assertEqual(self.said()[2], f"{usage}python -m hongpilas: error: the following arguments are required: run, SCRIPT\n")

    def test_the_version(self):
        self.assertRegex(hongpilas.__version__, r"^2\.\d+\.\d+$")

    def test_another_library(self):
        here = os.path.join(os.path.dirname(inspect.getfile(Session)), "libhongpilas.so")
        with tempfile.TemporaryDirectory() as folder:
            script = os.path.join(folder, "a.sci")
            with open(script, "w", encoding="utf-8") as file:
                file.write("sci 1\nopen\n")
            self.assertEqual(self.said("run", script, named=os.path.relpath(here)), (0, '= 1 ""\n', ""))
            for named in (folder, os.path.relpath(folder), os.path.join(folder, "none.so")):
                status, _, said = self.said("run", script, named=named)
                wanted = f"HONGPILAS names the shared object itself, as /usr/local/lib/libhongpilas.so: no file is at {os.path.abspath(named)}\n"
                self.assertEqual((status, said.endswith(wanted)), (1, True), said)


class Scripts(unittest.TestCase):
    def fault(self, script):
        with self.assertRaises(ScriptFault) as caught:
            assemble(script)
        return caught.exception.cause, caught.exception.line

    def test_the_longest_line(self):
        line = b'send 1 2003 0 0 "' + b"a" * (65_536 - 18) + b'"'
        self.assertEqual(len(assemble(b"sci 1\n" + line + b"\n")), 1)
        self.assertEqual(self.fault(b"sci 1\n" + line[:-1] + b'a"\n'), ("LineTooLong", 2))
        self.assertEqual(self.fault(b"\n" * (16 * 1024 * 1024 + 1)), ("TooLong", None))

    def test_numbers(self):
        self.assertEqual(assemble(b"sci 2\nexpect -9223372036854775808\nclose 4294967295\n")[1].fields, (4294967295,))
        for word in (b"-0", b"+1", b"01", b"9223372036854775808", b"-9223372036854775809", b"0x1", b"1_0", "٣".encode()):
            self.assertEqual(self.fault(b"sci 2\nexpect " + word + b"\n"), ("BadNumber", 2), word)
        for word in (b"-1", b"4294967296"):
            self.assertEqual(self.fault(b"sci 2\nclose " + word + b"\n"), ("BadNumber", 2), word)

    def test_texts(self):
        self.assertEqual(assemble(b'sci 1\nsend 1 1 0 0 "\\\\\\"\\x00\\xff ~"\n')[0].fields[4], b'\\"\0\xff ~')
        for text in (b"\\x41", b"\\xFF", b"\\x0", b"\\n", b"\xff", b"\t", b"\\"):
            self.assertEqual(self.fault(b'sci 1\nsend 1 1 0 0 "' + text + b'"\n'), ("BadText", 2), text)
        self.assertEqual(self.fault(b'sci 1\nsend 1 1 0 0 "" \n'), ("BadShape", 2))
        self.assertEqual(self.fault(b"sci 1\nsend 1 1 0 0  \n"), ("BadShape", 2))
        self.assertEqual(self.fault(b"sci 1\n open\n"), ("UnknownCommand", 2))


if __name__ == "__main__":
    unittest.main()
