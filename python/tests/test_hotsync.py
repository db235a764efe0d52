"""The package against the files of the demo and of the examples, and against layouts that were worked out by hand."""

import glob
import os
import struct
import unittest

import hotsync

TOP = os.path.join(os.path.dirname(os.path.abspath(__file__)), "..", "..")


def files(ending):
    return sorted(path for place in ("demo", "examples") for path in glob.glob(f"{TOP}/{place}/**/*.{ending}", recursive=True))


def read(path):
    with open(path, "rb") as file:
        return file.read()


def memo_file(*contents):
    """The file of a database of memos: the header's 78 bytes, 8 for each entry, a filler of two and the contents."""
    place = 80 + 8 * len(contents)
    head = struct.pack(">32sHH6I4s4sIIH", b"MemoDB", 0, 0, *(0,) * 6, b"DATA", b"memo", 0, 0, len(contents))
    for number, content in enumerate(contents, 1):
        head += struct.pack(">II", place, number)
        place += len(content)
    return head + b"\0\0" + b"".join(contents)


class Databases(unittest.TestCase):
    def test_a_file_is_its_database_and_back(self):
        data = memo_file(b"one\0", b"two\0")
        database = hotsync.Database.from_bytes(data)
        self.assertEqual((database.name, database.type, database.creator), (b"MemoDB", b"DATA", b"memo"))
        self.assertEqual([(one.id, one.content) for one in database.records], [(1, b"one\0"), (2, b"two\0")])
        self.assertEqual(database.to_bytes(), data)

    def test_every_file_that_can_be_read_is_the_same_database_again(self):
        read_ones = 0
        for path in files("pdb") + files("prc"):
            try:
                database = hotsync.Database.from_bytes(read(path))
            except hotsync.BadFile:
                continue
            self.assertEqual(hotsync.Database.from_bytes(database.to_bytes()), database, path)
            read_ones += 1
        self.assertGreater(read_ones, 10)

    def test_marks_and_category_are_bits(self):
        record = hotsync.Record(0x3B1004, b"Hi", 2, secret=True, dirty=True)
        database = hotsync.Database(b"MemoDB", records=[record])
        self.assertEqual(database.to_bytes()[78:86], bytes.fromhex("00000058523b1004"))
        self.assertEqual(hotsync.Database.from_bytes(database.to_bytes()).records, [record])

    def test_resources(self):
        database = hotsync.Database(b"App", b"appl", b"Note", 1, resources=[hotsync.Resource(b"code", 1, b"\xff\0")])
        self.assertEqual(hotsync.Database.from_bytes(database.to_bytes()), database)
        self.assertIn("0 type 636f6465 id 1 size 2\n", hotsync.show(database.to_bytes()))

    def test_blocks(self):
        for app, sort in ((None, b"s"), (b"", None), (b"app", b"")):
            database = hotsync.Database(b"MemoDB", app=app, sort=sort)
            again = hotsync.Database.from_bytes(database.to_bytes())
            self.assertEqual((again.app, again.sort), (app, sort))

    def test_what_has_no_place_in_a_file_is_refused(self):
        for database in (hotsync.Database(b""), hotsync.Database(b"x" * 32), hotsync.Database(b"M", version=65536),
                         hotsync.Database(b"M", records=[hotsync.Record(1 << 24, b"")])):
            with self.assertRaises(hotsync.BadForm):
                database.to_bytes()

    def test_the_rule_that_a_file_breaks_is_told(self):
        for data, kind, place in ((b"", "short", 0), (memo_file()[:78], "", 0), (b"\0" + memo_file()[1:], "name", 0)):
            if not kind:
                self.assertEqual(hotsync.check(data), 0)
                continue
            with self.assertRaises(hotsync.BadFile) as told:
                hotsync.check(data)
            self.assertEqual((told.exception.kind, told.exception.place), (kind, place))

    def test_dates(self):
        self.assertEqual(hotsync.date(3082844800).isoformat(), "2001-09-09T01:46:40")
        self.assertEqual(hotsync.seconds(hotsync.date(3082844800)), 3082844800)


def printed(example, words):
    """What a command of an example's transcript prints."""
    said = read(f"{TOP}/examples/{example}/transcript").decode().split("$ hotsync ")
    return next(text.split("\n", 1)[1] for text in said if text.split("\n", 1)[0] == words)


class Texts(unittest.TestCase):
    TEXT = "--- 000001\nHi\n--- 000002 private Home\nBye\n"
    TASKS = [hotsync.Record(0x3B1004, bytes.fromhex("c2e101") + b"Renew\0\0"),
             hotsync.Record(0x3B1005, bytes.fromhex("ffff89") + b"Oil\0\0", secret=True)]

    def test_what_the_examples_print(self):
        made = hotsync.seconds(hotsync.date(0).replace(2001, 9, 9, 1, 46, 40))
        for example, file, words, form, private in (
                ("address-book", "AddressDB.pdb", "--as=vcf", hotsync.Form.VCF, False),
                ("address-book", "AddressDB.pdb", "--as=vcf --without-private", hotsync.Form.VCF, True),
                ("address-book", "AddressDB.pdb", "--as=csv", hotsync.Form.CSV, False),
                ("address-book", "ToDoDB.pdb", "--as=csv", hotsync.Form.CSV, False),
                ("address-book", "ToDoDB.pdb", "--as=ics --date=2001-09-09T01:46:40", hotsync.Form.ICS, False),
                ("date-book", "DatebookDB.pdb", "--as=ics --date=2001-09-09T01:46:40", hotsync.Form.ICS, False)):
            text = hotsync.export(read(f"{TOP}/examples/{example}/{file}"), form, made, without_private=private)
            self.assertEqual(text, printed(example, f"export {file} {words}"), words)

    def test_memos_are_their_text_and_back(self):
        data = hotsync.import_memos(self.TEXT)
        database = hotsync.Database.from_bytes(data)
        self.assertEqual((database.name, database.attributes, len(database.app)), (b"MemoDB", 8, 282))
        self.assertEqual(database.app[:23], b"\0\0Unfiled" + b"\0" * 9 + b"Home\0")
        self.assertEqual(database.records, [hotsync.Record(1, b"Hi\0"), hotsync.Record(2, b"Bye\0", 1, secret=True)])
        self.assertEqual(hotsync.export(data, hotsync.Form.TXT), self.TEXT)
        self.assertEqual(hotsync.export(data, hotsync.Form.TXT, without_private=True), self.TEXT[:14])
        self.assertEqual(hotsync.export(hotsync.import_memos(""), hotsync.Form.TXT), "")

    def test_a_record_that_is_out_of_its_form_is_told_or_kept(self):
        data = hotsync.Database(b"ToDoDB", creator=b"todo", records=self.TASKS).to_bytes()
        rows = "id,private,category,due,done,priority,description,note,record\r\n3b1004,,,2001-07-01,,1,Renew,,\r\n"
        with self.assertRaises(hotsync.BadRecord) as told:
            hotsync.export(data, hotsync.Form.CSV)
        self.assertEqual((told.exception.index, told.exception.place), (1, 2))
        self.assertEqual(hotsync.export(data, hotsync.Form.CSV, without_private=True), rows)
        kept = hotsync.export(data, hotsync.Form.CSV, keep_broken=True)
        self.assertEqual(kept, rows + "3b1005,private,,,,,,,ffff894f696c0000\r\n")
        self.assertEqual(hotsync.export(data, hotsync.Form.CSV, without_private=True, keep_broken=True), rows)

    def test_what_gives_no_text_says_why(self):
        with self.assertRaises(hotsync.NothingOfForm):
            hotsync.export(memo_file(b"one\0"), hotsync.Form.VCF)
        with self.assertRaises(hotsync.BadForm):
            hotsync.export(b"", hotsync.Form.TXT)
        with self.assertRaises(hotsync.BadForm):
            hotsync.export(memo_file(b"one\0"), 4)

    def test_a_text_that_makes_no_database_says_why(self):
        for text, line in (("Hi\n", 1), ("--- 000001\nHi\n--- x\n", 3)):
            with self.assertRaises(hotsync.BadLine) as told:
                hotsync.import_memos(text)
            self.assertEqual(told.exception.line, line)
        labels = [f"--- new {number}\n" for number in range(16)]
        self.assertEqual(len(hotsync.Database.from_bytes(hotsync.import_memos("".join(labels[1:]))).records), 15)
        for text in ("".join(labels), "--- new\n" * 65536):
            with self.assertRaises(hotsync.Overfull):
                hotsync.import_memos(text)

    def test_file_names(self):
        self.assertEqual(hotsync.file_name(b"MemoDB"), "MemoDB")
        self.assertEqual(hotsync.file_name(b"My Memo/1_-\xff"), "My%20Memo%2F1_-%FF")
        self.assertEqual(hotsync.file_name(b"x" * 31), "x" * 31)
        for name in (b"", b"x" * 32, b"a\0b"):
            with self.assertRaises(hotsync.BadForm):
                hotsync.file_name(name)


class Merges(unittest.TestCase):
    def test_a_first_session_takes_the_handhelds_records(self):
        sides = hotsync.merge(hotsync.Sides(handheld=memo_file(b"one\0")), 3082844800)
        rows = hotsync.Database.from_bytes(sides.rows)
        self.assertEqual([(one.id, one.content) for one in rows.records], [(1, b"one\0")])
        self.assertEqual(hotsync.merge(sides, 3082844800, agree=True), sides)

    def test_what_is_left_as_it_is_says_why(self):
        app = hotsync.Database(b"App", b"appl", b"Note", 1).to_bytes()
        with self.assertRaisesRegex(hotsync.NotMerged, "holds resources"):
            hotsync.merge(hotsync.Sides(handheld=app), 0)


class Handhelds(unittest.TestCase):
    def test_a_handheld_wakes_and_keeps_its_files(self):
        files = {"MemoDB.pdb": memo_file(b"one\0")}
        handheld = hotsync.Handheld(files)
        self.assertEqual(handheld.said[:3], bytes.fromhex("beefed"))
        self.assertEqual(handheld.files(), files)
        self.assertEqual(handheld.take(), handheld.said[: len(handheld.said) // 2])
        self.assertEqual(handheld.phase, hotsync.Phase.GOES_ON)

    def test_bad_files_are_none_of_a_handheld(self):
        with self.assertRaises(hotsync.BadFiles):
            hotsync.Handheld({"MemoDB.pdb": b"none"})


class Lines(unittest.TestCase):
    def test_packets(self):
        ack = bytes.fromhex("beefed030302000401a702c00002ce11")
        self.assertEqual(hotsync.packets(ack + ack).splitlines()[-1], "packets 2")

    def test_verdicts(self):
        self.assertTrue(hotsync.verify(b"").is_proper)
        with self.assertRaises(hotsync.BadLine) as told:
            hotsync.verify(b"1\n")
        self.assertEqual(told.exception.line, 1)
        self.assertTrue(hotsync.picture(b"").startswith("<!doctype html>"))


class Reasons(unittest.TestCase):
    def test_the_version_is_that_of_the_sources(self):
        self.assertEqual(hotsync.__version__, read(f"{TOP}/VERSION").decode().strip())


if __name__ == "__main__":
    unittest.main()
