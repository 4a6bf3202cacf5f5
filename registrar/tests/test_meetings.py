"""Meetings, numbers and names, as exports write them."""

from __future__ import annotations

import unittest
from decimal import Decimal

from registrar import amounts, meetings, spelling
from registrar.meetings import MeetingFault, MeetingRules
from registrar.spelling import NameFault, NameRules, Names


class Meetings(unittest.TestCase):
    """Meetings in the forms that schools export."""

    def test_what_is_read(self) -> None:
        cases = [
            ("MWF 9:00-10:15", 0, "M0900-1015 W0900-1015 F0900-1015"),
            ("Tue/Thu 13:30", 75, "T1330-1445 R1330-1445"),
            ("TBA", 0, ""),
            ("tba", 0, ""),
            ("TR 1:30pm-2:45pm", 0, "T1330-1445 R1330-1445"),
            ("TuTh 1:30-2:45 PM", 0, "T1330-1445 R1330-1445"),
            ("TTh 0930-1045", 0, "T0930-1045 R0930-1045"),
            ("MW 11:00-12:15pm", 0, "M1100-1215 W1100-1215"),
            ("MW 11:00am-12:15", 0, "M1100-1215 W1100-1215"),
            ("F 12am-12:30 a.m.", 0, "F0000-0030"),
            ("Fri 11am - 1", 0, "F1100-1300"),
            ("M0900-1020;W0900-1020", 0, "M0900-1020 W0900-1020"),
            ("MW 9:00 AM - 10:15 AM; F 14:00-15:00", 0, "M0900-1015 W0900-1015 F1400-1500"),
            ("MW 9:00-10:15\nF 9:00-9:50", 0, "M0900-1015 W0900-1015 F0900-0950"),
            ("Mon, Wed 09:00\u201310:15", 0, "M0900-1015 W0900-1015"),
            ("Mon 9:00-10:15, Wed 08:00-09:15", 0, "M0900-1015 W0800-0915"),
            ("Mon, Wed 7:00-9:00pm", 0, "M1900-2100 W1900-2100"),
            ("Su 9:00-12:00", 0, "U0900-1200"),
            ("SUN 9:00-12:00", 0, "U0900-1200"),
            ("S,U 9:00-12:00", 0, "S0900-1200 U0900-1200"),
            ("TTH 9:00-10:15", 0, "T0900-1015 R0900-1015"),
            ("MTWTHF 9:00-9:50", 0, "M0900-0950 T0900-0950 W0900-0950 R0900-0950 F0900-0950"),
            ("MWR 10:00-11:30", 0, "M1000-1130 W1000-1130 R1000-1130"),
            ("SAT 10:00-11:30", 0, "S1000-1130"),
            ("F 8:00-13:00", 0, "F0800-1300"),
            ("Monday and Wednesday 9.00 - 10.15", 0, "M0900-1015 W0900-1015"),
            ("Sa 9h00-10h15", 0, "S0900-1015"),
            ("MoWeFr 9:00:00 AM - 10:15:00 AM", 0, "M0900-1015 W0900-1015 F0900-1015"),
            ("MW 9:00-10:15 and F 9:00-9:50", 0, "M0900-1015 W0900-1015 F0900-0950"),
            ("MW 9:00-10:15 / F 9:00-9:50", 0, "M0900-1015 W0900-1015 F0900-0950"),
            ("Sun 9 to 10", 0, "U0900-1000"),
        ]
        for text, length, expected in cases:
            with self.subTest(text=text):
                self.assertEqual(" ".join(meetings.meetings_of(text, length, MeetingRules(is_24=True))), expected)

    def test_what_can_be_read_in_two_ways_or_none_is_a_fault(self) -> None:
        cases = [
            ("Tue/Thu 13:30", "length"),
            ("MWF 1:30-2:45", "am or pm"),
            ("M-F 9:00-10:00", "one by one"),
            ("MWF 9:00-10:15 Room 12", "Room"),
            ("MWF", "can not be read"),
            ("9:00-10:15", "can not be read"),
            ("M 10:15-9:00", "later than the start"),
            ("Di 9:00-10:00", "no days"),
            ("F 9:00-10:15 Mon 12", "no time"),
            ("F 13:30pm-14:00", "a time"),
            ("F 9:60-10:15", "a time"),
            ("MM 9:00-10:00", "twice"),
            ("TU" * 40 + " 9:00-10:00", "twice"),
            ("TU" * 40 + "X 9:00-10:00", "are no days"),
            ("F 22:00-24:00", "a time"),
            ("SU 9:00-12:00", '"SU" may be Saturday and Sunday, or Sunday; write the days apart, or say `SU = SU` or `SU = U` under [days]'),
            ("TUTH 9:00-10:15", '"TUTH" may be Tuesday and Sunday and Thursday, or Tuesday and Thursday'),
            ("MWFR 9:00-9:50", "Friday and Thursday"),
            ("MW 7:00-9:00", "may be 7:00-9:00 or 19:00-21:00; write am or pm, or state `clock = 24` under [times]"),
            ("MW 8:30-9:50", "may be 8:30-9:50 or 20:30-21:50"),
        ]
        for text, words in cases:
            with self.subTest(text=text), self.assertRaises(MeetingFault) as told:
                meetings.meetings_of(text, 0, MeetingRules())
            self.assertIn(words, str(told.exception))

    def test_words_of_the_mapping(self) -> None:
        rules = MeetingRules(days={"di": "T", "do": "R"}, none=("frei",), length=90, earliest=0, is_24=True)
        for text, expected in (("DiDo 9:00", "T0900-1030 R0900-1030"), ("Frei", ""), ("M 1:30-2:45", "M0130-0245")):
            with self.subTest(text=text):
                self.assertEqual(" ".join(meetings.meetings_of(text, 0, rules)), expected)

    def test_what_the_mapping_says_of_days_and_times_reads_in_one_way(self) -> None:
        letters = MeetingRules(days={"h": "R"})
        self.assertEqual(meetings.days_of("MTWHF", letters), "MTWRF")
        self.assertEqual(meetings.days_of("TTh", letters), "TR")
        with self.assertRaisesRegex(MeetingFault, '"TH" may be Tuesday and Thursday, or Thursday'):
            meetings.days_of("TH", letters)
        for word, wanted in (("TR", "TR"), ("R", "R")):
            letters = MeetingRules(days={"h": "R", "th": word})
            self.assertEqual(meetings.days_of("TH", letters), wanted)
        rules = MeetingRules(days={"su": "SU"}, is_24=True)
        self.assertEqual(meetings.meetings_of("SU 7:00-9:00", 0, rules), ["S0700-0900", "U0700-0900"])
        self.assertEqual(meetings.meetings_of("MW 8:30", 80, MeetingRules(latest=21 * 60)), ["M0830-0950", "W0830-0950"])

    def test_columns(self) -> None:
        cases = [
            (("MW", "9:00", "10:15", 0), "M0900-1015 W0900-1015"),
            (("MW", "900", "1015", 0), "M0900-1015 W0900-1015"),
            (("F", "13:30:00", "14:45:00", 0), "F1330-1445"),
            (("Tue", "1:30 PM", "", 75), "T1330-1445"),
            (("TR", "9:00-10:15", "", 0), "T0900-1015 R0900-1015"),
            (("TBA", "", "", 0), ""),
            (("MW", "TBA", "", 0), ""),
        ]
        for (days, start, end, length), expected in cases:
            with self.subTest(days=days, start=start):
                found = meetings.meetings_by_columns(days, start, end, length, MeetingRules())
                self.assertEqual(" ".join(found), expected)
        for days, start in (("MW", ""), ("", "9:00")):
            with self.subTest(days=days), self.assertRaises(MeetingFault):
                meetings.meetings_by_columns(days, start, "", 0, MeetingRules())

    def test_lengths(self) -> None:
        for text, expected in (("75", 75), ("75 min", 75), ("1:15", 75), ("1h15", 75), ("80.0", 80)):
            with self.subTest(text=text):
                self.assertEqual(meetings.minutes_of(text), expected)
        for text in ("", "0", "long", "1440"):
            with self.subTest(text=text), self.assertRaises(MeetingFault):
                meetings.minutes_of(text)

    def test_ten_meetings_and_no_more(self) -> None:
        ten = [f"M{hour:02d}00-{hour:02d}30" for hour in range(8, 18)]
        self.assertEqual(meetings.joined(ten[::-1] + ten[:1]), ten)
        with self.assertRaises(MeetingFault):
            meetings.joined(ten + ["T0900-1000"])


class Amounts(unittest.TestCase):
    """Numbers in the forms that schools export."""

    def test_numbers(self) -> None:
        cases = [
            ("30", ".", "30"),
            ("1.0", ".", "1"),
            ("1,200", ".", "1200"),
            ("1 200", ".", "1200"),
            ("1'200.50", ".", "1200.5"),
            ("-5", ".", "-5"),
            ("1.200,0", ",", "1200"),
            ("1,5", ",", "1.5"),
        ]
        for text, decimal, expected in cases:
            with self.subTest(text=text):
                self.assertEqual(amounts.amount(text, decimal), Decimal(expected))
        for text in ("", "1,5", "12,00", "1e5", "five", "1..0", "\uff11", "4,5OO"):
            with self.subTest(text=text), self.assertRaises(amounts.AmountFault):
                amounts.amount(text)

    def test_ranges_and_units(self) -> None:
        self.assertEqual(amounts.whole("9,999.0", 0, 9999), 9999)
        self.assertEqual(amounts.in_units("1.5", Decimal("0.5"), 100), 3)
        self.assertEqual(amounts.in_units("3.000", Decimal("1"), 100), 3)
        with self.assertRaises(amounts.AmountFault) as told:
            amounts.whole("1.000", 0, 9999)
        self.assertIn("three decimals", str(told.exception))
        for text in ("10,000", "-1", "1.5"):
            with self.subTest(text=text), self.assertRaises(amounts.AmountFault) as told:
                amounts.whole(text, 0, 9999)
            self.assertEqual(str(told.exception), "a whole number from 0 to 9,999")
        for text, words in (("0.3", "multiple of 0.5"), ("50.5", "0 to 50"), ("x", "credits")):
            with self.subTest(text=text), self.assertRaises(amounts.AmountFault) as told:
                amounts.in_units(text, Decimal("0.5"), 100)
            self.assertIn(words, str(told.exception))


class Spelling(unittest.TestCase):
    """Codes as names, and finding them again."""

    def test_the_rule(self) -> None:
        cases = [
            ("FNCE-601-A", "FNCE-601-A"),
            ("  FNCE\u00a0601  A ", "FNCE_601_A"),
            ("G\u00c9NI 101", "GENI_101"),
            ("Ge\u0301ni", "Geni"),
            ("Stra\u00dfe/\u00d8", "Strasse-O"),
            ("C++ & x", "C--_-_x"),
            ("\u6570101", "u6570101"),
        ]
        for text, expected in cases:
            with self.subTest(text=text):
                self.assertEqual(spelling.spelt(text), expected)

    def test_two_codes_of_one_spelling_are_refused(self) -> None:
        names = Names("section", NameRules())
        self.assertEqual(names.define("G\u00c9NI 101"), "GENI_101")
        self.assertEqual(names.define("G\u00c9NI 101"), "GENI_101")
        with self.assertRaises(NameFault) as told:
            names.define("GENI 101")
        self.assertIn("G\u00c9NI 101", str(told.exception))
        chosen = Names("section", NameRules(spell={"GENI 101": "GENI_101_b"}))
        chosen.define("G\u00c9NI 101")
        self.assertEqual(chosen.define("GENI 101"), "GENI_101_b")
        self.assertEqual(chosen.rows(), [["section", "G\u00c9NI 101", "GENI_101"], ["section", "GENI 101", "GENI_101_b"]])

    def test_what_is_no_name(self) -> None:
        names = Names("student", NameRules())
        for text, words in (("", "none"), ("a" * 33, "33"), ("Jos\ufffd", "lost")):
            with self.subTest(text=text), self.assertRaises(NameFault) as told:
                names.define(text)
            self.assertIn(words, str(told.exception))

    def test_finding(self) -> None:
        rules = NameRules(endings=("@school.edu",), same={"N. Jones": "n.jones"})
        names = Names("student", rules)
        for text in ("n.jones", "00123", "b.aoki"):
            names.define(text)
        for text, expected in (("n.jones@School.edu", "n.jones"), ("N. Jones", "n.jones"), (" b.aoki ", "b.aoki")):
            with self.subTest(text=text):
                self.assertEqual(names.find(text), expected)
        for text, words in (("123", "nearest: 00123 (a spreadsheet may have taken leading zeros); `pad = 5`"), ("N.Jones", "any case"),
                            ("n.jnes", "nearest: n.jones"), ("zzz", "a student of the roll")):  # fmt: skip
            with self.subTest(text=text), self.assertRaises(NameFault) as told:
                names.find(text)
            self.assertIn(words, str(told.exception))

    def test_zeros_and_capitals_are_joined_where_the_mapping_says_so(self) -> None:
        names = Names("student", NameRules(pad=5, any_case=True))
        names.define("00123")
        names.define("n.jones")
        self.assertEqual(names.find("123"), "00123")
        self.assertEqual(names.find("N.Jones"), "n.jones")
        with self.assertRaises(NameFault):
            names.define("N.JONES")


if __name__ == "__main__":
    unittest.main()
