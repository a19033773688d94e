"""The calendar call that fills a list of records."""
from checks import CALENDAR, CALENDAR_FACTORS, REFUSED_CALENDARS, STRETCHES, STRETCHES_FACTORS, CallTest
from rafttwine import calendar_list


class CalendarListTest(CallTest):
    def test_every_longest_stretch(self) -> None:
        self.assertEqual(calendar_list(*CALENDAR), STRETCHES)
        self.assertEqual(calendar_list(*CALENDAR_FACTORS), STRETCHES_FACTORS)

    def test_refusals(self) -> None:
        self.refuses(calendar_list, REFUSED_CALENDARS)
