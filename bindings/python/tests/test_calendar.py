"""The calendar call that writes bytes."""
from checks import CALENDAR, CALENDAR_FACTORS, REFUSED_CALENDARS, STRETCHES, STRETCHES_FACTORS, CallTest
from rafttwine import calendar


class CalendarTest(CallTest):
    def test_every_longest_stretch(self) -> None:
        self.assertEqual(calendar(*CALENDAR), STRETCHES)
        self.assertEqual(calendar(*CALENDAR_FACTORS), STRETCHES_FACTORS)

    def test_refusals(self) -> None:
        self.refuses(calendar, REFUSED_CALENDARS)
