"""Days as people write them, dates such as 2026-11-15, and as a book counts them, from 1 January 2000 on."""
import datetime
import re

import book_format as f

ORIGIN = datetime.date(2000, 1, 1)
MOST = f.MARKS['last'][1] - 1


def written(number):
    """The date of a day."""
    return (ORIGIN + datetime.timedelta(number)).isoformat()


def number(text):
    """The day of a date; ValueError says what is wrong with it."""
    if not re.fullmatch('[0-9]{4}-[0-9]{2}-[0-9]{2}', text):
        raise ValueError(f'{text} is no date such as 2026-11-15')
    try:
        day = (datetime.date.fromisoformat(text) - ORIGIN).days
    except ValueError:
        raise ValueError(f'{text} is no day of the calendar') from None
    if not 0 <= day <= MOST:
        raise ValueError(f'{text} is none of the days of a book, {written(0)} to {written(MOST)}')
    return day


def part(book, day):
    """The book with only the statements in force on a day."""
    return book.part(lambda marks: marks.first <= day <= marks.last)
