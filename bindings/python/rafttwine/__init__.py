"""Prices of furniture by the Rafttwine library: itemised prices, baskets of them, price calendars, order numbers, packaging data,
line texts; conditions derived by a maker's relations; and makers' own price files.

A price in five lines, over a book made on the spot:

>>> from datetime import date
>>> from rafttwine import Article, Cents, Level, Percent, PriceRow, basket, book, price, question
>>> oak = PriceRow("A1", Level.SURCHARGE, Percent("12.50"), condition="OAK")
>>> table = book(Article("A1"), PriceRow("A1", Level.BASE, Cents(10_000)), oak)
>>> print(price(table, question("A1", date(2024, 6, 30), granted=["oak", "castor"])))
base       no text       100.00 EUR
surcharge  no text  oak   12.50 EUR
-----------------------------------
One piece                112.50 EUR
No price line for castor

Small letters of what is granted are raised to capitals, umlauts too; a row says it in capitals:

>>> green = PriceRow("A1", Level.SURCHARGE, Cents(2_000), condition="GRÜN")
>>> stained = book(Article("A1"), PriceRow("A1", Level.BASE, Cents(10_000)), green)
>>> print(price(stained, question("A1", date(2024, 6, 30), granted=["grün", "GRÜN"])))
base       no text        100.00 EUR
surcharge  no text  grün   20.00 EUR
------------------------------------
One piece                 120.00 EUR

A surcharge by the metre has the price of a metre in its row, and the metres are in the question; or whatever else is counted:

>>> from rafttwine import Factor, Granted
>>> metre = PriceRow("A1", Level.SURCHARGE, Cents(695), condition="EDGE")
>>> edged = book(Article("A1"), PriceRow("A1", Level.BASE, Cents(10_000)), metre)
>>> print(price(edged, question("A1", date(2024, 6, 30), granted=[Granted("edge", Factor("4.8"))])))
base       no text              100.00 EUR
surcharge  no text x 4.8  edge   33.36 EUR
------------------------------------------
One piece                       133.36 EUR

A whole basket in one call, with the reason in the place of a price that there is not:

>>> june, next_year = date(2024, 6, 30), date(2025, 1, 1)
>>> shelf = book(Article("S1"), PriceRow("S1", Level.BASE, Cents(8_950), last=june))
>>> print(basket(shelf, [question("S1", june, quantity=3), question("S1", next_year), question("L7", june)]))
S1  3 pieces  89.50  268.50 EUR
S1  1 piece   no price: the article has no base price on that day, in that quantity
L7  1 piece   the book does not have the article
-------------------------------
Together             268.50 EUR
Without a price: 2 of 3

Conditions that a maker's relation derives from the properties of the planned piece, for any call or priced at once:

>>> from rafttwine import derive, price_derived
>>> relation = "$VARCOND = 'OAK' IF TOP = 'oak', $VARCOND = 'WIDE' IF WIDTH >= 1600 AND NOT SPECIFIED SHELF"
>>> chosen = {"top": "Oak", "width": 1800, "shelf": None}
>>> asked = derive(question("A1", june), chosen, relation)
>>> asked.granted
('OAK', 'WIDE')
>>> price(table, asked.packed()).unit == price_derived(table, question("A1", june), chosen, relation).unit == 11_250
True

A maker's own price file, `ocd_price.csv`, as a book, with the article records that the maker's file does not have; and back:

>>> from rafttwine import read_prices, write_prices
>>> rows = read_prices(b"# prices of 2024\\nC1;;S;B;1;chair;249;1;EUR;20240101;20241231;0;\\n")
>>> chairs = book(Article("C1"), *rows)
>>> price(chairs, question("C1", june, quantity=4)).total
99600
>>> write_prices(chairs)
b'C1;;S;B;1;1;249.00;1;EUR;20240101;20241231;0;\\n'

Books, questions and text books are bytes; `book`, `question` and `text_book` make them of readable values, and `read_book`,
`read_question` and `read_text_book` make readable values of them. A call takes `bytes`, or any contiguous buffer of bytes such as a
mapped file, where it lies. Amounts are whole cents. `python3 -m rafttwine BOOK` lists the records of a book.

Some rows are right by the layout and do what hardly anybody wants, so making one warns (`RowWarning`):

- a condition with a small letter is never granted: granted names are raised to capitals, those in rows stand as they are;
- a discount with a positive value raises the price: values are added with their sign;
- a base price in percent never counts, and a row that ends before it begins never holds.

And so do two things in a question: a factor of 0, which leaves the lines of its condition there, and a repeated name with another
factor, which is not the one that counts; and two in a list of properties: a name that no relation can have, and a repeated one.

Reading a price file warns of the same, of days that are none, and of quantities: makers mean from how many pieces on a row counts,
and a book means up to how many, so that 1 is for one piece alone and 0 for any number.

Errors: a call that has no answer raises `Refused`, with the reason in `refusal`. A bad price file is `BadLine`, a `Refused` too,
whose message reads like `ocd_price.csv, line 7, Currency: 'Eur' is no currency: three capitals, as EUR`. A bad relation is
`BadRelation`, likewise: `relation, line 2, column 21: a sign, as = or <>, or IN is wanted, not 'oak'`. A value of a wrong type is a
TypeError, and one that the layout does not allow a ValueError; a message reads like `PriceRow.article: 41 bytes, and at most 40 are
allowed`. Bytes that cannot be read are `BrokenBytes`, a ValueError with record and byte. A library that is not there or does not
fit is an OSError.

The library is looked for when it is first needed: the file that the environment variable RAFTTWINE_LIBRARY names; else
librafttwine.so.2 in the package's folder, or beside that; else in target/lib of the tree that the package stands in, where
tools/shared-library makes it; else in the system.
"""
from .answers import Asked, Basket, DayPrice, Line, Packaging, Price, Source, Stretch, Text
from .books import book, read_book
from .calls import basket, calendar, calendar_list, final_number, packaging, price, text, version
from .cartons import PackagingRow
from .granting import Granted
from .packing import BrokenBytes
from .price_files import BadLine, BadRecord, read_prices, text_names, write_prices
from .properties import Property
from .property_lists import Held, property_list, read_property_list
from .questions import Question, question, read_question
from .records import Article, PriceRow, Rounding, Scheme
from .refusals import Refusal, Refused
from .relations import BadRelation, derive, price_derived
from .release import __version__
from .texts import TextRow, read_text_book, text_book
from .words import Cents, Factor, Level, NoDay, Percent, RowWarning, Rule, Sort, Way

__all__ = [
    "Article", "Asked", "BadLine", "BadRecord", "BadRelation", "Basket", "BrokenBytes", "Cents", "DayPrice", "Factor", "Granted",
    "Held", "Level", "Line", "NoDay", "Packaging", "PackagingRow", "Percent", "Price", "PriceRow", "Property", "Question",
    "Refusal", "Refused", "Rounding", "RowWarning", "Rule", "Scheme", "Sort", "Source", "Stretch", "Text", "TextRow", "Way",
    "__version__", "basket", "book", "calendar", "calendar_list", "derive", "final_number", "packaging", "price", "price_derived",
    "property_list", "question", "read_book", "read_prices", "read_property_list", "read_question", "read_text_book", "text",
    "text_book", "text_names", "version", "write_prices",
]
