"""Dirty tables for each recipe: a module of check-recipes, not run by itself.

Each is a change of a recipe's tables, which lose their keys and `not null` before, and what the recipe must do then:
it ends with a status other than 0, or it goes on and its totals are the database's. No recipe may lose a row without
a message.
"""

import re
import shutil
import tempfile
from dataclasses import dataclass
from pathlib import Path

TOP = Path(__file__).resolve().parent.parent
LOST = "lies_in has a row of no member, or with no parent"
NO_LEVEL = "a level without a key, or without a parent"
THOSE, NOT_THOSE = "the totals are those of SQLite", "the totals are not those of SQLite"
UNKNOWN, NO_NUMBER = r"refused facts record \d+ UnknownMember", r"refused facts record \d+ BadNumber"
TWICE = r"refused instance record \d+ DuplicateId"
DAYS, PLACES = "growing/days.sql", "shapes/parent_child/tables.sql"
NO_PARENT = r"refused instance record \d+ UnknownParent"
KEYS = re.compile(r'(?<! is) not null| references (\w+|"\w+")| primary key')
NOT_NULL = re.compile(r"(?<! is) not null| references \w+")


@dataclass(frozen=True)
class Dirt:
    """A change of the tables of a file, and what is said of it. If the recipe `goes_on`, it ends as on clean ones."""

    recipe: str
    what: str
    sql: str
    said: str
    file: str = ""
    words: tuple[str, ...] = ()
    goes_on: bool = False
    loosened: re.Pattern = KEYS

    def put(self, folder: Path) -> Path:
        """A copy of the recipes with this change, below the folder, and what runs the recipe there."""
        copy = Path(tempfile.mkdtemp(prefix="dirty ", dir=folder))
        shutil.copytree(TOP / "recipes", copy / "recipes")
        (copy / "examples").symlink_to(TOP / "examples")
        file = copy / "recipes" / (self.file or f"{self.recipe}/tables.sql")
        file.write_text(f"{self.loosened.sub('', file.read_text())}\n{self.sql}\n")
        return copy / "recipes" / self.recipe / "run"


def of_shape(recipe: str, shape: str, *rows: tuple[str, str, str]) -> list[Dirt]:
    file = f"shapes/{shape}/tables.sql"
    return [Dirt(recipe, f"{what}, on {shape}", f"{sql};", said, file, (shape,)) for what, sql, said in rows]


def of(recipe: str, *rows: tuple[str, str, str], loosened: re.Pattern = KEYS) -> list[Dirt]:
    return [Dirt(recipe, what, f"{sql};", said, loosened=loosened) for what, sql, said in rows]


SHAPES = {
    "snowflake": (
        ("a store in no city", "update store set city_id = null where id = 5", LOST),
        ("a region in no country", "update region set country_id = null where id = 2", LOST),
        ("a city in a state that isn't there", "update city set state_id = 99 where id = 2", NO_PARENT),
        ("a sale of no store", "update sale set store_id = null where id = 7", UNKNOWN),
        ("a sale of a store that isn't there", "update sale set store_id = 99 where id = 7", UNKNOWN),
        ("a sale of no amount", "update sale set cents = null where id = 7", NO_NUMBER),
        ("a store twice", "insert into store values (5, 'again', 5)", TWICE),
    ),
    "parent_child": (
        ("a place of no kind", "update place set kind = null where id = 'TOR'",
         r"refused instance record \d+ UnknownCategory"),
        ("a store in no place", "update place set parent_id = null where id = '1'", "refused instance "),
        ("a parent in other letters", "update place set parent_id = 'tor' where id = '5\" & 6\"'", NO_PARENT),
        ("a place of no id", "update place set id = null where id = '1'", LOST),
    ),
    "columns": (
        ("a store in no city", "update location set city = null where store_id = 5", LOST),
        ("a store in a city of spaces", "update location set city = '  ' where store_id = 5", LOST),
        ("a city in no country", "update location set country = '' where store_id = 5", LOST),
        ("a city in a state and a province", "update location set state = 'Ohio' where store_id = 5",
         'Partitioning|Constraint'),
        ("a sale of a store that isn't there", "update sale set store_id = 99 where id = 7", UNKNOWN),
    ),
}  # fmt: skip
COMMA = ("an amount with a comma", "update sale set cents = '1,000' where id = 7", NO_NUMBER)

DIRT = [
    *(each for shape, rows in SHAPES.items() for recipe in ("sqlite",
     "postgresql") for each in of_shape(recipe, shape, *rows)),
    *of_shape("sqlite", "snowflake", COMMA),
    Dirt("sqlite", "a city of no name", "update city set name = null where id = 5;", THOSE,
         "shapes/snowflake/tables.sql", ("snowflake",), goes_on=True),
    *of("doubled",
        ("a store in no city", "insert into store_city values (3, null, null)", LOST),
        ("a city of no store", "insert into store_city values (null, 1, null)", LOST),
        ("an amount of nothing", "update sale set cents = null where id = 3", NO_NUMBER),
        ("a store that is nowhere", "delete from store_city where store_id = 3", "refused instance "),
        ("a place twice", "insert into store_city values (3, 2, null)", r"refused instance record \d+ DuplicateParent"),
        ("a sale of a store that isn't there", "insert into sale values (9, 99, 5)", UNKNOWN),
        ("an amount with a comma", "update sale set cents = '1,000' where id = 3", NO_NUMBER)),
    *of("calendar",
        *((f"a day of no {column}", f"update day set {column} = null where date = '2025-05-05'", LOST)
          for column in ("week", "month", "quarter", "year", "iso_year")),
        ("a sale with a time of day", "update sale set date = '2025-05-05 10:00' where date = '2025-05-05'", UNKNOWN),
        ("a sale of no day", "update sale set date = null where date = '2025-05-05'", UNKNOWN),
        ("an amount with a comma", "update sale set cents = '1,000' where date = '2025-05-05'", NO_NUMBER)),
    *of("countries",
        ("a store that is nowhere", "update store set code = null, country = null where id = 7", LOST),
        ("a store in another country than its division", "update store set country = 'DE' where id = 7", NOT_THOSE),
        ("a store in a division that isn't there", "update store set code = 'DE-99' where id = 7", NO_PARENT),
        ("a sale of a store that isn't there", "update sale set store = 999999 where store = 7", UNKNOWN),
        loosened=NOT_NULL),
    *of("measures",
        ("an amount with a comma", "update sale set paid = '12,50' where id = 3", "no amount"),
        ("no amount", "update sale set paid = null where id = 3", "no amount"),
        ("pieces with a comma", "update sale set pieces = '1,5' where id = 3", "no number of pieces"),
        ("a weight with a comma", "update sale set kilograms = '1,5' where id = 3", "no weight"),
        ("a sale of no product", "update sale set product_id = null where id = 3", UNKNOWN),
        ("a product of no group", "update product set group_id = null where id = 2", LOST),
        ("a product of a group that isn't there", "update product set group_id = 77 where id = 2", NO_PARENT),
        ("a product twice", "insert into product values (2, 'again', 1, null)", TWICE)),
    Dirt("measures", "no weight known at all", "update sale set kilograms = null;", THOSE, goes_on=True),
    Dirt("growing", "a sale that REPLACE puts in the place of another",
         "-- Monday\ninsert or replace into sale values (4, '<4>', 5), (5, '\\n', 7);",
         "a row replaced", DAYS, goes_on=True),
    Dirt("growing", "a store that REPLACE moves",
         "-- Monday\ninsert or replace into place values ('-2', 'Store', 'x', 'TOR');",
         "a row replaced", DAYS, goes_on=True),
    Dirt("growing", "an upsert",
         "-- Monday\ninsert into sale values (4, '<4>', 5) on conflict (id) do update set cents = 6;",
         "a row replaced", DAYS, goes_on=True),
    Dirt("growing", "a sale that no trigger saw",
         "-- Monday\ndrop trigger sale_came;\ninsert into sale (place_id, cents) values ('1', 3);",
         "the table has other sales", DAYS),
    Dirt("growing", "a sale of no place", "insert into sale values (50, null, 3);", UNKNOWN, PLACES, loosened=NOT_NULL),
    Dirt("growing", "a sale of no amount", "insert into sale values (50, '1', null);",
         NO_NUMBER, PLACES, loosened=NOT_NULL),
    Dirt("nightly", "no wish", "", "there is no wish", "nightly/wishes.txt",
         goes_on=True, loosened=re.compile(r"(?s).*")),
    *of("parts",
        ("a customer of no city", "update customer set city = null where id = 'c9000'", "refused instance "),
        ("a customer in a city that isn't there", "update customer set city = 'y401' where id = 'c9000'", NO_PARENT),
        ("a customer in other letters", "update customer set city = 'Y1' where id = 'c9000'", NO_PARENT),
        ("a customer of no id", "update customer set id = null where id = 'c9000'", r"refused instance record \d+ BadId"),
        ("a customer twice, in two parts", "insert into customer values ('c1', 'y2')", "an id of 2 customers: c1"),
        ("a customer with the id of a place", "update customer set id = 'y7' where id = 'c9000'", TWICE),
        ("a city in two countries", "insert into place values ('y1', 'City', 'City 1', 'CAN')", TWICE),
        ("a city in no state", "update place set parent = null where id = 'y3'", "refused instance ")),
    *of("cubes",
        ("a city in a state and a province",
         "update store_dim set state_key = 'TX', state_name = 'Texas' where store_key = 4", "Partitioning|Constraint"),
        ("a store in no city", "update store_dim set city_key = null where store_key = 4", NO_LEVEL),
        ("a city in no country", "update store_dim set country_key = null where city_key = 0", NO_LEVEL),
        ("a group in two departments", "update article_dim set department_key = 2 where article_key = 1", TWICE),
        ("an article of no department",
         "update article_dim set group_key = null, department_key = null where article_key = 1", NO_LEVEL),
        ("a sale of no store", "insert into sale_fact values (null, 1, 5)", UNKNOWN),
        ("a sale of an article that isn't there", "insert into sale_fact values (1, 999, 5)", UNKNOWN),
        ("a sale of no amount", "insert into sale_fact values (1, 1, null)", NO_NUMBER)),
    *(Dirt("partitions", what, f"insert into sale values (:year, {values});", said, "partitions/partition.sql",
           loosened=NOT_NULL) for what, values, said in (
        ("a sale of a place that isn't there", "'s99999', 1000000", "sales of no lowest member: 's99999'"),
        ("a sale of no place", "null, 5", "sales of no lowest member: NULL"),
        ("a sale at a city", "'c1', 5", "sales of no lowest member: 'c1'"),
        ("a sale of no amount", "'s1', null", "sales of no amount"))),
    Dirt("partitions", "a place twice", "insert into place values ('s1', 'Store', 'again', 'c1');",
         TWICE, "partitions/dimension.sql"),
]  # fmt: skip
