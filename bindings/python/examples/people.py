"""Keeps the people who are in, takes every third of them, and prints their names.

Then it asks for a row that doesn't exist. Prints

    ['ann', None]
    step 0: OutOfBounds: index 9, but 2 rows
"""

from vortex_select import BrokenStep, Filter, column, select

people = column([
    {"name": "ann", "age": 31, "is_in": True}, {"name": "bo", "age": 25, "is_in": False},
    {"name": "cy", "age": 40, "is_in": True}, {"name": "dee", "age": 19, "is_in": True},
    {"name": None, "age": 58, "is_in": True},
])
thirds = select(people, [Filter("is_in")])[::3]
print(thirds["name"].to_pylist())
try:
    thirds.take([9])
except BrokenStep as why:
    print(why)
