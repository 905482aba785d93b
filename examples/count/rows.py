#!/usr/bin/env python3
"""Adds 100 rows to SQLite's database in a folder, and prints how many SQLite confirmed; what it refuses is told. With `count` in the place
of a name it prints how many rows there are. The folder stands for one that two machines share, where locks of one don't reach the other.

usage: rows.py FOLDER NAME
"""
import sqlite3
import sys
import time

folder, name = sys.argv[1:]
database = sqlite3.connect(f"file:{folder}/db?nolock=1", uri=True, isolation_level=None)
if name == "count":
    try:
        print(database.execute("SELECT count(*) FROM rows").fetchone()[0])
    except sqlite3.Error as fault:
        print(f"none: {fault}")
    sys.exit()
confirmed = 0
for number in range(100):
    try:
        database.execute("CREATE TABLE IF NOT EXISTS rows (name TEXT, number INT)")
        database.execute("INSERT INTO rows VALUES (?, ?)", (name, number))
        confirmed += 1
    except sqlite3.Error as fault:
        print(f"{name}: row {number}: {fault}", file=sys.stderr)
    time.sleep(0.005)
print(confirmed)
