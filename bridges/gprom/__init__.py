"""gprom for the bridges: the one client of the program, the one reader of its lines, and the one model of a history.

In reading order: `program` (calls go out, blocks of lines come back), `answers` (the lines as values), `history` (the log of a dump as transactions and
statements), `people` (who ran them), `anomalies` (cycles in words), `cache` and `client` (questions about one dump, each asked once). It is outside of what is proved, and computes nothing that the program answers.

Commands of the bridges start by `bridges/python`, for which the folder above this one is the root of all imports. Python's standard library is all that it takes.
"""
