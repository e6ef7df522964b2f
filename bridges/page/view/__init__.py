"""The parts of a page about a dump, in reading order: history (over the package `gprom`); markup, verdicts, timeline, arrows, details, tables; document."""
