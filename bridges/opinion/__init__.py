"""A second opinion on SERIAL and ANOMALIES: what the guide says of them, written down once more, in Python and by brute force.

In reading order: `terms` (the canonical text of conditions, and what they mean), `looks` (what a statement looks at, and which changes that meets),
`relation` (which transaction comes before which, and by what), `cycles` (all cycles, which of them are anomalies, their names), `scripts` (small random
histories), `replay` (a serial order, run as a script), `command` (what `check` does). It shares no step with the program: every cycle of the relation is
listed, and the rules choose among them. So it is for small histories alone.
"""
