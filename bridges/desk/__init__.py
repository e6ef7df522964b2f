"""A desk to work at over gprom: the package `gpdesk` behind the command `desk`, and its tests."""
