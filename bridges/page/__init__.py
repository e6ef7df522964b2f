"""One self-contained page about a dump: the package `view` behind the command `page`, and its tests in `trial`."""
