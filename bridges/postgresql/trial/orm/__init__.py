"""Applications over ORMs, whose SQL no one here wrote: a shop on Django, a bank on SQLAlchemy."""
