"""What `gprom sql` prints, in SQLite."""
