"""What the test needs: a browser that is driven, and scripts with what is hard to show."""
