"""Numbers in the lines that commands print."""


def counted(count: int, one: str, many: str = '') -> str:
    """A number with what is counted: `many` is the plural, if it is not the singular with an s."""
    return f'{count} {one if count == 1 else many or one + "s"}'
