"""What clap reports of a program's arguments, and how that ends."""

NO_DIGIT = "invalid digit found in string"
NO_TEXT = "cannot parse integer from empty string"
TOO_LARGE = "number too large to fit in target type"


def mistake(what, *more):
    """The whole report of a mistake, with what follows its first line: a tip, the usage."""
    return "\n\n".join([f"error: {what}", *more, "For more information, try '--help'.\n"]).encode()


def invalid(value, argument, why):
    """A value that can't be read."""
    return mistake(f"invalid value '{value}' for '{argument}': {why}")


def outside(value, argument, least, most):
    """A number that is not within these bounds."""
    return invalid(value, argument, f"{value} is not in {least}..={most}")


def missing(argument):
    """An argument without its value."""
    return mistake(f"a value is required for '{argument}' but none was supplied")


def repeated(argument, usage):
    """An argument that is given twice."""
    return mistake(f"the argument '{argument}' cannot be used multiple times", usage)


def unexpected(word, *more):
    """A word that is no argument."""
    return mistake(f"unexpected argument '{word}' found", *more)
