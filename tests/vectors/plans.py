"""Plans and blocks of plans, as letters."""


def single_steps(length):
    return "sa" * length


def left_nested(length):
    return "s" + "sj" * (length - 1)


def right_nested(length):
    return "s" * length + "j" * (length - 1)


def balanced(length):
    if length == 1:
        return "s"
    return balanced(length // 2) + balanced(length - length // 2) + "j"


def bracketed_by(pick):
    """Blocks that are split at places that pick chooses."""

    def bracketed(length):
        if length == 1:
            return "s"
        split = pick.between(1, length - 1)
        return bracketed(split) + bracketed(length - split) + "j"

    return bracketed
