"""The bounds of the options that the program doesn't know."""

from marple.parts.refusals import OptionRefused

BOUNDS = {"parts": (1, 65_536), "workers": (1, 1_024), "piece": (1, 1 << 40)}


def check_option(name: str, value: object) -> None:
    """Raises OptionRefused where a value isn't None and isn't within the bounds of the option."""
    least, most = BOUNDS[name]
    if value is None:
        return
    if isinstance(value, bool) or not isinstance(value, int) or not least <= value <= most:
        raise OptionRefused(f"{name} is a whole number from {least} to {most}, and {value!r} was given")
