"""Prints what a byte counts as, in words and as a number. It uses the module that is installed."""

import puretakoi


def main() -> None:
    classes = puretakoi.classes_of(ord("_"))
    print(f"_ is {classes.words}, {int(classes)}")


main()
