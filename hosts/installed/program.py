"""Prints the tokens of the sheet on standard input, octal escapes as the manual has them, and its refusal in words.

It uses the module that is installed.
"""

import sys

import puretakoi


def main() -> None:
    refused = None
    try:
        read = puretakoi.tokens(sys.stdin.buffer.read(), sheet=True, octal="manual")
    except puretakoi.Refusal as refusal:
        read, refused = refusal.tokens, refusal
    for token in read:
        print(f"{token.line}:{token.column} {int(token.kind)} {token.end or 0} {token.value.decode()}")
    print(f"{int(puretakoi.Kind.COMMENT)} is {puretakoi.Kind.COMMENT.name.lower()}")
    if refused is not None:
        print(f"{refused.line}:{refused.column} {refused.name}: {refused.meaning}. {refused.advice}")


main()
