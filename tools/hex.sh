#!/bin/sh
# hex.sh < TEXT > BYTES: the bytes that hex digits spell. Blanks don't matter, and '#' begins a comment.
set -eu
sed 's/#.*//' | tr -d ' \t\r\n' | fold -w 2 | while read -r pair || [ -n "$pair" ]; do
    # shellcheck disable=SC2059 # the byte is made by its octal escape
    printf "\\$(printf %03o "0x$pair")"
done
