#!/usr/bin/env python3
"""The picture of a page that `elide-lab page` has written, as a file of its own.

    page_picture.py PAGE            puts it to standard output
    page_picture.py PAGE PICTURE    says whether PICTURE is that one; status 1 where it is not

The picture takes the page's style with it, in its light colours.
"""
import re
import sys


def picture_of(page):
    """The one `svg` of a page, with what the page says of its look."""
    picture = re.search(r"<svg .*?</svg>", page, re.S)[0]
    style = re.search(r"<style>\n(.*?)</style>", page, re.S)[1]
    light = "".join(line + "\n" for line in style.splitlines()
                    if re.match(r":root|svg|\.(?!key|wide|number)", line)).replace("color-scheme:light dark;", "")
    head, rest = picture.split(">", 1)
    return f"{head}>\n<style>\n{light}</style>\n<rect width=\"100%\" height=\"100%\" fill=\"#fff\"/>{rest}\n"


def main():
    with open(sys.argv[1], encoding="utf-8") as file:
        picture = picture_of(file.read())
    if len(sys.argv) == 2:
        sys.stdout.write(picture)
        return
    with open(sys.argv[2], encoding="utf-8") as file:
        if file.read() != picture:
            sys.exit(f"{sys.argv[2]} is not the picture of this page")


main()
