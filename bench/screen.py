#!/usr/bin/env python3
"""How fast the screen is painted and dumped: the difference of two runs with other counts of the same command.

    bench/screen.py [--program PATH] [--runs N]
"""
from timing import GDI, least, options

WIDTH, HEIGHT = 1024, 768
CONFIG = f'[[screen]]\nkind = "linear"\nx = 0\ny = 0\nwidth = {WIDTH}\nheight = {HEIGHT}\nformat = "8"\n%%\n'


def times(gdi, line, count, runs):
    return least([gdi, "run"], (CONFIG + (line + "\n") * count).encode(), runs)


def main():
    gdi, runs = options(GDI, 7)
    pixels = WIDTH * HEIGHT
    for name, line, few, many in [
        ("solid paint", f"paint screen 0 0 {WIDTH} {HEIGHT} #FF0000 13", 10, 410),
        ("solid paint of 16 by 16", "paint screen 8 8 24 24 #FF0000 13", 10, 50_010),
        ("sum", "sum 0", 10, 210),
        ("dump", "dump 0", 10, 110),
    ]:
        spent = (times(gdi, line, many, runs) - times(gdi, line, few, runs)) / (many - few)
        area = 256 if "16 by 16" in name else pixels
        print(f"{name:26} {spent * 1e6:10.2f} us {area / spent / 1e6:10.0f} Mpixel/s")


if __name__ == "__main__":
    main()
