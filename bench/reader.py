#!/usr/bin/env python3
"""How fast a script is read: 100,000 commands and as many names as there are forms for, in 16 MiB.

    bench/reader.py [--program PATH] [--runs N]

Prints the least time of some runs, and the speed over the bytes of the input. An empty script on the same
configuration is the time of a start.
"""
from timing import GDI, least, options

CONFIG = '[[screen]]\nkind = "linear"\nx = 0\ny = 0\nwidth = 1\nheight = 1\nformat = "8"\n%%\n'
BYTES = 16_777_216


def script():
    """1,024 brushes, 256 tables, and paints by name up to 100,000 commands; comments fill the text up."""
    lines = [f"brush brush_number_{i} solid {i:06x}" for i in range(1024)]
    lines += [f"table table_number_{i} 000000 FFFFFF" for i in range(256)]
    lines += [f"paint screen 2 2 4 4 brush_number_{i * 7 % 1024} 13" for i in range(100_000 - len(lines))]
    text = CONFIG + "\n".join(lines) + "\n"
    spare = BYTES - len(text)
    return (text + ("# " + "x" * 61 + "\n") * (spare // 64)).encode()


def main():
    gdi, runs = options(GDI, 7)
    data = script()
    start = least([gdi, "run"], CONFIG.encode(), runs)
    whole = least([gdi, "run"], data, runs)
    print(f"start      {start * 1000:8.1f} ms")
    print(f"100,000 commands in {len(data)} bytes {whole * 1000:8.1f} ms {len(data) / (whole - start) / 1e6:8.0f} MB/s")


if __name__ == "__main__":
    main()
