"""A filter with 8 coefficients: `python3 examples/fir8/design.py` writes `diagram.json` anew."""
import sys
from pathlib import Path

sys.path.insert(0, str(Path(__file__).resolve().parents[2] / "python"))

from scicos import (Diagram, clock, constant, convert, delay, demux, extractor, int16, int32, mux, output,
                    product, sensor, summation)

with Diagram("fir8", mode="stop") as design:
    tick = clock(1)
    sample = sensor(1, int16, on=tick)
    newest = convert(sample, int32)
    line = delay(int32, rows=8, on=tick)
    kept = extractor(line, 1, 2, 3, 4, 5, 6, 7)
    taps = mux(newest, kept)
    line.feed(taps)
    coefficients = constant([1, 3, 6, 10, 10, 6, 3, 1], int32)
    products = product(taps, coefficients, on=tick)
    parts = demux(products)
    filtered = summation(*parts)
    output(filtered)

design.write(Path(__file__).with_name("diagram.json"))
