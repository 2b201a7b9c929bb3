"""A CRC of bytes, bit by bit: `python3 examples/crc8/design.py` writes `diagram.json` anew."""
import sys
from pathlib import Path

sys.path.insert(0, str(Path(__file__).resolve().parents[2] / "python"))

from scicos import (Diagram, choose, clock, constant, delay, grant, hold, int8, on, output, sensor, switch,
                    uint8, variable_timer, when)

with Diagram("crc8") as design:
    byte = clock(10)
    bit = variable_timer(int8, on=byte)
    bit.activated_by(bit)
    data = sensor(1, uint8, on=byte)
    with on(byte | bit):
        crc_before = delay(uint8)
        with_data = crc_before ^ data
        grant(with_data, "old value")
        shifted = crc_before << 1
        bit_step = switch(crc_before, ">=", 128, shifted ^ 7, shifted)
        crc = choose((byte, with_data), (bit, bit_step))
        crc_before.feed(crc)
        bits_before = delay(int8)
        one_less = bits_before - 1
        bits_left = choose((byte, 8), (bit, one_less))
        bits_before.feed(bits_left)
        delay_to_next = switch(bits_left, ">", 0, constant(0, int8), -1)
        bit.feed(delay_to_next)
        more_bits = when(bits_left)
    result = hold(crc, on=more_bits.otherwise)
    output(result)

design.write(Path(__file__).with_name("diagram.json"))
