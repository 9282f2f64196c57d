"""How many bits a frame has on the bus, counted by ISO 11898-1 and not by the program.

A data or remote frame of classical CAN goes from SOF to the last bit of EOF. From SOF to the last bit of the CRC
a bit of the other value is stuffed behind five equal ones, stuffed bits counted among them.
"""
import functools

# x^15 + x^14 + x^10 + x^8 + x^7 + x^4 + x^3 + 1, without its first term.
GENERATOR = 0x4599
CRC_BITS = 15
RUN = 5
# CRC delimiter, ACK slot, ACK delimiter and the seven bits of EOF, among which nothing is stuffed.
UNSTUFFED_END = 1 + 1 + 1 + 7
INTERMISSION = 3


def field(number, width):
    """The bits of a field, the most significant first."""
    return format(number, f"0{width}b")


def header(identifier, extended, remote, length):
    """The bits from SOF to the data length code."""
    asks = "1" if remote else "0"
    if not extended:
        # SOF, identifier, RTR, IDE and r0
        return "0" + field(identifier, 11) + asks + "00" + field(length, 4)
    # SOF, the first bits of the identifier, SRR and IDE, its other bits, RTR, r1 and r0
    return "0" + field(identifier >> 18, 11) + "11" + field(identifier & 0x3FFFF, 18) + asks + "00" + field(length, 4)


def crc(bits):
    """The CRC sequence of the bits from SOF to the last data bit."""
    register = 0
    for bit in bits:
        carry = (register >> (CRC_BITS - 1)) ^ (bit == "1")
        register = (register << 1) & ((1 << CRC_BITS) - 1)
        if carry:
            register ^= GENERATOR
    return field(register, CRC_BITS)


def stuffed(bits):
    """How many bits are stuffed into a sequence."""
    count, run, last = 0, 0, ""
    for bit in bits:
        run = run + 1 if bit == last else 1
        last = bit
        if run == RUN:
            # The stuffed bit has the other value, and is the first of a run of its own.
            count, run, last = count + 1, 1, "0" if bit == "1" else "1"
    return count


@functools.lru_cache(maxsize=100_000)
def length_of(identifier, extended, remote, length, data):
    """The bits of a frame from SOF to EOF; data is of bytes, and a remote frame has none."""
    covered = header(identifier, extended, remote, length) + "".join(field(byte, 8) for byte in data)
    sequence = covered + crc(covered)
    return len(sequence) + stuffed(sequence) + UNSTUFFED_END
