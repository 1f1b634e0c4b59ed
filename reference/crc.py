"""The checksum of packets: CRC-CCITT-16, worked bit by bit and without a table."""

POLYNOMIAL = 0x11021


def checksum(data: bytes) -> int:
    """The checksum of the bytes. The highest bit of a byte goes in first; the register starts at 0."""
    register = 0
    for byte in data:
        register ^= byte << 8
        for _ in range(8):
            register <<= 1
            if register & 0x10000:
                register ^= POLYNOMIAL
    return register


def sealed(data: bytes) -> bytes:
    """The bytes with their checksum behind them, high byte first."""
    return bytes(data) + checksum(data).to_bytes(2, "big")
