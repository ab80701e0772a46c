"""The worked frame, of which the checks make frames and traces, and a configuration with its link."""
import struct

# The digits of a frame, of a link and with a sequence number. It brings 17 octets to 224.224.0.17, UDP port 5000.
FRAME_FORM = ("03000000%04x02000000012008004500002d000100000111cdcc0a010101e0e00011"
              "13891388001900000102030405060708090a0b0c0d0e0f1011%02x")
FRAME = FRAME_FORM % (17, 0)
CONFIG = """[[link]]
vl = 17
skew_max_us = 1000
reassembly_us = 50000

[[link.port]]
name = "height"
kind = "sampling"
address = "224.224.0.17"
udp = 5000
refresh_us = 20000
"""


def header_sum(header):
    """The checksum of an IPv4 header (RFC 791 3.1): that of its 20 octets without those at 10 and 11."""
    total = sum(struct.unpack(">5H", header[:10]) + struct.unpack(">4H", header[12:20]))
    while total >> 16:
        total = (total & 0xFFFF) + (total >> 16)
    return 0xFFFF - total


def with_sum(header, wrong=0):
    """The header with its checksum, or with one that differs from it in these bits."""
    return header[:10] + struct.pack(">H", header_sum(header) ^ wrong) + header[12:]
