#!/usr/bin/python3
"""Makes the captures of examples/captures: nobody's frames but the kernel's, captured by tcpdump and dumpcap. Run as root.

    unshare -n checks/tests/make_captures.py FOLDER

A UDP socket sends over a veth of MTU 1499, so that the kernel makes the IPv4 headers, checksums and fragments. What comes
out at the other end is given the AFDX addresses and a sequence number, and is sent on two veths, A and B, where the
capturing programs listen all at once. A loses one frame; B loses three in a row, and brings one late. Beside the captures
it writes sent.txt: UDP port and payload of each message, in the order of sending.
"""
import os
import socket
import subprocess
import sys
import time
import zlib

ADDRESS, SOURCE = "224.224.0.17", "10.1.1.1"
SIZES = [(5000, 17), (5002, 1471), (5000, 60), (5002, 3000), (5000, 0), (5002, 17), (5000, 100), (5002, 1500), (5000, 5),
         (5002, 0), (5000, 40), (5002, 2000), (5000, 1), (5000, 2)]
LOST_ON_A, LOST_ON_B, LATE_ON_B = {4}, {8, 9, 10}, 13
CAPTURES = {
    "a.pcap": ["tcpdump", "-i", "tap_a"], "b.pcap": ["tcpdump", "-i", "tap_b"],
    "a_nano.pcap": ["tcpdump", "-i", "tap_a", "--time-stamp-precision", "nano"],
    "b_nano.pcap": ["tcpdump", "-i", "tap_b", "--time-stamp-precision", "nano"],
    "a_fcs.pcap": ["tcpdump", "-i", "fcs_tap_a"], "b_fcs.pcap": ["tcpdump", "-i", "fcs_tap_b"],
    "a_snapshot.pcap": ["tcpdump", "-i", "tap_a", "-s", "200"],
    "a_tagged.pcap": ["tcpdump", "-i", "tagged_tap"],
    "empty.pcap": ["tcpdump", "-i", "tap_a", "port", "9"],
    "cooked.pcap": ["tcpdump", "-i", "any", "-c", "3"],
    "both.pcapng": ["dumpcap", "-q", "-i", "tap_a", "-i", "tap_b"],
}


def veth(one, other):
    words = f"ip link add name {one} mtu 1518 type veth peer name {other} mtu 1518"
    subprocess.run(words.split(), check=True)
    for name in (one, other):
        with open(f"/proc/sys/net/ipv6/conf/{name}/disable_ipv6", "w") as setting:
            setting.write("1")
        subprocess.run(["ip", "link", "set", "dev", name, "up"], check=True)


def raw(name):
    found = socket.socket(socket.AF_PACKET, socket.SOCK_RAW, socket.htons(0x0800))
    found.bind((name, 0x0800))
    return found


def capturing(folder):
    for name, words in CAPTURES.items():
        if words[0] == "tcpdump":
            words = [*words[:3], "-Z", "root", "-n", "-U", "--immediate-mode", *words[3:]]
        yield subprocess.Popen([*words, "-w", os.path.join(folder, name)], stderr=subprocess.DEVNULL)


def packets(end, sender):
    """The packets that the kernel makes of each message."""
    for port, size in SIZES:
        payload = os.urandom(size)
        sender.sendto(payload, (ADDRESS, port))
        found = []
        while True:
            try:
                found.append(end.recv(65535)[14:])
            except TimeoutError:
                break
        yield port, payload, found


def framed(packet, number, interface):
    frame = bytes.fromhex("030000000011" + "0200000001") + bytes([interface << 5]) + b"\x08\x00" + packet
    return frame + bytes(max(0, 59 - len(frame))) + bytes([number])


def connected():
    """Both ends of the sender's link, and a socket for each network."""
    for one, other in [("sender", "end"), ("a", "tap_a"), ("b", "tap_b"), ("fcs_a", "fcs_tap_a"), ("fcs_b", "fcs_tap_b"),
                       ("tagged", "tagged_tap")]:
        veth(one, other)
    for words in ("link set dev sender mtu 1499", "addr add 10.1.1.1/24 dev sender", "route add 224.0.0.0/4 dev sender"):
        subprocess.run(["ip", *words.split()], check=True)
    end, sender = raw("end"), socket.socket(socket.AF_INET, socket.SOCK_DGRAM)
    sender.setsockopt(socket.IPPROTO_IP, 10, 0)  # IP_MTU_DISCOVER = IP_PMTUDISC_DONT, so that the kernel fragments
    sender.bind((SOURCE, 5001))
    end.settimeout(0.03)
    return end, sender, {name: raw(name) for name in ("a", "b", "fcs_a", "fcs_b", "tagged")}


def send_all(end, sender, outs, sent):
    """Sends each message on both networks, but for what is lost and what is late."""
    def send(net, frame):
        outs[net].send(frame)
        outs["fcs_" + net].send(frame + zlib.crc32(frame).to_bytes(4, "little"))

    number, late = 0, None
    for port, payload, found in packets(end, sender):
        sent.write(f"{port} {payload.hex()}\n")
        for packet in found:
            on_a, on_b = framed(packet, number, 1), framed(packet, number, 2)
            if number not in LOST_ON_A:
                send("a", on_a)
                outs["tagged"].send(on_a[:12] + b"\x81\x00\x00\x05" + on_a[12:] if number % 4 == 3 else on_a)
            time.sleep(0.0004)
            if number not in LOST_ON_B | {LATE_ON_B}:
                send("b", on_b)
            late = on_b if number == LATE_ON_B else late
            number += 1
        if late and number > LATE_ON_B + 1:
            send("b", late)
            late = None


def main():
    folder = sys.argv[1]
    sockets = connected()
    programs = list(capturing(folder))
    time.sleep(3)
    with open(os.path.join(folder, "sent.txt"), "w") as sent:
        send_all(*sockets, sent)
    time.sleep(1)
    for program in programs:
        program.terminate()
        program.wait()
    for name in CAPTURES:
        os.chmod(os.path.join(folder, name), 0o644)


if __name__ == "__main__":
    main()
