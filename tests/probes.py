"""What scanners of ports send to find out what listens, as bytes: the probes of `nmap -sV`, and clients' first words of some protocols."""

from typing import Dict

# These begin with a request line of HTTP, or with TLS's first byte.
ENDED: Dict[str, bytes] = {
    "HTTP, a request": b"GET / HTTP/1.0\r\n\r\n",
    "HTTP, options": b"OPTIONS / HTTP/1.0\r\n\r\n",
    "HTTP, a page that isn't there": b"GET /nice%20ports%2C/Tri%6Eity.txt%2ebak HTTP/1.0\r\n\r\n",
    "HTTP, a proxy": b"CONNECT 127.0.0.1:7070 HTTP/1.0\r\n\r\n",
    "HTTP/2": b"PRI * HTTP/2.0\r\n\r\nSM\r\n\r\n" + bytes.fromhex("000000040000000000"),
    "UPnP": b"NOTIFY * HTTP/1.1\r\nNTS: ssdp:alive\r\n\r\n",
    "WebSocket": b"GET / HTTP/1.1\r\nUpgrade: websocket\r\nConnection: Upgrade\r\nSec-WebSocket-Version: 13\r\n\r\n",
    "IPP": b"POST /printers HTTP/1.1\r\nContent-Type: application/ipp\r\nContent-Length: 9\r\n\r\n" + bytes.fromhex("0101000b0000000103"),
    "SSL 3.0": bytes.fromhex("16030000530100004f03003f47d7f7ba2ceeeab2607ef300fd827bb9d596c8779be6c4db3c3ddb6fef106e000028001600130"
                             "00a006600050004006500640063006200610060001500120009001400110008000600030100"),
    "TLS 1.0": bytes.fromhex("16030000690100006503") + b"\x03U\x1c\xa7\xe4random1random2random3random4" + bytes.fromhex(
        "00000c002f000a00130039000400ff01000030000d002c002a000100030002060106030602020102030202030103030302040104030402010101030102"
        "050105030502"),
}

# These are lines that are no commands, or no lines at all.
OTHERS: Dict[str, bytes] = {
    "nothing": b"",
    "empty lines": b"\r\n\r\n",
    "SSH": b"SSH-2.0-OpenSSH_9.2p1 Debian-2\r\n",
    "SMB": bytes.fromhex("000000a4ff534d4272000000000801400000000000000000000000000000400600000100008100") + b"\x02PC NETWORK PROGRAM 1.0\0"
           b"\x02MICROSOFT NETWORKS 1.03\0\x02MICROSOFT NETWORKS 3.0\0\x02LANMAN1.0\0\x02LM1.2X002\0\x02Samba\0\x02NT LANMAN 1.0\0"
           b"\x02NT LM 0.12\0",
    "RDP": bytes.fromhex("0300000b06e00000000000"),
    "RDP, a cookie": bytes.fromhex("0300002a25e00000000000") + b"Cookie: mstshash=nmap\r\n" + bytes.fromhex("0100080003000000"),
    "redis": b"*1\r\n$4\r\ninfo\r\n",
    "redis, in a line": b"INFO\r\n",
    "memcached": b"stats\r\n",
    "SIP": b"OPTIONS sip:nm SIP/2.0\r\nVia: SIP/2.0/TCP nm;branch=foo\r\nFrom: <sip:nm@nm>;tag=root\r\nTo: <sip:nm2@nm2>\r\nCall-ID: 50000\r\n"
           b"CSeq: 42 OPTIONS\r\nMax-Forwards: 70\r\nContent-Length: 0\r\nContact: <sip:nm@nm>\r\nAccept: application/sdp\r\n\r\n",
    "RTSP": b"OPTIONS / RTSP/1.0\r\n\r\n",
    "DNS": bytes.fromhex("001e000601000001000000000000") + b"\x07version\x04bind" + bytes.fromhex("0000100003"),
    "DNS, a status": bytes.fromhex("000c000010000000000000000000"),
    "Kerberos": bytes.fromhex("000000716a816e30816ba103020105a20302010aa4815e305ca00703050050800010a2041b024e4da3173015a003020100a10e300c"
                              "1b066b72627467741b024e4da511180f31393730303130313030303030305aa70602041f1eb9d9a8173015020112020111020110"
                              "020117020101020103020102"),
    "LDAP, a search": bytes.fromhex("30840000002d02010763840000002404000a01000a0100020100020164010100870b6f626a656374436c617373308400000000"),
    "LDAP, a bind": bytes.fromhex("300c020101600702010204008000"),
    "Java RMI": b"JRMI\0\x02K",
    "X11": bytes.fromhex("6c000b000000000000000000"),
    "SMTP": b"EHLO\r\n",
    "a question for help": b"HELP\r\n",
    "a printer": b"\x01default\n",
    "RPC": bytes.fromhex("8000002872fe1d130000000000000002000186a00001977c0000000000000000000000000000000000000000"),
    "SSL 2.0": bytes.fromhex("802e0103010015000000100100800200800300800400800500800600400700c0080080") + bytes(16),
    "Socks 4": bytes.fromhex("040100167f000001") + b"root\0",
    "Socks 5, with a request behind it": bytes.fromhex("050400010280050100030a") + b"google.com\0PGET / HTTP/1.0\r\n\r\n",
    "PostgreSQL": bytes.fromhex("0000000804d2162f"),
    "SQL Server": bytes.fromhex("1201003400000000000015000601001b000102001c000c0300280004ff080001550000004d5353514c53657276657200480f0000"),
    "MongoDB": bytes.fromhex("3a000000a741000000000000d40700000000000061646d696e2e24636d640000000000ffffffff130000001069736d617374657200"
                             "0100000000"),
    "Oracle": bytes.fromhex("005a0000010000000136012c000008007fff7f08000000010020003a0000000000000000000000000000000034e600000001"
                            "28434f4e4e4543545f444154413d28434f4d4d414e443d76657273696f6e2929"),
    "AFP": bytes.fromhex("000300010000000000000002000000000f00"),
    "CORBA": b"GIOP\x01\0\x01\0$\0\0\0\0\0\0\0\x01\0\0\0\x01\0\0\0\x06\0\0\0abcdef\0\0\x04\0\0\0get\0\0\0\0\0",
    "Lotus Notes": bytes.fromhex("3a0000002f00000002000040020f0001003d05000000000000000000000000002f000000000000000000401f00000000"),
    "Apache's AJP": bytes.fromhex("123400010a"),
    "STUN, over TCP": bytes.fromhex("000300082112a442") + b"transaction." + bytes.fromhex("0019000411000000"),
    "MQTT": bytes.fromhex("101000044d5154540402003c0004") + b"nmap",
}
