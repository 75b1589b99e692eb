#!/usr/bin/env python3
"""Writes the token cases of crates/lexer_cases: its stdin, and the stdout that 01's first paragraph of "The rule text" asks for.

The expected output comes from this second reading of 01, by regular expressions, and not from the lexer.
Usage: tools/token_cases.py, from anywhere.
"""
import os
import random
import re

SIGNS = [";", ",", "@", "*", "&", "!", "(", ")", "[", "]", "{", "}", ":", "=", "==", "||", "->", "<-"]
WORDS = ["input", "internal", "define", "monitor", "past", "limit", "to", "in"]
NAME = re.compile(rb"[A-Za-z_][A-Za-z0-9_]*")
NUMBER = re.compile(rb"[0-9]+")
WHITE = re.compile(rb"[ \t\n\r]*")


def token(s, at):
    """Kind, place, place after and value of the token at a position."""
    p = WHITE.match(s, min(at, len(s))).end()
    if p == len(s):
        return ("end", p, p, None)
    m = NUMBER.match(s, p)
    if m:
        value = int(m.group())
        return ("number", p, m.end(), value) if value < 2**64 else ("knot", p, p, None)
    m = NAME.match(s, p)
    if m:
        text = m.group().decode()
        if len(text) > 16:
            return ("knot", p, p, None)
        return (text if text in WORDS else "name", p, m.end(), None)
    found = [n for n, sign in enumerate(SIGNS) if s.startswith(sign.encode(), p)]
    if not found:
        return ("knot", p, p, None)
    n = max(found, key=lambda n: len(SIGNS[n]))
    return ("sign", p, p + len(SIGNS[n]), n)


def line(s):
    """The two lines of one case."""
    out, at = [], 0
    while True:
        kind, p, q, value = token(s, at)
        out.append(f"{p}-{q} {kind}" + ("" if value is None else f" {value}"))
        if kind in ("end", "knot"):
            break
        at = q
    places = "".join(f"  {token(s, i)[1]}-{token(s, i)[2]}" for i in range(len(s) + 2))
    return ", ".join(out) + "\n" + places + "\n"


cases = [b"", b" ", b" \t\r\n", b"a", b"_", b"A9_", b"z", b"Z", b"0", b"9", b"00", b"12ab", b"12 ab", b"ab12", b"_1 1_", b"1a2b",
b"abcdefghijklmnop", b"abcdefghijklmnopq", b"a abcdefghijklmnopq", b"abcdefghijklmnop;q", b"ABCDEFGHIJKLMNOP0",
b"18446744073709551615", b"18446744073709551616", b"18446744073709551625", b"99999999999999999999", b"184467440737095516150",
b"00000000000000000000000000000000018446744073709551615", b"00000000000000000000000000000000018446744073709551616", b"0000000000000000000000000000000000000000000000000000000000000000007",
b"18446744073709551615a", b"18446744073709551616a", b"9223372036854775808",
b"input", b"internal", b"define", b"monitor", b"inputs", b"inpu", b"Input", b"internals", b"defin", b"monitors", b"input1", b"_input", b"input internal define monitor", b"past", b"pasts", b"Past", b"a == past ( a )", b"limit", b"limits", b"Limit", b"to", b"into", b"To", b"in", b"inn", b"In", b"limit x to 2 in 8;", b"2in8",
b";", b",", b"@", b"*", b"&", b"!", b"(", b")", b"[", b"]", b"{", b"}", b":", b"=", b"==", b"||", b"->", b"<-",
b"|", b"-", b"<", b">", b"| |", b"- >", b"< -", b"===", b"====", b"= =", b"=<-", b"<->", b"<--", b"->>", b"|||", b"||||", b"a|", b"a-", b"a<", b"=-", b"=|", b"-->", b"!=", b"<=", b"==>", b"a->b", b"a<-b", b"a=b", b"a==b", b"a||b", b"=a", b"==a",
b".", b"#", b"\"", b"'", b"/", b"\\", b"^", b"`", b"~", b"?", b"%", b"+", b"\x00", b"\x0b", b"\x0c", b"\x1f", b"\x7f", b"\x80", b"\xa0", b"\xff", b"a\x00b", b"\xc3\xa9", b"a.b", b"  .", b"12.5",
b"input SCAN;\ninput CUT;\nline -> SCAN @ (CUT || !CUT, CUT) || !SCAN;\nmonitor line;\n",
b"input D[7:0];internal h[7:0]=0;", b"p->V{h<-D;},V&D==h;", b"\tinput\tN\r\n[ 63 : 0 ] ;", b"a*@b", b"((a))", b"a,b"]
random.seed(7)
alpha = b" \t\n\r0129abzAZ_;,@*&!()[]{}:==||-><-.#"
for _ in range(120):
    cases.append(bytes(random.choice(alpha) for _ in range(random.randint(1, 24))))
for c in cases:
    assert b"$" not in c
folder = os.path.join(os.path.dirname(os.path.abspath(__file__)), "..", "crates", "lexer_cases")
with open(os.path.join(folder, "stdin"), "wb") as out:
    out.write(b"".join(c + b"$" for c in cases))
with open(os.path.join(folder, "stdout"), "w") as out:
    out.write("".join(line(c) for c in cases))
