"""Listings by hand: those of docs/LISTING.md with the event lines that lead to them, and texts by their verdict (11, 12, 0 for taken)."""

# event lines since the last ones, the listing (` / ` for a line feed between lines), its length
EXAMPLES = [
    (["open,4,1"], "4,1,none,none,none", 19),
    (["ann,7,wa,0,0,5"], "4,1,none,none,none / wa,none,0,none,0,0 / 7,wa,0,0,5", 49),
    (["plan,0", "take,0"], "4,1,none,none,wa / wa,7,60000,0,none,0,0 / 7,wa,0,0,5", 50),
    (["open,9,1", "sol,7,a,0,2,b,c"], "9,1,none,none,none / wa,7,60000,1,none,2,b,c,0 / 7,wa,0,1,0", 56),
    (["clm,7,a,d,0,1,1"], "9,1,none,none,none / wa,7,60000,0,d,1,1,0,2,b,c,0 / 7,wa,0,1,0", 59),
    (["beg,7,a,d,0,1,1"], "9,1,none,none,none / wa,7,60000,0,d,1,1,1,2,b,c,0 / 7,wa,0,1,0", 59),
    (["open,9,1", "kin,9,5,1,a"], "9,1,none,none,none / ta,none,0,none,0,1 / 9,ta,5,1,0", 49),
]

HEAD, REQUEST, CANDIDATE = "4,1,none,none,none\n", "wa,none,0,none,0,0\n", "7,wa,0,0,5\n"
TXID = REQUEST.replace("wa", "ta")


def candidates(count, key="wa"):
    return "".join(f"{at + 1},{key},0,0,5\n" for at in range(count))


def hashes(count):
    return ",".join([str(count)] + [f"{at + 1:x}" for at in range(count)])


def owned(rest):
    """One owned request, from its flag on."""
    return HEAD + "wa,7,60000," + rest + "\n" + CANDIDATE


def head(limit, places=1):
    return f"{limit},{places},none,none,none\n"


def many(count, owner):
    """So many requests of connection 7."""
    return head(6000) + "".join(f"w{at:x},{owner},0,none,0,0\n7,w{at:x},0,0,5\n" for at in range(1, count + 1))


UNREADABLE = {
    "no byte": "", "no line feed": HEAD[:-1], "carriage return": HEAD[:-1] + "\r\n", "an empty line": "\n", "an empty line behind": HEAD + "\n",
    "leading zero": "0" + HEAD, "first line twice": HEAD + HEAD, "request first": REQUEST + CANDIDATE, "candidate first": CANDIDATE,
    "candidate before any request": HEAD + CANDIDATE, "keys fall": HEAD + "wb,none,0,none,0,0\n7,wb,0,0,5\n" + REQUEST + CANDIDATE,
    "Txid behind Wtxid": HEAD + REQUEST + CANDIDATE + TXID + "8,ta,0,0,5\n", "a parent too few": owned("1,none,2,b,0"), "a parent too many": owned("1,none,0,b,0"),
    "101 parents": owned("1,none," + hashes(101) + ",0"), "no wtxid": owned("0,d,0,0,0,0"), "101 wtxids": owned("0,d," + hashes(101) + ",0,0,0"),
    "a length of 2^64": owned("1,none,18446744073709551616,0"), "flag 2": owned("2,none,0,0"), "stage 2": owned("0,d,1,1,2,0,0"), "mark 2": owned("0,none,0,2"),
    "ready 2^64": HEAD + REQUEST + "7,wa,18446744073709551616,0,5\n", "upper case": HEAD + REQUEST.replace("wa", "wA") + CANDIDATE,
    "65 digits": HEAD + REQUEST.replace("wa", "w1" + "0" * 64) + CANDIDATE, "hash with leading zero": HEAD + REQUEST.replace("wa", "w0a") + CANDIDATE,
    "L 2^64": head(2 ** 64), "Q 2^64": head(4, 2 ** 64), "a field too many": HEAD[:-1] + ",1\n", "a field too few": "4,1,none,none\n", "half an owner": HEAD + "wa,7,none,0,none,0,0\n" + CANDIDATE,
    "last line open": HEAD + REQUEST + CANDIDATE[:-1], "type 5": HEAD + REQUEST + "7,o5:a,0,0,5\n", "type 2^32": HEAD + REQUEST + "7,o4294967296:a,0,0,5\n", "no colon": HEAD + REQUEST + "7,o7,0,0,5\n",
    "unsound first line, unreadable last": head(0) + REQUEST + CANDIDATE[:-1], "a blank": "4, 1,none,none,none\n", "None": HEAD.replace("none", "None"), "v2": "v2," + HEAD,
}

UNSOUND = {
    "L 0": head(0), "L 100,001": head(100001), "Q 0": head(4, 0), "Q 4,097": head(4, 4097), "no candidate": HEAD + REQUEST, "a key twice": HEAD + REQUEST + CANDIDATE + REQUEST + "8,wa,0,0,5\n",
    "connection 0": HEAD + REQUEST + "0,wa,0,0,5\n", "t under w": HEAD + REQUEST + "7,ta,0,0,5\n", "another hash": HEAD + REQUEST + "7,wb,0,0,5\n", "other item": HEAD + REQUEST + "7,o7:a,0,0,5\n",
    "w under t": HEAD + TXID + "7,wa,0,0,5\n", "owner no candidate": HEAD + "wa,8,60000,0,none,0,0\n" + CANDIDATE, "owner 0": HEAD + "wa,0,60000,0,none,0,0\n" + CANDIDATE,
    "parents alone": owned("0,none,1,b,0"), "a parent twice": owned("1,none,2,b,b,0"), "mark on w": HEAD + REQUEST[:-2] + "1\n" + CANDIDATE, "flag on t": HEAD + "ta,7,1,1,none,0,0\n7,ta,0,0,5\n",
    "package on t": HEAD + "ta,7,1,0,d,1,1,0,0,0\n7,ta,0,0,5\n", "flag without owner": HEAD + "wa,none,1,none,0,0\n" + CANDIDATE, "package without owner": HEAD + "wa,none,0,d,1,1,0,0,0\n" + CANDIDATE,
    "flag and package": owned("1,d,1,1,0,0,0"), "five of four": HEAD + REQUEST + candidates(5), "nine at a hash": head(9) + REQUEST + candidates(9),
    "nine over both kinds": head(9) + TXID + "9,ta,0,0,5\n" + REQUEST + candidates(8), "both kinds owned": HEAD + "ta,8,1,0,none,0,0\n8,ta,0,0,5\n" + owned("0,none,0,0")[len(HEAD):],
    "a connection twice": HEAD + REQUEST + CANDIDATE + CANDIDATE, "a connection at both kinds": HEAD + TXID + "7,ta,0,0,5\n" + REQUEST + CANDIDATE,
    "two places of one": HEAD + "wa,7,1,1,none,0,0\n7,wa,0,0,5\nwb,7,1,1,none,0,0\n7,wb,0,0,5\n", "101 owned": many(101, "7,1"),
}

TAKEN = {
    "100 parents": owned("1,none," + hashes(100) + ",0"), "100 wtxids": owned("0,d," + hashes(100) + ",0,0,0"), "v": HEAD + TXID + "7,va,0,0,5\n", "cursors": "4,1,5,w0,tff\n", "eight": head(9) + REQUEST + candidates(8),
    "a wtxid twice": owned("0,d,2,1,1,1,0,0"), "last numbers": head(100000, 4096) + "w" + "f" * 64 + ",18446744073709551615,18446744073709551615,0,none,0,0\n18446744073709551615,w" + "f" * 64 + ",18446744073709551615,1,18446744073709551615\n",
    "marks": HEAD + TXID[:-2] + "1\n7,ta,0,0,5\n", "both kinds, one owned": HEAD + TXID + "8,ta,0,0,5\n" + owned("0,none,0,0")[len(HEAD):], "100 owned": many(100, "7,1"),
}

# dear for the definitions, not for the library
CROWDS = {"5,000 of a connection": (0, many(5000, "none")), "5,001 of a connection": (12, many(5001, "none"))}

VERDICTS = [(number, name, text) for number, table in ((11, UNREADABLE), (12, UNSOUND), (0, TAKEN)) for name, text in table.items()]


def text(lines):
    """An example's listing in bytes."""
    return "".join(line + "\n" for line in lines.split(" / "))


if __name__ == "__main__":
    for number, _, case in VERDICTS + [(number, name, case) for name, (number, case) in CROWDS.items()] + [(0, "", text(lines)) for _, lines, _ in EXAMPLES]:
        print(number, case.encode().hex())
