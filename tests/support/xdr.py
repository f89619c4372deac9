"""Records of RPC and what stands in them, built from RFC 4506, RFC 5531, RFC 8881 and RFC 7863.

Nothing here is taken from the program: these are the bytes that it is given.
"""

NFS = 100003
CALLBACKS = 0x40000000

# A record's header: its top bit marks the last fragment.
LAST = 1 << 31

# The operations of COMPOUND that the program speaks, by their numbers (RFC 8881 section 18, RFC 7862 section 15).
OPERATIONS = {
    4: "CLOSE",
    5: "COMMIT",
    9: "GETATTR",
    10: "GETFH",
    15: "LOOKUP",
    18: "OPEN",
    22: "PUTFH",
    24: "PUTROOTFH",
    25: "READ",
    31: "RESTOREFH",
    32: "SAVEFH",
    38: "WRITE",
    42: "EXCHANGE_ID",
    43: "CREATE_SESSION",
    44: "DESTROY_SESSION",
    53: "SEQUENCE",
    57: "DESTROY_CLIENTID",
    58: "RECLAIM_COMPLETE",
    60: "COPY",
    61: "COPY_NOTIFY",
    66: "OFFLOAD_CANCEL",
    67: "OFFLOAD_STATUS",
    71: "CLONE",
    10044: "ILLEGAL",
}

# Those of CB_COMPOUND (RFC 8881 section 20, RFC 7862 section 16).
CB_OPERATIONS = {11: "CB_SEQUENCE", 15: "CB_OFFLOAD"}


def word(number):
    return number.to_bytes(4, "big")


def hyper(number):
    return number.to_bytes(8, "big")


def opaque(content):
    """Bytes behind their length, filled up with zeros."""
    return word(len(content)) + content + bytes(-len(content) % 4)


def fragment(content, last=True):
    return word(len(content) | (LAST if last else 0)) + content


def auth(flavor=0, body=b""):
    """A credential or a verifier."""
    return word(flavor) + opaque(body)


def gss(procedure=0, service=2, number=5, handle=b"", version=1):
    """A credential of RPCSEC_GSS (RFC 2203 section 5)."""
    return auth(6, word(version) + word(procedure) + word(number) + word(service) + opaque(handle))


def call(arguments, program=NFS, version=4, procedure=1, cred=auth(), verifier=auth(), xid=1):
    return word(xid) + word(0) + word(2) + word(program) + word(version) + word(procedure) + cred + verifier + arguments


def compound(operations, count, tag=b""):
    """The arguments of COMPOUND with minor version 2: so many operations, each its number and its arguments."""
    return opaque(tag) + word(2) + word(count) + operations


def cb_compound(operations, count, tag=b""):
    """The arguments of CB_COMPOUND, with callback_ident 0."""
    return opaque(tag) + word(2) + word(0) + word(count) + operations


def sealed(arguments, number=5):
    """Arguments that are sealed for integrity, with a code that nobody looks at."""
    return opaque(word(number) + arguments) + opaque(b"code")
