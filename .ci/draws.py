"""Random requests for .ci/requests.py: of storage, of discovery, of grants, and of what isn't there."""
from due import PRINTED, REL, TOKEN, USER, Discovery, Elsewhere, Grant, Storage

# ---- storage

NAMES = ["a", "b", "notes", "public", "x", "y"]
KINDS = ["text/plain", "application/json", "x/y"]
# a token of nobody
OTHER = "ffffffffffffffffffffffffffffffff"


def a_condition(chance, user, path):
    if chance.random() < 0.7:
        return None
    if chance.random() < 0.3:
        return "*"
    tags = [user.version(path), chance.randint(0, user.length), chance.randint(0, user.length)]
    return [(chance.random() < 0.3, str(chance.choice(tags))) for _ in range(chance.randint(1, 3))]


def a_path(chance, user):
    """A path of some names, or of a document that is there, or a folder above it; folders are a quarter."""
    parts = [chance.choice(NAMES) for _ in range(chance.randint(0, 4))]
    if user.documents and chance.random() < 0.5:
        parts = chance.choice(sorted(user.documents)).split("/")[1:]
    if parts and chance.random() < 0.25:
        parts[chance.randint(0, len(parts) - 1):] = [""]
    return "/" + "/".join(parts)


def a_token(chance, user, taken):
    """The token of the words in most cases; or one that a page granted, one that was taken away, one of nobody, or none."""
    granted = user.granted()
    if granted and chance.random() < 0.25:
        return chance.choice(granted)
    if taken and chance.random() < 0.05:
        return chance.choice(taken)
    return chance.choice([TOKEN] * 14 + [None, OTHER])


def a_storage_request(chance, user, taken):
    path = a_path(chance, user)
    methods = ["GET", "GET", "GET", "HEAD", "PUT", "PUT", "PUT", "DELETE", "DELETE"]
    return Storage(
        method=chance.choice(methods * 10 + ["OPTIONS", "POST", "PATCH"]),
        path=path,
        token=a_token(chance, user, taken),
        if_match=a_condition(chance, user, path),
        if_none=a_condition(chance, user, path),
        kind=chance.choice(KINDS),
        body=bytes(chance.choices(b"abc\r\n", k=chance.randint(0, 40))),
        part=chance.random() < 0.03,
    )


# ---- forms

# what stands for itself in a value, in a target and in a body
IN_TARGET = frozenset(range(0x21, 0x7F)) - frozenset(b"&+%")
IN_BODY = frozenset(range(0x100)) - frozenset(b"&+% ")


def a_spelling(chance, text, plain):
    """One of the spellings of a name or a value. A long one is spelled as it is."""
    if len(text) > 1000:
        return text.replace(b" ", b"+")
    out = b""
    for byte in text:
        if byte == 0x20 and chance.random() < 0.6:
            out += b"+"
        elif byte in plain and chance.random() < 0.8:
            out += bytes([byte])
        else:
            out += chance.choice([b"%%%02x", b"%%%02X"]) % byte
    return out


def a_form(chance, names, plain):
    """A form of names, each with a list of values from which one is taken: each once in most cases, and in any order."""
    fields = []
    for name, values in names:
        for _ in range(chance.choice([1] * 40 + [0, 2])):
            fields.append((name, chance.choice(values)))
    if chance.random() < 0.2:
        fields.append((chance.choice([b"x", b"State", b"", b"scopes"]), chance.choice([b"", b"token", b"deny"])))
    chance.shuffle(fields)
    pieces = []
    for name, value in fields:
        piece = a_spelling(chance, name, plain - frozenset(b"="))
        # a field without `=` has the empty value; a piece without a byte is no field
        if value or not piece or chance.random() < 0.7:
            piece += b"=" + a_spelling(chance, value, plain)
        pieces.append(piece)
    if chance.random() < 0.1:
        pieces.insert(chance.randint(0, len(pieces)), b"")
    return b"&".join(pieces)


# ---- discovery


def a_resource(chance, host):
    """The user's account in most cases, with letters of its host in any case."""
    if chance.random() < 0.6:
        mixed = "".join(chance.choice([sign.upper(), sign.lower()]) for sign in host)
        return f"acct:{USER}@{chance.choice([host, mixed])}".encode()
    of_nobody = ["acct:bob@" + host, "acct:Alice@" + host, "ACCT:alice@" + host, "acct:alice@@" + host, f"acct:alice@{host}/"]
    elsewhere = ["acct:alice@example.org", "acct:alice", "acct:@" + host, "http://localhost/", "a+b-c.d:x", "urn:\n"]
    no_uris = ["", "acct:", ":x", "1a:x", "a_b:x", "é:x", "alice@" + host]
    texts = [text.encode() for text in of_nobody + elsewhere + no_uris]
    return chance.choice(texts + [b"acct:\xffalice@localhost", b"acct:alice@localhost\xc3"])


def a_discovery_request(chance, user):
    host = user.part.host()
    names = [(b"resource", [a_resource(chance, host), a_resource(chance, host)])]
    for _ in range(chance.choice([0, 0, 1, 2, 3])):
        names.append((b"rel", [b"a", b"", REL.encode(), REL.encode(), REL.encode() + b" ", b"REL"]))
    return Discovery(
        method=chance.choice(["GET"] * 12 + ["HEAD", "HEAD", "OPTIONS", "PUT", "DELETE", "POST", "get"]),
        query=a_form(chance, names, IN_TARGET),
        body=chance.choice([b"", b"", b"resource=acct:alice@localhost"]),
    )


# ---- redirect addresses (URL Standard, section 4)

# An address is put together of parts, each with how it is printed, so nothing here reads or prints one: Python does neither as
# the standard does. Of what isn't printed as it was sent there are parts alone whose printing is certain: no internationalised
# domain, and IPv6 addresses in their shortest form but for the case of their letters.
SCHEMES = [
    (b"https://", "https"),
    (b"https://", "https"),
    (b"http://", "http"),
    (b"hTTp://", "http"),
    (b"https:", "https"),
    (b"http:\\/\\", "http"),
]
PEOPLE = [(b"", "")] * 6 + [
    (b"user@", "user@"),
    (b"User:Pw@", "User:Pw@"),
    (b"a%20b:c d@", "a%20b:c%20d@"),
    (b"u:@", "u@"),
    (b":p@", ":p@"),
    (b"@", ""),
]
HOSTS = [(b"app.example", "app.example")] * 3 + [
    (b"App.EXAMPLE", "app.example"),
    (b"%61pp.example", "app.example"),
    (b"a-b.c_d.example", "a-b.c_d.example"),
    (b"localhost", "localhost"),
    (b"127.0.0.1", "127.0.0.1"),
    (b"[::1]", "[::1]"),
    (b"[2001:DB8::A]", "[2001:db8::a]"),
]
PORTS = [(b"", None)] * 4 + [
    (b":", None),
    (b":8080", 8080),
    (b":80", 80),
    (b":443", 443),
    (b":0080", 80),
    (b":65535", 65535),
]
ROADS = [(b"/cb", "/cb")] * 3 + [
    (b"", "/"),
    (b"/", "/"),
    (b"/a b", "/a%20b"),
    (b"/a%2Fb%zz%", "/a%2Fb%zz%"),
    (b"/a/../b/./c", "/b/c"),
    (b"/%2e%2E/x", "/x"),
    (b"\\a\\b", "/a/b"),
    (b"/c\r\n\tb", "/cb"),
    (b"/a+b;c=d&e", "/a+b;c=d&e"),
    ("/é".encode(), "/%C3%A9"),
    (b"/\xff", "/%EF%BF%BD"),
    (b"/<script>alert(1)</script>", "/%3Cscript%3Ealert(1)%3C/script%3E"),
    (b"/\"'{}`", "/%22'%7B%7D%60"),
]
QUERIES = [(b"", "")] * 5 + [
    (b"?", "?"),
    (b"?a=b&c=d", "?a=b&c=d"),
    (b"?a?b%41", "?a?b%41"),
    (b"?x y", "?x%20y"),
    (b"?'\"<>", "?%27%22%3C%3E"),
    ("?é+%2B".encode(), "?%C3%A9+%2B"),
]
# there may be spaces round an address, and no fragment behind it, not even an empty one
FRONTS = [b""] * 20 + [b" ", b"\t\n"]
ENDS = [b""] * 30 + [b" ", b"#", b"#a"]
NO_ADDRESSES = [
    b"",
    b"/cb",
    b"//app.example/cb",
    b"app.example/cb",
    b"ftp://app.example/",
    b"ws://app.example/",
    b"javascript:alert(1)",
    b"mailto:alice@app.example",
    b"https://",
    b"https://:80/",
    b"https://user@/",
    b"https://app.example:65536/",
    b"https://app.example:8o/",
    b"https://a b/",
    b"https://a<b>/",
    b"https://[::1/",
    b"https://[g::1]/",
    b"https://1.2.3.256/",
]
DEFAULT_PORTS = {"http": 80, "https": 443}


def an_address(chance):
    if chance.random() < 0.06:
        text, printed = chance.choice(NO_ADDRESSES), None
    else:
        parts = [chance.choice(parts) for parts in (SCHEMES, PEOPLE, HOSTS, PORTS, ROADS, QUERIES)]
        scheme, person, host, port, road, query = (part[1] for part in parts)
        end = chance.choice(ENDS)
        text = chance.choice(FRONTS) + b"".join(part[0] for part in parts) + end
        origin = f"{scheme}://{host}" + ("" if port in (None, DEFAULT_PORTS[scheme]) else f":{port}")
        printed = None if b"#" in end else (origin.replace("://", f"://{person}") + road + query, origin)
    PRINTED[text.decode("utf-8", "replace")] = printed
    return text


# ---- grants

MARKUP = b"</p><script>alert(\"1\" & '2')</script>"
SCOPES = [b"notes:rw", b"*:rw", b"*:r", b"a:r  b:rw", b" x:rw ", b"y:rw y:rw notes:r", b"..a_-9:rw"]
NO_SCOPES = [
    b"",
    b" ",
    b"public:rw",
    b"..:r",
    b"Notes:r",
    b"<b>:r",
    b"notes",
    b"notes:w",
    b"notes:rw,a:r",
    b"notes:rw\ta:r",
    b"a" * 65 + b":r",
    b"a:r " * 257,
]
STATES = [
    b"",
    b"s1",
    b"s1",
    b"a b&c=d+e%",
    b"*-._~",
    "é\u2028\U0001f600".encode(),
    b"\xff\xed\xa0\x80\xf0\x9f",
    MARKUP,
    b"s" * 2000,
    b"l" * 20000,
]


def an_ask(chance, user, plain):
    """What an app asks for: right in most cases, with a field that is wrong, is missing or stands twice in the others."""
    password = (user.part.password or "open sesame").encode()
    names = [
        (b"response_type", [b"token"] * 30 + [b"code", b"Token", b""]),
        (b"client_id", [b"c", b"https://app.example", b"", MARKUP, b"\xc3\xa9\xc3("]),
        (b"redirect_uri", [an_address(chance), an_address(chance)]),
        (b"scope", SCOPES * 10 + NO_SCOPES),
    ]
    if chance.random() < 0.7:
        names.append((b"state", STATES))
    if plain is IN_BODY or chance.random() < 0.2:
        names.append((b"choice", [b"allow"] * 24 + [b"deny"] * 3 + [b"Allow", b"allow ", b""]))
        names.append((b"password", [password] * 8 + [password[:-1], password + b" ", b"", b"\xff"]))
    return a_form(chance, names, plain)


def a_query(chance, user):
    """What an app asks for, as a query that a target has room for."""
    while len(query := an_ask(chance, user, IN_TARGET)) > 7000:
        pass
    return query


def a_grant_request(chance, user):
    method = chance.choice(["GET"] * 9 + ["HEAD"] * 2 + ["POST"] * 20 + ["PUT", "DELETE", "OPTIONS", "PATCH", "post"])
    # the query of a POST plays no part, nor does the body of a GET
    has_form = method == "POST" or chance.random() < 0.1
    return Grant(
        method=method,
        name=chance.choice([USER] * 50 + ["bob", "Alice", "", "alice/"]),
        query=b"" if has_form and chance.random() < 0.7 else a_query(chance, user),
        body=an_ask(chance, user, IN_BODY) if has_form else b"",
    )


# ---- all

PLACES = [
    "*",
    "*",
    "/",
    "/storage",
    "/storage/alice",
    "/storage/bob/x",
    "/oauth",
    "/oauthx",
    "/OAUTH/alice",
    "/.well-known/webfinger/",
    "/.well-known/host-meta",
]


def a_request(chance, user, taken):
    """A request, where these tokens were taken away."""
    kind = chance.random()
    if kind < 0.75:
        return a_storage_request(chance, user, taken)
    if kind < 0.82:
        return a_discovery_request(chance, user)
    if kind < 0.98:
        return a_grant_request(chance, user)
    return Elsewhere(method=chance.choice(["GET", "HEAD", "OPTIONS", "PUT", "POST"]), place=chance.choice(PLACES))


def chunks(chance, body):
    spelled = b""
    while body:
        size = chance.randint(1, len(body))
        spelled += b"%x\r\n%b\r\n" % (size, body[:size])
        body = body[size:]
    return spelled + b"0\r\n\r\n"


def a_message(chance, request):
    """The request as bytes."""
    target = request.target()
    if isinstance(request, Storage) and chance.random() < 0.03:
        target += chance.choice(["?", "?access_token=" + TOKEN])
    if target.startswith("/") and chance.random() < 0.05:
        target = chance.choice(["http://localhost", "HTTPS://alice@example.org:1", "http://"]) + target
    lines = [f"{request.method} {target} HTTP/1.1", "Host: localhost", *request.lines()]
    if isinstance(request, Storage) and request.method in ("GET", "HEAD", "DELETE"):
        framing, body = [], b""
    elif chance.random() < 0.5:
        framing, body = [f"Content-Length: {len(request.body)}"], request.body
    else:
        framing, body = ["Transfer-Encoding: chunked"], chunks(chance, request.body)
    return "".join(line + "\r\n" for line in lines + framing + [""]).encode() + body
