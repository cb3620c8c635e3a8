"""A model of the device: its TPM 2.0 profile, as docs/PROFILE.md tells it.

It shares no code with the program. It is the other implementation that expected values
come from: what it answers to a command is compared with what the program's device
answers.

`Device(seed, numbers)` is a device that isn't started; `transmit(command)` gives the
response. `World(seed, most)` is the machine as its clients see it: each has a table of
objects, and the sessions of all of them have 64 numbers, of which as many may be active as
`most` says. Without them it is the profile's. `step(client, command, pick)` gives the
reply where the free choice is that of a journal; `command(client, command)` chooses itself;
`close(client)` leaves the sessions that the client saved.

`workload_lines(start, count)` gives the lines of the script that `tabrmd workload` plays.
"""

import functools
import hashlib
import hmac as hmac_module
import struct
from collections import namedtuple

# Tags, algorithms, permanent handles.
NO_SESSIONS, SESSIONS, ERROR_TAG = 0x8001, 0x8002, 0x00C4
SHA256, ALG_NULL, ALG_HMAC, KEYEDHASH, SYMCIPHER = 0x000B, 0x0010, 0x0005, 0x0008, 0x0025
OWNER, RH_NULL, PASSWORD = 0x40000001, 0x40000007, 0x40000009
HMAC_SESSION, POLICY_SESSION, TRIAL_SESSION = 0, 1, 3
SESSION_OCTETS = (0x02, 0x03)

# Response codes.
ATTRIBUTES, HASH, VALUE, TYPE, HANDLE, NONCE = 0x082, 0x083, 0x084, 0x08A, 0x08B, 0x08F
SIZE, INSUFFICIENT, KEY, INTEGRITY, BAD_AUTH, BAD_TAG = 0x095, 0x09A, 0x09C, 0x09F, 0x0A2, 0x01E
INITIALIZE, FAILURE, AUTH_MISSING, AUTH_UNAVAILABLE = 0x100, 0x101, 0x125, 0x12F
COMMAND_SIZE, COMMAND_CODE, AUTHSIZE, AUTH_CONTEXT = 0x142, 0x143, 0x144, 0x145
POLICY_FAIL, POLICY_CC, PCR_CHANGED = 0x09D, 0x0A4, 0x128
NV_RANGE, NV_AUTHORIZATION, NV_UNINITIALIZED, NV_SPACE, NV_DEFINED = 0x146, 0x149, 0x14A, 0x14B, 0x14C
CONTEXT_GAP, OBJECT_MEMORY, SESSION_MEMORY, SESSION_HANDLES = 0x901, 0x902, 0x903, 0x905
REFERENCE_H0, REFERENCE_S0 = 0x910, 0x918

# Object attributes.
FIXED_TPM, FIXED_PARENT, SENSITIVE_DATA_ORIGIN, USER_WITH_AUTH = 1 << 1, 1 << 4, 1 << 5, 1 << 6
ADMIN_WITH_POLICY, NO_DA, RESTRICTED, DECRYPT, SIGN = 1 << 7, 1 << 10, 1 << 16, 1 << 17, 1 << 18
FIXED = FIXED_TPM | FIXED_PARENT
PARENT = FIXED | SENSITIVE_DATA_ORIGIN | RESTRICTED | DECRYPT
ALL_ATTRIBUTES = PARENT | USER_WITH_AUTH | ADMIN_WITH_POLICY | NO_DA | SIGN

# NV attributes.
OWNER_WRITE, AUTH_WRITE, COUNTER, OWNER_READ, AUTH_READ = 1 << 1, 1 << 2, 1 << 4, 1 << 17, 1 << 18
WRITTEN = 1 << 29
NV_ATTRIBUTES = OWNER_WRITE | AUTH_WRITE | 0xF0 | OWNER_READ | AUTH_READ | 1 << 25 | WRITTEN
NV_INDEXES, NV_BYTES = 64, 2048

# The numbers of a device: what it has room for, and how far apart contexts may be. Those of the profile, the properties
# by which a device tells them, and how many sessions have numbers at all.
Numbers = namedtuple("Numbers", "slots loaded active gap")
PROFILE = Numbers(3, 3, 64, 255)
NUMBER_PROPERTIES = Numbers(0x10E, 0x110, 0x111, 0x114)
SESSION_NUMBERS = 64
CLIENT_OBJECTS = 4096
MOST_LEFT = 8
FIRST_TRANSIENT = 0x80000000
LAST_PLACE = 1 << 62


def leave_limit(active):
    """How many sessions may be left by their clients at once, over a device that may have so many active."""
    return min(MOST_LEFT, active // 4)


def number_out(values):
    """The first of a device's numbers that no broker can serve: its property, or None. `values` are the first ones, in
    the order of the properties."""
    least, most = PROFILE._replace(active=values[1] if len(values) > 1 else 0), (254, 64, 64, 2 ** 32 - 1)
    for place, value in enumerate(values):
        if not least[place] <= value <= most[place]:
            return NUMBER_PROPERTIES[place]
    return None


class Refusal(Exception):
    """A command that isn't run. Its one argument is the response code."""


def need(condition, code):
    if not condition:
        raise Refusal(code)


# A format-one code for parameter, handle or session n.
def of_parameter(code, n): return code + 0x040 + 0x100 * n
def of_handle(code, n): return code + 0x100 * n
def of_session(code, n): return code + 0x800 + 0x100 * n


# Big-endian numbers, and sized bytes.
def uint16(x): return struct.pack(">H", x)
def uint32(x): return struct.pack(">I", x)
def uint64(x): return struct.pack(">Q", x)
def tpm2b(data): return uint16(len(data)) + data


class Reader:
    """Reads fields in order. `lack` is the code where bytes are missing, `size` where a
    TPM2B passes its limit or bytes are left over."""

    def __init__(self, data, lack, size):
        self.data, self.at, self.lack, self.size = data, 0, lack, size

    def take(self, count):
        need(len(self.data) - self.at >= count, self.lack)
        self.at += count
        return self.data[self.at - count:self.at]

    def uint(self, count):
        return int.from_bytes(self.take(count), "big")

    def tpm2b(self, limit=0xFFFF):
        data = self.take(self.uint(2))
        need(len(data) <= limit, self.size)
        return data

    def parameter(self, n):
        """What is read next is parameter n of the command."""
        self.lack, self.size = of_parameter(INSUFFICIENT, n), of_parameter(SIZE, n)
        return self

    def within(self):
        """A reader of the structure in the next TPM2B. Missing bytes there are SIZE too."""
        return Reader(self.tpm2b(), self.size, self.size)

    def end(self, code=None):
        need(self.at == len(self.data), code or self.size)


# Hashes, key derivation, random stream.

def sha256(*parts):
    return hashlib.sha256(b"".join(parts)).digest()


def hmac(key, *parts):
    return hmac_module.new(key, b"".join(parts), hashlib.sha256).digest()


def kdfa(key, label, u, v, count):
    blocks = range(1, (count + 31) // 32 + 1)
    return b"".join(hmac(key, uint32(i), label, b"\0", u, v, uint32(8 * count))
                    for i in blocks)[:count]


def xor(data, mask):
    return bytes(a ^ b for a, b in zip(data, mask))


@functools.lru_cache(maxsize=16)
def chacha_block(key, counter, double_rounds):
    """The sixteen words of one block: 64-bit block counter, stream 0."""
    start = struct.unpack("<4I", b"expand 32-byte k") + struct.unpack("<8I", key)
    start += (counter & 0xFFFFFFFF, counter >> 32, 0, 0)
    w = list(start)

    def quarter_round(a, b, c, d):
        for x, y, z, shift in ((a, b, d, 16), (c, d, b, 12), (a, b, d, 8), (c, d, b, 7)):
            w[x] = (w[x] + w[y]) & 0xFFFFFFFF
            t = w[z] ^ w[x]
            w[z] = (t << shift | t >> (32 - shift)) & 0xFFFFFFFF

    for _ in range(double_rounds):
        for i in range(4):
            quarter_round(i, 4 + i, 8 + i, 12 + i)
        for i in range(4):
            quarter_round(i, 4 + (i + 1) % 4, 8 + (i + 2) % 4, 12 + (i + 3) % 4)
    return [(x + y) & 0xFFFFFFFF for x, y in zip(w, start)]


def chacha20_block(key, counter):
    return chacha_block(key, counter, 10)


# Public areas, objects, PCR selections.

class Public(namedtuple("Public", "type attributes auth_policy parameters unique")):
    """A public area. Its nameAlg is always SHA-256."""

    def marshal(self):
        return (uint16(self.type) + uint16(SHA256) + uint32(self.attributes)
                + tpm2b(self.auth_policy) + self.parameters + tpm2b(self.unique))

    def name(self):
        return uint16(SHA256) + sha256(self.marshal())

    def is_storage_parent(self):
        return self.type == SYMCIPHER

    def is_hmac_key(self):
        return self.type == KEYEDHASH and self.attributes & SIGN != 0

    def secret_size(self):
        """The size of a secret that the device makes."""
        return 16 if self.is_storage_parent() else 32


def attributes_fit(kind, attributes):
    if attributes & ~ALL_ATTRIBUTES or attributes & FIXED not in (0, FIXED):
        return False
    if kind == SYMCIPHER:
        return attributes & (PARENT | SIGN) == PARENT
    clear = RESTRICTED | DECRYPT
    if not attributes & SIGN:
        clear |= SENSITIVE_DATA_ORIGIN
    return attributes & clear == 0


def read_public(reader, n):
    """The public area that fills a reader. Each field is checked as it is read."""
    kind = reader.uint(2)
    need(kind in (KEYEDHASH, SYMCIPHER), of_parameter(TYPE, n))
    need(reader.uint(2) == SHA256, of_parameter(HASH, n))
    attributes = reader.uint(4)
    need(attributes_fit(kind, attributes), of_parameter(ATTRIBUTES, n))
    auth_policy = reader.tpm2b()
    need(len(auth_policy) in (0, 32), reader.size)
    if kind == SYMCIPHER:
        words = (0x0006, 0x0080, 0x0043)
    else:
        words = (ALG_HMAC, SHA256) if attributes & SIGN else (ALG_NULL,)
    for word in words:
        need(reader.uint(2) == word, of_parameter(VALUE, n))
    unique = reader.tpm2b(32)
    reader.end()
    return Public(kind, attributes, auth_policy, b"".join(map(uint16, words)), unique)


class Object(namedtuple("Object", "public auth seed secret qualified_name")):

    def marshal(self):
        return b"".join(map(tpm2b, (self.public.marshal(), *self[1:])))


def qualified(parent_qualified_name, public):
    return uint16(SHA256) + sha256(parent_qualified_name, public.name())


def strip(auth):
    """An auth value without its trailing zero bytes."""
    return auth.rstrip(b"\0")


def read_selection(reader, n):
    """A PCR selection list: none, or the three bytes of its one selection."""
    count = reader.parameter(n).uint(4)
    need(count <= 1, of_parameter(SIZE, n))
    if count == 0:
        return None
    need(reader.uint(2) == SHA256, of_parameter(HASH, n))
    need(reader.uint(1) == 3, of_parameter(VALUE, n))
    return reader.take(3)


def marshal_selection(selection):
    if selection is None:
        return uint32(0)
    return uint32(1) + uint16(SHA256) + b"\x03" + selection


def selected(selection):
    return [i for i in range(24) if selection is not None and selection[i // 8] >> i % 8 & 1]


# Protected bytes: an integrity value as a TPM2B, then the encrypted bytes. `keys` are the
# mask of a length and the integrity value of encrypted bytes.

def wrap(keys, plain):
    mask, integrity = keys
    enc = xor(plain, mask(len(plain)))
    return tpm2b(integrity(enc)) + enc


def unwrap(keys, area):
    mask, integrity = keys
    enc = area[34:]
    need(area[:34] == tpm2b(integrity(enc)), of_parameter(INTEGRITY, 1))
    return xor(enc, mask(len(enc)))


def private_keys(parent_seed, name):
    key = kdfa(parent_seed, b"INTEGRITY", b"", b"", 32)
    return (lambda count: kdfa(parent_seed, b"STORAGE", name, b"", count),
            lambda enc: hmac(key, enc, name))


def context_keys(seed, sequence, handle, hierarchy):
    key = kdfa(seed, b"CONTEXT MAC", b"", b"", 32)
    begin = uint64(sequence) + uint32(handle)
    return (lambda count: kdfa(seed, b"CONTEXT", uint64(sequence), uint32(handle), count),
            lambda enc: hmac(key, begin, uint32(hierarchy), enc))


def read_context(parameters):
    """Sequence, savedHandle, hierarchy and blob of the context that ContextLoad is given."""
    parameters.parameter(1)
    sequence, handle, hierarchy = parameters.uint(8), parameters.uint(4), parameters.uint(4)
    blob = parameters.tpm2b(2048)
    parameters.end(SIZE)
    need(handle == FIRST_TRANSIENT or handle >> 24 in SESSION_OCTETS, of_parameter(VALUE, 1))
    return sequence, handle, hierarchy, blob


def read_sensitive(reader):
    """Auth, seed and secret, the content of a private area."""
    auth, seed, secret = reader.tpm2b(32), reader.tpm2b(32), reader.tpm2b(128)
    need(len(seed) == 32, reader.size)
    return auth, seed, secret


class Index(namedtuple("Index", "number attributes policy size auth data")):

    def marshal(self):
        return (uint32(self.number) + uint16(SHA256) + uint32(self.attributes) + tpm2b(self.policy)
                + uint16(self.size))

    def name(self): return uint16(SHA256) + sha256(self.marshal())
    def is_counter(self): return self.attributes & 0xF0 == COUNTER


def read_index(reader, auth):
    """An index from its public area, which is parameter 2."""
    number = reader.uint(4)
    need(number >> 24 == 0x01, of_parameter(VALUE, 2))
    need(reader.uint(2) == SHA256, of_parameter(HASH, 2))
    attributes = reader.uint(4)
    need(attributes & ~NV_ATTRIBUTES == 0 and attributes & 0xF0 in (0, COUNTER)
         and attributes & (OWNER_WRITE | AUTH_WRITE) and attributes & (OWNER_READ | AUTH_READ),
         of_parameter(ATTRIBUTES, 2))
    policy = reader.tpm2b(32)
    need(len(policy) in (0, 32), of_parameter(SIZE, 2))
    size = reader.uint(2)
    need(size == 8 if attributes & 0xF0 == COUNTER else size <= NV_BYTES, of_parameter(SIZE, 2))
    reader.end()
    return Index(number, attributes, policy, size, auth, bytes(size))


class Session(namedtuple("Session", "kind nonce digest code auth updates")):
    """auth is "", "key" after PolicyAuthValue or "given" after PolicyPassword."""

    def octet(self): return 0x02 if self.kind == HMAC_SESSION else 0x03
    def is_trial(self): return self.kind == TRIAL_SESSION

    def restarted(self):
        return self._replace(digest=bytes(32), code=0, auth="", updates=None)

    def marshal(self):
        flags = {"": 0, "key": 1, "given": 2}[self.auth] | (0 if self.updates is None else 4)
        return (bytes([self.kind]) + tpm2b(self.nonce) + self.digest + uint32(self.code)
                + bytes([flags]) + uint32(self.updates or 0))


def unmarshal_session(data):
    """A session from the bytes of a context; other bytes are refused as the context is."""
    refusal = of_parameter(INTEGRITY, 1)
    reader = Reader(data, refusal, refusal)
    kind, nonce = reader.uint(1), reader.tpm2b()
    need(kind in (HMAC_SESSION, POLICY_SESSION, TRIAL_SESSION) and 16 <= len(nonce) <= 32, refusal)
    digest, code = reader.take(32), reader.uint(4)
    flags, updates = reader.uint(1), reader.uint(4)
    need(flags < 8 and flags & 3 != 3 and (flags & 4 or updates == 0), refusal)
    reader.end()
    return Session(kind, nonce, digest, code, ("", "key", "given")[flags & 3],
                   updates if flags & 4 else None)


def unmarshal_object(data):
    """An object from the bytes of a context; other bytes are refused as the context is."""
    refusal = of_parameter(INTEGRITY, 1)
    try:
        reader = Reader(data, refusal, refusal)
        public = read_public(reader.within(), 1)
        auth, seed, secret = read_sensitive(reader)
        qualified_name = reader.tpm2b()
        reader.end()
        need(auth == strip(auth) and len(qualified_name) == 34, refusal)
    except Refusal:
        raise Refusal(refusal) from None
    return Object(public, auth, seed, secret, qualified_name)


# The commands: kinds of their handles, number of authorized handles, method.

Syntax = namedtuple("Syntax", "handles authorized effect")
COMMANDS = {
    0x131: Syntax(["owner"], 1, "create_primary"), 0x143: Syntax([], 0, "self_test"),
    0x144: Syntax([], 0, "startup"), 0x153: Syntax(["object"], 1, "create"),
    0x155: Syntax(["object"], 1, "hmac"), 0x157: Syntax(["object"], 1, "load"),
    0x15E: Syntax(["object"], 1, "unseal"), 0x161: Syntax([], 0, "context_load"),
    0x162: Syntax(["saved"], 0, "context_save"), 0x165: Syntax([], 0, "flush_context"),
    0x173: Syntax(["object"], 0, "read_public"), 0x17B: Syntax([], 0, "get_random"),
    0x17E: Syntax([], 0, "pcr_read"), 0x182: Syntax(["pcr"], 1, "pcr_extend"),
    0x176: Syntax(["null", "null"], 0, "start_auth_session"),
    0x151: Syntax(["entity", "policy"], 1, "policy_secret"),
    0x16B: Syntax(["policy"], 0, "policy_auth_value"), 0x18C: Syntax(["policy"], 0, "policy_password"),
    0x16C: Syntax(["policy"], 0, "policy_command_code"), 0x17F: Syntax(["policy"], 0, "policy_pcr"),
    0x171: Syntax(["policy"], 0, "policy_or"), 0x180: Syntax(["policy"], 0, "policy_restart"),
    0x189: Syntax(["policy"], 0, "policy_get_digest"),
    0x12A: Syntax(["owner"], 1, "nv_define_space"), 0x122: Syntax(["owner", "nv"], 1, "nv_undefine_space"),
    0x169: Syntax(["nv"], 0, "nv_read_public"), 0x137: Syntax(["nvauth", "nv"], 1, "nv_write"),
    0x134: Syntax(["nvauth", "nv"], 1, "nv_increment"), 0x14E: Syntax(["nvauth", "nv"], 1, "nv_read"),
    0x17A: Syntax([], 0, "get_capability"),
}
WITH_RESPONSE_HANDLE = ("create_primary", "load", "context_load", "start_auth_session")
MADE_OBJECTS = ("create_primary", "load")
NO_AUTHORIZATIONS = ("startup", "context_save", "context_load", "flush_context")
Authorization = namedtuple("Authorization", "handle nonce attributes hmac")


def check_handle(kind, handle, n):
    octet = handle >> 24
    fits = {"owner": handle == OWNER, "pcr": handle < 24, "object": octet == 0x80,
            "saved": octet in (0x80, *SESSION_OCTETS), "null": handle == RH_NULL,
            "policy": octet == 0x03, "nv": octet == 0x01, "nvauth": handle == OWNER or octet == 0x01,
            "entity": handle == OWNER or handle < 24 or octet in (0x01, 0x80)}[kind]
    persistent = octet == 0x81 and kind in ("object", "saved", "entity")
    need(fits, of_handle(HANDLE if persistent else VALUE, n))


def read_authorizations(reader):
    """The authorization area: one to three whole authorizations."""
    size = reader.uint(4)
    need(size >= 9, AUTHSIZE)
    area = Reader(reader.take(size), AUTHSIZE, AUTHSIZE)
    found = []
    while area.at < size:
        found.append(Authorization(area.uint(4), area.tpm2b(64), area.uint(1), area.tpm2b(64)))
    need(len(found) <= 3, AUTHSIZE)
    return found


class Machine:
    """What the device and the world of its clients have in common: what is kept, and the commands. How objects and
    sessions are found and held is theirs: `_object`, `_session`, `_keep`, `_keep_session`, `_put_session`."""

    def __init__(self, seed):
        self.seed = seed
        self.started = False
        self.owner_auth = b""
        self.place = 0                      # in the words of the random stream
        self.pcrs = [bytes(32)] * 24
        self.pcr_update_count = 0
        self.indexes = {}

    def _run(self, command):
        try:
            return self._execute(command)
        except Refusal as refusal:
            code = refusal.args[0]
            tag = ERROR_TAG if code == BAD_TAG else NO_SESSIONS
            return uint16(tag) + uint32(10) + uint32(code)

    def _execute(self, command):
        # Size, tag, code.
        need(10 <= len(command) <= 4096, COMMAND_SIZE)
        tag, size, code = struct.unpack(">HII", command[:10])
        need(size == len(command), COMMAND_SIZE)
        need(tag in (NO_SESSIONS, SESSIONS), BAD_TAG)
        need(code in COMMANDS, COMMAND_CODE)
        syntax = COMMANDS[code]
        need(self.started or syntax.effect == "startup", INITIALIZE)

        # Handles: whole, of the right kind, there.
        reader = Reader(command[10:], None, None)
        handles = []
        for n in range(1, len(syntax.handles) + 1):
            reader.lack = of_handle(INSUFFICIENT, n)
            handles.append(reader.uint(4))
        for n, (kind, handle) in enumerate(zip(syntax.handles, handles), 1):
            check_handle(kind, handle, n)
        for index, handle in enumerate(handles):
            need(self._is_there(handle), REFERENCE_H0 + index)

        # Authorizations: whole, there, each session named once, and one for an authorized handle.
        reader.lack = AUTHSIZE
        authorizations = []
        if tag == SESSIONS:
            need(syntax.effect not in NO_AUTHORIZATIONS, AUTH_CONTEXT)
            authorizations = read_authorizations(reader)
        need(authorizations or not syntax.authorized, AUTH_MISSING)
        for index, authorization in enumerate(authorizations):
            handle = authorization.handle
            need(handle == PASSWORD or handle >> 24 in SESSION_OCTETS, of_session(VALUE, index + 1))
            need(handle == PASSWORD or self._session(handle), REFERENCE_S0 + index)
        named = [handle for handle in handles if handle >> 24 in SESSION_OCTETS]
        for index, authorization in enumerate(authorizations):
            need(authorization.handle not in named, of_session(HANDLE, index + 1))
            if authorization.handle != PASSWORD:
                named.append(authorization.handle)
        beyond = syntax.authorized + 1
        need(len(authorizations) < beyond, of_session(ATTRIBUTES, beyond))

        # Room for the object that the command makes.
        if syntax.effect in MADE_OBJECTS or (
                syntax.effect == "context_load" and command[18:22] == uint32(FIRST_TRANSIENT)):
            need(self._has_room(), OBJECT_MEMORY)
        need(syntax.effect != "startup" or not self.started, INITIALIZE)

        # The command itself. An effect gives the response handle's bytes and the parameters.
        for n, handle in enumerate(handles, 1):
            need(handle >> 24 != 0x01 or handle in self.indexes, of_handle(HANDLE, n))
        parameters = Reader(command[10 + reader.at:], None, None)
        answer = None
        if syntax.authorized:
            cp_hash = sha256(uint32(code), *[self._name(handle) for handle in handles],
                             command[10 + reader.at:])
            answer = self._authorize(handles[0], authorizations[0], code, cp_hash)
        self.code = code
        body, response = getattr(self, "_" + syntax.effect)(parameters, *handles)
        if tag == SESSIONS:
            rp_hash = sha256(uint32(0), uint32(code), response)
            body += uint32(len(response)) + response + self._close(authorizations[0], answer, rp_hash)
        else:
            body += response
        return uint16(tag) + uint32(10 + len(body)) + uint32(0) + body

    def _is_there(self, handle):
        octet = handle >> 24
        if octet == 0x80:
            return self._object(handle) is not None
        return octet not in SESSION_OCTETS or self._session(handle) is not None

    def _name(self, handle):
        if handle in self.indexes:
            return self.indexes[handle].name()
        return self._object(handle).public.name() if handle >> 24 == 0x80 else uint32(handle)

    def _authorize(self, handle, authorization, code, cp_hash):
        """The check of an authorization. It gives the key of the response's hmac, or None where that is empty."""
        entity = self._object(handle) if handle >> 24 == 0x80 else None
        held = entity or self.indexes.get(handle)
        auth = held.auth if held else self.owner_auth if handle == OWNER else b""
        usable = not entity or entity.public.attributes & USER_WITH_AUTH
        given = authorization.hmac
        need(authorization.attributes in (0, 1), of_session(ATTRIBUTES, 1))
        if authorization.handle == PASSWORD:
            need(authorization.nonce == b"", of_session(NONCE, 1))
            need(usable, AUTH_UNAVAILABLE)
            need(strip(given) == auth, of_session(BAD_AUTH, 1))
            return None
        session = self._session(authorization.handle)
        need(len(authorization.nonce) <= 32, of_session(SIZE, 1))
        need(not session.is_trial(), of_session(ATTRIBUTES, 1))
        if session.kind == HMAC_SESSION:
            need(usable, AUTH_UNAVAILABLE)
            key = auth
        else:
            need(entity, AUTH_UNAVAILABLE)
            need(session.digest == entity.public.auth_policy, of_session(POLICY_FAIL, 1))
            need(session.code in (0, code), of_session(POLICY_CC, 1))
            need(session.updates in (None, self.pcr_update_count), PCR_CHANGED)
            if session.auth == "given":
                need(strip(given) == auth, of_session(BAD_AUTH, 1))
                return None
            key = auth if session.auth == "key" else b""
        if key == b"" and given == b"":
            return None
        right = hmac(key, cp_hash, authorization.nonce, session.nonce, bytes([authorization.attributes]))
        need(given == right, of_session(BAD_AUTH, 1))
        return key

    def _close(self, authorization, key, rp_hash):
        """The authorization of the response. A session goes on with a new nonce, or ends."""
        if authorization.handle == PASSWORD:
            return tpm2b(b"") + b"\x01" + tpm2b(b"")
        session = self._session(authorization.handle)
        nonce = self._draw(len(session.nonce))
        attributes = bytes([authorization.attributes])
        mac = b"" if key is None else hmac(key, rp_hash, nonce, authorization.nonce, attributes)
        session = session._replace(nonce=nonce)
        if session.kind == POLICY_SESSION:
            session = session.restarted()
        self._put_session(authorization.handle, session if authorization.attributes & 1 else None)
        return tpm2b(nonce) + attributes + tpm2b(mac)

    def _draw(self, count):
        """The next bytes of the random stream. Bytes left over of the last word are lost."""
        end = self.place + (count + 3) // 4
        need(end <= LAST_PLACE, FAILURE)
        words = [chacha20_block(self.seed, i // 16)[i % 16] for i in range(self.place, end)]
        self.place = end
        return struct.pack("<%dI" % len(words), *words)[:count]

    # Effects.

    def _startup(self, parameters):
        startup_type = parameters.parameter(1).uint(2)
        parameters.end(SIZE)
        need(startup_type == 0, of_parameter(VALUE, 1))
        self.started = True
        return b"", b""

    def _self_test(self, parameters):
        full_test = parameters.parameter(1).uint(1)
        parameters.end(SIZE)
        need(full_test in (0, 1), of_parameter(VALUE, 1))
        return b"", b""

    def _get_random(self, parameters):
        count = parameters.parameter(1).uint(2)
        parameters.end(SIZE)
        return b"", tpm2b(self._draw(min(count, 32)))

    def _pcr_read(self, parameters):
        selection = read_selection(parameters, 1)
        parameters.end(SIZE)
        pcrs = selected(selection)[:8]
        if selection is not None:
            selection = sum(1 << i for i in pcrs).to_bytes(3, "little")
        return b"", (uint32(self.pcr_update_count) + marshal_selection(selection)
                     + uint32(len(pcrs)) + b"".join(tpm2b(self.pcrs[i]) for i in pcrs))

    def _pcr_extend(self, parameters, pcr):
        count = parameters.parameter(1).uint(4)
        need(count <= 1, of_parameter(SIZE, 1))
        if count == 1:
            need(parameters.uint(2) == SHA256, of_parameter(HASH, 1))
            digest = parameters.take(32)
        parameters.end(SIZE)
        if count == 1:
            self.pcrs[pcr] = sha256(self.pcrs[pcr], digest)
            self.pcr_update_count = (self.pcr_update_count + 1) & 0xFFFFFFFF
        return b"", b""

    def _creation(self, parameters):
        """The parameters of CreatePrimary and Create."""
        sensitive = parameters.parameter(1).within()
        auth, data = sensitive.tpm2b(32), sensitive.tpm2b(128)
        sensitive.end()
        template = read_public(parameters.parameter(2).within(), 2)
        outside_info = parameters.parameter(3).tpm2b(64)
        selection = read_selection(parameters, 4)
        parameters.end(SIZE)
        made_here = template.attributes & SENSITIVE_DATA_ORIGIN != 0
        need(made_here == (data == b""), of_parameter(ATTRIBUTES, 1))
        return strip(auth), data, template, outside_info, selection

    def _created(self, public, selection, parent, outside_info):
        """Public area, creation data, creation hash and ticket of a response."""
        digest = sha256(*[self.pcrs[i] for i in selected(selection)])
        creation_data = (marshal_selection(selection) + tpm2b(digest) + b"\x01" + parent
                         + tpm2b(outside_info))
        creation_hash = sha256(creation_data)
        proof = kdfa(self.seed, b"PROOF", b"", b"", 32)
        ticket = hmac(proof, uint16(0x8021), public.name(), creation_hash)
        return (tpm2b(public.marshal()) + tpm2b(creation_data) + tpm2b(creation_hash)
                + uint16(0x8021) + uint32(OWNER) + tpm2b(ticket))

    def _create_primary(self, parameters, owner):
        auth, data, template, outside_info, selection = self._creation(parameters)
        u, v = sha256(template.marshal()), sha256(data)
        seed = kdfa(self.seed, b"PRIMARY SEED", u, v, 32)
        secret = data or kdfa(self.seed, b"PRIMARY SECRET", u, v, template.secret_size())
        public = template._replace(unique=sha256(seed, secret))
        name = uint32(owner)
        handle = self._keep(Object(public, auth, seed, secret, qualified(name, public)))
        parent = uint16(ALG_NULL) + tpm2b(name) + tpm2b(name)
        created = self._created(public, selection, parent, outside_info)
        return handle, created + tpm2b(public.name())

    def _storage_parent(self, handle):
        parent = self._object(handle)
        need(parent.public.is_storage_parent(), of_handle(TYPE, 1))
        return parent

    def _create(self, parameters, parent_handle):
        parent = self._storage_parent(parent_handle)
        auth, data, template, outside_info, selection = self._creation(parameters)
        seed = self._draw(32)
        secret = data or self._draw(template.secret_size())
        public = template._replace(unique=sha256(seed, secret))
        plain = tpm2b(auth) + tpm2b(seed) + tpm2b(secret)
        private = wrap(private_keys(parent.seed, public.name()), plain)
        names = uint16(SHA256) + tpm2b(parent.public.name()) + tpm2b(parent.qualified_name)
        return b"", tpm2b(private) + self._created(public, selection, names, outside_info)

    def _load(self, parameters, parent_handle):
        parent = self._storage_parent(parent_handle)
        private = parameters.parameter(1).tpm2b(512)
        public = read_public(parameters.parameter(2).within(), 2)
        parameters.end(SIZE)
        plain = unwrap(private_keys(parent.seed, public.name()), private)
        refusal = of_parameter(INTEGRITY, 1)
        reader = Reader(plain, refusal, refusal)
        auth, seed, secret = read_sensitive(reader)
        reader.end()
        name = qualified(parent.qualified_name, public)
        return self._keep(Object(public, strip(auth), seed, secret, name)), tpm2b(public.name())

    def _unseal(self, parameters, handle):
        item = self._object(handle)
        need(not item.public.is_storage_parent(), of_handle(TYPE, 1))
        need(not item.public.is_hmac_key(), of_handle(ATTRIBUTES, 1))
        parameters.end(SIZE)
        return b"", tpm2b(item.secret)

    def _hmac(self, parameters, handle):
        key = self._object(handle)
        need(not key.public.is_storage_parent(), of_handle(TYPE, 1))
        need(key.public.is_hmac_key(), of_handle(KEY, 1))
        data = parameters.parameter(1).tpm2b(1024)
        hash_alg = parameters.parameter(2).uint(2)
        parameters.end(SIZE)
        need(hash_alg in (SHA256, ALG_NULL), of_parameter(VALUE, 2))
        return b"", tpm2b(hmac(key.secret, data))

    def _read_public(self, parameters, handle):
        item = self._object(handle)
        parameters.end(SIZE)
        return b"", (tpm2b(item.public.marshal()) + tpm2b(item.public.name())
                     + tpm2b(item.qualified_name))

    def _start_auth_session(self, parameters, tpm_key, bind):
        nonce = parameters.parameter(1).tpm2b(64)
        salt = parameters.parameter(2).tpm2b(256)
        kind = parameters.parameter(3).uint(1)
        symmetric = parameters.parameter(4).uint(2)
        hash_alg = parameters.parameter(5).uint(2)
        parameters.end(SIZE)
        need(16 <= len(nonce) <= 32, of_parameter(SIZE, 1))
        need(salt == b"", of_parameter(VALUE, 2))
        need(kind in (HMAC_SESSION, POLICY_SESSION, TRIAL_SESSION), of_parameter(VALUE, 3))
        need(symmetric == ALG_NULL, of_parameter(VALUE, 4))
        need(hash_alg == SHA256, of_parameter(HASH, 5))
        self._has_session_room()
        session = Session(kind, self._draw(len(nonce)), bytes(32), 0, "", None)
        return self._keep_session(session), tpm2b(session.nonce)

    def _extended(self, handle, *parts):
        session = self._session(handle)
        return session._replace(digest=sha256(session.digest, uint32(self.code), *parts))

    def _policy_auth_value(self, parameters, handle):
        parameters.end(SIZE)
        digest = sha256(self._session(handle).digest, uint32(0x16B))
        self._put_session(handle, self._session(handle)._replace(digest=digest, auth="key"))
        return b"", b""

    def _policy_password(self, parameters, handle):
        parameters.end(SIZE)
        digest = sha256(self._session(handle).digest, uint32(0x16B))
        self._put_session(handle, self._session(handle)._replace(digest=digest, auth="given"))
        return b"", b""

    def _policy_command_code(self, parameters, handle):
        code = parameters.parameter(1).uint(4)
        parameters.end(SIZE)
        need(code != 0 and self._session(handle).code in (0, code), of_parameter(VALUE, 1))
        self._put_session(handle, self._extended(handle, uint32(code))._replace(code=code))
        return b"", b""

    def _policy_pcr(self, parameters, handle):
        digest = parameters.parameter(1).tpm2b(32)
        need(len(digest) in (0, 32), of_parameter(SIZE, 1))
        selection = read_selection(parameters, 2)
        parameters.end(SIZE)
        session = self._session(handle)
        present = sha256(*[self.pcrs[i] for i in selected(selection)])
        need(session.updates in (None, self.pcr_update_count), PCR_CHANGED)
        need(digest in (b"", present) or session.is_trial(), of_parameter(VALUE, 1))
        left = self._extended(handle, marshal_selection(selection), digest or present)
        if not session.is_trial():
            left = left._replace(updates=self.pcr_update_count)
        self._put_session(handle, left)
        return b"", b""

    def _policy_or(self, parameters, handle):
        count = parameters.parameter(1).uint(4)
        need(2 <= count <= 8, of_parameter(SIZE, 1))
        digests = []
        for _ in range(count):
            digests.append(parameters.tpm2b(32))
            need(len(digests[-1]) == 32, of_parameter(SIZE, 1))
        parameters.end(SIZE)
        session = self._session(handle)
        need(session.digest in digests or session.is_trial(), of_parameter(VALUE, 1))
        self._put_session(handle, session._replace(digest=sha256(bytes(32), uint32(0x171), *digests)))
        return b"", b""

    def _policy_secret(self, parameters, entity, handle):
        nonce = parameters.parameter(1).tpm2b(32)
        cp_hash = parameters.parameter(2).tpm2b(32)
        policy_ref = parameters.parameter(3).tpm2b(64)
        expiration = parameters.parameter(4).uint(4)
        parameters.end(SIZE)
        need(nonce in (b"", self._session(handle).nonce), of_parameter(NONCE, 1))
        need(cp_hash == b"", of_parameter(VALUE, 2))
        need(expiration == 0, of_parameter(VALUE, 4))
        left = self._extended(handle, self._name(entity))
        self._put_session(handle, left._replace(digest=sha256(left.digest, policy_ref)))
        return b"", tpm2b(b"") + uint16(0x8023) + uint32(RH_NULL) + tpm2b(b"")

    def _policy_restart(self, parameters, handle):
        parameters.end(SIZE)
        self._put_session(handle, self._session(handle).restarted())
        return b"", b""

    def _policy_get_digest(self, parameters, handle):
        parameters.end(SIZE)
        return b"", tpm2b(self._session(handle).digest)

    def _nv_define_space(self, parameters, owner):
        auth = strip(parameters.parameter(1).tpm2b(32))
        index = read_index(parameters.parameter(2).within(), auth)
        need(not index.attributes & WRITTEN, of_parameter(ATTRIBUTES, 2))
        parameters.end(SIZE)
        need(index.number not in self.indexes, NV_DEFINED)
        need(len(self.indexes) < NV_INDEXES, NV_SPACE)
        self.indexes[index.number] = index
        return b"", b""

    def _nv_undefine_space(self, parameters, owner, number):
        parameters.end(SIZE)
        del self.indexes[number]
        return b"", b""

    def _nv_read_public(self, parameters, number):
        parameters.end(SIZE)
        return b"", tpm2b(self.indexes[number].marshal()) + tpm2b(self.indexes[number].name())

    def _nv_access(self, by, number, of_owner, of_index):
        index = self.indexes[number]
        need(index.attributes & of_owner if by == OWNER else by == number and index.attributes & of_index,
             NV_AUTHORIZATION)
        return index

    def _nv_put(self, index, data):
        self.indexes[index.number] = index._replace(data=data, attributes=index.attributes | WRITTEN)
        return b"", b""

    def _nv_write(self, parameters, by, number):
        data = parameters.parameter(1).tpm2b(NV_BYTES)
        offset = parameters.parameter(2).uint(2)
        parameters.end(SIZE)
        index = self._nv_access(by, number, OWNER_WRITE, AUTH_WRITE)
        need(not index.is_counter(), of_handle(ATTRIBUTES, 2))
        need(offset + len(data) <= index.size, NV_RANGE)
        return self._nv_put(index, index.data[:offset] + data + index.data[offset + len(data):])

    def _nv_increment(self, parameters, by, number):
        parameters.end(SIZE)
        index = self._nv_access(by, number, OWNER_WRITE, AUTH_WRITE)
        need(index.is_counter(), of_handle(ATTRIBUTES, 2))
        count = int.from_bytes(index.data, "big")
        need(count < 2 ** 64 - 1, NV_RANGE)
        return self._nv_put(index, uint64(count + 1))

    def _nv_read(self, parameters, by, number):
        size = parameters.parameter(1).uint(2)
        offset = parameters.parameter(2).uint(2)
        parameters.end(SIZE)
        index = self._nv_access(by, number, OWNER_READ, AUTH_READ)
        need(index.attributes & WRITTEN, NV_UNINITIALIZED)
        need(offset + size <= index.size, NV_RANGE)
        return b"", tpm2b(index.data[offset:offset + size])

    def _context(self, sequence, handle, hierarchy, plain):
        blob = wrap(context_keys(self.seed, sequence, handle, hierarchy), plain)
        return uint64(sequence) + uint32(handle) + uint32(hierarchy) + tpm2b(blob)

    def _flush_context(self, parameters):
        handle = parameters.parameter(1).uint(4)
        parameters.end(SIZE)
        need(handle >> 24 in (0x80, *SESSION_OCTETS), of_parameter(VALUE, 1))
        need(self._is_flushed(handle), of_parameter(HANDLE, 1))
        return b"", b""

    def _listed(self, octet):
        """The handles of one sort, upwards; sessions by their numbers."""
        if octet in (0x80, *SESSION_OCTETS):
            handles = self._handles_of(octet)
            return [(handle & 0xFFFFFF if octet != 0x80 else handle, handle) for handle in handles]
        lists = {0x00: range(24), 0x01: sorted(self.indexes), 0x40: (OWNER, RH_NULL, PASSWORD), 0x81: ()}
        need(octet in lists, of_parameter(HANDLE, 2))
        return [(handle, handle) for handle in lists[octet]]

    def _get_capability(self, parameters):
        capability = parameters.parameter(1).uint(4)
        least = parameters.parameter(2).uint(4)
        count = parameters.parameter(3).uint(4)
        parameters.end(SIZE)
        if capability == 1:
            octet = least >> 24
            items = self._listed(octet)
            least = least & 0xFFFFFF if octet in SESSION_OCTETS else least
            items = [(key, uint32(handle)) for key, handle in items]
        elif capability == 2:
            items = [(code, uint32(code | len(syntax.handles) << 25
                                   | (syntax.effect in WITH_RESPONSE_HANDLE) << 28))
                     for code, syntax in sorted(COMMANDS.items())]
        elif capability == 5:
            return b"", b"\0" + uint32(5) + uint32(1) + uint16(SHA256) + b"\3\xff\xff\xff"
        else:
            need(capability == 6, of_parameter(VALUE, 1))
            properties = {0x112: 24, 0x11E: 4096, 0x11F: 4096, **self._properties()}
            items = [(key, uint32(key) + uint32(value)) for key, value in sorted(properties.items())]
        items = [item for key, item in items if key >= least]
        told = items[:min(count, 254)]
        return b"", (bytes([len(items) > len(told)]) + uint32(capability) + uint32(len(told))
                     + b"".join(told))


class Device(Machine):

    def __init__(self, seed, numbers=PROFILE):
        super().__init__(seed)
        self.numbers = numbers
        self.slots = [None] * numbers.slots
        self.object_context_id = 0
        # by number: a loaded session, or the octet and the sequence of a saved one
        self.loaded, self.saved = {}, {}
        self.session_context_id = 0

    def transmit(self, command):
        return self._run(command)

    def _object(self, handle):
        slot = handle - FIRST_TRANSIENT
        return self.slots[slot] if 0 <= slot < len(self.slots) else None

    def _session(self, handle):
        session = self.loaded.get(handle & 0xFFFFFF)
        return session if session and session.octet() == handle >> 24 else None

    def _has_room(self):
        return None in self.slots

    def _keep(self, new_object):
        """Puts an object in the least free slot and gives its handle's bytes."""
        slot = self.slots.index(None)
        self.slots[slot] = new_object
        return uint32(FIRST_TRANSIENT + slot)

    def _has_session_room(self):
        need(len(self.loaded) + len(self.saved) < min(self.numbers.active, SESSION_NUMBERS), SESSION_HANDLES)
        need(len(self.loaded) < self.numbers.loaded, SESSION_MEMORY)

    def _keep_session(self, session):
        number = min(set(range(SESSION_NUMBERS)) - set(self.loaded) - set(self.saved))
        self.loaded[number] = session
        return uint32(session.octet() << 24 | number)

    def _put_session(self, handle, session):
        self.loaded[handle & 0xFFFFFF] = session
        if session is None:
            del self.loaded[handle & 0xFFFFFF]

    def _is_flushed(self, handle):
        if handle >> 24 == 0x80:
            if not self._object(handle):
                return False
            self.slots[handle - FIRST_TRANSIENT] = None
            return True
        number = handle & 0xFFFFFF
        if self._session(handle):
            del self.loaded[number]
            return True
        if number in self.saved and self.saved[number][0] == handle >> 24:
            del self.saved[number]
            return True
        return False

    def _context_save(self, parameters, handle):
        parameters.end(SIZE)
        if handle >> 24 == 0x80:
            sequence = self.object_context_id
            need(sequence < LAST_PLACE, FAILURE)
            self.object_context_id += 1
            return b"", self._context(sequence, FIRST_TRANSIENT, OWNER, self._object(handle).marshal())
        sequence = self.session_context_id
        need(sequence < LAST_PLACE, FAILURE)
        oldest = min((number for _, number in self.saved.values()), default=sequence)
        need(sequence - oldest < self.numbers.gap, CONTEXT_GAP)
        self.session_context_id += 1
        session = self.loaded.pop(handle & 0xFFFFFF)
        self.saved[handle & 0xFFFFFF] = (handle >> 24, sequence)
        return b"", self._context(sequence, handle, RH_NULL, session.marshal())

    def _context_load(self, parameters):
        sequence, handle, hierarchy, blob = read_context(parameters)
        of_a_session = handle >> 24 in SESSION_OCTETS
        plain = unwrap(context_keys(self.seed, sequence, handle, hierarchy), blob)
        if not of_a_session:
            return self._keep(unmarshal_object(plain)), b""
        session = unmarshal_session(plain)
        number = handle & 0xFFFFFF
        need(self.saved.get(number) == (handle >> 24, sequence), of_parameter(HANDLE, 1))
        need(len(self.loaded) < self.numbers.loaded, SESSION_MEMORY)
        del self.saved[number]
        self.loaded[number] = session
        return uint32(handle), b""

    def _handles_of(self, octet):
        if octet == 0x80:
            return [FIRST_TRANSIENT + i for i, held in enumerate(self.slots) if held]
        octets = ({n: session.octet() for n, session in self.loaded.items()} if octet == 0x02
                  else {n: saved for n, (saved, _) in self.saved.items()})
        return [octets[n] << 24 | n for n in sorted(octets)]

    def _properties(self):
        loaded, active = len(self.loaded), len(self.loaded) + len(self.saved)
        return {**dict(zip(NUMBER_PROPERTIES, self.numbers)),
                0x203: loaded, 0x204: self.numbers.loaded - loaded, 0x205: active,
                0x206: self.numbers.active - active, 0x207: self.slots.count(None)}


class BadPick(Exception):
    """A command leaves another choice than the one that it is given. Its one argument says which."""


Held = namedtuple("Held", "client session handed")
Left = namedtuple("Left", "number session handed")


class World(Machine):
    """The machine as its clients see it. It has no slots and no places. `most` says how many sessions may be active.

    A client's session is `Held` under its number; `handed` is the context that was handed
    out, or None while the session is in use. `left` has the saved sessions of closed
    clients, in the order in which they were left: they are active, and nobody's.
    """

    def __init__(self, seed, most=PROFILE.active):
        super().__init__(seed)
        self.started, self.most = True, most
        self.tables, self.sessions, self.left = {}, {}, []
        # the least sequences that may be handed out
        self.least_of_objects = self.least_of_sessions = 0

    def command(self, client, command):
        """The reply, where each choice is the least that there is."""
        return self._step(client, command, None)

    def step(self, client, command, pick):
        """The reply where the choice is this one: "-" for none, "session:K" or "sequence:Q". BadPick if it
        can't be; this world is then of no more use."""
        reply = self._step(client, command, pick)
        if self.picked != pick:
            raise BadPick(f"the command leaves the pick {self.picked}, and not {pick}")
        return reply

    def _step(self, client, command, pick):
        self.client, self.pick, self.picked = client, pick, "-"
        self.open(client)
        return self._run(command)

    def open(self, client):
        self.tables.setdefault(client, {})

    def close(self, client):
        """The client's saved sessions are left, and those that were left longest go where there are too many."""
        self.tables.pop(client, None)
        for number in [n for n, held in sorted(self.sessions.items()) if held.client == client]:
            held = self.sessions.pop(number)
            if held.handed is not None:
                self.left.append(Left(number, held.session, held.handed))
        del self.left[:max(0, len(self.left) - leave_limit(self.most))]

    def _active(self):
        """The numbers of all sessions, those of clients and those that are left."""
        return self.sessions.keys() | {left.number for left in self.left}

    def _choose(self, sort, least, end, taken=()):
        """The number of this sort that the pick says; without a pick the least one that can be."""
        free = next((n for n in range(least, end) if n not in taken), None)
        if self.pick is None:
            number = free
        else:
            name, _, digits = self.pick.partition(":")
            number = int(digits) if digits.isdigit() and name == sort else None
        if number is None or not least <= number < end or number in taken:
            raise BadPick(f"the command leaves a {sort}, and not {self.pick}")
        self.picked = f"{sort}:{number}"
        return number

    def _object(self, handle):
        return self.tables[self.client].get(handle - FIRST_TRANSIENT)

    def _own(self, handle):
        """What is held under the handle of a session of the client, in use or saved."""
        held = self.sessions.get(handle & 0xFFFFFF)
        return held if held and held.client == self.client and held.session.octet() == handle >> 24 else None

    def _session(self, handle):
        held = self._own(handle)
        return held.session if held and held.handed is None else None

    def _has_room(self):
        return len(self.tables[self.client]) < CLIENT_OBJECTS

    def _keep(self, new_object):
        table = self.tables[self.client]
        number = next(n for n in range(CLIENT_OBJECTS) if n not in table)
        table[number] = new_object
        return uint32(FIRST_TRANSIENT + number)

    def _has_session_room(self):
        need(len(self._active()) < self.most, SESSION_HANDLES)

    def _keep_session(self, session):
        number = self._choose("session", 0, SESSION_NUMBERS, self._active())
        self.sessions[number] = Held(self.client, session, None)
        return uint32(session.octet() << 24 | number)

    def _put_session(self, handle, session):
        self.sessions[handle & 0xFFFFFF] = Held(self.client, session, None)
        if session is None:
            del self.sessions[handle & 0xFFFFFF]

    def _is_flushed(self, handle):
        if handle >> 24 == 0x80:
            return self.tables[self.client].pop(handle - FIRST_TRANSIENT, None) is not None
        if not self._own(handle):
            return False
        del self.sessions[handle & 0xFFFFFF]
        return True

    def _context_save(self, parameters, handle):
        parameters.end(SIZE)
        if handle >> 24 == 0x80:
            sequence = self._choose("sequence", self.least_of_objects, LAST_PLACE)
            self.least_of_objects = sequence + 1
            return b"", self._context(sequence, FIRST_TRANSIENT, OWNER, self._object(handle).marshal())
        sequence = self._choose("sequence", self.least_of_sessions, LAST_PLACE)
        self.least_of_sessions = sequence + 1
        session = self._session(handle)
        context = self._context(sequence, handle, RH_NULL, session.marshal())
        self.sessions[handle & 0xFFFFFF] = Held(self.client, session, context)
        return b"", context

    def _context_load(self, parameters):
        given = parameters.data
        sequence, handle, hierarchy, blob = read_context(parameters)
        if handle >> 24 in SESSION_OCTETS:
            self._put_session(handle, self._taken_up(handle, given))
            return uint32(handle), b""
        plain = unwrap(context_keys(self.seed, sequence, handle, hierarchy), blob)
        return self._keep(unmarshal_object(plain)), b""

    def _taken_up(self, handle, context):
        """The session for which this context was handed out: one that the client has saved, or one that is left and
        isn't any more."""
        held = self._own(handle)
        if held and held.handed == context:
            return held.session
        left = next((left for left in self.left if left.handed == context), None)
        need(left, of_parameter(HANDLE, 1))
        self.left.remove(left)
        return left.session

    def _handles_of(self, octet):
        if octet == 0x80:
            return [FIRST_TRANSIENT + n for n in sorted(self.tables[self.client])]
        return [held.session.octet() << 24 | n for n, held in sorted(self.sessions.items())
                if held.client == self.client and (held.handed is None) == (octet == 0x02)]

    def _properties(self):
        own = [held for held in self.sessions.values() if held.client == self.client]
        free = self.most - len(self._active())
        return {**dict(zip(NUMBER_PROPERTIES, (CLIENT_OBJECTS, self.most, self.most, 0xFFFFFFFF))),
                0x203: sum(held.handed is None for held in own), 0x204: free, 0x205: len(own), 0x206: free,
                0x207: CLIENT_OBJECTS - len(self.tables[self.client])}


# The script of a workload.

def words_of_workload(start):
    """The words of ChaCha8 with stream 0, under the start as eight bytes, the highest first, four times."""
    key = uint64(start) * 4
    block = 0
    while True:
        yield from chacha_block(key, block, 4)
        block += 1


def command_of(code, parameters):
    return uint16(NO_SESSIONS) + uint32(10 + len(parameters)) + uint32(code) + parameters


def password_command(code, handle, parameters):
    """A command with one handle, authorized by the empty password."""
    area = uint32(PASSWORD) + tpm2b(b"") + b"\0" + tpm2b(b"")
    body = uint32(handle) + uint32(len(area)) + area + parameters
    return uint16(SESSIONS) + uint32(10 + len(body)) + uint32(code) + body


def hmac_key_primary():
    sensitive = tpm2b(tpm2b(b"") + tpm2b(b""))
    attributes = FIXED | SENSITIVE_DATA_ORIGIN | USER_WITH_AUTH | SIGN
    public = (uint16(KEYEDHASH) + uint16(SHA256) + uint32(attributes) + tpm2b(b"")
              + uint16(ALG_HMAC) + uint16(SHA256) + tpm2b(b""))
    return password_command(0x131, OWNER, sensitive + tpm2b(public) + tpm2b(b"") + uint32(0))


def policy_session():
    parameters = (uint32(RH_NULL) * 2 + tpm2b(bytes(32)) + tpm2b(b"") + bytes([POLICY_SESSION])
                  + uint16(ALG_NULL) + uint16(SHA256))
    return command_of(0x176, parameters)


def workload_word(choice, number):
    """What stands behind the label: a command's digits, or `close`."""
    if choice == 7 and number % 8 == 0:
        return "close"
    command = [lambda: command_of(0x17B, uint16(number % 33)),
               hmac_key_primary,
               lambda: command_of(0x173, uint32(FIRST_TRANSIENT + number % 6)),
               policy_session,
               lambda: command_of(0x165, uint32(FIRST_TRANSIENT + number % 6)),
               lambda: command_of(0x189, uint32(0x03000000 + number % 64)),
               lambda: command_of(0x17A, uint32(1) + uint32(FIRST_TRANSIENT) + uint32(254)),
               lambda: password_command(0x182, number % 24, uint32(1) + uint16(SHA256) + bytes(32))]
    return command[choice]().hex()


def workload_lines(start, count):
    """The lines of the script that `tabrmd workload` plays, each with its newline. Three words make a line."""
    words = words_of_workload(start)
    lines = []
    for _ in range(count):
        a, b, c = next(words), next(words), next(words)
        lines.append(f"{a % 8} {workload_word(b % 8, c)}\n")
    return lines
