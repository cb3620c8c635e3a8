"""Random commands for the clients of a machine: which they are depends on what these clients have."""

import device_model as model
import tpm_commands as tpm
from device_model import tpm2b, uint16, uint32

# The policy of secrets that only a session for Unseal may have.
FOR_UNSEAL = model.sha256(bytes(32), uint32(tpm.CODES["PolicyCommandCode"]), uint32(tpm.CODES["Unseal"]))
OWNER_INDEX = model.OWNER_WRITE | model.OWNER_READ
CONTEXTS_KEPT = 40


class RandomCommands:
    """Makes commands for the clients of a world. About two thirds of them are meant to succeed.

    Each of the methods under "commands" makes one for the client of a label; None where that can't be now. `kept` are
    commands that were made for clients of another world: what these made or saved is given back here too."""

    def __init__(self, rng, world, kept=None):
        self.rng, self.world = rng, world
        # Name of the parent, private and public area; label and context
        self.children, self.of_objects, self.of_sessions = (
            (kept.children, kept.of_objects, kept.of_sessions) if kept else ([], [], []))

    def choose(self, label, weights):
        """A command of this label's client. `weights` are the names of methods, and how often one of them is chosen."""
        self.world.open(label)
        self.world.client = label
        command = getattr(self, self.rng.choices(list(weights), list(weights.values()))[0])(label)
        return self.changed(command) if command is not None and self.chance(4) else command

    def learn(self, label, command, reply):
        """Notes what came of a command that succeeded."""
        code = int.from_bytes(command[6:10], "big")
        if code == tpm.CODES["Create"]:
            parent = self.world.tables[label][command[13] | command[12] << 8]
            self.children.append((parent.public.name(), *tpm.created(reply)))
            del self.children[:-CONTEXTS_KEPT]
        elif code == tpm.CODES["ContextSave"]:
            kept = self.of_objects if reply[18] == 0x80 else self.of_sessions
            kept.append((label, reply[10:]))
            del kept[:-CONTEXTS_KEPT]

    # ---- small choices

    def chance(self, percent):
        return self.rng.randrange(100) < percent

    def some_bytes(self, low, high):
        return self.rng.randbytes(self.rng.randint(low, high))

    def objects(self, label, test=lambda public: True):
        """The handles of the label's objects of a sort."""
        table = self.world.tables.get(label, {})
        return [model.FIRST_TRANSIENT + n for n, item in table.items() if test(item.public)]

    def an_object(self, label, test=lambda public: True):
        """One of them; now and then, or where there is none, some other handle of an object."""
        found = self.objects(label, test)
        return self.rng.choice(found) if found and not self.chance(4) else 0x80000000 + self.rng.randrange(9)

    def sessions(self, label, kinds=(0, 1, 3), saved=False):
        return [held.session.octet() << 24 | n for n, held in self.world.sessions.items()
                if held.client == label and held.session.kind in kinds and (held.handed is not None) == saved]

    def a_session(self, label, kinds=(1, 3)):
        found = self.sessions(label, kinds)
        octet = 2 if kinds == (0,) else 3
        return self.rng.choice(found) if found and not self.chance(4) else octet << 24 | self.rng.randrange(66)

    def authorized(self, label, name, *handles, parameters=b""):
        """A command that a password or an HMAC session of the label authorizes, mostly rightly."""
        held = self.world._object(handles[0]) if handles[0] >> 24 == 0x80 else self.world.indexes.get(handles[0])
        auth = b"wrong" if self.chance(4) else held.auth if held else b""
        found = self.sessions(label, (0,))
        there = all(self.world._is_there(handle) for handle in handles)
        if not found or not there or self.chance(50):
            return tpm.command(name, *handles, parameters=parameters, auth=tpm.by_password(auth))
        session, nonce, attributes = self.rng.choice(found), self.some_bytes(0, 16), int(self.chance(85))
        names = map(self.world._name, handles)
        cp_hash = model.sha256(uint32(tpm.CODES[name]), *names, parameters)
        right = model.hmac(auth, cp_hash, nonce, self.world._session(session).nonce, bytes([attributes]))
        area = tpm.authorization(session, nonce, attributes, right)
        return tpm.command(name, *handles, parameters=parameters, auth=area)

    # ---- commands

    def random(self, label):
        return tpm.command("GetRandom", parameters=uint16(self.rng.randrange(40)))

    def primary(self, label):
        auth = self.rng.choice((b"", b"auth"))
        if self.chance(60):
            return tpm.create_primary(tpm.storage_key(), auth=auth)
        if self.chance(50):
            return tpm.create_primary(tpm.hmac_key(), auth=auth)
        return tpm.create_primary(tpm.sealed(), self.some_bytes(1, 40), auth)

    def create(self, label):
        parent = self.an_object(label, model.Public.is_storage_parent)
        auth = self.rng.choice((b"", b"child"))
        public, secret = self.rng.choice(((tpm.storage_key(), b""), (tpm.hmac_key(), b""),
                                          (tpm.sealed(), self.some_bytes(1, 40)),
                                          (tpm.sealed(FOR_UNSEAL, model.FIXED), self.some_bytes(1, 40))))
        return self.authorized(label, "Create", parent, parameters=tpm.creation(public, secret, auth))

    def load(self, label):
        parents = {self.world.tables[label][handle & 0xFFFFFF].public.name(): handle for handle in self.objects(label)}
        found = [child for child in self.children if child[0] in parents]
        if not found:
            return None
        name, private, public = self.rng.choice(found)
        return self.authorized(label, "Load", parents[name], parameters=private + public)

    def unseal(self, label):
        secrets = self.objects(label, lambda public: public.auth_policy == FOR_UNSEAL)
        if secrets and self.chance(60):
            area = tpm.authorization(self.a_session(label, (1,)), b"", int(self.chance(85)), b"")
            return tpm.command("Unseal", self.rng.choice(secrets), auth=area)
        is_sealed = lambda public: not public.is_storage_parent() and not public.is_hmac_key()
        return self.authorized(label, "Unseal", self.an_object(label, is_sealed))

    def hmac(self, label):
        key = self.an_object(label, model.Public.is_hmac_key)
        return self.authorized(label, "HMAC", key, parameters=tpm2b(self.some_bytes(0, 60)) + uint16(model.SHA256))

    def read_public(self, label):
        return tpm.command("ReadPublic", self.an_object(label))

    def start(self, label):
        kind = self.rng.choice((0, 0, 1, 1, 1, 3))
        return tpm.start_session(kind, self.some_bytes(15 + (not self.chance(3)), 32))

    def policy(self, label):
        session = self.a_session(label)
        name = self.rng.choice(("PolicyCommandCode",) * 4 + ("PolicyGetDigest",) * 4 + (
            "PolicyAuthValue", "PolicyPassword", "PolicyRestart", "PolicyPCR", "PolicyOR"))
        parameters = {
            "PolicyCommandCode": uint32(tpm.CODES["Unseal"]),
            "PolicyPCR": tpm2b(b"") + uint32(1) + uint16(model.SHA256) + b"\3\x01\0\0",
            "PolicyOR": uint32(2) + tpm2b(bytes(32)) + tpm2b(FOR_UNSEAL)}.get(name, b"")
        return tpm.command(name, session, parameters=parameters)

    def policy_secret(self, label):
        entity = self.rng.choice((model.OWNER, self.rng.randrange(24), self.an_object(label)))
        parameters = tpm2b(b"") * 2 + tpm2b(b"reference") + uint32(0)
        return self.authorized(label, "PolicySecret", entity, self.a_session(label), parameters=parameters)

    def pcr(self, label):
        if self.chance(40):
            return tpm.command("PCR_Read", parameters=uint32(1) + uint16(model.SHA256) + b"\3" + self.some_bytes(3, 3))
        parameters = uint32(1) + uint16(model.SHA256) + self.some_bytes(32, 32)
        return self.authorized(label, "PCR_Extend", self.rng.randrange(25), parameters=parameters)

    def index(self, label):
        number = 0x01000000 + self.rng.randrange(5)
        name = self.rng.choice(("NV_DefineSpace", "NV_UndefineSpace", "NV_Write", "NV_Read", "NV_Read",
                                "NV_Increment", "NV_ReadPublic"))
        if name == "NV_ReadPublic":
            return tpm.command(name, number)
        if name == "NV_DefineSpace":
            attributes, size = self.rng.choice(((OWNER_INDEX, 24), (OWNER_INDEX | model.COUNTER, 8)))
            public = uint32(number) + uint16(model.SHA256) + uint32(attributes) + tpm2b(b"") + uint16(size)
            return self.authorized(label, name, model.OWNER, parameters=tpm2b(b"") + tpm2b(public))
        parameters = {"NV_Write": tpm2b(self.some_bytes(0, 12)) + uint16(self.rng.randrange(14)),
                      "NV_Read": uint16(8) + uint16(0)}.get(name, b"")
        if number not in self.world.indexes:
            return tpm.command(name, model.OWNER, number, parameters=parameters, auth=tpm.by_password())
        return self.authorized(label, name, model.OWNER, number, parameters=parameters)

    def flush(self, label):
        found = self.objects(label) + self.sessions(label) + self.sessions(label, saved=True)
        return tpm.flush(self.rng.choice(found) if found and not self.chance(10) else self.an_object(label))

    def save(self, label):
        found = self.objects(label) if self.chance(50) else self.sessions(label)
        other = self.rng.choice((self.an_object(label), self.a_session(label), *self.sessions(label, saved=True)))
        return tpm.command("ContextSave", self.rng.choice(found) if found and not self.chance(8) else other)

    def give_back(self, label):
        """A context that was handed out: often the last one of a session of this label that is saved."""
        own = [held.handed for held in self.world.sessions.values() if held.client == label and held.handed]
        kept = [context for _, context in self.of_objects + self.of_sessions]
        found = own if own and self.chance(60) else kept
        if not found:
            return None
        context = self.rng.choice(found)
        if self.chance(8):
            at = self.rng.randrange(len(context))
            context = context[:at] + bytes([context[at] ^ 1 << self.rng.randrange(8)]) + context[at + 1:]
        return tpm.command("ContextLoad", parameters=context)

    def capability(self, label):
        capability, least = self.rng.choice(((1, 0x80000000), (1, 0x02000000), (1, 0x03000000), (1, 0x01000000),
                                             (1, 0x40000000), (1, 0x81000000), (1, 0), (1, 0x04000000), (2, 0),
                                             (2, 0x150), (5, 0), (6, 0), (6, 0x200), (3, 0)))
        return tpm.get_capability(capability, least + self.rng.choice((0, 0, 0, 1, 5)),
                                  self.rng.choice((0, 1, 2, 7, 254, 300)))

    def other(self, label):
        return self.rng.choice((tpm.command("SelfTest", parameters=b"\1"), tpm.command("Startup", parameters=bytes(2)),
                                bytes.fromhex("80010000000a000001ff"), bytes.fromhex("80030000000a0000017b")))

    def changed(self, command):
        """The command with a bit changed behind its header."""
        if len(command) == 10:
            return command
        at = self.rng.randrange(10, len(command))
        return command[:at] + bytes([command[at] ^ 1 << self.rng.randrange(8)]) + command[at + 1:]
