"""Commands of the profile as bytes, for the tools that write scripts."""

import device_model as model
import tpm_names
from device_model import tpm2b, uint16, uint32

CODES = {name: code for code, name in tpm_names.COMMANDS.items()}
NO_SELECTION = uint32(0)

# Public areas as templates: a storage key, an HMAC key, and a sealed secret. Their auth values can be used.
KEY_BITS = model.PARENT | model.USER_WITH_AUTH
HMAC_KEY_BITS = model.FIXED | model.SENSITIVE_DATA_ORIGIN | model.USER_WITH_AUTH | model.SIGN


def template(kind, attributes, policy, *words):
    return (uint16(kind) + uint16(model.SHA256) + uint32(attributes) + tpm2b(policy)
            + b"".join(map(uint16, words)) + tpm2b(b""))


def storage_key(policy=b""):
    return template(model.SYMCIPHER, KEY_BITS, policy, 0x0006, 0x0080, 0x0043)


def hmac_key(policy=b""):
    return template(model.KEYEDHASH, HMAC_KEY_BITS, policy, model.ALG_HMAC, model.SHA256)


def sealed(policy=b"", attributes=model.FIXED | model.USER_WITH_AUTH):
    return template(model.KEYEDHASH, attributes, policy, model.ALG_NULL)


def authorization(handle, nonce, attributes, hmac):
    return uint32(handle) + tpm2b(nonce) + bytes([attributes]) + tpm2b(hmac)


def by_password(password=b""):
    return authorization(model.PASSWORD, b"", 0, password)


def command(name, *handles, parameters=b"", auth=None):
    """A command of this name. `auth` is its one authorization; without one its tag is TPM_ST_NO_SESSIONS."""
    area = b"" if auth is None else uint32(len(auth)) + auth
    body = b"".join(map(uint32, handles)) + area + parameters
    tag = model.NO_SESSIONS if auth is None else model.SESSIONS
    return uint16(tag) + uint32(10 + len(body)) + uint32(CODES[name]) + body


def creation(public, secret=b"", auth=b""):
    """The parameters of CreatePrimary and Create: without outsideInfo and PCRs."""
    return tpm2b(tpm2b(auth) + tpm2b(secret)) + tpm2b(public) + tpm2b(b"") + NO_SELECTION


def create_primary(public, secret=b"", auth=b""):
    return command("CreatePrimary", model.OWNER, parameters=creation(public, secret, auth), auth=by_password())


def created(reply):
    """Private and public area of the response to a Create that succeeded, each with its size."""
    reader = model.Reader(reply[14:], None, None)
    return tpm2b(reader.tpm2b()), tpm2b(reader.tpm2b())


def start_session(kind, nonce=bytes(16)):
    parameters = (tpm2b(nonce) + tpm2b(b"") + bytes([kind]) + uint16(model.ALG_NULL) + uint16(model.SHA256))
    return command("StartAuthSession", model.RH_NULL, model.RH_NULL, parameters=parameters)


def get_capability(capability, least, count):
    return command("GetCapability", parameters=uint32(capability) + uint32(least) + uint32(count))


def flush(handle):
    return command("FlushContext", parameters=uint32(handle))


def succeeded(reply):
    return reply[6:10] == bytes(4)


def pick_of(command, reply):
    """The pick of a journal's entry with this command and reply."""
    if succeeded(reply):
        code = int.from_bytes(command[6:10], "big")
        if code == CODES["StartAuthSession"]:
            return f"session:{int.from_bytes(reply[11:14], 'big')}"
        if code == CODES["ContextSave"]:
            return f"sequence:{int.from_bytes(reply[10:18], 'big')}"
    return "-"
