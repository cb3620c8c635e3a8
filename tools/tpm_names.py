"""The standard's names of the profile's commands and response codes (Part 2, "TPM_CC" and "TPM_RC")."""

COMMANDS = {
    0x122: "NV_UndefineSpace", 0x12A: "NV_DefineSpace", 0x131: "CreatePrimary", 0x134: "NV_Increment",
    0x137: "NV_Write", 0x143: "SelfTest", 0x144: "Startup", 0x14E: "NV_Read", 0x151: "PolicySecret",
    0x153: "Create", 0x155: "HMAC", 0x157: "Load", 0x15E: "Unseal", 0x161: "ContextLoad",
    0x162: "ContextSave", 0x165: "FlushContext", 0x169: "NV_ReadPublic", 0x16B: "PolicyAuthValue",
    0x16C: "PolicyCommandCode", 0x171: "PolicyOR", 0x173: "ReadPublic", 0x176: "StartAuthSession",
    0x17A: "GetCapability", 0x17B: "GetRandom", 0x17E: "PCR_Read", 0x17F: "PolicyPCR",
    0x180: "PolicyRestart", 0x182: "PCR_Extend", 0x189: "PolicyGetDigest", 0x18C: "PolicyPassword",
}

# Codes that may belong to a parameter, a handle or a session, and codes that belong to the command.
FORMAT_ONE = {
    0x082: "ATTRIBUTES", 0x083: "HASH", 0x084: "VALUE", 0x08A: "TYPE", 0x08B: "HANDLE", 0x08F: "NONCE",
    0x095: "SIZE", 0x09A: "INSUFFICIENT", 0x09C: "KEY", 0x09D: "POLICY_FAIL", 0x09F: "INTEGRITY",
    0x0A2: "BAD_AUTH", 0x0A4: "POLICY_CC",
}
FORMAT_ZERO = {
    0x000: "SUCCESS", 0x01E: "BAD_TAG", 0x100: "INITIALIZE", 0x101: "FAILURE", 0x125: "AUTH_MISSING",
    0x128: "PCR_CHANGED", 0x12F: "AUTH_UNAVAILABLE", 0x142: "COMMAND_SIZE", 0x143: "COMMAND_CODE",
    0x144: "AUTHSIZE", 0x145: "AUTH_CONTEXT", 0x146: "NV_RANGE", 0x149: "NV_AUTHORIZATION",
    0x14A: "NV_UNINITIALIZED", 0x14B: "NV_SPACE", 0x14C: "NV_DEFINED", 0x901: "CONTEXT_GAP",
    0x902: "OBJECT_MEMORY", 0x903: "SESSION_MEMORY", 0x905: "SESSION_HANDLES", 0x909: "CANCELED",
    **{0x910 + n: f"REFERENCE_H{n}" for n in range(7)}, **{0x918 + n: f"REFERENCE_S{n}" for n in range(7)},
}
# The broker's own.
OF_THE_BROKER = {0xB0001: "MEMORY", 0xB0002: "DEVICE_FAULT", 0xB0003: "JOURNAL_FULL", 0xB0004: "DEVICE_ANSWER"}


def command_name(code):
    """As TPM2_GetRandom; the number of a command that the profile doesn't have."""
    return f"TPM2_{COMMANDS[code]}" if code in COMMANDS else f"{code:#010x}"


def response_name(code):
    """As TPM_RC_HANDLE parameter 1; the number of a code that the profile doesn't have."""
    if code in OF_THE_BROKER:
        return OF_THE_BROKER[code]
    if code in FORMAT_ZERO:
        return f"TPM_RC_{FORMAT_ZERO[code]}"
    # the number of what is wrong in bits 8 to 11; bit 6 is set for a parameter, and else bit 11 for a session
    sort, n = (("parameter", code >> 8 & 0xF) if code & 0x40 else
               ("session", code >> 8 & 0x7) if code & 0x800 else ("handle", code >> 8 & 0x7))
    name = FORMAT_ONE.get(code & 0xBF)
    if name is None or code >> 12:
        return f"{code:#010x}"
    return f"TPM_RC_{name} {sort} {n}" if n else f"TPM_RC_{name}"
