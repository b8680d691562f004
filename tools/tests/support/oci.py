"""OCI profiles as values, and the names in them."""
ALLOW, ERRNO = "SCMP_ACT_ALLOW", "SCMP_ACT_ERRNO"
NATIVE, X86, X32 = "SCMP_ARCH_X86_64", "SCMP_ARCH_X86", "SCMP_ARCH_X32"


def condition(index, op, value, two=0):
    return {"index": index, "op": f"SCMP_CMP_{op}", "value": value, "valueTwo": two}


def entry(*names, action=ALLOW, args=(), **members):
    """An entry, with conditions, or what these are made of."""
    args = [condition(*arg) if isinstance(arg, tuple) else arg for arg in args]
    return {"names": list(names), "action": action, **({"args": args} if args else {}), **members}


def profile(*entries, default=ERRNO, architectures=(NATIVE, X86, X32), **members):
    return {"defaultAction": default, "architectures": list(architectures), **members, "syscalls": list(entries)}
