"""What stands above the threads of a report, and below them, as people read it."""
from __future__ import annotations

import re
from typing import Any, Callable, Dict, Iterator, List, Optional

from .walk import Node

WIDTH = 23
WORDS = re.compile("[A-Z]?[a-z0-9]+|[A-Z]+(?![a-z])")
ACRONYMS = {"Os": "OS", "Id": "ID", "Uuid": "UUID", "Cpu": "CPU"}
STATES = {
    "ARM_THREAD_STATE64": "ARM Thread State (64-bit)",
    "x86_THREAD_STATE": "X86 Thread State (64-bit)",
    "x86_THREAD_STATE64": "X86 Thread State (64-bit)",
}
REGISTERS_IN_LINE = 4
# Registers in the order of crash reports, in blocks that begin a line; those of 32 bits; and what JSON calls otherwise.
ARM = ((*(f"x{number}" for number in range(29)), "fp", "lr"), ("sp", "pc", "cpsr"), ("far", "esr"))
X86 = (("rax", "rbx", "rcx", "rdx", "rdi", "rsi", "rbp", "rsp", *(f"r{number}" for number in range(8, 16)), "rip",
        "rflags", "cr2"),)  # fmt: skip
OF_32_BITS, SHORT_NAMES = ("cpsr", "esr"), {"rflags": "rfl"}
# What stands below the registers of X86.
PROCESSOR, ERROR, TRAP = "cpu", "err", "trap"


def line_of(label: str, *values: object) -> List[str]:
    """A line with the values that are there, or none."""
    said = " ".join(str(value) for value in values if value not in (None, "", "[]", "()"))
    return [f"{label + ':':<{WIDTH - 1}} {said}"] if said else []


def inside(before: str, value: object, after: str) -> str:
    return f"{before}{value}{after}" if value not in (None, "") else ""


def of(value: object, name: str) -> Any:
    """A member of an object that may be none."""
    found = value.get(name) if isinstance(value, dict) else None
    return found if not isinstance(found, (dict, list)) else None


def texts_in(value: object) -> List[str]:
    """The lines of a text, or of each text of a list."""
    texts = value if isinstance(value, list) else [value]
    return [line for text in texts if isinstance(text, str) for line in text.rstrip().splitlines()]


def header_lines(header: Dict[str, Any], top: Dict[str, Any]) -> Iterator[str]:
    """The lines above the threads of an .ips: those of its first line, and of the document."""
    blocks = [process_lines(header, top), system_lines(header, top), exception_lines(top), region_lines(top)]
    blocks += [triage_lines(top), information_lines(top)]
    for block in blocks:
        if block:
            yield from block
            yield ""


def process_lines(header: Dict[str, Any], top: Dict[str, Any]) -> List[str]:
    bundle = top.get("bundleInfo")
    version = of(bundle, "CFBundleShortVersionString") or of(header, "app_version")
    build = of(bundle, "CFBundleVersion") or of(header, "build_version")
    return [
        *line_of("Process", of(top, "procName") or of(header, "name"), inside("[", of(top, "pid"), "]")),
        *line_of("Path", of(top, "procPath")),
        *line_of("Identifier", of(bundle, "CFBundleIdentifier") or of(header, "bundleID")),
        *line_of("Version", version, inside("(", build, ")")),
        *line_of("Code Type", of(top, "cpuType")),
        *line_of("Role", of(top, "procRole")),
        *line_of("Parent Process", of(top, "parentProc"), inside("[", of(top, "parentPid"), "]")),
        *line_of("Responsible", of(top, "responsibleProc"), inside("[", of(top, "responsiblePid"), "]")),
        *line_of("User ID", of(top, "userID")),
    ]


def system_lines(header: Dict[str, Any], top: Dict[str, Any]) -> List[str]:
    system = top.get("osVersion")
    said = [of(system, "train"), inside("(", of(system, "build"), ")")]
    return [
        *line_of("Incident Identifier", of(top, "incident") or of(header, "incident_id")),
        *line_of("Hardware Model", of(top, "modelCode")),
        *line_of("Date/Time", of(top, "captureTime") or of(header, "timestamp")),
        *line_of("Launch Time", of(top, "procLaunch")),
        *line_of("OS Version", *(said if any(said) else [of(header, "os_version")])),
        *line_of("Reason", of(top, "reason")),
    ]


def reason_lines(top: Dict[str, Any]) -> List[str]:
    """The exception of the language that nothing caught, and its message."""
    reason = top.get("exceptionReason")
    name, lines = of(reason, "name"), texts_in(of(reason, "composed_message") or of(reason, "format_string"))
    first = line_of("Exception Reason", inside("", name, ":" if lines else ""), *lines[:1])
    return [*first, *lines[1:]]


def exception_lines(top: Dict[str, Any]) -> List[str]:
    exception, end = top.get("exception"), top.get("termination")
    reasons = [*texts_in(end.get("reasons")), *texts_in(end.get("details"))] if isinstance(end, dict) else []
    reason = [inside("Namespace ", of(end, "namespace"), ","), inside("Code ", of(end, "code"), "")]
    return [
        *line_of("Triggered by Thread", of(top, "faultingThread")),
        *line_of("Exception Type", of(exception, "type"), inside("(", of(exception, "signal"), ")")),
        *line_of("Exception Subtype", of(exception, "subtype")),
        *line_of("Exception Codes", of(exception, "codes")),
        *reason_lines(top),
        *line_of("Termination Reason", *reason, of(end, "indicator")),
        *reasons,
        *line_of("Terminating Process", of(end, "byProc"), inside("[", of(end, "byPid"), "]")),
    ]


def region_lines(top: Dict[str, Any]) -> List[str]:
    """The memory around the address of a fault, as the system lists it."""
    lines = texts_in(top.get("vmRegionInfo") or top.get("vmregioninfo"))
    return [*line_of("VM Region Info", lines[0]), *lines[1:]] if lines else []


def triage_lines(top: Dict[str, Any]) -> List[str]:
    """What the kernel said of the process."""
    lines = texts_in(top.get("ktriageinfo"))
    return ["Kernel Triage:", *lines] if lines else []


def information_lines(top: Dict[str, Any]) -> List[str]:
    """What the process and its libraries said."""
    found: List[str] = []
    said = top.get("asi")
    for texts in said.values() if isinstance(said, dict) else []:
        found += [str(text) for text in texts] if isinstance(texts, list) else [str(texts)]
    return ["Application Specific Information:", *found] if found else []


def backtrace_blocks(top: Dict[str, Any]) -> List[List[str]]:
    """The backtraces that the process left, each of which is a text."""
    listed = top.get("asiBacktraces")
    found = [texts_in(one) for one in listed] if isinstance(listed, list) else []
    return [[f"Application Specific Backtrace {number}:", *lines] for number, lines in enumerate(found) if lines]


def state_lines(number: int, state: Dict[str, Any]) -> Iterator[str]:
    """The registers of the thread that crashed."""
    listed = state.get("x")
    registers = {f"x{place}": one for place, one in enumerate(listed if isinstance(listed, list) else [])}
    registers.update((name, one) for name, one in state.items() if name != "x")
    values = {name: one for name, one in registers.items() if type(of(one, "value")) is int and one["value"] >= 0}
    flavor = of(state, "flavor")
    yield f"Thread {number} crashed with {STATES.get(flavor, flavor or 'Thread State')}:"
    yield from register_lines(values)
    yield ""
    processor = processor_lines(values)
    if processor:
        yield from [*processor, ""]


def register_lines(values: Dict[str, Any]) -> Iterator[str]:
    """The registers in the order of crash reports, and those that these do not have after them."""
    is_x86 = "rip" in values
    blocks, before = (X86, "") if is_x86 else (ARM, " ")
    known = {name for block in blocks for name in block} | ({PROCESSOR, ERROR, TRAP} if is_x86 else set())
    for block in (*blocks, tuple(name for name in values if name not in known)):
        said = [register_text(name, values[name]) for name in block if name in values]
        lines = (said[at : at + REGISTERS_IN_LINE] for at in range(0, len(said), REGISTERS_IN_LINE))
        yield from (before + "".join(line) for line in lines)


def register_text(name: str, register: Dict[str, Any]) -> str:
    digits = 8 if name in OF_32_BITS else 16
    return f"{SHORT_NAMES.get(name, name):>5}: 0x{register['value']:0{digits}x}{described(register)}"


def described(register: Optional[Dict[str, Any]]) -> str:
    """What the system says of a register, on the same line."""
    said = of(register, "description")
    return f" {' '.join(said.splitlines())}" if isinstance(said, str) and said else ""


def processor_lines(values: Dict[str, Any]) -> List[str]:
    """What stands below the registers of X86. What a trap is said to be stands after the code of the error."""
    if "rip" not in values or ERROR not in values:
        return []
    processor, error, trap = (of(values.get(name), "value") for name in (PROCESSOR, ERROR, TRAP))
    why = described(values[ERROR]) or described(values.get(TRAP))
    return [*number_line("Logical CPU", processor), f"Error Code:      0x{error:08x}{why}",
            *number_line("Trap Number", trap)]  # fmt: skip


def number_line(label: str, value: Optional[int]) -> List[str]:
    return [f"{label + ':':<16} {value}"] if value is not None else []


def label_of(name: str) -> str:
    """As `App Version` for `appVersion`."""
    words = [word[:1].upper() + word[1:] for word in WORDS.findall(name)] or [name]
    return " ".join(ACRONYMS.get(word, word) for word in words)


def labelled(
    data: bytes, node: Optional[Node], values_of: Callable[[bytes, Node], Dict[str, Any]]
) -> Iterator[str]:
    """The lines above the stacks of a diagnostic of MetricKit: its kind, and the plain values around the stacks."""
    chain = []
    while node is not None:
        chain.append(node)
        node = node.parent
    for one in reversed(chain):
        if one.is_list and one.key:
            yield label_of(one.key)
        for name, value in values_of(data, one).items() if not one.is_list else ():
            yield from plain_lines(name, value)
    yield ""


def plain_lines(name: str, value: object) -> Iterator[str]:
    if isinstance(value, dict):
        for below, one in value.items():
            yield from plain_lines(below, one)
    elif isinstance(value, (str, int, float)) and name != "callStackPerThread":
        yield from line_of(label_of(name), value)
