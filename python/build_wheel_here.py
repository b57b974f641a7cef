"""Builds the package's wheel: its files of Python, and the record layer as a shared object that `cc` links.

The record layer comes as a static library. RECORD_ARCHIVE names it; else it is the proved one, `rt lib` in
crates/record_c, or else the unproved one, `python3 tools/quick_build record_c`. The package's summary says which it is.
"""
import base64
import glob
import hashlib
import os
import shutil
import subprocess
import sysconfig
import tempfile
import zipfile

HERE = os.path.dirname(os.path.abspath(__file__))
ROOT = os.path.dirname(HERE)
PROVED = os.path.join(ROOT, "crates", "record_c", "out", "librecord_c.a")
UNPROVED = os.path.join(ROOT, "out", "quick", "librecord_c.a")
NAME, VERSION, PACKAGE = "record_store", "0.1.0", "record_store"
SHARED_OBJECT = "librecord_c.so"
METADATA = f"""Metadata-Version: 2.1
Name: record-store
Version: {VERSION}
Summary: Typed records, indexes and totals in transactions, above a database of yours; its record layer is {{}}
Requires-Python: >=3.10
"""


def archive() -> tuple[str, str]:
    """The static library, and what is said of it."""
    if named := os.environ.get("RECORD_ARCHIVE"):
        return named, "the one that RECORD_ARCHIVE names"
    if os.path.exists(PROVED):
        return PROVED, "the proved one"
    if os.path.exists(UNPROVED):
        return UNPROVED, "an unproved one"
    raise FileNotFoundError("there is no record layer to link: run `python3 tools/quick_build record_c` first, which "
                            "proves nothing, or `rt lib` in crates/record_c")


def heap(path: str) -> list[str]:
    """What gives the record layer memory, where the static library lacks it: the toolchain's part over malloc."""
    listed = subprocess.run(["nm", "--defined-only", path], capture_output=True, text=True, check=True).stdout
    if " T rattle_alloc\n" in listed:
        return []
    told = subprocess.run([shutil.which("rt") or "rt", "doc"], capture_output=True, text=True, check=True).stdout
    return [os.path.join(os.path.dirname(told.strip()), "c", "liblibc_c.a")]


def link(to: str) -> str:
    """Links the shared object, of which only `record_drive` can be seen, and answers what is said of its archive."""
    path, what = archive()
    print(f"the record layer is {what}: {path}")
    with tempfile.NamedTemporaryFile("w", suffix=".map") as names:
        names.write("{ global: record_drive; local: *; };\n")
        names.flush()
        subprocess.run([os.environ.get("CC", "cc"), "-shared", "-o", to, "-Wl,--whole-archive", path, *heap(path),
                        "-Wl,--no-whole-archive", "-Wl,--gc-sections", f"-Wl,--version-script={names.name}"],
                       check=True)
    return what


def tag() -> str:
    """The wheel's tag: any Python 3, on this platform."""
    return "py3-none-" + sysconfig.get_platform().replace("-", "_").replace(".", "_")


def line(path: str, data: bytes) -> str:
    """The line of a file in the wheel's record."""
    digest = base64.urlsafe_b64encode(hashlib.sha256(data).digest()).rstrip(b"=").decode()
    return f"{path},sha256={digest},{len(data)}\n"


def build_wheel(wheel_directory: str, config_settings: object = None, metadata_directory: object = None) -> str:
    """Builds the wheel into a folder, and answers its name."""
    files = {}
    for path in sorted(glob.glob(os.path.join(HERE, PACKAGE, "**", "*.py"), recursive=True)):
        with open(path, "rb") as file:
            files[os.path.relpath(path, HERE)] = file.read()
    with tempfile.TemporaryDirectory() as room:
        what = link(os.path.join(room, SHARED_OBJECT))
        with open(os.path.join(room, SHARED_OBJECT), "rb") as file:
            files[f"{PACKAGE}/{SHARED_OBJECT}"] = file.read()
    files[f"{PACKAGE}/py.typed"] = b""
    info = f"{NAME}-{VERSION}.dist-info"
    files[f"{info}/METADATA"] = METADATA.format(what).encode()
    wheel = f"Wheel-Version: 1.0\nGenerator: build_wheel_here\nRoot-Is-Purelib: false\nTag: {tag()}\n"
    files[f"{info}/WHEEL"] = wheel.encode()
    record = "".join(line(path, data) for path, data in files.items()) + f"{info}/RECORD,,\n"
    name = f"{NAME}-{VERSION}-{tag()}.whl"
    with zipfile.ZipFile(os.path.join(wheel_directory, name), "w", zipfile.ZIP_DEFLATED) as made:
        for path, data in [*files.items(), (f"{info}/RECORD", record.encode())]:
            made.writestr(path, data)
    return name
