"""The build backend of pyproject.toml (PEP 517). It packs the modules and the shared object into a wheel.

A backend that is fetched, such as setuptools, would need a network or what a new venv lacks. The shared object is the one
that the module would load in the checkout.
"""

import base64
import hashlib
import os
import sysconfig
import zipfile
from typing import Dict, List, Optional

HERE = os.path.dirname(os.path.realpath(__file__))
TOP = os.path.dirname(os.path.dirname(HERE))
LICENSES = ("LICENSE-MIT", "LICENSE-APACHE")
METADATA = """\
Metadata-Version: 2.1
Name: watchtree
Version: {version}
Summary: A file tree in memory with inotify
License: MIT OR Apache-2.0
Requires-Python: >=3.8
Provides-Extra: watchdog
Requires-Dist: watchdog >=2.2 ; extra == 'watchdog'
"""
WHEEL = """\
Wheel-Version: 1.0
Generator: watchtree
Root-Is-Purelib: false
Tag: {tag}
"""


class UnsupportedOperation(Exception):
    """What PEP 517 asks for if there is no source distribution."""


def contents(path: str) -> bytes:
    with open(path, "rb") as file:
        return file.read()


def modules() -> List[str]:
    """Returns the files of the package, and the modules beside it that a user runs."""
    found = [it for it in os.listdir(HERE) if it.startswith("watchtree_") and it.endswith(".py")]
    for folder in ("watchtree", "watchtree/explore"):
        found += [f"{folder}/{it}" for it in os.listdir(f"{HERE}/{folder}") if it.endswith((".py", ".typed"))]
    return sorted(found)


def wheel_files(version: str, tag: str, library: str) -> Dict[str, bytes]:
    """Returns the files of the wheel, without the list of them."""
    about = f"watchtree-{version}.dist-info"
    files = {name: contents(f"{HERE}/{name}") for name in modules()}
    files["watchtree/libwatchtree.so"] = contents(library)
    files[f"{about}/METADATA"] = METADATA.format(version=version).encode()
    files[f"{about}/WHEEL"] = WHEEL.format(tag=tag).encode()
    files.update({f"{about}/{it}": contents(f"{TOP}/{it}") for it in LICENSES})
    return files


def build_wheel(
    wheel_directory: str, config_settings: Optional[object] = None, metadata_directory: Optional[str] = None
) -> str:
    """Makes the wheel, and returns its name."""
    library = os.environ.get("LIBWATCHTREE") or f"{TOP}/out/libwatchtree.so"
    if not os.path.exists(library):
        raise SystemExit(f"watchtree: {library} is missing: run ./watchtree lib, which builds it")
    version = contents(f"{TOP}/VERSION").decode().strip()
    tag = "py3-none-" + sysconfig.get_platform().replace("-", "_").replace(".", "_")
    files = wheel_files(version, tag, library)
    record = f"watchtree-{version}.dist-info/RECORD"
    lines = []
    for name, data in files.items():
        digest = base64.urlsafe_b64encode(hashlib.sha256(data).digest()).rstrip(b"=").decode()
        lines.append(f"{name},sha256={digest},{len(data)}\n")
    files[record] = "".join([*lines, f"{record},,\n"]).encode()
    made = f"watchtree-{version}-{tag}.whl"
    with zipfile.ZipFile(os.path.join(wheel_directory, made), "w", zipfile.ZIP_DEFLATED) as wheel:
        for name, data in files.items():
            # (the same files make the same bytes)
            info = zipfile.ZipInfo(name)
            info.external_attr = (0o100755 if name.endswith(".so") else 0o100644) << 16
            info.compress_type = zipfile.ZIP_DEFLATED
            wheel.writestr(info, data)
    return made


def build_sdist(sdist_directory: str, config_settings: Optional[object] = None) -> str:
    """Fails: the sources of the shared object are the whole repository."""
    raise UnsupportedOperation("watchtree has no source distribution: clone the repository")
