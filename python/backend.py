"""Makes the wheel that pip installs, by the standard library alone: nothing is fetched for it."""

import base64
import hashlib
import pathlib
import re
import zipfile
from typing import Optional

METADATA = """Metadata-Version: 2.1
Name: {name}
Version: {version}
Summary: {description}
Requires-Python: {requires-python}
License: MIT
Provides-Extra: frame
Requires-Dist: {frame}; extra == "frame"
Provides-Extra: dask
Requires-Dist: {dask}; extra == "dask"
"""
WHEEL = """Wheel-Version: 1.0
Generator: backend.py
Root-Is-Purelib: true
Tag: py3-none-any
"""


def record_of(name: str, data: bytes) -> str:
    """The line of a file in the wheel's list."""
    digest = base64.urlsafe_b64encode(hashlib.sha256(data).digest()).decode().rstrip("=")
    return f"{name},sha256={digest},{len(data)}\n"


def build_wheel(wheel_directory: str, config_settings: Optional[dict] = None, metadata_directory: Optional[str] = None) -> str:
    """The call of PEP 517: writes the wheel, and gives its name."""
    here = pathlib.Path(__file__).parent
    # Before Python 3.11 the standard library reads no TOML.
    told = dict(re.findall(r'^([\w-]+) = \[?"(.*)"\]?$', (here / "pyproject.toml").read_text(), re.M))
    whole = "{name}-{version}".format_map(told)
    info = f"{whole}.dist-info"
    files = {f"csvload/{path.name}": path.read_bytes() for path in sorted((here / "csvload").iterdir()) if path.is_file()}
    files |= {f"{info}/METADATA": METADATA.format_map(told).encode(), f"{info}/WHEEL": WHEEL.encode()}
    record = "".join(record_of(name, data) for name, data in files.items()) + f"{info}/RECORD,,\n"
    wheel = f"{whole}-py3-none-any.whl"
    with zipfile.ZipFile(pathlib.Path(wheel_directory, wheel), "w") as archive:
        for name, data in [*files.items(), (f"{info}/RECORD", record.encode())]:
            archive.writestr(zipfile.ZipInfo(name), data)
    return wheel
