"""Builds the module for pip (PEP 517), with nothing but a C compiler and Python's headers: no network, no other package.
c/build comes first. The variable REZUNKAI_LIBRARY names another library than c/out has, REZUNKAI_LINK what else is linked.
`python3 backend.py` builds the module where its sources are, for work on it."""
import base64
import hashlib
import os
import subprocess
import sys
import sysconfig
import zipfile

HERE = os.path.dirname(os.path.abspath(__file__))
C = os.path.join(os.path.dirname(HERE), "c")
LIBRARY = os.environ.get("REZUNKAI_LIBRARY", os.path.join(C, "out", "librezunkai.a"))
METADATA = "Metadata-Version: 2.1\nName: rezunkai\nVersion: 1\nSummary: dict, list and set that many threads share\n"


def build_extension(folder):
    """Compiles the module's C part into that folder. Returns its path."""
    if not os.path.exists(LIBRARY):
        sys.exit(f"{LIBRARY} isn't there: c/build comes first")
    made = os.path.join(folder, "_rezunkai" + sysconfig.get_config_var("EXT_SUFFIX"))
    words = [os.environ.get("CC", "gcc"), "-O2", "-fPIC", "-shared", "-Wall", "-Wextra", "-Wno-unused-parameter",
             "-Wno-missing-field-initializers", "-I", sysconfig.get_path("include"), "-I", C,
             os.path.join(HERE, "_rezunkai.c"), LIBRARY, *os.environ.get("REZUNKAI_LINK", "").split(), "-pthread", "-o", made]
    subprocess.run(words, check=True)
    return made


def build_wheel(wheel_directory, config_settings=None, metadata_directory=None):
    tag = f"cp{sys.version_info.major}{sys.version_info.minor}"
    tag = f"{tag}-{tag}-{sysconfig.get_platform().replace('-', '_').replace('.', '_')}"
    name = f"rezunkai-1-{tag}.whl"
    extension = build_extension(wheel_directory)
    files = {}
    for file in sorted(os.listdir(os.path.join(HERE, "rezunkai"))):
        if file.endswith(".py"):
            with open(os.path.join(HERE, "rezunkai", file), "rb") as source:
                files[f"rezunkai/{file}"] = source.read()
    with open(extension, "rb") as source:
        files[f"rezunkai/{os.path.basename(extension)}"] = source.read()
    os.remove(extension)
    files["rezunkai-1.dist-info/METADATA"] = METADATA.encode()
    files["rezunkai-1.dist-info/WHEEL"] = f"Wheel-Version: 1.0\nGenerator: rezunkai\nRoot-Is-Purelib: false\nTag: {tag}\n".encode()
    rows = []
    for path, text in files.items():
        digest = base64.urlsafe_b64encode(hashlib.sha256(text).digest()).rstrip(b"=").decode()
        rows.append(f"{path},sha256={digest},{len(text)}\n")
    rows.append("rezunkai-1.dist-info/RECORD,,\n")
    files["rezunkai-1.dist-info/RECORD"] = "".join(rows).encode()
    with zipfile.ZipFile(os.path.join(wheel_directory, name), "w", zipfile.ZIP_DEFLATED) as wheel:
        for path, text in files.items():
            wheel.writestr(path, text)
    return name


if __name__ == "__main__":
    print(build_extension(os.path.join(HERE, "rezunkai")))
