"""Builds the wheel of the module, as a package with its types, without any other package: pip install ./examples/embed/python"""
import base64
import hashlib
import os
import zipfile

HERE = os.path.dirname(os.path.abspath(__file__))
NAME, VERSION = "joravelsu", "0.1.0"


def build_wheel(folder, config_settings=None, metadata_directory=None):
    """Writes the wheel into the folder; the answer is its file's name."""
    return write_wheel(folder, VERSION)


def write_wheel(folder, version, library=None):
    """The same of a version, with the bytes of libjoravelsu.so for Linux on x86-64 beside the module, where they are given."""
    info = f"{NAME}-{version}.dist-info"
    tag = "py3-none-linux_x86_64" if library else "py3-none-any"
    with open(os.path.join(HERE, f"{NAME}.py"), "rb") as file:
        module = file.read()
    files = {
        f"{NAME}/__init__.py": module,
        f"{NAME}/py.typed": b"",
        **({f"{NAME}/libjoravelsu.so": library} if library else {}),
        f"{info}/METADATA": f"Metadata-Version: 2.1\nName: {NAME}\nVersion: {version}\nRequires-Python: >=3.8\n".encode(),
        f"{info}/WHEEL": f"Wheel-Version: 1.0\nGenerator: backend\nRoot-Is-Purelib: {str(not library).lower()}\nTag: {tag}\n".encode(),
    }
    rows = [f"{path},sha256={digest(data)},{len(data)}" for path, data in files.items()] + [f"{info}/RECORD,,"]
    files[f"{info}/RECORD"] = "".join(row + "\n" for row in rows).encode()
    made = f"{NAME}-{version}-{tag}.whl"
    with zipfile.ZipFile(os.path.join(folder, made), "w", zipfile.ZIP_DEFLATED) as wheel:
        for path, data in files.items():
            wheel.writestr(zipfile.ZipInfo(path), data, zipfile.ZIP_DEFLATED)
    return made


def digest(data):
    return base64.urlsafe_b64encode(hashlib.sha256(data).digest()).rstrip(b"=").decode()
