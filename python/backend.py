"""Builds the wheel and the source archive of this package, as PEP 517 and PEP 660 have it. Both hold libvuthgal.so.2, and the same
files make the same bytes. It needs the standard library alone."""
import base64
import gzip
import hashlib
import io
import re
import tarfile
import zipfile
from pathlib import Path

HERE = Path(__file__).resolve().parent


def _library():
    """The library: that of the clone, or that of the source archive."""
    for path in (HERE.parent / "lib" / "libvuthgal.so.2", HERE / "libvuthgal.so.2"):
        if path.is_file():
            return path.read_bytes()
    raise SystemExit("there is no lib/libvuthgal.so.2: bin/program --library builds it")


def _app():
    """The app in one file: that of the clone, or that of the source archive."""
    for path in (HERE.parent / "vuthgal.html", HERE / "vuthgal.html"):
        if path.is_file():
            return path.read_bytes()
    raise SystemExit("there is no vuthgal.html: bin/made app makes it")


def _version():
    """The newest version in the changelog of the clone, or that of the source archive."""
    changes = HERE.parent / "CHANGELOG.md"
    text = changes.read_text() if changes.is_file() else (HERE / "PKG-INFO").read_text()
    found = re.search(r"^(?:## |Version: )(\d[^\s]*)", text, re.M)
    if not found:
        raise SystemExit("no version is named")
    return found.group(1)


def _sources():
    """The modules: names and contents."""
    for path in sorted((HERE / "src").rglob("*")):
        if path.suffix in (".py", ".typed"):
            yield path.relative_to(HERE / "src").as_posix(), path.read_bytes()


def _tag():
    """x86-64 Linux with the glibc that the library needs."""
    needed = max(int(minor) for minor in re.findall(rb"GLIBC_2\.(\d+)", _library()))
    return f"py3-none-manylinux_2_{needed}_x86_64"


def _metadata(version):
    return (
        f"Metadata-Version: 2.1\nName: vuthgal\nVersion: {version}\n"
        "Summary: Vuthgal's commands as functions: plays programs of threads that call phasers and barriers\n"
        "Requires-Python: >=3.8\nClassifier: Operating System :: POSIX :: Linux\nClassifier: Typing :: Typed\n"
        "Description-Content-Type: text/markdown\n\n" + (HERE / "README.md").read_text(encoding="utf-8")
    )


def _wheel():
    return f"Wheel-Version: 1.0\nGenerator: vuthgal\nRoot-Is-Purelib: false\nTag: {_tag()}\n"


def _requires(config_settings=None):
    return []


get_requires_for_build_wheel = get_requires_for_build_sdist = get_requires_for_build_editable = _requires


def prepare_metadata_for_build_wheel(metadata_directory, config_settings=None):
    version = _version()
    folder = Path(metadata_directory) / f"vuthgal-{version}.dist-info"
    folder.mkdir()
    (folder / "METADATA").write_text(_metadata(version))
    (folder / "WHEEL").write_text(_wheel())
    return folder.name


prepare_metadata_for_build_editable = prepare_metadata_for_build_wheel


def _written(directory, files):
    """A wheel of these files."""
    version = _version()
    info = f"vuthgal-{version}.dist-info"
    files[f"{info}/METADATA"] = _metadata(version).encode()
    files[f"{info}/WHEEL"] = _wheel().encode()
    files[f"{info}/entry_points.txt"] = (
        b"[console_scripts]\nvuthgal-check = vuthgal.check.command:main\nvuthgal-playground = vuthgal._playground:main\n\n"
        b"[pytest11]\nvuthgal = vuthgal_pytest\n"
    )
    record = []
    for name, content in files.items():
        digest = base64.urlsafe_b64encode(hashlib.sha256(content).digest()).rstrip(b"=").decode()
        record.append(f"{name},sha256={digest},{len(content)}\n")
    record.append(f"{info}/RECORD,,\n")
    files[f"{info}/RECORD"] = "".join(record).encode()
    wheel = f"vuthgal-{version}-{_tag()}.whl"
    with zipfile.ZipFile(Path(directory) / wheel, "w") as archive:
        for name, content in files.items():
            entry = zipfile.ZipInfo(name, (1980, 1, 1, 0, 0, 0))
            entry.external_attr = 0o644 << 16
            archive.writestr(entry, content, zipfile.ZIP_DEFLATED)
    return wheel


def build_wheel(wheel_directory, config_settings=None, metadata_directory=None):
    return _written(wheel_directory, {**dict(_sources()), "vuthgal/libvuthgal.so.2": _library(), "vuthgal/vuthgal.html": _app()})


def build_editable(wheel_directory, config_settings=None, metadata_directory=None):
    return _written(wheel_directory, {"vuthgal.pth": f"{HERE / 'src'}\n".encode()})


def build_sdist(sdist_directory, config_settings=None):
    name = f"vuthgal-{_version()}"
    files = {f"src/{path}": content for path, content in _sources()}
    for path in ("backend.py", "pyproject.toml", "README.md"):
        files[path] = (HERE / path).read_bytes()
    files["libvuthgal.so.2"] = _library()
    files["vuthgal.html"] = _app()
    files["PKG-INFO"] = _metadata(_version()).encode()
    held = io.BytesIO()
    with tarfile.open(fileobj=held, mode="w", format=tarfile.PAX_FORMAT) as archive:
        for path, content in sorted(files.items()):
            entry = tarfile.TarInfo(f"{name}/{path}")
            entry.size, entry.mode = len(content), 0o644
            archive.addfile(entry, io.BytesIO(content))
    (Path(sdist_directory) / f"{name}.tar.gz").write_bytes(gzip.compress(held.getvalue(), mtime=0))
    return f"{name}.tar.gz"
