"""Compiles hosts: libbinder, what a compiler generates of a tree, and our own file with its glue.

An object is kept by the sum of everything that it is made of: the compiler's version, the flags, the file, our own headers and the generated ones. So
nothing that changed is left out, and nothing that didn't is compiled again."""
import concurrent.futures
import hashlib
import os
import pathlib
import shutil
import subprocess
from typing import Iterable, List, NamedTuple, Optional, Sequence, Tuple

from . import glue
from .backends import BACKENDS, HOSTS, SHIM, Backend
from .base import CouldNotRun
from .schema import read_tree

OLDER_AIDL = "/usr/lib/android-sdk/build-tools/debian/aidl"
WRAPPED = ("-Wl,--wrap=open,--wrap=ioctl,--gc-sections",)


class Version(NamedTuple):
    """What an interface of a frozen version says of itself."""
    number: int
    digits: str


def done(*words: object, cwd: Optional[pathlib.Path] = None) -> str:
    """What a command prints that has to succeed."""
    run = subprocess.run([str(word) for word in words], cwd=cwd, stdout=subprocess.PIPE, stderr=subprocess.STDOUT, check=False)
    text = run.stdout.decode("utf-8", "replace")
    if run.returncode:
        raise CouldNotRun(f"{' '.join(map(str, words))[:200]} .. ended with {run.returncode}: {text[:1500]}")
    return text


def digest(paths: Iterable[pathlib.Path]) -> bytes:
    """A sum over files, each with its name."""
    total = hashlib.sha256()
    for path in sorted(paths):
        total.update(path.name.encode() + b"\0" + hashlib.sha256(path.read_bytes()).digest())
    return total.digest()


def files_below(folder: pathlib.Path) -> List[pathlib.Path]:
    """All files below a folder."""
    return [path for path in folder.rglob("*") if path.is_file()]


class Builder:
    """Compiles into `HOME/hosts`, so many files at a time."""

    def __init__(self, home: pathlib.Path, jobs: int = 2):
        self.home, self.out, self.jobs = home, home / "hosts", jobs
        self.compiler = os.environ.get("CXX") or shutil.which("clang++-14") or "clang++"
        self.version = done(self.compiler, "--version")
        self.shim, self.made = digest(files_below(SHIM)), b""
        (self.out / "objects").mkdir(parents=True, exist_ok=True)

    def compile(self, backend: Backend, source: pathlib.Path, *flags: str, inputs: bytes = b"") -> pathlib.Path:
        """The object of one file; `inputs` is the sum of what it includes beside the shim and its libbinder."""
        words = [*backend.flags_of(self.home, source.name), *flags]
        key = hashlib.sha256("\0".join([self.version, *words]).encode() + self.shim + self.made + inputs + source.read_bytes()).hexdigest()
        target = self.out / "objects" / f"{backend.folder}.{source.stem}.{key[:24]}.o"
        if not target.exists():
            part = target.with_suffix(f".{os.getpid()}.part")
            done("nice", "-n", 10, self.compiler, *words, "-c", source, "-o", part)
            part.rename(target)
        return target

    def compile_all(self, backend: Backend, tasks: Sequence[Tuple[pathlib.Path, List[str], bytes]]) -> List[pathlib.Path]:
        """The objects of these files, each with its flags and inputs."""
        with concurrent.futures.ThreadPoolExecutor(self.jobs) as pool:
            return list(pool.map(lambda task: self.compile(backend, task[0], *task[1], inputs=task[2]), tasks))

    def libbinder(self, backend: Backend) -> List[pathlib.Path]:
        """The objects of a libbinder."""
        source = self.home / "src" / backend.folder
        if not source.is_dir():
            raise CouldNotRun(f"no {source}: run tools/android/fetch first")
        self.make_interfaces(backend, source)
        return self.compile_all(backend, [(source / name, [], b"") for name in backend.sources] + [(SHIM / "shim.cpp", [], b"")])

    def make_interfaces(self, backend: Backend, source: pathlib.Path) -> None:
        """Generates libbinder's own interfaces."""
        if not backend.interfaces:
            return
        made, include = self.out / "made", source / "frameworks/native/libs/binder/aidl"
        shutil.rmtree(made, ignore_errors=True)
        done(self.home / "aidl", "--lang=cpp", "-I", include, "-o", made, "-h", made, *(source / name for name in backend.interfaces))
        self.made = digest(files_below(made))

    def generate(self, backend: Backend, tree: pathlib.Path, gen: pathlib.Path, version: Optional[Version]) -> None:
        """What the backend's compiler writes of a tree. The folder `newer` has what the older compiler doesn't know."""
        compiler = self.home / "aidl" if backend.is_newer else pathlib.Path(OLDER_AIDL)
        if not compiler.exists():
            raise CouldNotRun(f"no {compiler}: " + ("run tools/android/fetch first" if backend.is_newer else "Debian's package aidl has it"))
        words = [compiler, f"--lang={backend.language}", "--structured", "-I", ".", "-o", gen, "-h", gen]
        paths = sorted(path.relative_to(tree) for path in tree.rglob("*.aidl"))
        if backend.is_newer:
            done(*words, *(["-v", version.number, "--hash", version.digits] if version else []), *paths, cwd=tree)
            return
        for path in paths:  # it takes one file at a time
            if path.parts[0] != "newer":
                done(*words, *(["-v", version.number] if version and path.stem == "IVersioned" else []), path, cwd=tree)

    def host(self, name: str, tree: pathlib.Path, label: str, version: Optional[Version] = None) -> pathlib.Path:
        """The host program of one backend over one tree."""
        backend = BACKENDS[name]
        gen = self.out / "gen" / f"{label}.{backend.name}"
        shutil.rmtree(gen, ignore_errors=True)
        gen.mkdir(parents=True)
        schema = read_tree(tree)
        self.generate(backend, tree, gen, version)
        (gen / "glue.h").write_text(glue.of(schema if backend.is_newer else schema.older(), backend))
        (gen / "generated.cc").write_text("".join(f'#include "{path.relative_to(gen)}"\n' for path in sorted(gen.rglob("*.cpp"))))
        inputs, flags = digest([*files_below(gen), *HOSTS.glob("*.h")]), ["-O0", f"-I{gen}", *backend.defines]
        objects = self.libbinder(backend) + self.compile_all(backend, [(path, flags, inputs) for path in (HOSTS / "host.cpp", gen / "generated.cc")])
        target = self.out / f"host.{label}.{backend.name}"
        self.link(backend, objects, target)
        return target

    def link(self, backend: Backend, objects: List[pathlib.Path], target: pathlib.Path) -> None:
        """Links a host."""
        library = f"/usr/lib/{done('dpkg-architecture', '-qDEB_HOST_MULTIARCH').strip()}/android"
        search = [] if backend.is_newer else [f"-L{library}", f"-Wl,-rpath,{library}"]
        part = target.with_name(f"{target.name}.{os.getpid()}.part")
        done(self.compiler, *objects, *WRAPPED, *search, *backend.libraries, "-o", part)
        part.rename(target)
