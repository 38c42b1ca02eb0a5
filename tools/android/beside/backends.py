"""The libbinders that a host can have: which of their files are compiled, by which flags, and whose compiler generates the code over them."""
import dataclasses
import pathlib
from typing import Dict, List, Tuple

from .base import HERE

HOSTS = HERE / "hosts"
SHIM = HOSTS / "shim"
BINDER = "frameworks/native/libs/binder"


@dataclasses.dataclass(frozen=True)
class Backend:
    """A libbinder. `sources` are its files below `src/FOLDER`, `interfaces` its own `.aidl` files, which Android 14's compiler generates
    first, `defines` what our own file and the generated ones are told."""
    name: str
    title: str
    folder: str
    language: str
    sources: Tuple[str, ...]
    flags: Tuple[str, ...]
    libraries: Tuple[str, ...]
    interfaces: Tuple[str, ...] = ()
    defines: Tuple[str, ...] = ()
    is_newer: bool = True

    @property
    def generated(self) -> str:
        """The folder in which this backend's compiler generates names."""
        return "aidl" if self.language == "ndk" else ""

    def flags_of(self, home: pathlib.Path, source: str = "") -> List[str]:
        """The flags by which one of its files, or a file of ours, is compiled."""
        places = {"src": str(home / "src" / self.folder), "shim": str(SHIM), "made": str(home / "hosts" / "made")}
        return [flag.format(**places) for flag in (*COMMON, *self.flags, *SPECIAL.get(pathlib.PurePath(source).name, ()))]


def below(folder: str, names: str, ending: str = ".cpp") -> Tuple[str, ...]:
    """Paths of files in one folder."""
    return tuple(f"{folder}/{name}{ending}" for name in names.split())


# NDEBUG as Android builds; -fno-strict-aliasing: Parcel.cpp casts bytes to what they hold
COMMON = ("-O1", "-w", "-DNDEBUG", "-fno-strict-aliasing", "-ffunction-sections", "-include", "{shim}/prelude.h", "-I{shim}")
# a header that one file takes from another file of its module, and switches that libbinder is built with, and libbinder_ndk or libbase without
SPECIAL = {
    "BufferedTextOutput.cpp": ("-include", "utils/LightRefBase.h"),
    **{f"{name}.cpp": ("-UANDROID_UTILS_REF_BASE_DISABLE_IMPLICIT_CONSTRUCTION",) for name in ("ibinder", "libbinder", "parcel", "stability", "status")},
    "file.cpp": ("-UANDROID_BASE_UNIQUE_FD_DISABLE_IMPLICIT_CONVERSION",),
}

OLDER = below("libs/binder", """Parcel Status Binder BpBinder IInterface IPCThreadState ProcessState Static TextOutput BufferedTextOutput Debug IResultReceiver
    IShellCallback IPermissionController""")
OLDER_FLAGS = ("-std=gnu++17", "-DOLDER", "-I{shim}/older", "-I{src}/libs/binder/include", "-I{src}/libs/binder", "-I{src}/include",
               "-isystem/usr/include/android", "-I{src}/libs/binderthreadstate/include")
OLDER_LIBRARIES = ("-lutils", "-lcutils", "-llog", "-lbase", "-lpthread")

NEWER = below(BINDER, """Parcel Binder BpBinder Debug FdTrigger IInterface IResultReceiver ParcelFileDescriptor RecordedTransaction RpcSession RpcServer RpcState
    Stability Status TextOutput Trace Utils OS RpcTransportRaw UtilsHost BufferedTextOutput IPCThreadState ProcessState Static IShellCallback
    IServiceManager ServiceManagerHost ParcelableHolder PersistableBundle IPermissionController""") + below(
        "system/core/libutils", """Errors String16 String8 Unicode RefBase SharedBuffer StrongPointer Threads Timers Printer NativeHandle misc VectorImpl
    SystemClock""") + below("system/libbase", "logging stringprintf strings errors_unix threads cmsg hex parsebool file") + below(
        "system/logging/liblog", "logger_write logger_name properties log_event_write")
NEWER_FLAGS = ("-stdlib=libc++", "-std=gnu++20", "-DBINDER_WITH_KERNEL_IPC", "-DANDROID_BASE_UNIQUE_FD_DISABLE_IMPLICIT_CONVERSION",
               "-DANDROID_UTILS_REF_BASE_DISABLE_IMPLICIT_CONSTRUCTION", "-DBINDER_ENABLE_LIBLOG_ASSERT", "-I{shim}/newer", "-I{made}",
               *(f"-I{{src}}/{BINDER}/{part}".rstrip("/") for part in ("include", "", "include_activitymanager", "ndk/include_cpp", "ndk/include_ndk",
                                                                     "ndk/include_platform")),
               *(f"-I{{src}}/{part}/include" for part in ("frameworks/native", "frameworks/native/libs/binderthreadstate", "system/core/libutils",
                                                         "system/core/libcutils", "system/libbase", "system/logging/liblog", "external/fmtlib")))
NEWER_LIBRARIES = ("-stdlib=libc++", "-lpthread")
INTERFACES = below(f"{BINDER}/aidl/android/os", "ConnectionInfo IClientCallback IServiceCallback IServiceManager ServiceDebugInfo", ".aidl") + below(
    f"{BINDER}/aidl/android/content/pm", "IPackageChangeObserver IPackageManagerNative IStagedApexObserver PackageChangeEvent StagedApexInfo "
    "ApexStagedEvent", ".aidl")
NDK = below(f"{BINDER}/ndk", "ibinder libbinder parcel stability status")

BACKENDS: Dict[str, Backend] = {backend.name: backend for backend in (
    Backend("v10", "Android 10", "v10", "cpp", OLDER + ("libs/binderthreadstate/IPCThreadStateBase.cpp",) + below("libs/binder", "Value PersistableBundle"),
            OLDER_FLAGS, OLDER_LIBRARIES, is_newer=False),
    # the second switch is libbinder's own: what the older compiler generates is taken for written by hand otherwise
    Backend("v29", "on the way to Android 11", "v29", "cpp", OLDER + below("libs/binder", "Stability"),
            OLDER_FLAGS + ("-DHAS_ENUM_VECTORS", "-DDO_NOT_CHECK_MANUAL_BINDER_INTERFACES"), OLDER_LIBRARIES, is_newer=False),
    Backend("v34", "Android 14, C++", "tools", "cpp", NEWER, NEWER_FLAGS, NEWER_LIBRARIES, INTERFACES),
    Backend("ndk", "Android 14, NDK", "tools", "ndk", NEWER + NDK, NEWER_FLAGS, NEWER_LIBRARIES, INTERFACES,
            ("-DNDK", "-UANDROID_UTILS_REF_BASE_DISABLE_IMPLICIT_CONSTRUCTION")),
)}
