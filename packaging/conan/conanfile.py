"""A recipe for Conan 2 over a released archive. UNTRIED: Conan was not available where this was written.

Put the archives for your platforms beside this file, then run: conan create packaging/conan
Programs find it with find_package(wallthyme), as without Conan.
"""
import os

from conan import ConanFile
from conan.errors import ConanInvalidConfiguration
from conan.tools.files import unzip

SYSTEMS = {"Linux": "linux-gnu", "Windows": "windows", "Macos": "macos", "Android": "android"}
PROCESSORS = {"x86_64": "x86_64", "armv8": "aarch64"}


class Wallthyme(ConanFile):
    name = "wallthyme"
    version = "0.10.0"
    description = "A GPU memory allocator that is proved, for Vulkan"
    license = "MIT OR Apache-2.0"
    package_type = "library"
    settings = "os", "arch"
    options = {"shared": [True, False]}
    default_options = {"shared": False}
    exports_sources = "wallthyme-*"

    def validate(self):
        if str(self.settings.os) not in SYSTEMS or str(self.settings.arch) not in PROCESSORS:
            raise ConanInvalidConfiguration(f"there is no archive for {self.settings.os}, {self.settings.arch}")

    def package_id(self):
        # (one archive has both)
        del self.info.options.shared

    def package(self):
        platform = f"{PROCESSORS[str(self.settings.arch)]}-{SYSTEMS[str(self.settings.os)]}"
        ending = "zip" if self.settings.os == "Windows" else "tar.gz"
        archive = os.path.join(self.source_folder, f"wallthyme-{self.version}-{platform}.{ending}")
        unzip(self, archive, destination=self.package_folder, strip_root=True)

    def package_info(self):
        # (the archive's own files for CMake name the targets)
        self.cpp_info.set_property("cmake_find_mode", "none")
        self.cpp_info.builddirs.append(os.path.join("lib", "cmake", "wallthyme"))
        if self.settings.os == "Windows" and self.options.shared:
            self.cpp_info.libs, self.cpp_info.defines = ["wallthyme.dll"], ["WT_DLL"]
        else:
            self.cpp_info.libs = ["wallthyme"]
