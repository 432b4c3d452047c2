"""What tells other build tools of the libraries: the packages for pkg-config, and the one for CMake."""

from libraries import fits_of, soname_of

# The package for CMake finds its files from its own place, and those for pkg-config do so in a prefix of its own. So
# the whole prefix can be moved.
PKG_CONFIG = """prefix={prefix}
libdir=${{prefix}}/{place}
includedir=${{prefix}}/include

Name: vlm
Description: The lock manager of OpenVMS, proved: a library for programs in C
Version: {version}
Libs: -L${{libdir}} -lvlm
Libs.private: -pthread -ldl
Cflags: -I${{includedir}}
"""

PKG_CONFIG_VMS = """prefix={prefix}
libdir=${{prefix}}/{place}
includedir=${{prefix}}/include

Name: vlm-vms
Description: The system services of OpenVMS for locks, over vlm: for programs in C
Version: {version}
Requires: vlm
Libs: -L${{libdir}} -lvlmvms
Cflags: -I${{includedir}}/vlm-vms
"""

CMAKE = """# The lock manager vlm: the targets vlm::vlm, the shared library, and vlm::static.
include(CMakeFindDependencyMacro)
find_dependency(Threads)
get_filename_component(_vlm_prefix "${{CMAKE_CURRENT_LIST_DIR}}/{up}" ABSOLUTE)
if(NOT TARGET vlm::vlm)
  add_library(vlm::vlm SHARED IMPORTED)
  set_target_properties(vlm::vlm PROPERTIES
    IMPORTED_LOCATION "${{_vlm_prefix}}/{place}/libvlm.so.{version}"
    IMPORTED_SONAME "{soname}"
    INTERFACE_INCLUDE_DIRECTORIES "${{_vlm_prefix}}/include")
  add_library(vlm::static STATIC IMPORTED)
  set_target_properties(vlm::static PROPERTIES
    IMPORTED_LOCATION "${{_vlm_prefix}}/{place}/libvlm.a"
    INTERFACE_INCLUDE_DIRECTORIES "${{_vlm_prefix}}/include"
    INTERFACE_LINK_LIBRARIES "Threads::Threads;${{CMAKE_DL_LIBS}}")
endif()
unset(_vlm_prefix)
foreach(_vlm_asked IN LISTS vlm_FIND_COMPONENTS)
  if(vlm_FIND_REQUIRED_${{_vlm_asked}})
    set(vlm_FOUND FALSE)
    set(vlm_NOT_FOUND_MESSAGE "vlm has no component ${{_vlm_asked}}: its targets are vlm::vlm and vlm::static")
  endif()
endforeach()
unset(_vlm_asked)
"""

# A version fits a program that asks for one that is not later, with the same first two numbers.
CMAKE_VERSION = """set(PACKAGE_VERSION "{version}")
string(REGEX MATCH "^[0-9]+[.][0-9]+" _vlm_asked "${{PACKAGE_FIND_VERSION}}")
if(NOT CMAKE_SIZEOF_VOID_P EQUAL 8)
  set(PACKAGE_VERSION_UNSUITABLE TRUE)
elseif(PACKAGE_FIND_VERSION_RANGE_MAX STREQUAL "INCLUDE" AND PACKAGE_VERSION VERSION_GREATER PACKAGE_FIND_VERSION_MAX
    OR PACKAGE_FIND_VERSION_RANGE_MAX STREQUAL "EXCLUDE" AND NOT PACKAGE_VERSION VERSION_LESS PACKAGE_FIND_VERSION_MAX)
  set(PACKAGE_VERSION_COMPATIBLE FALSE)
elseif(PACKAGE_FIND_VERSION VERSION_EQUAL PACKAGE_VERSION)
  set(PACKAGE_VERSION_EXACT TRUE)
  set(PACKAGE_VERSION_COMPATIBLE TRUE)
elseif(PACKAGE_FIND_VERSION VERSION_LESS PACKAGE_VERSION AND _vlm_asked STREQUAL "{fits}")
  set(PACKAGE_VERSION_COMPATIBLE TRUE)
endif()
unset(_vlm_asked)
"""


def write_packages(lib, version, place="lib", prefix="${pcfiledir}/../.."):
    """Writes both packages into the folder lib of the libraries, which has this place in the prefix."""
    up = "/".join([".."] * (2 + len(place.split("/"))))
    values = {"version": version, "soname": soname_of(version), "fits": fits_of(version), "place": place, "up": up,
              "prefix": prefix}
    for name, text in (("pkgconfig/vlm.pc", PKG_CONFIG), ("pkgconfig/vlm-vms.pc", PKG_CONFIG_VMS),
                       ("cmake/vlm/vlm-config.cmake", CMAKE),
                       ("cmake/vlm/vlm-config-version.cmake", CMAKE_VERSION)):
        (lib / name).parent.mkdir(parents=True, exist_ok=True)
        (lib / name).write_text(text.format(**values))
