# What find_package(wanzoche) reads: the targets wanzoche::shared and wanzoche::static, and wanzoche::wanzoche, which is the shared library,
# or the static one if WANZOCHE_STATIC is set before. Each brings the headers, for C and for C++17. `make` puts the way up to the headers in.
include(CMakeFindDependencyMacro)
find_dependency(Threads)
get_filename_component(_wanzoche_lib "${CMAKE_CURRENT_LIST_DIR}/../.." ABSOLUTE)
get_filename_component(_wanzoche_include "${_wanzoche_lib}/@up@/include" ABSOLUTE)

function(_wanzoche_library name kind file)
    if(NOT TARGET wanzoche::${name})
        add_library(wanzoche::${name} ${kind} IMPORTED)
        set_target_properties(wanzoche::${name} PROPERTIES
            IMPORTED_LOCATION "${_wanzoche_lib}/${file}"
            INTERFACE_INCLUDE_DIRECTORIES "${_wanzoche_include}"
            INTERFACE_LINK_LIBRARIES Threads::Threads)
    endif()
endfunction()

_wanzoche_library(static STATIC libwanzoche.a)
_wanzoche_library(shared SHARED libwanzoche.so.0)
if(NOT TARGET wanzoche::wanzoche)
    add_library(wanzoche::wanzoche INTERFACE IMPORTED)
    if(WANZOCHE_STATIC)
        set_target_properties(wanzoche::wanzoche PROPERTIES INTERFACE_LINK_LIBRARIES wanzoche::static)
    else()
        set_target_properties(wanzoche::wanzoche PROPERTIES INTERFACE_LINK_LIBRARIES wanzoche::shared)
    endif()
endif()
