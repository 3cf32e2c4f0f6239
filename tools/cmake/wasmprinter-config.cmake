# Defines wasmprinter::wasmprinter, the shared library, and wasmprinter::static, the static one.
get_filename_component(_wasmprinter_prefix "${CMAKE_CURRENT_LIST_DIR}/../../.." ABSOLUTE)
if(NOT TARGET wasmprinter::wasmprinter)
    add_library(wasmprinter::wasmprinter SHARED IMPORTED)
    set_target_properties(wasmprinter::wasmprinter PROPERTIES
        IMPORTED_LOCATION "${_wasmprinter_prefix}/lib/libwasmprinter.so.1"
        IMPORTED_SONAME libwasmprinter.so.1
        INTERFACE_INCLUDE_DIRECTORIES "${_wasmprinter_prefix}/include")
    add_library(wasmprinter::static STATIC IMPORTED)
    set_target_properties(wasmprinter::static PROPERTIES
        IMPORTED_LOCATION "${_wasmprinter_prefix}/lib/libwasmprinter.a"
        INTERFACE_INCLUDE_DIRECTORIES "${_wasmprinter_prefix}/include")
endif()
unset(_wasmprinter_prefix)
