# Defines the targets tkcore::tkcore (the shared object), tkcore::tkcore_static (the archive) and, if
# it was built, tkcore::tkcore_session (the archive of sessions). They are found relative to this file.
get_filename_component(TKCORE_LIBDIR "${CMAKE_CURRENT_LIST_DIR}/../.." ABSOLUTE)
get_filename_component(TKCORE_PREFIX "${TKCORE_LIBDIR}/@UP@" ABSOLUTE)

if(NOT TARGET tkcore::tkcore)
  add_library(tkcore::tkcore SHARED IMPORTED)
  set_target_properties(tkcore::tkcore PROPERTIES
    IMPORTED_LOCATION "${TKCORE_LIBDIR}/@SHARED@"
    IMPORTED_SONAME "@SHARED@"
    INTERFACE_INCLUDE_DIRECTORIES "${TKCORE_PREFIX}/include")
endif()

if(NOT TARGET tkcore::tkcore_static)
  add_library(tkcore::tkcore_static STATIC IMPORTED)
  set_target_properties(tkcore::tkcore_static PROPERTIES
    IMPORTED_LOCATION "${TKCORE_LIBDIR}/libtkcore.a"
    INTERFACE_INCLUDE_DIRECTORIES "${TKCORE_PREFIX}/include")
endif()

if(EXISTS "${TKCORE_LIBDIR}/libtkcore_session.a" AND NOT TARGET tkcore::tkcore_session)
  add_library(tkcore::tkcore_session STATIC IMPORTED)
  set_target_properties(tkcore::tkcore_session PROPERTIES
    IMPORTED_LOCATION "${TKCORE_LIBDIR}/libtkcore_session.a"
    INTERFACE_INCLUDE_DIRECTORIES "${TKCORE_PREFIX}/include")
endif()
