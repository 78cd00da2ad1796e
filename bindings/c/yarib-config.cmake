# find_package(yarib) finds the installed library: link yarib::yarib, which is libyarib.so, or yarib::static, which is libyarib.a.
# This file is in LIBRARIES/cmake/yarib, and the headers are in ../include of LIBRARIES, or of its parent if that has the
# name of an architecture. /lib may be a link to /usr/lib, so the headers are sought from where it leads.
get_filename_component(_yarib_libraries "${CMAKE_CURRENT_LIST_DIR}" REALPATH)
get_filename_component(_yarib_libraries "${_yarib_libraries}/../.." ABSOLUTE)
foreach(_yarib_up ".." "../..")
  get_filename_component(_yarib_headers "${_yarib_libraries}/${_yarib_up}/include" ABSOLUTE)
  if(EXISTS "${_yarib_headers}/yarib.h")
    break()
  endif()
endforeach()

unset(yarib_NOT_FOUND_MESSAGE)
foreach(_yarib_file "${_yarib_headers}/yarib.h" "${_yarib_libraries}/libyarib.so.0" "${_yarib_libraries}/libyarib.a")
  if(NOT EXISTS "${_yarib_file}")
    set(yarib_FOUND FALSE)
    set(yarib_NOT_FOUND_MESSAGE "there is no ${_yarib_file}")
  endif()
endforeach()

if(NOT yarib_NOT_FOUND_MESSAGE AND NOT TARGET yarib::yarib)
  add_library(yarib::yarib SHARED IMPORTED)
  set_target_properties(yarib::yarib PROPERTIES IMPORTED_LOCATION "${_yarib_libraries}/libyarib.so.0" IMPORTED_SONAME "libyarib.so.0"
    INTERFACE_INCLUDE_DIRECTORIES "${_yarib_headers}")
  add_library(yarib::static STATIC IMPORTED)
  set_target_properties(yarib::static PROPERTIES IMPORTED_LOCATION "${_yarib_libraries}/libyarib.a"
    INTERFACE_INCLUDE_DIRECTORIES "${_yarib_headers}")
endif()

unset(_yarib_file)
unset(_yarib_up)
unset(_yarib_headers)
unset(_yarib_libraries)
