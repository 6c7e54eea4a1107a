# For `find_package(pulleynavy)` on Linux: the targets pulleynavy::pulleynavy (the shared library) and pulleynavy::static, of an installed
# prefix or of a tarball that is unpacked anywhere. This file is in lib/cmake/pulleynavy, or in lib/TRIPLE/cmake/pulleynavy.
get_filename_component(_pulleynavy_lib "${CMAKE_CURRENT_LIST_DIR}/../.." ABSOLUTE)
unset(_pulleynavy_include CACHE)
find_path(_pulleynavy_include pulleynavy.h PATHS "${_pulleynavy_lib}/../include" "${_pulleynavy_lib}/../../include" NO_DEFAULT_PATH)
if(NOT _pulleynavy_include)
  set(pulleynavy_FOUND FALSE)
  set(pulleynavy_NOT_FOUND_MESSAGE "there is no pulleynavy.h beside ${_pulleynavy_lib}")
elseif(NOT TARGET pulleynavy::static)
  get_filename_component(_pulleynavy_include_path "${_pulleynavy_include}" ABSOLUTE)
  if(EXISTS "${_pulleynavy_lib}/libpulleynavy.so")
    add_library(pulleynavy::pulleynavy SHARED IMPORTED)
    set_target_properties(pulleynavy::pulleynavy PROPERTIES
      INTERFACE_INCLUDE_DIRECTORIES "${_pulleynavy_include_path}"
      IMPORTED_LOCATION "${_pulleynavy_lib}/libpulleynavy.so"
      IMPORTED_SONAME "@SONAME@")
  endif()
  add_library(pulleynavy::static STATIC IMPORTED)
  set_target_properties(pulleynavy::static PROPERTIES
    INTERFACE_INCLUDE_DIRECTORIES "${_pulleynavy_include_path}"
    IMPORTED_LOCATION "${_pulleynavy_lib}/libpulleynavy.a")
endif()
unset(_pulleynavy_include CACHE)
unset(_pulleynavy_include_path)
unset(_pulleynavy_lib)
