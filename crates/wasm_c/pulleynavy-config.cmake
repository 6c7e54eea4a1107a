# For `find_package(pulleynavy)` in the packages for Windows and macOS: the targets pulleynavy::pulleynavy (the shared library) and pulleynavy::static.
get_filename_component(_pulleynavy "${CMAKE_CURRENT_LIST_DIR}/../../.." ABSOLUTE)
if(NOT TARGET pulleynavy::pulleynavy)
  add_library(pulleynavy::pulleynavy SHARED IMPORTED)
  add_library(pulleynavy::static STATIC IMPORTED)
  set_target_properties(pulleynavy::pulleynavy pulleynavy::static PROPERTIES INTERFACE_INCLUDE_DIRECTORIES "${_pulleynavy}/include")
  if(EXISTS "${_pulleynavy}/bin/pulleynavy.dll")
    set_target_properties(pulleynavy::pulleynavy PROPERTIES
      IMPORTED_LOCATION "${_pulleynavy}/bin/pulleynavy.dll"
      IMPORTED_IMPLIB "${_pulleynavy}/lib/pulleynavy.dll.lib")
    set_target_properties(pulleynavy::static PROPERTIES IMPORTED_LOCATION "${_pulleynavy}/lib/pulleynavy.lib")
  else()
    set_target_properties(pulleynavy::pulleynavy PROPERTIES
      IMPORTED_LOCATION "${_pulleynavy}/lib/libpulleynavy.dylib"
      IMPORTED_SONAME "@rpath/libpulleynavy.dylib")
    set_target_properties(pulleynavy::static PROPERTIES IMPORTED_LOCATION "${_pulleynavy}/lib/libpulleynavy.a")
  endif()
endif()
unset(_pulleynavy)
