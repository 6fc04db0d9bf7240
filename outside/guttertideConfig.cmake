# guttertide::guttertide: the library for C with its header. It is found from this file, so the whole may be moved.
get_filename_component(guttertide_prefix "${CMAKE_CURRENT_LIST_DIR}/../../.." ABSOLUTE)
include(CMakeFindDependencyMacro)
find_dependency(Threads)
if(NOT TARGET guttertide::guttertide)
  add_library(guttertide::guttertide STATIC IMPORTED)
  set_target_properties(guttertide::guttertide PROPERTIES
    IMPORTED_LOCATION "${guttertide_prefix}/lib/libguttertide.a"
    INTERFACE_INCLUDE_DIRECTORIES "${guttertide_prefix}/include"
    INTERFACE_LINK_LIBRARIES Threads::Threads)
endif()
unset(guttertide_prefix)
