# Defines the target texture_tracker::texture_tracker, found from where this file is installed.
if(NOT TARGET texture_tracker::texture_tracker)
  get_filename_component(_texture_tracker_prefix "${CMAKE_CURRENT_LIST_DIR}/../../.." ABSOLUTE)
  add_library(texture_tracker::texture_tracker STATIC IMPORTED)
  set_target_properties(texture_tracker::texture_tracker PROPERTIES
    IMPORTED_LOCATION "${_texture_tracker_prefix}/lib/libtexture_tracker.a"
    INTERFACE_INCLUDE_DIRECTORIES "${_texture_tracker_prefix}/include")
  unset(_texture_tracker_prefix)
endif()
