# find_package(wokhleas) defines the target wokhleas::wokhleas: the static library and the folder of its header, by where this
# file is installed beside them.
if(NOT TARGET wokhleas::wokhleas)
  get_filename_component(wokhleas_prefix "${CMAKE_CURRENT_LIST_DIR}/../../.." ABSOLUTE)
  add_library(wokhleas::wokhleas STATIC IMPORTED)
  set_target_properties(wokhleas::wokhleas PROPERTIES
    IMPORTED_LOCATION "${wokhleas_prefix}/lib/libwokhleas.a"
    IMPORTED_LINK_INTERFACE_LANGUAGES C
    INTERFACE_INCLUDE_DIRECTORIES "${wokhleas_prefix}/include")
  unset(wokhleas_prefix)
endif()
