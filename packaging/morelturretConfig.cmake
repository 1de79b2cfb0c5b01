# find_package(morelturret) gives the targets morelturret::morelturret, the shared library, and morelturret::static.
get_filename_component(_morelturret_prefix "${CMAKE_CURRENT_LIST_DIR}/../../.." ABSOLUTE)

if(NOT TARGET morelturret::static)
    add_library(morelturret::static STATIC IMPORTED)
    set_target_properties(morelturret::static PROPERTIES
        IMPORTED_LOCATION "${_morelturret_prefix}/lib/libmorelturret.a"
        INTERFACE_INCLUDE_DIRECTORIES "${_morelturret_prefix}/include")
endif()

if(NOT TARGET morelturret::morelturret AND EXISTS "${_morelturret_prefix}/lib/libmorelturret.so")
    add_library(morelturret::morelturret SHARED IMPORTED)
    set_target_properties(morelturret::morelturret PROPERTIES
        IMPORTED_LOCATION "${_morelturret_prefix}/lib/libmorelturret.so"
        INTERFACE_INCLUDE_DIRECTORIES "${_morelturret_prefix}/include")
endif()
