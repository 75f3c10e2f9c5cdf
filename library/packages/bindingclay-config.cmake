# The targets bindingclay::static and bindingclay::shared, for find_package(bindingclay).
get_filename_component(bindingclay_library_folder "${CMAKE_CURRENT_LIST_DIR}/../.." REALPATH)
get_filename_component(bindingclay_include_folder "${bindingclay_library_folder}/../include" REALPATH)
if(NOT TARGET bindingclay::static)
    add_library(bindingclay::static STATIC IMPORTED)
    set_target_properties(bindingclay::static PROPERTIES
        IMPORTED_LOCATION "${bindingclay_library_folder}/libbindingclay.a"
        IMPORTED_LINK_INTERFACE_LANGUAGES C
        INTERFACE_INCLUDE_DIRECTORIES "${bindingclay_include_folder}")
endif()
if(NOT TARGET bindingclay::shared)
    add_library(bindingclay::shared SHARED IMPORTED)
    set_target_properties(bindingclay::shared PROPERTIES
        IMPORTED_LOCATION "${bindingclay_library_folder}/libbindingclay.so.@VERSION@"
        INTERFACE_INCLUDE_DIRECTORIES "${bindingclay_include_folder}")
endif()
unset(bindingclay_library_folder)
unset(bindingclay_include_folder)
