# find_package(kerumpase) gives the static library kerumpase::kerumpase.
get_filename_component(kerumpase_prefix "${CMAKE_CURRENT_LIST_DIR}/../../.." ABSOLUTE)
set(kerumpase_VERSION "@VERSION@")
if(NOT CMAKE_SIZEOF_VOID_P EQUAL 8)
    set(kerumpase_FOUND FALSE)
    set(kerumpase_NOT_FOUND_MESSAGE "kerumpase is for machines with 64-bit pointers")
elseif(NOT TARGET kerumpase::kerumpase)
    add_library(kerumpase::kerumpase STATIC IMPORTED)
    set_target_properties(kerumpase::kerumpase PROPERTIES
        IMPORTED_LOCATION "${kerumpase_prefix}/lib/libkerumpase.a"
        INTERFACE_INCLUDE_DIRECTORIES "${kerumpase_prefix}/include")
endif()
