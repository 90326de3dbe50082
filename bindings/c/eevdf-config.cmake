# find_package(eevdf) gives two targets: eevdf::eevdf, the library for C with the two functions for memory over malloc and free where a
# program has none, and eevdf::bare, without any. The two are asked for by name, so that an archive of the program's that has them is taken
# wherever it stands.
get_filename_component(eevdf_prefix "${CMAKE_CURRENT_LIST_DIR}/../../.." ABSOLUTE)
foreach(eevdf_target eevdf bare)
  if(NOT TARGET eevdf::${eevdf_target})
    add_library(eevdf::${eevdf_target} STATIC IMPORTED)
    set_target_properties(eevdf::${eevdf_target} PROPERTIES
      IMPORTED_LOCATION "${eevdf_prefix}/lib/libeevdf.a"
      INTERFACE_INCLUDE_DIRECTORIES "${eevdf_prefix}/include"
      INTERFACE_LINK_OPTIONS "LINKER:-u,eevdf_alloc,-u,eevdf_dealloc")
  endif()
endforeach()
# CMake puts what a target stands on behind all that a program names
set_target_properties(eevdf::eevdf PROPERTIES INTERFACE_LINK_LIBRARIES "${eevdf_prefix}/lib/libeevdf_malloc.a")
