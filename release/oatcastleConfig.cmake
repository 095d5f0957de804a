# Defines the target oatcastle::oatcastle: the headers, and the static library for the compiler's processor. The release's folder may be
# moved. Assumes gcc or clang, whose macros tell the processor. Where they do not, OATCASTLE_TARGET names a folder of lib/.
get_filename_component(_oatcastle_root "${CMAKE_CURRENT_LIST_DIR}/../../.." ABSOLUTE)

if(NOT OATCASTLE_TARGET)
  if(CMAKE_C_COMPILER)
    set(_oatcastle_compiler ${CMAKE_C_COMPILER} ${CMAKE_C_FLAGS})
  else()
    set(_oatcastle_compiler ${CMAKE_CXX_COMPILER} ${CMAKE_CXX_FLAGS})
  endif()
  string(REPLACE ";" " " _oatcastle_compiler "${_oatcastle_compiler}")
  separate_arguments(_oatcastle_compiler UNIX_COMMAND "${_oatcastle_compiler}")
  execute_process(COMMAND ${_oatcastle_compiler} -dM -E -x c /dev/null OUTPUT_VARIABLE _oatcastle_macros ERROR_QUIET)
  foreach(_oatcastle_pair
      "__x86_64__=x86_64-linux" "__aarch64__=aarch64-linux" "__ARM_ARCH_6M__=cortex-m0" "__ARM_ARCH_7EM__=cortex-m4"
      "__ARM_ARCH_8M_MAIN__=cortex-m33" "__riscv_xlen 32=riscv32imc")
    string(REPLACE "=" ";" _oatcastle_pair "${_oatcastle_pair}")
    list(GET _oatcastle_pair 0 _oatcastle_macro)
    if(_oatcastle_macros MATCHES "#define ${_oatcastle_macro}")
      list(GET _oatcastle_pair 1 OATCASTLE_TARGET)
    endif()
  endforeach()
  if(_oatcastle_macros MATCHES "#define __ARM_PCS_VFP ")
    set(OATCASTLE_TARGET "${OATCASTLE_TARGET}-hard")
  endif()
endif()

set(_oatcastle_library "${_oatcastle_root}/lib/${OATCASTLE_TARGET}/liboatcastle.a")
if(NOT OATCASTLE_TARGET OR NOT EXISTS "${_oatcastle_library}")
  set(oatcastle_FOUND FALSE)
  string(CONCAT oatcastle_NOT_FOUND_MESSAGE "no library for this compiler's processor ('${OATCASTLE_TARGET}'); "
    "set OATCASTLE_TARGET to a folder of ${_oatcastle_root}/lib")
  return()
endif()

if(NOT TARGET oatcastle::oatcastle)
  add_library(oatcastle::oatcastle STATIC IMPORTED)
  set_target_properties(oatcastle::oatcastle PROPERTIES
    IMPORTED_LOCATION "${_oatcastle_library}"
    INTERFACE_INCLUDE_DIRECTORIES "${_oatcastle_root}/include")
endif()
