# find_package(cekarum) gives the target cekarum::cekarum: the header, and the archive for the board that is compiled for. Where
# there is a shared library for it, cekarum::shared is that.
#
# Which archive that is, the compiler says: it is asked what it compiles for, with the flags of the project. CEKARUM_TARGET names
# one instead (a folder below lib/), before find_package or as -DCEKARUM_TARGET=cortex-m4f.

get_filename_component(_cekarum_top "${CMAKE_CURRENT_LIST_DIR}/../../.." ABSOLUTE)

# The words that the project hands to its compiler, as far as they are known before a target is made.
function(_cekarum_flags out)
  get_property(options DIRECTORY PROPERTY COMPILE_OPTIONS)
  list(FILTER options EXCLUDE REGEX "\\$<") # what depends on the configuration or the language says nothing of the processor
  if(CMAKE_C_COMPILER)
    separate_arguments(words NATIVE_COMMAND "${CMAKE_C_FLAGS}")
  else()
    separate_arguments(words NATIVE_COMMAND "${CMAKE_CXX_FLAGS}")
  endif()
  set(${out} ${words} ${options} PARENT_SCOPE)
endfunction()

# The compiler's own names for what it compiles for.
function(_cekarum_macros out)
  _cekarum_flags(flags)
  if(CMAKE_C_COMPILER)
    set(command "${CMAKE_C_COMPILER}")
    set(aim "${CMAKE_C_COMPILER_TARGET}")
  else()
    set(command "${CMAKE_CXX_COMPILER}")
    set(aim "${CMAKE_CXX_COMPILER_TARGET}")
  endif()
  if(aim)
    list(APPEND flags "--target=${aim}")
  endif()
  set(${out} "" PARENT_SCOPE)
  if(command)
    # the first command closes the second's input at once
    execute_process(COMMAND "${CMAKE_COMMAND}" -E true COMMAND "${command}" ${flags} -dM -E -x c -
                    OUTPUT_VARIABLE said ERROR_QUIET RESULT_VARIABLE status)
    if(status EQUAL 0)
      set(${out} "${said}" PARENT_SCOPE)
    endif()
  endif()
endfunction()

# A Cortex-M by its instructions and by how it passes floats. A Cortex-M7 has those of an M4: its name alone tells it apart.
function(_cekarum_cortex macros out)
  _cekarum_flags(flags)
  string(JOIN " " named ${flags} ${CMAKE_SYSTEM_PROCESSOR})
  set(found "")
  if(macros MATCHES "#define __ARM_ARCH_(6S?M|8M_BASE)__ ")
    set(found cortex-m0plus)
  elseif(macros MATCHES "#define __ARM_ARCH_7M__ ")
    set(found cortex-m3)
  elseif(macros MATCHES "#define __ARM_ARCH_7EM__ " AND named MATCHES "cortex-m7")
    set(found cortex-m7)
  elseif(macros MATCHES "#define __ARM_ARCH_7EM__ ")
    set(found cortex-m4)
  elseif(macros MATCHES "#define __ARM_ARCH_8(_1)?M_MAIN__ ")
    set(found cortex-m33)
  endif()
  if(found AND macros MATCHES "#define __ARM_PCS_VFP ")
    set(found "${found}f")
  endif()
  set(${out} "${found}" PARENT_SCOPE)
endfunction()

function(_cekarum_find out)
  _cekarum_macros(macros)
  set(found "")
  if(macros MATCHES "#define __ARM_ARCH_PROFILE (77|'M')")
    _cekarum_cortex("${macros}" found)
  elseif(macros MATCHES "#define __wasm32__ ")
    set(found wasm32)
  elseif(macros MATCHES "#define __riscv_xlen 32" AND macros MATCHES "#define __riscv_float_abi_soft ")
    set(found riscv32imac)
  elseif(macros MATCHES "#define __linux__ " AND macros MATCHES "#define __LP64__ ")
    if(macros MATCHES "#define __x86_64__ ")
      set(found x86_64-linux)
    elseif(macros MATCHES "#define __aarch64__ " AND NOT macros MATCHES "#define __AARCH64EB__ ")
      set(found aarch64-linux)
    elseif(macros MATCHES "#define __riscv_float_abi_double ")
      set(found riscv64-linux)
    endif()
  endif()
  set(${out} "${found}" PARENT_SCOPE)
endfunction()

set(_cekarum_target "${CEKARUM_TARGET}")
if(NOT _cekarum_target)
  _cekarum_find(_cekarum_target)
endif()
set(_cekarum_archive "${_cekarum_top}/lib/${_cekarum_target}/libcekarum.a")

if(NOT _cekarum_target OR NOT EXISTS "${_cekarum_archive}")
  file(GLOB _cekarum_targets RELATIVE "${_cekarum_top}/lib" "${_cekarum_top}/lib/*/libcekarum.a")
  string(REPLACE "/libcekarum.a" "" _cekarum_targets "${_cekarum_targets}")
  string(REPLACE ";" ", " _cekarum_targets "${_cekarum_targets}")
  if(CEKARUM_TARGET)
    set(cekarum_NOT_FOUND_MESSAGE "CEKARUM_TARGET is '${CEKARUM_TARGET}', which is none of: ${_cekarum_targets}")
  else()
    set(cekarum_NOT_FOUND_MESSAGE
        "no archive is known for this compiler, its flags and the processor '${CMAKE_SYSTEM_PROCESSOR}': set CEKARUM_TARGET to one of: ${_cekarum_targets}")
  endif()
  set(cekarum_FOUND FALSE)
  return()
endif()

if(NOT TARGET cekarum::cekarum)
  add_library(cekarum::cekarum STATIC IMPORTED)
  set_target_properties(cekarum::cekarum PROPERTIES
    IMPORTED_LOCATION "${_cekarum_archive}"
    IMPORTED_LINK_INTERFACE_LANGUAGES C
    INTERFACE_INCLUDE_DIRECTORIES "${_cekarum_top}/include")
  if(EXISTS "${_cekarum_top}/lib/${_cekarum_target}/libcekarum.so")
    add_library(cekarum::shared SHARED IMPORTED)
    set_target_properties(cekarum::shared PROPERTIES
      IMPORTED_LOCATION "${_cekarum_top}/lib/${_cekarum_target}/libcekarum.so"
      INTERFACE_INCLUDE_DIRECTORIES "${_cekarum_top}/include")
  endif()
endif()
