# Images of littlefs as targets. Behind find_package(lfsed) there is the program's name, LFSED_PROGRAM, and a function:
#
#   lfsed_image(NAME FOLDER dir OUTPUT file [BLOCK bytes] COUNT n | SIZE bytes | LEAST [CHANGES script]
#               [NAME_MAX n] [FILE_MAX n] [ATTR_MAX n] [INLINE_MAX n] [DEPENDS target..] [ALL])
#
# The target NAME packs the folder at each build, so that all is seen that was added, renamed or deleted in it, folders without
# files and files of other targets too. OUTPUT is written where the image became another one, and only then: what depends on it is
# made again then. With CHANGES the steps of a script are carried out on the packed image, as `lfsed batch` does it.
#
# FOLDER, CHANGES and the files that the script names are looked for from the folder of the CMakeLists.txt on, OUTPUT from its build
# folder on. FOLDER, OUTPUT and CHANGES have no semicolon. The other words are those of `lfsed pack`; DEPENDS names targets that are
# built first, and ALL makes NAME a part of every build. The target's property LFSED_IMAGE is the image's whole name.
#
# Where a toolchain looks for packages in its own root alone, find_package(lfsed CONFIG NO_CMAKE_FIND_ROOT_PATH) finds it.

if(CMAKE_VERSION VERSION_LESS 3.16)
  set(lfsed_FOUND FALSE)
  set(lfsed_NOT_FOUND_MESSAGE "lfsed wants CMake 3.16 or later")
  return()
endif()
cmake_policy(VERSION 3.16)

find_program(LFSED_PROGRAM lfsed HINTS "${CMAKE_CURRENT_LIST_DIR}/../../../bin" NO_CMAKE_FIND_ROOT_PATH DOC "The program lfsed")
if(NOT LFSED_PROGRAM)
  set(lfsed_FOUND FALSE)
  set(lfsed_NOT_FOUND_MESSAGE "the program lfsed isn't there: set LFSED_PROGRAM to its name, or put it on the path")
  return()
endif()

# Ends with what is wrong in the words of a call.
function(_lfsed_judge name)
  if(IMAGE_UNPARSED_ARGUMENTS)
    message(FATAL_ERROR "lfsed_image(${name}): words that it doesn't take: ${IMAGE_UNPARSED_ARGUMENTS}")
  endif()
  if(IMAGE_KEYWORDS_MISSING_VALUES)
    message(FATAL_ERROR "lfsed_image(${name}): no value follows ${IMAGE_KEYWORDS_MISSING_VALUES}")
  endif()
  foreach(word FOLDER OUTPUT)
    if(NOT IMAGE_${word})
      message(FATAL_ERROR "lfsed_image(${name}): ${word} has to be said")
    endif()
  endforeach()
  foreach(word FOLDER OUTPUT CHANGES)
    if("${IMAGE_${word}}" MATCHES ";")
      message(FATAL_ERROR "lfsed_image(${name}): ${word} has a semicolon, which stands between words in CMake: ${IMAGE_${word}}")
    endif()
  endforeach()
endfunction()

# Puts the options of `lfsed pack` into a variable.
function(_lfsed_options name options)
  set(found)
  foreach(word BLOCK COUNT SIZE NAME_MAX FILE_MAX ATTR_MAX INLINE_MAX)
    if(DEFINED IMAGE_${word})
      string(TOLOWER ${word} option)
      string(REPLACE _ - option ${option})
      list(APPEND found --${option} ${IMAGE_${word}})
    endif()
  endforeach()
  if(IMAGE_LEAST)
    list(APPEND found --least)
  endif()
  string(REGEX MATCHALL "--(count|size|least)" sizes "${found}")
  list(LENGTH sizes many)
  if(NOT many EQUAL 1)
    message(FATAL_ERROR "lfsed_image(${name}): exactly one of COUNT, SIZE and LEAST is needed")
  endif()
  set(${options} ${found} PARENT_SCOPE)
endfunction()

# Makes a target of a folder: see above.
function(lfsed_image name)
  set(values FOLDER OUTPUT BLOCK COUNT SIZE CHANGES NAME_MAX FILE_MAX ATTR_MAX INLINE_MAX)
  cmake_parse_arguments(PARSE_ARGV 1 IMAGE "LEAST;ALL" "${values}" DEPENDS)
  _lfsed_judge(${name})
  _lfsed_options(${name} options)
  get_filename_component(folder "${IMAGE_FOLDER}" ABSOLUTE)
  get_filename_component(output "${IMAGE_OUTPUT}" ABSOLUTE BASE_DIR "${CMAKE_CURRENT_BINARY_DIR}")
  get_filename_component(place "${output}" DIRECTORY)
  # A new image, which isn't the output before all is done.
  set(room "${CMAKE_CURRENT_BINARY_DIR}/CMakeFiles/${name}.lfsed")
  get_filename_component(made "${room}/${IMAGE_OUTPUT}" NAME)
  set(made "${room}/${made}")
  set(commands COMMAND "${LFSED_PROGRAM}" pack ${options} -- "${made}" "${folder}")
  if(IMAGE_CHANGES)
    get_filename_component(changes "${IMAGE_CHANGES}" ABSOLUTE)
    set(most)
    if(DEFINED IMAGE_INLINE_MAX)
      set(most --inline-max ${IMAGE_INLINE_MAX})
    endif()
    list(APPEND commands COMMAND "${LFSED_PROGRAM}" batch --block auto ${most} -- "${made}" "${changes}")
  endif()
  set(all)
  if(IMAGE_ALL)
    set(all ALL)
  endif()
  add_custom_target(
    ${name} ${all}
    COMMAND "${CMAKE_COMMAND}" -E make_directory "${room}" "${place}"
    ${commands}
    COMMAND "${CMAKE_COMMAND}" -E copy_if_different "${made}.lfsj" "${output}.lfsj"
    COMMAND "${CMAKE_COMMAND}" -E copy_if_different "${made}" "${output}"
    BYPRODUCTS "${output}" "${output}.lfsj"
    WORKING_DIRECTORY "${CMAKE_CURRENT_SOURCE_DIR}"
    COMMENT "Packing ${IMAGE_FOLDER} into ${IMAGE_OUTPUT}"
    VERBATIM)
  if(IMAGE_DEPENDS)
    add_dependencies(${name} ${IMAGE_DEPENDS})
  endif()
  set_target_properties(${name} PROPERTIES LFSED_IMAGE "${output}")
endfunction()
