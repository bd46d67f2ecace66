# shellcheck shell=bash disable=SC2154,SC2164 # ../tollsalmon sources this
# ./tollsalmon install PREFIX

# The pkg-config file for a prefix; its version is the header's.
package_config() {
  cat <<T
prefix=$1
libdir=\${prefix}/lib
includedir=\${prefix}/include

Name: tollsalmon
Description: a proved scheduling core: analysis, machine and plan file
Version: $(sed -n 's/^#define TOLLSALMON_VERSION "\(.*\)"$/\1/p' include/tollsalmon.h)
Libs: -L"\${libdir}" -ltollsalmon
Cflags: -I"\${includedir}"
T
}

# A folder as the caller names it, from where the caller stands.
absolute() {
  local folder=$1
  [[ $folder == /* ]] || folder=$called_from/$folder
  realpath -ms -- "$folder"
}

put_file() {
  local words
  words=$(install -D -T -m 644 -- "$1" "$2" 2>&1) || die 4 "$(named "$2") could not be written: ${words#install: }"
  say "installed $(named "$2")"
}

install_files() {
  local prefix=$1 below=$2
  package_config "$prefix" >"$room/tollsalmon.pc"
  put_file target/staticlib/libtollsalmon.a "$below$prefix/lib/libtollsalmon.a"
  put_file include/tollsalmon.h "$below$prefix/include/tollsalmon.h"
  put_file "$room/tollsalmon.pc" "$below$prefix/lib/pkgconfig/tollsalmon.pc"
}

install_library() {
  local prefix=$1 below=${DESTDIR-}
  [[ -n $prefix && $prefix != -* ]] || { usage >&2 || :; exit 2; }
  prefix=$(absolute "$prefix")
  [[ $1$prefix != *[[:cntrl:]\"\\\$\`#]* ]] || die 2 "a pkg-config file can't hold the name $(named "$prefix")"
  [[ -z $below ]] || below=$(absolute "$below")
  make_room
  cd "$home"
  lock
  library
  install_files "$prefix" "$below"
  unlock
}
