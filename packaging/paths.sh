# The places of what is installed, for install.sh and uninstall.sh.
#
#   PREFIX    /usr/local; an absolute path
#   LIBDIR    lib; below PREFIX, "lib/x86_64-linux-gnu" for a Debian package
#   DESTDIR   empty; a folder to install into, which the installed files do not name

usage() { echo "usage: PREFIX=/usr/local [LIBDIR=lib] [DESTDIR=folder] $0" >&2; exit 2; }
[ $# -eq 0 ] || usage

prefix=${PREFIX:-/usr/local}
libdir=${LIBDIR:-lib}
destdir=${DESTDIR:-}
say() { echo "$(basename "$0"): $*" >&2; exit 1; }
case "$prefix" in /*) ;; *) say "PREFIX must be an absolute path, not '$prefix'" ;; esac
# pkg-config and the shells of those who use it take a blank for the end of a path
case "$prefix$libdir" in *[[:space:]]*) say "PREFIX and LIBDIR must have no blanks" ;; esac

header=$destdir$prefix/include/ollskuvan.h
archive=$destdir$prefix/$libdir/libollskuvan.a
words=$destdir$prefix/$libdir/libollskuvan_words.a
pc=$destdir$prefix/$libdir/pkgconfig/ollskuvan.pc
program=$destdir$prefix/bin/ollskuvan
program_page=$destdir$prefix/share/man/man1/ollskuvan.1
library_page=$destdir$prefix/share/man/man3/ollskuvan.3
# every function of the header has a page by its own name, which leads to the library's
functions=$(grep -oE '\bollskuvan_[a-z_]+\(' "$here/../include/ollskuvan.h" | tr -d '(' | sort -u)
page_of() { echo "$destdir$prefix/share/man/man3/$1.3"; }
