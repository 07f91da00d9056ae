#!/usr/bin/env bash
# Public functions without a theorem of uniqueness: none. A function is public if another crate can call it: `pub fn` in a crate's lib.rt, or in a
# module that lib.rt declares `pub mod`, or a method of a trait of the tree for a type that is not private; none can call a static library. For its
# result, and for each slice that it is lent for writing, there must be a theorem in crates/uniqueness/specs/Unique.antt over its own contract
# (`ALIAS.PATH.Reads.Learnt`).
# What is left open stands in docs/UNIQUENESS.md, between two marks there, a name to a line, and between two others what has a theorem over a part of its
# result and not over the whole; a name there that has its theorems, or that no crate has, is wrong too.
set -u
cd "$(dirname "$0")/.." || exit 2
unique=crates/uniqueness/specs/Unique.antt
page=docs/UNIQUENESS.md
open=$(sed -n '/^<!-- open -->/,/^<!-- end -->/s/^- `\([a-z0-9_:]*\)`.*/\1/p' "$page")
part=$(sed -n '/^<!-- part -->/,/^<!-- end -->/s/^- `\([A-Za-z0-9_:]*\)`.*/\1/p' "$page")
bad=0 count=0 parts=0 names=' '
say() { printf 'uniqueness: %s\n' "$*"; bad=1; }

# the traits of the tree that another crate can name
traits=$(sed -n 's/^pub trait \([A-Za-z0-9_]*\).*/\1/p' crates/*/src/*.rt | sort -u | tr '\n' ' ')

# PATH and how much it gives: a result, slices at exit; a method gives one thing. Of a trait of the tree, a method for a type that is not private is
# TYPE and TRAIT in one name, as a proof has it: OneSetJudge.judge
functions() { # FILE PREFIX
  awk -v prefix="$2" -v traits=" $traits" '
    function plain(type) { # its name without lifetimes; [u64; 7] is ArrayU647
      sub(/<.*/, "", type); sub(/^\[/, "Array", type); gsub(/[^A-Za-z0-9]/, "", type); sub(/u64/, "U64", type)
      return toupper(substr(type, 1, 1)) substr(type, 2)
    }
    FNR == NR { if (/^(struct|enum) /) { name = $2; sub(/[^A-Za-z0-9_].*/, "", name); private[name] }; next }
    /^impl/ {
      owner = $0; sub(/^impl(<[^>]*>)? */, "", owner); type = owner; met = 0
      sub(/[^A-Za-z0-9_].*/, "", owner)
      if (type ~ / for / && index(traits, " " owner " ")) {
        sub(/.* for /, "", type); sub(/ *{.*/, "", type); met = !(plain(type) in private); owner = plain(type) owner
      }
    }
    /^}/ { owner = ""; met = 0 }
    /^ *pub (extern "C" )?fn / || (met && /^    fn /) {
      name = $0; sub(/^ *(pub )?(extern "C" )?fn /, "", name); sub(/[^A-Za-z0-9_].*/, "", name)
      inside = ($0 ~ /^ /) ? owner : ""; gives = 0; head = 1; self = !met
    }
    head {
      if ($0 ~ /^ *(ensures|requires|\{)/) {
        head = 0; print prefix (inside == "" ? "" : inside ".") name, (inside != "" && self ? 1 : gives)
      } else {
        if ($0 ~ /&(mut )?self/) self = 1
        gives += gsub(/&mut/, "&"); if ($0 ~ /->/) gives++
        if ($0 ~ /\{$/) { head = 0; print prefix (inside == "" ? "" : inside ".") name, (inside != "" && self ? 1 : gives) }
      }
    }' "$1" "$1"
}

# how many theorems speak of the contract, and how many of these of a whole result or of a whole slice at exit
theorems() { # CALL
  awk -v call=" $1." '
    function theorem() {
      said = text; gsub(/[(]/, " ", said) # of a generic function the contract stands in brackets, with its type
      if (!index(said, call "Reads.Learnt")) return
      all++
      if (text ~ /(:|→) Result / || text ~ /\(λ κs x s\. s[.0-9]*\.now\)/ || text ~ /\(λ κs x\. x\)/) whole++
    }
    /^ *pub / { theorem(); text = "" }
    { text = text " " $0 }
    END { theorem(); print all + 0, whole + 0 }' "$unique"
}

for lib in crates/*/src/lib.rt; do
  crate=$(basename "$(dirname "$(dirname "$lib")")")
  ! grep -q "^$crate staticlib" crates.txt || continue
  alias=$(sed -n "s/^use Rattle\.$crate\.proofs as \([a-z_-]*\)$/\1/p" "$unique")
  while read -r path gives; do
    [ "$path" = nothing ] && continue # a crate has a function; this one says nothing
    name=$crate::${path//./::}
    names="$names$name "
    read -r have whole <<<"$(theorems "${alias:-none of them}.$path")"
    if grep -qxF "$name" <<<"$open"; then
      [ "$have" -lt "$gives" ] || say "$name has its theorems, and is listed in $page as left open"
    elif [ "$have" -lt "$gives" ]; then
      say "$name gives $gives, and has $have theorems in uniqueness/Unique"
    elif grep -qxF "$name" <<<"$part"; then
      [ "$whole" -lt "$gives" ] || say "$name has its theorems, and is listed in $page as shown in part"
      parts=$((parts + 1))
    elif [ "$whole" -lt "$gives" ]; then
      say "$name gives $gives, and $whole theorems in uniqueness/Unique are over the whole of it"
    else
      count=$((count + 1))
    fi
  done < <(functions "$lib" ''; for m in $(sed -n 's/^pub mod \([a-z0-9_]*\);.*/\1/p' "$lib"); do functions "crates/$crate/src/$m.rt" "$m."; done)
done
for name in $open $part; do
  case $names in *" $name "*) ;; *) say "$name is listed in $page, and no crate has it" ;; esac
done
[ "$bad" -eq 0 ] && echo "uniqueness: $count public functions, each with its theorems; $parts in part; $(grep -c . <<<"$open") left open"
exit "$bad"
