# A module of the proved archive, as text, for another target. Every line must be of a form that is known here; another one is an error,
# not a guess. Changed are these lines and no others:
#
#   target datalayout, target triple    left out: the compiler puts its target's own
#   attributes                          without the processor's name, x86-64
#   an export that tells a struct in memory: its place is the first argument on x86-64 and handed back. Elsewhere it may stand in a
#       register of its own, and nothing is handed back: marked as what it is (sret)
#   the address of a place as a number, `ptrtoaddr .. to i64`, by which a copy asks whether two places overlap: written `ptrtoint`, which a processor of
#       32 bits has too; there the number is the address with zeros above it, and the differences that are asked for are the same
#   -v sign=1 (riscv64): a number of 32 bits that an export or main returns, or a function of the C library is given, is widened by its sign, as
#       that machine's convention wants
#   -v wide=1 (32 bits): exports are called ollskuvan_wide_X, functions of the C library wide_X: narrow/ calls and defines these. What is told in two
#       registers of 64 bits, which C knows no type for there, is told in memory
#       A load of { i8, ptr } finds its pointer at byte 8, where the module put it; 32 bits would look at byte 4. So each part is loaded from its
#       place; but for { ptr, i64 }, whose parts have the same places there, another struct with a pointer is not known
BEGIN {
    layout = "target datalayout = \"e-m:e-p270:32:32-p271:32:32-p272:64:64-i64:64-i128:128-f80:128-n8:16:32:64-S128\""
    split("alloca load store getelementptr call zext sext trunc br ret switch unreachable phi select icmp add sub mul udiv urem ptrtoaddr and or xor shl lshr extractvalue insertvalue", words, " ")
    for (i in words) known[words[i]] = 1
    split("nounwind nobuiltin nocallback nocreateundeforpoison nofree nosync speculatable willreturn noreturn cold noinline alwaysinline memory(argmem:_readwrite) memory(argmem:_write) memory(none) memory(inaccessiblemem:_write) \"probe-stack\"=\"inline-asm\" \"stack-probe-size\"=\"3072\"", words, " ")
    for (i in words) attribute[words[i]] = 1
}
function wrong(why) {
    printf "retarget: line %d of the module: %s: %s\n", NR, why, substr($0, 1, 200) > "/dev/stderr"
    failed = 1
    exit 1
}
# A call or a declaration of a function of the C library, as the target's is.
function of_c(line) {
    if (line !~ / @(read|write|__xpg_strerror_r|__sysv_signal)\(i32/) return line
    if (wide) { sub(/@(__xpg_|__sysv_)?/, "@wide_", line) }
    if (sign) sub(/\(i32/, "(i32 signext", line)
    return line
}
# The load of a struct of a byte and a pointer, each from its place.
function load_parts(name, place) {
    printf "  %s.first = load i8, ptr %s, align 8\n  %s.place = getelementptr i8, ptr %s, i64 8\n", name, place, name, place
    printf "  %s.second = load ptr, ptr %s.place, align 8\n  %s.half = insertvalue { i8, ptr } poison, i8 %s.first, 0\n", name, name, name, name
    printf "  %s = insertvalue { i8, ptr } %s.half, ptr %s.second, 1\n", name, name, name
}
# What names a processor, an address as a number or a type that no module had so far.
/asm|addrspace|ptrtoint|inttoptr|x86_|i128|float|double|half|atomic|volatile|va_arg|thread_local|comdat|section|gc / {
    if ($0 !~ /^(target|attributes) / && $0 !~ /^[;!]/ && $0 !~ /@"[^"]*(section|half)[^"]*"/) wrong("a word that is not known")
}
/^$/ || /^;/ || /^source_filename = "rattle"$/ { print; next }
/^target datalayout = / { if ($0 != layout) wrong("another layout"); seen["layout"]++; next }
/^target triple = / { if ($0 != "target triple = \"x86_64-unknown-linux-gnu\"") wrong("another processor"); seen["triple"]++; next }
/^attributes #[0-9]+ = \{ .* \}$/ {
    seen["cpu"] += sub(/ "target-cpu"="x86-64"/, "")
    text = $0
    sub(/^attributes #[0-9]+ = \{ /, "", text); sub(/ \}$/, "", text); gsub(/: /, ":_", text)
    count = split(text, words, " ")
    for (i = 1; i <= count; i++) if (!(words[i] in attribute)) wrong("an attribute that is not known, " words[i])
    print; next
}
/^!llvm\.ident = !\{!0\}$/ || /^![0-9]+ = !\{(!"rattle logic=[0-9a-f]+"|i(8|16|32|64) [0-9]+, i(8|16|32|64) [0-9]+)?\}$/ { print; next }
/^declare void @llvm\.mem(move\.p0|cpy\.p0|set)\.p0\.i64\(/ || /^declare void @llvm\.(trap|assume)\(/ || /^declare i(8|16|32|64) @llvm\.[a-z.]+\.i(8|16|32|64)\(/ { print; next }
# the functions of the C library that the program calls, and the one beside it that tells the last error
/^declare (noundef )?(i64 @(read|write)|i32 @__xpg_strerror_r)\(i32( noundef)?, ptr( noundef)?, i64( noundef)?\)( #[0-9]+)?$/ || /^declare i64 @__sysv_signal\(i32, i64\)( #[0-9]+)?$/ { print of_c($0); next }
/^declare noundef i32 @rattle_errno\(\)( #[0-9]+)?$/ { print; next }
/^@[A-Za-z0-9_."]+ = (private|internal) (unnamed_addr )?constant \[[0-9]+ x i(8|16|32|64)\] / { print; next }
/^define internal / { if (inside) wrong("a function within another"); inside = 1; told = ""; print; next }
/^define (noundef )?i32 @main\(\) #[0-9]+ \{$/ {
    inside = 1; told = ""; exports++
    if (sign) sub(/i32 @/, "signext i32 @")
    print; next
}
/^define .*@ollskuvan_[a-z_]+\(/ {
    inside = 1; told = ""; exports++
    if (wide) sub(/@ollskuvan_/, "@ollskuvan_wide_")
    if ($0 ~ /^define (noundef )?ptr @[a-z_]+\(ptr noundef %a0[,)]/) {
        sub(/^define (noundef )?ptr /, "define void ")
        sub(/ptr noundef %a0/, "ptr noundef sret([8 x i8]) align 8 %a0") # 8 bytes and more
        told = "memory"
    } else if ($0 ~ /^define \{ i64, i64 \} @/) {
        if (wide) {
            sub(/^define \{ i64, i64 \} /, "define void ")
            sub(/\(/, "(ptr noundef sret([8 x i8]) align 8 %told, ")
            told = "registers"
        }
    } else if ($0 ~ /^define (noundef )?i32 @/) {
        if (sign) sub(/i32 @/, "signext i32 @")
    } else if ($0 !~ /^define (noundef )?i64 @/) wrong("an export that tells what is not known")
    print; next
}
/^define / { wrong("a function that is not known") }
/^}$/ { if (!inside) wrong("an end without a function"); inside = 0; print; next }
!inside { wrong("a line that is not known") }
/^[A-Za-z0-9_.]+:( +; (preds = .*|No predecessors!))?$/ { print; next }
told == "memory" && /^  ret ptr %a0$/ { print "  ret void"; next }
told == "registers" && /^  ret \{ i64, i64 \} %[A-Za-z0-9_.]+$/ {
    printf "  %%told.first = extractvalue { i64, i64 } %s, 0\n  store i64 %%told.first, ptr %%told, align 8\n", $NF
    printf "  %%told.second = extractvalue { i64, i64 } %s, 1\n  %%told.place = getelementptr i8, ptr %%told, i64 8\n", $NF
    printf "  store i64 %%told.second, ptr %%told.place, align 8\n  ret void\n"
    next
}
told != "" && /^  ret / { wrong("an end of another form") }
/^    i(8|16|32|64) -?[0-9]+, label %/ || /^  \]$/ { print; next }
/^  / {
    opcode = $2 == "=" ? $3 : $1
    if (!(opcode in known)) wrong("an instruction that is not known")
    if (opcode == "ptrtoaddr" && !sub(/ = ptrtoaddr ptr %[A-Za-z0-9_.]+ to i64$/, "&")) wrong("an address as a number of another width")
    sub(/ = ptrtoaddr ptr /, " = ptrtoint ptr ")
    if (wide && opcode == "load" && / = load \{ i8, ptr \}, ptr %[A-Za-z0-9_.]+, align 8$/) { load_parts($1, substr($9, 1, length($9) - 1)); next }
    if (wide && (opcode == "load" || opcode == "store") && / (load|store) [{][^}]*ptr[^}]*[}]/ && !/ (load|store) [{] ptr, i64 [}]/) wrong("a struct with a pointer that is not known")
    print opcode == "call" ? of_c($0) : $0; next
}
{ wrong("a line that is not known") }
END {
    if (failed) exit 1
    if (inside || !exports || seen["layout"] != 1 || seen["triple"] != 1 || seen["cpu"] < 1) {
        print "retarget: no whole module: its exports, layout, triple and processor are not all there" > "/dev/stderr"
        exit 1
    }
}
