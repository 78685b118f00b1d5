# portable.awk MODULE.ll: looks at every line of the proved module, printed by clang, for anything that could mean something else on Arm than
# on x86-64, for which it was lowered. What is not known to mean the same is refused: the words of the language (instructions, types,
# attributes), the functions outside, the layout of data and the eight functions for C. Prints what it refuses; the exit status is then 1.

function known(words,   all, n, i) {
    n = split(words, all, " ")
    for (i = 1; i <= n; i++) same[all[i]] = 1
}

function refuse(why) {
    if (refused++ < 20) print "line " NR ": " why ": " substr($0, 1, 100)
}

BEGIN {
    # Integers of at most 64 bits, pointers, and what is done with them: nothing of it depends on the machine. Left out on purpose: assembly,
    # vectors and floats, atomic and volatile access, 128-bit integers, other address spaces, sret, byval, inreg, calling conventions, and globals
    # but the bytes of byte strings, which nothing writes.
    known("define declare internal void ptr i1 i8 i16 i32 i64 x to label align true false null")
    known("alloca load store getelementptr inbounds call ret br switch unreachable select phi extractvalue")
    known("icmp eq ne ult ule ugt uge slt sle sgt sge zext sext trunc nuw nsw exact disjoint")
    known("add sub mul udiv urem sdiv srem and or xor shl lshr ashr")
    known("noundef zeroext signext immarg captures none readonly writeonly readnone nonnull")

    outside["llvm.memmove.p0.p0.i64"] = outside["llvm.memcpy.p0.p0.i64"] = outside["llvm.memset.p0.i64"] = 1
    outside["llvm.trap"] = 1                          # ends the process, where the proof says that nothing comes
    outside["llvm.cttz.i64"] = outside["llvm.ctlz.i64"] = outside["llvm.ctpop.i64"] = 1

    split("nounwind nocallback nofree nosync speculatable willreturn mustprogress norecurse memory(argmem: readwrite) " \
          "memory(argmem: write) memory(argmem: read) memory(none) memory(inaccessiblemem: write) alwaysinline noinline cold noreturn", said, " ")
    for (i in said) promise[said[i]] = 1
    promise["\"probe-stack\"=\"inline-asm\""] = 1   # long frames touch each page of the stack: both machines have it
    promise["\"stack-probe-size\"=\"3072\""] = 1    # and how far apart they touch it
    promise["\"target-cpu\"=\"x86-64\""] = 1        # the plainest x86-64; names no processor of Arm, and is ignored there

    four = "ptr,i64"                                  # a byte string or a room
    entry["kerumpase_read_at"] = "ptr(ptr," four "," four ",i64," four ")"
    entry["kerumpase_read_latest"] = "ptr(ptr," four "," four "," four ")"
    entry["kerumpase_read_due"] = "ptr(ptr," four ",i64," four ")"
    entry["kerumpase_clean"] = "ptr(ptr," four ",i64,i64," four "," four "," four ")"
    entry["kerumpase_keep"] = "ptr(ptr," four "," four "," four ")"
    entry["kerumpase_directory"] = "{i64,i64}(" four "," four ")"
    entry["kerumpase_path_of"] = "{i64,i64}(" four ")"
    entry["kerumpase_records_of"] = "{i64,i64}(" four ")"
}

/^(;.*)?$/ || /^source_filename = / || /^!/ || /^}$/ { next }

/^target datalayout = / {
    layouts++
    if ($0 !~ /"e-/) refuse("not little-endian")
    if ($0 ~ /[-"]p(0)?:/ ) refuse("pointers that are not of 64 bits")
    if ($0 !~ /-i64:64(-|")/) refuse("64-bit integers are not aligned to 8")
    next
}

/^target triple = / {
    triples++
    if ($0 != "target triple = \"x86_64-unknown-linux-gnu\"") refuse("another machine")
    next
}

/^attributes #[0-9]+ = \{ .* \}$/ {
    words = $0
    sub(/^attributes #[0-9]+ = \{ /, "", words)
    sub(/ \}$/, "", words)
    n = split(words, said, " ")
    for (i = 1; i <= n; i++) if (!(said[i] in promise)) refuse("an attribute that is not known, " said[i])
    next
}

# A function that others may call: its arguments and its answer are those that library/entries.c declares.
/^define / && $2 != "internal" {
    name = $0
    sub(/^[^@]*@/, "", name)
    sub(/\(.*/, "", name)
    shape = $0
    sub(/^define /, "", shape)
    sub(/@[^(]*/, "", shape)
    sub(/\) #[0-9]+ \{$/, ")", shape)
    gsub(/ %[A-Za-z0-9_.]+/, "", shape)
    gsub(/noundef/, "", shape)
    gsub(/ /, "", shape)
    if (!(name in entry)) refuse("a function for C that is not known, " name)
    else if (entry[name] != shape) refuse("another shape than " entry[name])
    entries[name]++
}

/^@static\.[0-9]+ = private unnamed_addr constant \[[0-9]+ x i8\] (c"[^"]*"|zeroinitializer), align 1$/ { next }

# A table of byte strings, which nothing writes: packed, so without padding, of pointers into itself, lengths and bytes. Pointers have eight bytes and
# the low byte comes first on both machines, so each byte of it is the same.
/^@static\.[0-9]+ = private constant <\{ / {
    table = $1
    line = $0
    if (sub(/^@static\.[0-9]+ = private constant <\{ (ptr|\[[0-9]+ x i8\])(, (ptr|\[[0-9]+ x i8\]))* \}> <\{ /, "", line) && sub(/ \}>, align 8$/, "", line)) {
        gsub(/\[[0-9]+ x i8\] (c"[^"]*"|zeroinitializer)/, "", line)
        into = "ptr getelementptr (i8, ptr " table ", i64 "
        while ((at = index(line, into)) && match(substr(line, at + length(into)), /^[0-9]+\)/))
            line = substr(line, 1, at - 1) substr(line, at + length(into) + RLENGTH)
        if (line ~ /^[, ]*$/) next
    }
    refuse("a table that is not of byte strings")
    next
}

{
    line = $0
    sub(/;.*/, "", line)
    gsub(/@"[^"]*"/, "@\"\"", line)                   # names of functions, which of generic ones have < and >
    if (line ~ /^@/) refuse("a global")
    if (line ~ /</) refuse("a vector, or a packed struct")
    if (line ~ /\.\.\./) refuse("arguments without end")
    if (line ~ /^declare / || line ~ /^  (%[^ ]* = )?call [^@]*@[^"]/) {
        name = line
        sub(/^[^@]*@/, "", name)
        sub(/\(.*/, "", name)
        if (!(name in outside)) refuse("a function outside that is not known, " name)
    }
    sub(/^define .* \{$/, "&}", line)
    sub(/\{\}$/, " ", line)
    # A pair, its second part at 1, 2, 4 or 8 on both machines, as it is answered, read whole and taken apart.
    if (line ~ /^(define (internal )?(noundef )?|  ret |  %[^ ]* = (load|(call|extractvalue) (noundef )?) ?)\{/)
        sub(/\{ (i8|i16|i32|i64|ptr), (i8|i16|i32|i64|ptr) \}/, " ", line)
    if (line ~ /[{}]/) refuse("a struct, whose layout is not known to be the same")
    gsub(/@""/, " ", line)
    sub(/^[A-Za-z0-9_.]+:/, "", line)                 # labels
    gsub(/[@%!#][A-Za-z0-9_.]+/, " ", line)           # names of values, marks, attributes
    gsub(/[][()=,*]/, " ", line)
    n = split(line, said, " ")
    for (i = 1; i <= n; i++)
        if (said[i] !~ /^-?[0-9]+$/ && !(said[i] in same)) refuse("a word that is not known to mean the same, " said[i])
}

END {
    if (layouts != 1 || triples != 1) refuse("the module does not say its layout and machine once")
    for (name in entry) if (entries[name] != 1) refuse("the function " name " is not there once")
    if (refused > 20) print "and " refused - 20 " more"
    exit refused > 0
}
