# Part of .ci/stack: reads 'objdump -r' and then 'objdump -d -r' of an archive and prints facts, one to a line:
#
#     stack NAME BYTES       the most stack that a function can need, its own return address included
#     below NAME BYTES       how far below the stack pointer a function reads or writes, where it does
#     vector NUMBER          an xmm register that is used
#     relocation TYPE        a relocation that the linker is asked for
#
# It follows every path of every function. Whatever it does not know ends it with a complaint and the status 1.

BEGIN {
    RETURN = 8
    known("mov movl movq movb movw movabs movslq movzbl movzwl movsbl lea cmp cmpl cmpq cmpb test testl testb")
    known("add addl addq adc sub subl subq sbb inc incl dec decl neg not imul mul and andl or orl xor xorl bt")
    known("shl shll shr shrl sar rol ror sete setne setb setbe seta setae cmove cmovne cmovb cmovbe cmova cmovae")
    known("nop nopw nopl push pop call ret jmp je jne jb jbe ja jae js jns")
    # tzcnt is bsf on a processor that does not know it: both answer the same, since the word is never zero there
    known("tzcnt")
    # SSE and SSE2, which every x86-64 has
    known("movd movdqa movdqu movaps movups movsd movlps movmskps pxor por pand paddd pcmpeqd pshufd xorps")
}

function known(words, list, count) { count = split(words, list, " "); while (count) is_known[list[count--]] = 1 }

function give_up(what) { printf "stack: %s: %s\n", name, what >"/dev/stderr"; failed = 1; exit 1 }

# A number in hexadecimal, with a sign before it or in two's complement.
function hex(text, sign, value, place) {
    sign = 1
    if (sub(/^-/, "", text)) sign = -1
    sub(/^0x/, "", text)
    if (length(text) == 16 && text ~ /^ffffffff/) return sign * (hex(substr(text, 9)) - 4294967296)
    for (place = 1; place <= length(text); place++) value = value * 16 + index("0123456789abcdef", substr(text, place, 1)) - 1
    return sign * value
}

# NAME+0x10 or NAME-0x4: sets symbol and addend.
function reference(text) {
    symbol = text; addend = 0
    if (match(text, /[-+]0x[0-9a-f]+$/)) {
        symbol = substr(text, 1, RSTART - 1)
        addend = hex(substr(text, RSTART + (substr(text, RSTART, 1) == "+")))
    }
    sub(/^\.text\./, "", symbol)
}

# ---- objdump -r: the tables of jumps ----

/^RELOCATION RECORDS FOR / { section = substr($4, 2, length($4) - 3); next }
/^Disassembly of section/ { section = ""; next }
section != "" && $2 ~ /^R_X86_64_/ {
    relocations[$2] = 1
    if (section ~ /^\.rodata\./) {
        name = substr(section, 9)
        reference($3)
        if (symbol != name || $2 != "R_X86_64_PC32") give_up("a table that leads elsewhere: " $0)
        entry_to[name, entries[name] + 0] = addend
        entry_at[name, entries[name]++] = hex($1)
    }
    next
}

# ---- objdump -d -r: the instructions ----

/^[0-9a-f]+ <.*>:$/ {
    name = substr($2, 2, length($2) - 3)
    if (name in lines) give_up("two functions of one name")
    names[++functions] = name
    lines[name] = 0
    next
}
/^[ \t]*[0-9a-f]+:[ \t]/ {
    if ($2 ~ /^R_X86_64_/) { refer(); next }
    line = ++lines[name]
    place[name, line] = substr($1, 1, length($1) - 1)
    line_at[name, hex(place[name, line])] = line
    op[name, line] = plain($2)
    args[name, line] = $3
    look()
    next
}

# A relocation belongs to the instruction above it.
function refer() {
    reference($3)
    if (symbol == ".rodata." name) base[name, bases[name]++] = addend + 4
    target[name, lines[name]] = symbol
}

# Some objdumps say callq for call.
function plain(word) { if (word ~ /^(call|ret|push|pop|jmp)q$/) sub(/q$/, "", word); return word }

# What is asked of each instruction by itself.
function look(text, number) {
    text = $0
    if (text ~ /\t(data16 |cs )+nopw? / || text ~ /\txchg +%ax,%ax$/) { op[name, line] = "nop"; return }
    if (!(op[name, line] in is_known)) give_up("an instruction that is not known here: " text)
    if (text ~ /%([cdefgs]s([:,)]|$)|st|mm[0-7]|ymm|zmm|k[0-7]|cr|dr)/) give_up("a register that is not known here: " text)
    while (match(text, /%xmm[0-9]+/)) {
        vector[substr(text, RSTART + 4, RLENGTH - 4)] = 1
        text = substr(text, RSTART + RLENGTH)
    }
    if (match($3, /-0x[0-9a-f]+\(%rsp/)) {
        number = -hex(substr($3, RSTART, RLENGTH - 5))
        reach[name, line] = number
        if (number > below[name]) below[name] = number
    }
}

# ---- The walk ----

# How an instruction moves the stack pointer, in bytes down.
function lowers(name, line, how, what) {
    how = op[name, line]; what = args[name, line]
    if (how == "push") return 8
    if (how == "pop" && what != "%rsp") return -8
    if (what !~ /,%[re]?spl?$/ && what !~ /^%[re]?spl?$/) return 0
    if (how ~ /^(cmp|test)q?$/) return 0
    if (match(what, /^\$0x[0-9a-f]+,%rsp$/) && (how == "sub" || how == "add"))
        return (how == "sub" ? 1 : -1) * hex(substr(what, 2, index(what, ",") - 2))
    give_up("the stack pointer is moved in a way not known here: " how " " what)
}

# An instruction is reached with so many bytes on the stack: always as many.
function reached(name, line, bytes) {
    if (!((name, line) in op)) give_up("a path leads out of the function")
    if ((name, line) in depth) {
        if (depth[name, line] != bytes) give_up("two paths meet with different stacks at " place[name, line])
        return
    }
    depth[name, line] = bytes
    work[++waiting] = line
}

function leads(name, where, bytes) {
    if (!((name, where) in line_at)) give_up("a jump into the middle of an instruction, or out of the function")
    reached(name, line_at[name, where], bytes)
}

# A jump by a table: any of the function's tables, each entry counted from its table's start.
function leads_by_table(name, bytes, entry, which, start) {
    if (!entries[name] || !bases[name]) give_up("an indirect jump without a table")
    for (entry = 0; entry < entries[name]; entry++) {
        start = -1
        for (which = 0; which < bases[name]; which++)
            if (base[name, which] <= entry_at[name, entry] && base[name, which] > start) start = base[name, which]
        if (start < 0) give_up("an entry before every table")
        leads(name, entry_to[name, entry] - (entry_at[name, entry] - start), bytes)
    }
}

function follow(name, line, how, what, bytes) {
    how = op[name, line]; what = args[name, line]
    bytes = depth[name, line] + lowers(name, line)
    if (bytes < RETURN) give_up("more is taken off the stack than was put there")
    if (how == "ret") {
        if (what != "" || bytes != RETURN) give_up("a return with " bytes - RETURN " bytes still on the stack, or that takes more off")
        return
    }
    if (how ~ /^j/ && what ~ /^\*/) { leads_by_table(name, bytes); return }
    if (how ~ /^j/) {
        if ((name, line) in target) give_up("a jump to another function")
        leads(name, hex(what), bytes)
    }
    if (how == "call") {
        if (what ~ /^\*/) give_up("an indirect call")
        if (!((name, line) in target)) give_up("a call without a relocation")
    }
    if (how != "jmp") reached(name, line + 1, bytes)
}

function walk(name, line) {
    waiting = 0
    reached(name, 1, RETURN)
    while (waiting) { line = work[waiting--]; follow(name, line) }
    for (line = 1; line <= lines[name]; line++)
        if (!((name, line) in depth) && op[name, line] !~ /^nop/)
            give_up("an instruction that no path reaches: " op[name, line] " " args[name, line])
}

# The most stack of a function and all that it calls. What is not in the archive is the host's: its return address is counted.
function most(name, line, here) {
    if (!(name in lines)) return RETURN
    if (name in open) give_up("it calls itself, perhaps by others")
    if (name in need) return need[name]
    open[name] = 1
    for (line = 1; line <= lines[name]; line++) {
        if (!((name, line) in depth)) continue
        here = depth[name, line] + lowers(name, line)
        if ((name, line) in reach) here += reach[name, line]
        if (op[name, line] == "call") here += most(target[name, line])
        if (here > need[name]) need[name] = here
    }
    delete open[name]
    return need[name]
}

END {
    if (failed) exit 1
    if (!functions) give_up("no function found")
    for (which = 1; which <= functions; which++) { name = names[which]; walk(name) }
    for (which = 1; which <= functions; which++) { name = names[which]; print "stack", name, most(name) }
    for (name in below) if (below[name]) print "below", name, below[name]
    for (number in vector) print "vector", number
    for (type in relocations) print "relocation", type
}
