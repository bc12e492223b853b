# Part of .ci/moved: reads the files of crates/ in two trees, before/ and after/, and prints facts, one to a line, with tabs between:
#
#     changed | new | gone  KIND NAME      what has a name and another text, or none on the other side
#     stayed KIND COUNT                    how many have the same text
#     moved KIND NAME FROM TO              the very same text is gone from one place and new in another
#     uses PATH                            a file whose lines of use and mod differ, and that stands in both trees or has nothing else
#     quiet PATH                           a file that changed, and of all that nothing in it
#     other PATH                           a file that changed and is none of those read here
#
# KIND is definition, promise, contract, code, type, proof, law or edit. The file 'changed' comes first and lists the files that changed.
# A text is all of an item but remarks, blank lines and lines of use and mod; inside 'module _ .. where' the module's head is part of it.
# It goes by the layout of rt fmt. Whatever it does not know ends it with a complaint and the status 1.

FILENAME == "changed" { changed[++changes] = substr($0, length("crates/") + 1); next }
FNR == 1 { end_file(); begin_file() }
{ at_line = FNR }
reads == "" { next }
reads == "edit" { if (/^(file: |old: |new:)/) whole = whole "\n" $0; next }
path == "promises/specs/Promises.antt" { promises() }
{
    line = bare($0)
    sub(/[ \t\r]+$/, "", line)
    if (line == "") next
    match(line, /^ */)
    indent = RLENGTH
    words = substr(line, indent + 1)
    if (reads == "code") read_code()
    else if (reads == "proof") read_proof()
    else read_items()
}

function give_up(what) {
    printf "moved: crates/%s:%d, %s: %s\n", path, at_line, side, what >"/dev/stderr"
    failed = 1
    exit 1
}

# ---- files

# What is read of a file, by its path below crates/.
function reading(path) {
    if (path ~ /^[^\/]+\/specs\/.*\.antt$/) return "definition"
    if (path ~ /^[^\/]+\/proofs\/(.*\/)?(Answers|Invariants|Proof)\.antt$/) return "proof"
    if (path ~ /^[^\/]+\/proofs\/.*\.antt$/) return "law"
    if (path ~ /^[^\/]+\/src\/.*\.rt$/) return "code"
    if (path ~ /^[^\/]+\/must-fail\/.*\.edit$/) return "edit"
    return ""
}

# The file's place in its crate, as a path of names with '::' after each.
function place_of(path) {
    sub(/^[^\/]+\/[^\/]+\//, "", path)
    sub(/\.[a-z]+$/, "", path)
    gsub(/\//, "::", path)
    return path "::"
}

function begin_file() {
    side = FILENAME
    path = FILENAME
    sub(/\/.*/, "", side)
    sub(/^[^\/]*\/crates\//, "", path)
    crate = path
    sub(/\/.*/, "", crate)
    reads = reading(path)
    if (reads != "") stands[side, path] = 1
    place = place_of(path)
    if (reads == "code" && place ~ /^(lib|main)::$/) place = ""
    remark = reads == "code" ? "//" : "--"
    remark_begins = reads == "code" ? "/*" : "{-"
    remark_ends = reads == "code" ? "*/" : "-}"
    in_remark = in_promises = 0
    whole = state = item = head = owner = marks = ""
    depth = fixities = 0
    context[0] = ""
    level[0] = 0
}

function end_file(    name, which) {
    if (reads == "edit" || reads == "proof") {
        name = place
        sub(/::$/, "", name)
        if (reads == "proof") sub(/::(Answers|Proof)$/, "", name)
        add(reads, crate "::" name, last(name), whole)
    } else if (reads == "code") {
        if (state != "" || owner != "") give_up("it ends in the middle of something")
    } else if (reads != "") {
        while (depth) end_block()
        end_item()
        for (which = 1; which <= fixities; which++) place_fixity(which)
    }
    reads = ""
}

# Of what loops and measures keep the name has the function's before it.
function last(name,    rest) { rest = sub(/::Invariants$/, "", name) ? "::Invariants" : ""; sub(/.*::/, "", name); return name rest }

# ---- what was read

# add(KIND, NAME, SHORT, TEXT): SHORT is the name without its crate and file. What has a name twice in one file counts once.
# A function's proof is the same in Proof.antt and in Answers.antt.
function add(kind, name, short, text,    key) {
    key = path
    if (kind == "proof") sub(/Answers\.antt$/, "Proof.antt", key)
    key = kind SUBSEP key SUBSEP name
    if (key in kind_of && path_of[key] != path) also_at[key] = path
    if (!(key in kind_of)) {
        keys[++all] = key
        kind_of[key] = kind
        path_of[key] = path
        crate_of[key] = crate
        name_of[key] = name
        short_of[key] = short
        files_with[kind, name]++
    }
    text_of[side, key] = ((side, key) in text_of) ? text_of[side, key] "\n" text : text
}

# A line of use or mod is part of no item.
function use_line() { uses[side, path] = uses[side, path] "\n" words }

# A line without its remarks. In a text nothing begins a remark; of antt's names '--' may be part.
function bare(rest,    done, at) {
    if (!in_remark && !index(rest, remark) && !index(rest, remark_begins)) return rest
    while (rest != "") {
        if (in_remark) {
            at = index(rest, remark_ends)
            if (!at) return done
            in_remark = 0
            rest = substr(rest, at + 2)
            continue
        }
        if (index(rest, remark) == 1 && (remark == "//" || done ~ /(^|[ (])$/)) return done
        if (index(rest, remark_begins) == 1) { in_remark = 1; rest = substr(rest, 3); continue }
        if (!match(rest, /^"([^"\\]|\\.)*"/) && !(remark == "//" && match(rest, /^'(\\[^']*|[^\\'][\200-\277]*)'/))) RLENGTH = 1
        done = done substr(rest, 1, RLENGTH)
        rest = substr(rest, RLENGTH + 1)
    }
    return done
}

# The types of the fields of the record Promises, as .ci/counts finds them.
function promises() {
    if (/^pub record Promises /) { in_promises = 1; return }
    if (/^[^ ]/) in_promises = 0
    if (in_promises && $1 == "pub" && $3 == ":") promised[side, $4] = 1
}

# ---- antt: definitions and laws

function read_items() {
    if (head != "") { head = head "\n" words; if (words ~ /(^| )where$/) begin_block(); return }
    while (depth && indent < (level[depth] < 0 ? level[depth - 1] + 1 : level[depth])) end_block()
    if (level[depth] < 0) level[depth] = indent
    if (indent > level[depth]) {
        if (item != "") text = text "\n" substr(line, level[depth] + 1)
        else if (state == "open") context[depth] = context[depth] "\n" words
        else if (state == "use") use_line()
        else give_up("a line that belongs to nothing: " words)
        return
    }
    if (item != "" && !declares(words) && clause(words)) { text = text "\n" words; return }
    end_item()
    state = ""
    if (words ~ /^(pub )?(use|mod) /) { state = "use"; use_line() }
    else if (words ~ /^open /) { state = "open"; context[depth] = context[depth] "\n" words }
    else if (words ~ /^infix[lr]? /) fixity[++fixities] = words
    else if (words == "mutual" || words ~ /^module /) {
        head = words
        if (words ~ /(^| )where$/ || words == "mutual") begin_block()
    } else if (declares(words)) {
        item = declared
        text = words
        for (which = fixities; which && !(which in before_item); which--) before_item[which] = item
    } else give_up("a form that is not known here: " words)
}

# Does a line begin an item? Sets declared to its name.
function declares(rest) {
    while (match(rest, /^(unfoldable|abbrev|opaque|axiom|pub) /)) rest = substr(rest, RLENGTH + 1)
    if (match(rest, /^(record|data|ruleset) [^ {(]/)) sub(/^[a-z]+ /, "", rest)
    else if (rest !~ /^[^ ]+( \{[^}]*\})? :( |$)/) return 0
    declared = rest
    sub(/ .*/, "", declared)
    return 1
}

# Does a line go on with the item? Its own name is in it, or what an operator's has between the places; or a bracket is closed.
function clause(words,    parts, count) {
    if (words ~ /^(unfolding |[])}])/) return 1
    for (count = split(item, parts, place_in(item)); count; count--) if (parts[count] != "" && !index(words, parts[count])) return 0
    return words !~ /^(pub |use |mod |open |infix[lr]? |module |mutual$)/
}

# How an operator's name marks a place.
function place_in(name) { return index(name, "◌") ? "◌" : name ~ /^_|_$/ ? "_" : SUBSEP }

function end_item() {
    if (item != "") add(reads, crate "::" item, item, context[depth] "\n" text)
    item = ""
}

function begin_block() { depth++; level[depth] = -1; context[depth] = context[depth - 1] "\n" head; head = "" }
function end_block() { end_item(); depth-- }

# A fixity is part of the operator that it names, or else (of a constructor, a field) of the item after it.
function place_fixity(which,    parts, count, key) {
    for (count = split(fixity[which], parts, " "); count > 2; count--) {
        key = reads SUBSEP path SUBSEP crate "::" parts[count]
        if (!((side, key) in text_of)) key = reads SUBSEP path SUBSEP crate "::" before_item[which]
        if (!((side, key) in text_of)) give_up("a fixity of nothing: " fixity[which])
        text_of[side, key] = text_of[side, key] "\n" fixity[which]
    }
    delete before_item[which]
}

# ---- a proof, as a whole

function read_proof() {
    if (line ~ /^(pub )?(use|mod) /) state = "use"
    if (state == "use" && (indent || line ~ /^(pub )?(use|mod) /)) { use_line(); return }
    state = ""
    whole = whole "\n" line
}

# ---- code: functions, types and constants

function read_code() {
    if (state == "use") { use_line(); if (words ~ /;$/) state = ""; return }
    if (state == "head") { read_head(); return }
    if (state == "body") {
        if (indent == margin && words == "}") end_function()
        else body = body "\n" substr(line, margin + 1)
        return
    }
    if (state == "type") { text = text "\n" line; if (indent == margin) end_type(); return }
    if (words ~ /^(pub )?(ghost )?use /) { use_line(); if (words !~ /;$/) state = "use"; return }
    if (words ~ /^(pub )?mod [A-Za-z0-9_]+;$/) { use_line(); return }
    margin = indent
    if (words ~ /^#!?\[/) marks = marks words "\n"
    else if (match(words, /^(pub )?(extern "C" )?fn [A-Za-z0-9_]+/)) {
        item = substr(words, 1, RLENGTH)
        sub(/.* /, "", item)
        state = "head"
        text = marks
        body = marks = ""
        read_head()
    } else if (match(words, /^(pub )?(struct|enum|const|type) [A-Za-z0-9_]+/)) {
        item = substr(words, 1, RLENGTH)
        sub(/.* /, "", item)
        state = "type"
        text = marks words
        marks = ""
        end_type()
    } else if (owner == "" && words ~ /^impl .*\{$/) {
        owner = words
        sub(/ *\{$/, "", owner)
        sub(/.* /, "", owner)
        owner = owner "::"
    } else if (owner != "" && words == "}") owner = ""
    else give_up("a form that is not known here: " words)
}

# A function's head and its clauses, up to the '{' at its own margin.
function read_head(    begins) {
    begins = indent == margin && words ~ /\{\}?$/
    if (!begins) { text = text "\n" substr(line, margin + 1); return }
    state = words ~ /\{\}$/ ? "" : "body"
    sub(/ *\{\}?$/, "", words)
    if (words != "") text = text "\n" words
    if (state == "") end_function()
}

# That a parameter's own variable may change ('mut b: ..') is no word of the contract, but the body's.
function end_function() {
    while (match(text, /[( \n]mut [A-Za-z0-9_]+:/)) {
        body = "\n" substr(text, RSTART + 1, RLENGTH - 1) body
        text = substr(text, 1, RSTART) substr(text, RSTART + 1 + length("mut "))
    }
    add("contract", crate "::" place owner item, owner item, text)
    add("code", crate "::" place owner item, owner item, item body)
    state = ""
}

function end_type() {
    if (words !~ /[;}]$/) return
    add("type", crate "::" place owner item, owner item, text)
    state = ""
}

# ---- the two sides

# On one side a definition is a promise, on the other it need not be.
function kind_on(side, key) {
    return kind_of[key] == "definition" && crate_of[key] == "promises" && (side, short_of[key]) in promised ? "promise" : kind_of[key]
}

# The name to show: with its file where several of the crate have it. That of code is a path already.
function shown(key) {
    if (files_with[kind_of[key], name_of[key]] < 2) return name_of[key]
    return crate_of[key] "::" place_of(path_of[key]) short_of[key]
}

function touch(key) { touched[path_of[key]] = 1; if (key in also_at) touched[also_at[key]] = 1 }

function fact(what, side, key) {
    print what "\t" kind_on(side, key) "\t" shown(key)
    touch(key)
}

# Of what is gone with this text the first that is left, of the same crate where there is one.
function partner(key, text,    at, found) {
    for (at = 1; at <= many[text]; at++) {
        if (!((text, at) in gone)) continue
        if (!found) found = at
        if (crate_of[gone[text, at]] == crate_of[key]) { found = at; break }
    }
    return found
}

# The file, or of a proof or an edit that keeps its name the folder.
function where(key, other,    path) {
    path = path_of[key]
    if (short_of[key] == short_of[other]) sub(/(\/[^\/]+\/(Answers|Invariants|Proof)\.antt|\/[^\/]+\.edit)$/, "", path)
    return "`" path "`"
}

function moved(key, text,    from, was, is, at) {
    at = partner(key, text)
    from = gone[text, at]
    delete gone[text, at]
    touch(from)
    touch(key)
    was = where(from, key)
    is = where(key, from)
    # a definition has become a promise where it stands, or the other way round
    if (was == is) {
        was = "the " kind_on("before", from) "s"
        is = "the " kind_on("after", key) "s of " is
    }
    print "moved\t" kind_on("after", key) "\t" short_of[key] "\t" was "\t" is
}

END {
    if (failed) exit 1
    end_file()
    for (at = 1; at <= all; at++) {
        key = keys[at]
        was = ("before", key) in text_of
        is = ("after", key) in text_of
        if (was && is && kind_on("before", key) == kind_on("after", key)) {
            if (text_of["before", key] == text_of["after", key]) stayed[kind_on("after", key)]++
            else fact("changed", "after", key)
            continue
        }
        if (is) came[++comes] = key
        if (was) gone[text_of["before", key], ++many[text_of["before", key]]] = key
    }
    for (at = 1; at <= comes; at++) {
        key = came[at]
        if (partner(key, text_of["after", key])) moved(key, text_of["after", key])
        else fact("new", "after", key)
    }
    for (left in gone) fact("gone", "before", gone[left])
    for (kind in stayed) print "stayed\t" kind "\t" stayed[kind]
    for (at = 1; at <= changes; at++) {
        path = changed[at]
        both = ("before", path) in stands && ("after", path) in stands
        if (uses["before", path] != uses["after", path] && (both || !(path in touched))) {
            print "uses\t" path
            touched[path] = 1
        }
    }
    for (at = 1; at <= changes; at++)
        if (!(changed[at] in touched)) print (reading(changed[at]) == "" ? "other\t" : "quiet\t") changed[at]
}
