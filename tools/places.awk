# The places of which the prover, or an edit, speaks: a function by its path below the crate, as 'label/capped' or 'Master/tick', whichever of its files is
# named; a file of lemmas by its path below proofs/; and another file of the crate as 'specs/Field'.
#
#   awk -v folder=FOLDER -v task=said  -f tools/places.awk LOG     of what `rt check` said of the crate in FOLDER: a line 'unread WORDS' for each text that
#       cannot be read, and 'place PLACE' for each at which a fact is refused; one at which only a name is missing, or what rests on a place before, is none
#   awk -v folder=FOLDER -v task=named -f tools/places.awk EDIT..  the places that lines 'fails:' name, of functions of the crate in FOLDER
#
# With -v edited='FILE ..' an error without a name in one of these files is an unread text, as it is in src/ and specs/.
task == "named" && /^fails: / { print place_of(substr($0, 8)) }
task == "said" && /^note: (\.\/)?src\/[^:]*:[0-9]+:[0-9]+: it is not proved/ {
    sub(/^note: (\.\/)?/, "")
    split($0, at, ":")
    tell("place " function_at(at[1], at[2]))
}
task == "said" && /^(\.\/)?(src|specs|proofs)\/[^:]*:[0-9]+:[0-9]+: error/ {
    sub(/^\.\//, "")
    split($0, at, ":")
    words = $0
    sub(/^[^:]*:[0-9]+:[0-9]+: error/, "", words)
    text = words
    gsub(/`[^`]*`/, "", text)
    if (text ~ /declarations? that depends? on .*not checked/) next
    missing = text ~ /is not in scope|has no field|is no name|can be named from here|was not admitted/ || words ~ /has no `/
    unreadable = words !~ /^: `[^`]*`: / || text ~ /is not in scope|has no field|is no name|operand is missing|expected the end|cannot continue/
    if ((at[1] !~ /^proofs\// || index(" " edited " ", " " at[1] " ")) && unreadable) tell("unread " $0)
    else if (!missing) tell("place " (at[1] ~ /^src\// ? function_at(at[1], at[2]) : place_of(at[1])))
}

function tell(line) {
    if (!(line in told)) print line
    told[line] = 1
}

# A place as it is told, of 'proofs/label/capped/Answers.antt', 'proofs/label/capped' or 'src/label.rt capped'.
function place_of(text,    file, name, i) {
    if (text ~ /^src\/[^ ]* /) {
        file = text
        sub(/ .*/, "", file)
        name = substr(text, length(file) + 2)
        read(file)
        for (i = 1; i <= lines[file]; i++) if (name_of(line[file, i]) == name) return function_at(file, i)
        return text
    }
    sub(/\.antt$/, "", text)
    if (text ~ /^proofs\/.*\//) sub(/\/(Proof|Answers|Invariants)$/, "", text)
    sub(/^proofs\//, "", text)
    return text
}

# The function in which a line of the source stands: the module of the function, or of the type of which it is a method, that type, and its name.
function function_at(file, at,    i, type) {
    read(file)
    while (line[file, at] ~ /^ *#\[/) at++
    for (i = at; i && name_of(line[file, i]) == ""; i--) ;
    if (!i) return file
    at = i
    if (line[file, at] !~ /^ /) return module_of(file) name_of(line[file, at])
    while (i && line[file, i] !~ /^(impl|trait|pub trait)[ <]/) i--
    type = line[file, i]
    sub(/^(pub )?(impl|trait) */, "", type)
    while (sub(/<[^<>]*>/, "", type)) ;
    sub(/ where .*| *\{.*/, "", type)
    sub(/^.* for /, "", type)
    sub(/^.*::/, "", type)
    gsub(/^ *| *$/, "", type)
    return module_of(declaring(type, file)) type "/" name_of(line[file, at])
}

function module_of(file) {
    sub(/^src\//, "", file)
    sub(/(\/mod)?\.rt$/, "", file)
    return file == "lib" || file == "main" ? "" : file "/"
}

# The file that declares a type, or else the one that speaks of it.
function declaring(type, file,    search, found) {
    if (!(type in declares)) {
        search = "cd '" folder "' && grep -rlE '^(pub )?(struct|enum|trait) " type "([^A-Za-z0-9_]|$)' src"
        declares[type] = (search | getline found) > 0 ? found : ""
        close(search)
    }
    return declares[type] == "" ? file : declares[type]
}

function name_of(text) {
    if (text !~ /^ *(pub(\([a-z]*\))? )?((const|unsafe|final) )*(extern "C" )?fn [a-z_]/) return ""
    sub(/^.*fn /, "", text)
    sub(/[^a-z0-9_].*/, "", text)
    return text
}

function read(file) {
    if (file in lines) return
    lines[file] = 0
    while ((getline line[file, lines[file] + 1] < (folder "/" file)) > 0) lines[file]++
    close(folder "/" file)
}
