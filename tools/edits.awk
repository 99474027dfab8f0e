# Reads wrong edits of one crate, as rt does: below a line 'file:' each 'old:', which stands once in that file of FOLDER, becomes the 'new:' after it.
# A place is sought in the file as it is, so that edits which would meet each other's text can be made together.
#
#   awk -v folder=FOLDER -v task=plan  -f tools/edits.awk EDIT..     prints the runs in which to try the edits, a line for each: 'bodies' and those tried
#       together, which change what only the proofs of the functions that they name see, or 'whole' and others, each of which names a place that no other of
#       them names; PLACES in the environment has the places that edits name, a line 'EDIT PLACE' for each
#   awk -v folder=FOLDER -v task=alter -f tools/edits.awk EDIT..     makes them all; status 3 where one does not fit
#   awk -v folder=FOLDER -v task=unfit -f tools/edits.awk EDIT..     prints those that do not fit
FNR == 1 { edits[++count] = FILENAME; file = "" }
/^fails: / { fails[FILENAME] = ++failing[FILENAME] == 1 ? substr($0, 8) : "" }
/^file: / { file = substr($0, 7) }
/^old: / { old = substr($0, 6) }
/^new:/ { note(FILENAME, file, old, substr($0, 6)); old = "" }
END {
    for (i = 1; i <= count; i++) if (!(edits[i] in changed)) unfit[edits[i]] = 1
    if (task == "plan") plan()
    else if (task == "alter") alter()
    else for (i = 1; i <= count; i++) if (edits[i] in unfit) print edits[i]
}

function text_of(file,    path, line) {
    if (!(file in texts)) {
        path = folder "/" file
        texts[file] = ""
        while ((getline line < path) > 0) texts[file] = texts[file] line "\n"
        close(path)
    }
    return texts[file]
}

# One change of an edit: which text of the file, where, and what for it. Of all changes of an edit, the one function in whose body they stand; what its
# own proof calls the changed test goes with it.
function note(edit, file, old, new,    text, at, function_) {
    text = text_of(file)
    at = index(text, old)
    if (old == "" || !at || index(substr(text, at + length(old)), old)) {
        unfit[edit] = 1
        return
    }
    changes++
    of[changes] = file; start[changes] = at; size[changes] = length(old); becomes[changes] = new; by[changes] = edit
    if (file ~ /^proofs\/.*\/(Answers|Invariants|Proof)\.antt$/ && (edit in changed) && is_of(folder_of(file), changed[edit])) return
    function_ = file ~ /^src\// ? body_around(file, text, at) : ""
    if (!(edit in changed)) changed[edit] = function_
    else if (changed[edit] != function_) changed[edit] = ""
}

function folder_of(file) {
    sub(/\/[^\/]*$/, "", file)
    return file
}

# The function in whose body a place stands, as 'src/lib.rt:7 name', and nothing where it stands in none: in a contract, a type, a constant. As rt fmt
# lays a function out, its body is between '{' and '}' below the first letter of its line, or after the '{' that ends the line where it has no contract.
# Nothing of a trait's function too: rt does not call it by its type's name.
function body_around(file, text, at,    lines, last, head, i, indent, inside) {
    last = split(substr(text, 1, at), lines, "\n")
    for (head = last; head && lines[head] !~ /^ *(pub(\([a-z]*\))? )?((const|unsafe|final) )*(extern "C" )?fn [a-z_]/; head--) ;
    if (!head) return ""
    match(lines[head], /^ */)
    indent = substr(lines[head], 1, RLENGTH)
    inside = lines[head] ~ /\{$/
    for (i = head; indent != "" && i && lines[i] !~ /^(impl|trait|pub trait)[ <]/; i--) ;
    if (lines[i] ~ / for /) return ""
    for (i = head + 1; i < last; i++) {
        if (lines[i] == indent "{") inside = 1
        if (lines[i] == indent "}") inside = 0
    }
    match(lines[head], /fn [a-z0-9_]+/)
    return inside ? file ":" head " " substr(lines[head], RSTART + 3, RLENGTH - 3) : ""
}

# A function's body is seen by its own proof alone: others see its contract. So edits of bodies of different functions, each of which is to fail at its
# own function, cannot be taken for one another, and are tried together. So are other edits, which name every place at which they are refused, where each
# has a place of its own. One that does not fit is tried alone.
function plan(    i, edit, own, round, rounds, runs) {
    named()
    for (i = 1; i <= count; i++) {
        edit = edits[i]
        own = changed[edit]
        if (edit in unfit) {
            print "whole " edit
            continue
        }
        if (own == "" || !is_of(fails[edit], own)) {
            for (round = 1; !stands_apart(edit, together[round]); round++) ;
            together[round] = together[round] " " edit
            continue
        }
        round = ++seen[own]
        if (round > rounds) rounds = round
        runs[round] = runs[round] " " edit
    }
    for (round = 1; round <= rounds; round++) print "bodies" runs[round]
    for (round = 1; round in together && together[round] != ""; round++) print "whole" together[round]
}

function named(    lines, i, at, edit) {
    for (i = split(ENVIRON["PLACES"], lines, "\n"); i; i--) {
        at = index(lines[i], " ")
        edit = substr(lines[i], 1, at - 1)
        places[edit] = places[edit] substr(lines[i], at + 1) "\n"
    }
}

# Whether an edit and others, which stand apart already, all keep a place that none of the rest names, and it changes no text that they change.
function stands_apart(edit, others,    all, lines, times, count_, i, j, own) {
    count_ = split(others " " edit, all, " ")
    for (i = 1; i <= count_; i++) for (j = split(places[all[i]], lines, "\n"); j; j--) times[lines[j]]++
    for (i = 1; i <= count_ && count_ > 1; i++) {
        own = 0
        for (j = split(places[all[i]], lines, "\n"); j; j--) if (lines[j] != "" && times[lines[j]] == 1) own = 1
        if (!own) return 0
    }
    for (i = 1; i <= changes; i++) for (j = 1; j <= changes; j++)
        if (by[i] == edit && index(others " ", " " by[j] " ") && of[i] == of[j] && start[i] < start[j] + size[j] && start[j] < start[i] + size[i]) return 0
    return 1
}

# Whether a place is that of a function: 'src/lib.rt name', or 'proofs/../name' where its proof has a file.
function is_of(place, own,    name) {
    name = own
    sub(/^.* /, "", name)
    if (place ~ /^src\//) {
        sub(/:[0-9]*/, "", own)
        return place == own
    }
    sub(/^proofs\/(.*\/)?/, "", place)
    return place == name
}

function alter(    file, text, done, next_, i) {
    for (i = 1; i <= count; i++) if (edits[i] in unfit) exit 3
    for (file in texts) {
        text = ""
        done = 1
        while (next_ = first_from(file, done)) {
            text = text substr(texts[file], done, start[next_] - done) becomes[next_]
            done = start[next_] + size[next_]
        }
        printf "%s%s", text, substr(texts[file], done) > (folder "/" file)
        close(folder "/" file)
    }
    for (i = 1; i <= changes; i++) if (!(i in made)) exit 3   # it overlaps another
}

# The first change of a file, of those not made, that begins at a place or after it; 0 where there is none.
function first_from(file, at,    i, found) {
    for (i = 1; i <= changes; i++)
        if (of[i] == file && !(i in made) && start[i] >= at && (!found || start[i] < start[found])) found = i
    if (found) made[found] = 1
    return found
}
