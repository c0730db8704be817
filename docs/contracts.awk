# contracts.awk: that each public entry's contract and laws say what the page says that they do, by their form. Prints the faults.
# A contract is one statement, applied to every parameter at entry, the answer, and what was lent at exit; or an equation of the answer.
# Its law of one answer, that of the numbers by which it refuses, and where 1 is one of them that of its place, are of that same statement, applied to
# variables alone.
# Such a statement is held as its form: its name, and for each argument `_`, or the constant that it is: `HasText Text.Name _ _`.
# Reads the imports (file, name, module), functions, laws (file, name, type) and entries that docs/check lists.
BEGIN {
    FS = "\t"
    # by how much is lent to be written: nothing, one, or the records and the room of a search
    split("OneAnswer OneOutcome OneOutcomes", one, " ")
    split("Refuses RefusesWhole RefusesInPart", total, " ")
    split("TellsFirst TellsFirstBeside TellsFirstBesides", outside, " ")
    # the fields by whose order places count
    listing["set_limits"] = "Rattle.action_set.specs.Sets"
    listing["context_limits"] = "Rattle.craft_context.specs.Limits"
    listing["builder_limits"] = "Rattle.craft_context.specs.Build"
    listing["number_limits"] = "Rattle.context_line.specs.Fields"
}
FILENAME ~ /imports$/ { module[$1, $2] = $3; next }
FILENAME ~ /functions$/ { contract[$2] = $4; source[$2] = $5; next }
FILENAME ~ /laws$/ { file[$2] = $1; type[$2] = $3; next }
{ check_entry($1, $2, $3) }

function check_entry(entry, stated, numbers,   form, lent, place) {
    form = contract_form(contract[entry])
    lent = lent_at
    lents = split(lent, place, " ")
    if (form == "") {
        print entry ": its contract is no statement of its parameters, its answer and what was lent"
        return
    }
    if (name_of(form) != stated) print entry ": its contract does not say " stated
    check_law(entry, law_of(entry, "one"), one[lents + 1], form)
    if ((form ~ /^result ≡ /) != (numbers == "")) print entry ": a statement has refusals, and an equation has none"
    else if (numbers != "") check_refusals(entry, law_of(entry, "total"), form, numbers, lent)
    if (", " numbers "," ~ /, 1,/) check_place(entry, law_of(entry, "outside"), form)
}

# A law has the name of its entry behind it. That of a method, in which a type's name stands, has dashes.
function law_of(entry, law) {
    if (entry !~ /::/) return law "_" entry
    gsub(/::|_/, "-", entry)
    return law "-" entry
}

# The kind of answer, or what is told of it, of a law of the refusals.
function told_by(law,   text) {
    text = past_variables(type[law])
    sub(/^[A-Za-z]+ /, "", text)
    sub(/ .*/, "", text)
    return text
}

function name_of(form) {
    sub(/^result ≡ /, "", form)
    sub(/ .*/, "", form)
    return form
}

# The form of a name applied to words: each name of `given` stands there once, alone or among others in brackets, in their order, and else constants.
# `given` is 2 at what is lent; `lent_at` is set to its places.
function applied_form(text,   word, size, i, form, depth, place, seen, used, last) {
    size = split(text, word, " ")
    form = word[1]
    lent_at = ""
    for (i = 2; i <= size; i++) {
        if (word[i] == ")" && depth) { depth = 0; continue }
        if (!depth) { place++; form = form " " (word[i] ~ /^[A-Z][A-Za-z]*\.[A-Z][A-Za-z]*$/ ? word[i] : "_") }
        if (word[i] == "(" && !depth) { depth = 1; continue }
        if (word[i] in given) {
            if (seen[word[i]]++ || (depth && place_of[word[i]] < last)) return ""
            last = depth ? place_of[word[i]] : 0
            used++
            if (given[word[i]] == 2) lent_at = lent_at " " place
        } else if (depth || form ~ /_$/) return ""
    }
    return form ~ /^[A-Za-z_]+( |$)/ && used == named && !depth ? form : ""
}

function forget() {
    split("", given)
    named = 0
}

# ---- the contract

# Nothing stands beside the one clause: no premise, and no second clause.
function contract_form(text,   clause, at, start) {
    clause = " ensures { "
    at = index(text, clause)
    start = substr(text, 1, at - 1)
    text = substr(text, at + length(clause))
    if (!at || start !~ /^[a-z_]+\([^()]*\) -> [A-Za-z0-9_<>(), ]+$/ || !sub(/ [}] [{] *$/, "", text)) return ""
    read_parameters(start)
    return stated_form(as_words(text))
}

# A statement ends in the answer and what was lent at exit, in the order of the parameters. An equation is of the answer, and lends nothing.
function stated_form(text,   at, form) {
    if (sub(/^result ≡ /, "", text)) {
        form = applied_form(text)
        return form == "" || exits != "" ? "" : "result ≡ " form
    }
    at = index(text " ", " result ")
    return at && substr(text, at + 7) == exits ? applied_form(substr(text, 1, at - 1)) : ""
}

# How a statement names each parameter at entry, and those that can be written at exit: `x`, what is lent to be read `x.now`, and what is lent to be
# written `x.old` and `x.new`.
function read_parameters(start,   part, name, k) {
    forget()
    exits = ""
    gsub(/^[^(]*\( *|,? *\) -> .*$/, "", start)
    named = split(start, part, /, */)
    for (k = 1; k <= named; k++) {
        name = part[k]
        sub(/ *:.*/, "", name)
        given[name (part[k] ~ /: &mut / ? ".old" : part[k] ~ /: &/ ? ".now" : "")] = part[k] ~ /: &mut / ? 2 : 1
        place_of[name] = k
        if (part[k] ~ /: &mut /) exits = exits " " name ".new"
    }
}

# A set is its number; a list, a record or a mode of parameters becomes them in brackets. The fields of a record of several have the names of their
# parameters.
function as_words(text,   part) {
    gsub(/self\.0/, "self", text)
    gsub(/\((record [{]|mode_of )/, "(", text)
    gsub(/; /, " ", text)
    while (match(text, / [a-z_]+ = [a-z_]+/)) {
        split(substr(text, RSTART + 1, RLENGTH - 1), part, " = ")
        if (part[1] != part[2]) return ""
        text = substr(text, 1, RSTART) part[2] substr(text, RSTART + RLENGTH)
    }
    gsub(/ [}]\)| ∷ \[\]\)/, ")", text)
    gsub(/ ∷ /, " ", text)
    gsub(/\(/, "( ", text)
    gsub(/\)/, " )", text)
    return text
}

# ---- the laws

# The law is `demand` of the entry's statement.
function check_law(entry, law, demand, form,   text) {
    text = opened(entry, law, demand)
    if (text != "") check_statement(entry, law, text, form)
}

# The same with the numbers, which are those of the page, and with what is lent, which stands where the contract lends it. A law of a search has in between
# the numbers by which an iteration is refused, and the tests before all.
function check_refusals(entry, law, form, numbers, lent,   text, said, name, k) {
    text = opened(entry, law, total[lents + 1])
    if (text == "") return
    said = name = text
    sub(/^[A-Za-z_]+ \(/, "", said)
    sub(/ ∷ \[\]\) .*/, "", said)
    gsub(/ ∷ /, ", ", said)
    if (said != numbers) print entry ": its law " law " has the refusals " said ", and the page " numbers
    sub(/^[A-Za-z_]+ \([^()]*\) /, "", text)
    if (lents == 2) sub(/^\(6 ∷ 19 ∷ 20 ∷ \[\]\) \((asked|first)_tests [^()]*\) /, "", text)
    for (k = 1; k <= lents; k++) {
        name = text
        sub(/ .*/, "", name)
        sub(/^[^ ]* /, "", text)
        if (name in given) given[name] = 2
    }
    check_statement(entry, law, text, form)
    if (lent_at != lent) print entry ": its law " law " is not of what is lent"
}

# The law of the place has in between what is told, by the same kind as the law of the refusals, and fields of one of the four lists, whose variables the
# proof holds to the statement's.
function check_place(entry, law, form,   kind, text, fields) {
    kind = told_by(law_of(entry, "total"))
    text = opened(entry, law, outside[lents + 1])
    if (text == "") return
    if (!starts(text, lents == 2 ? kind " (" : kind ".told (") || !same_import(law, law_of(entry, "total"), kind)) {
        print entry ": its law " law " is not of what is told by " kind
        return
    }
    sub(/^[a-z_]+(\.told)? \(/, "", text)
    fields = text
    sub(/ .*/, "", fields)
    if (!(fields in listing) || module[file[law], fields] != listing[fields]) print entry ": its law " law " is not of the fields of a record"
    sub(/^[^()]*(\([^()]*(\([^()]*\))?\))?\) /, "", text)
    check_statement(entry, law, text, form)
}

function starts(text, with) { return substr(text, 1, length(with)) == with }

function same_import(law, other, name) {
    return module[file[law], name] != "" && module[file[law], name] == module[file[other], name]
}

# What stands behind the demand in a law's type; empty, and a fault, where the law is none of it.
function opened(entry, law, demand,   text) {
    text = past_variables(type[law])
    if (index(text, demand " ") == 1 && module[file[law], demand] ~ /^Rattle\.(refusal|search)\.specs\.Demands$/) return substr(text, length(demand) + 2)
    print entry ": no law " law " by " demand
    return ""
}

# The variables that a law binds, `(n : ℕ) (out : List ℕ) →`, are its `given`: a premise would be one that the statement does not name.
function past_variables(text,   group, part, size, i) {
    forget()
    while (match(text, /^\([A-Za-z_ ]+ : [^()]*\) /)) {
        group = substr(text, 2, RLENGTH)
        text = substr(text, RLENGTH + 1)
        sub(/ :.*/, "", group)
        size = split(group, part, " ")
        for (i = 1; i <= size; i++) given[part[i]] = 1
        named += size
    }
    if (named && !sub(/^→ /, "", text)) return ""
    return text
}

function check_statement(entry, law, text, form,   name, equation) {
    name = name_of(form)
    if (!sub(/^\(/, "", text) || !sub(/\)$/, "", text)) text = ""
    equation = sub(/^λ \(r : [A-Za-z]+\)\. r ≡ /, "", text)
    if ((equation ? "result ≡ " : "") applied_form(constants(text, file[law])) != form || !same_module(entry, law, name))
        print entry ": its law " law " is not of the statement " name " of any values"
}

# `T.Name`, where `T` is the variants of `Text`, is the contract's `Text.Name`.
function constants(text, law_file,   word, size, i, alias, path, last, all) {
    size = split(text, word, " ")
    for (i = 1; i <= size; i++) {
        alias = word[i]
        if (sub(/\..*/, "", alias)) {
            last = split(module[law_file, alias], path, ".")
            sub(/^[^.]*/, path[last - 1], word[i])
        }
        all = all (i > 1 ? " " : "") word[i]
    }
    return all
}

# Both mean the same definition by the name.
function same_module(entry, law, name) {
    return module[source[entry], name] != "" && module[source[entry], name] == module[file[law], name]
}
