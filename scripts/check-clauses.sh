#!/usr/bin/env bash
# Looks whether docs/PROVED.md names functions and clauses that are there; check-links.sh calls it. In a row stand functions of the
# crates that are bold in it or above it, or CRATE::FUNCTION; one without a type is of the type before it, or of none. A colon begins
# clauses: each has to be an `ensures` of each function between that colon and the semicolon before it. A clause that begins with an
# underscore is the end of a name, a function that ends with two dots the beginning of one. What stands in parentheses is a remark.
# Prints each that is not there, and then `N rows, M missing`. Status 1 where one is missing, or where there is no row.
set -u
export LC_ALL=C
cd "$(dirname -- "${BASH_SOURCE[0]}")/.." || exit 2

code=()
while IFS= read -r -d '' file; do code+=("$file"); done < <(find crates -name out -prune -o -path '*/src/*.rt' -type f -print0)

awk '
    # ---- what is there: functions as `step` or `Kernel::step`, their clauses, and names of types and modules, each behind its crate
    FNR == 1 {
        is_page = FILENAME ~ /\.md$/
        split(FILENAME, folders, "/")
        crate = folders[2] " "
        crates[folders[2]] = 1
        type = ""
        name = FILENAME
        gsub(/.*\/|\.rt$/, "", name)
        words[crate name] = 1
    }
    function first_word(text) {
        match(text, /[A-Za-z_][A-Za-z_0-9]*/)
        return substr(text, RSTART, RLENGTH)
    }
    is_page { if (split($0, cells, "|") == 4 && cells[3] ~ /`/) read_row(cells[2], cells[3]); next }
    /^}/ { type = "" }
    /^(pub )?(impl|trait)[ <]/ && !/}$/ {
        sub(/^(pub )?(trait|impl(<[^>]*>)?) /, "")
        sub(/.* for /, "")
        type = first_word($0)
        words[crate type] = 1
    }
    /^(pub(\([a-z]+\))? )?(struct|enum) / {
        sub(/.*(struct|enum) /, "")
        words[crate first_word($0)] = 1
    }
    /^ *(pub(\([a-z]+\))? )?(const )?fn [a-z]/ {
        is_inner = type != "" && /^ /
        sub(/^ *(pub(\([a-z]+\))? )?(const )?fn /, "")
        function_key = crate (is_inner ? type "::" : "") first_word($0)
        if (!(function_key in clauses)) clauses[function_key] = " "
    }
    /^ +ensures\*? [a-z_0-9]+ \{/ { clauses[function_key] = clauses[function_key] $2 " " }

    # ---- what a row names
    function miss(what) { missing++; printf "docs/PROVED.md:%d: %s\n", FNR, what }

    # Puts the functions of a crate that the name stands for into `named`. Whether there is one, or a type or module of that name.
    function find(crate, name, key, end, is_there) {
        if (owner != "" && (crate " " owner "::" name) in clauses) return named[crate " " owner "::" name] = 1
        if ((crate " " name) in clauses) return named[crate " " name] = 1
        end = owner == "" ? "::" name : ""
        for (key in clauses) {
            if (name ~ /\.\.$/ && index(key, crate " " substr(name, 1, length(name) - 2)) == 1 ||
                end != "" && index(key, crate " ") == 1 && substr(key, length(key) - length(end) + 1) == end)
                is_there = named[key] = 1
        }
        return is_there || (crate " " name) in words
    }
    function read_function(name, parts, is_there, i) {
        split(name, parts, "::")
        if (parts[1] in crates) sub(/^[a-z_]+::/, "", name)
        if (name ~ /::/) { owner = name; sub(/::[^:]*$/, "", owner) }
        if (parts[1] in crates) is_there = find(parts[1], name)
        else for (i = 1; i <= count; i++) if (find(row_crates[i], name)) is_there = 1
        if (!is_there) miss("no function " name)
    }
    function read_clause(name, key) {
        for (key in named)
            if (!index(clauses[key], (name ~ /^_/ ? "" : " ") name " ")) miss("no clause " name " of " key)
    }
    function read_names(text, are_clauses, name) {
        while (match(text, /`[^`]+`/)) {
            name = substr(text, RSTART + 1, RLENGTH - 2)
            text = substr(text, RSTART + RLENGTH)
            if (are_clauses) read_clause(name)
            else read_function(name)
        }
    }
    function read_row(promise, kept_by, groups, parts, i, last) {
        rows++
        if (match(promise, /^ \*\*[^*]*\*\*/)) {
            count = split(substr(promise, RSTART, RLENGTH), parts, "`") - 1
            for (i = 2; i <= count; i += 2) row_crates[i / 2] = parts[i]
            count = int(count / 2)
        }
        owner = ""
        gsub(/\([^)]*\)/, "", kept_by)
        gsub(/::/, "\001", kept_by)
        last = split(kept_by, groups, ";")
        for (i = 1; i <= last; i++) {
            split("", named)
            split(groups[i] ":", parts, ":")
            gsub("\001", "::", parts[1])
            read_names(parts[1], 0)
            read_names(parts[2], 1)
        }
    }
    END {
        printf "%d rows, %d missing\n", rows, missing
        exit rows == 0 || missing > 0
    }
' "${code[@]}" docs/PROVED.md
