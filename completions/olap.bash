# Completion of olap for bash: commands, then files, and categories as far as they can be read from the schema's text.
# That text is only searched for lines that declare a category; nothing in it, or in the words, is ever run.
# Where a file is wanted the function finds nothing, and bash completes file names by itself.

# Cuts the line up to the cursor into words, without their quotes; the last word is the one to be completed.
_olap_words() {
    local line=$1 quote='' word='' i c
    words=()
    local begun=
    for ((i = 0; i < ${#line}; i++)); do
        c=${line:i:1}
        if [[ $quote == "'" ]]; then
            if [[ $c == "'" ]]; then quote=''; else word+=$c; fi
        elif [[ $c == "\\" ]]; then
            ((i++))
            word+=${line:i:1} begun=1
        elif [[ $quote == '"' ]]; then
            if [[ $c == '"' ]]; then quote=''; else word+=$c; fi
        elif [[ $c == [\"\'] ]]; then
            quote=$c begun=1
        elif [[ $c == [[:space:]] ]]; then
            if [[ $begun || $word ]]; then words+=("$word"); fi
            word='' begun=
        else
            word+=$c
        fi
    done
    words+=("$word")
}

# The categories that the file declares, and All. No more than its first 256 KiB is read, and only of a plain file.
_olap_categories() {
    local file=$1 line
    if [[ $file == \~/* ]]; then file=$HOME/${file:2}; fi
    categories=()
    if [[ ! -f $file || ! -r $file ]]; then return 1; fi
    while IFS= read -r line; do
        if [[ $line =~ ^[[:blank:]]*category[[:blank:]]+([A-Za-z][A-Za-z0-9]*)([[:blank:]]+number)?[[:blank:]]*$'\r'?$ ]]; then
            categories+=("${BASH_REMATCH[1]}")
        fi
    done < <(head -c 262144 <"$file" 2>/dev/null)
    categories+=(All)
}

# What stands at each place after a command: f a file, c a category, r a category other than All, d categories that differ,
# n nothing that could be completed.
_olap_places() {
    case $1 in
    rollup) places='fffc' ;;
    check) places='ff' ;;
    format | audit) places='f' ;;
    summarizable | prove | prove-short | needs) places='fcd' ;;
    verify | verify-short | breaks) places='ffcd' ;;
    implies) places='frn' ;;
    satisfiable | frozen | shapes) places='fc' ;;
    store) places='fffd' ;;
    answer) places='fffc' ;;
    append | retract) places='ffff' ;;
    cube | cubeview) places='' ;; # the number says: below, in _olap_cube
    *) places='' ;;
    esac
}

# Of a cube: K, then files, as many as K says and for cubeview that once more and the facts, and then tuples of categories.
_olap_cube() {
    local count=${words[2]} place=$((${#words[@]} - 3)) files each number piece front
    if [[ ${#words[@]} -eq 3 ]]; then
        compopt +o default
        for number in 1 2 3 4; do
            if [[ $number == "$current"* ]]; then COMPREPLY+=("$number"); fi
        done
        return
    fi
    if [[ $count != [1-4] ]]; then compopt +o default; return; fi
    files=$count
    if [[ ${words[1]} == cubeview ]]; then files=$((2 * count + 1)); fi
    if [[ $place -le $files ]]; then return; fi
    compopt +o default -o nospace
    # Of a tuple that is begun, the last piece is completed; the others stay.
    front=${current%"${current##*,}"} piece=${front//[!,]/}
    number=${#piece}
    if [[ $number -ge $count || (${words[1]} == cubeview && $place -gt $((files + 1))) ]]; then return; fi
    if ! _olap_categories "${words[$((3 + number))]}"; then return; fi
    for each in "${categories[@]}"; do
        if [[ $each == "${current##*,}"* ]]; then COMPREPLY+=("$front$each"); fi
    done
}

_olap() {
    local LC_ALL=C words places place current each used categories
    COMPREPLY=()
    _olap_words "${COMP_LINE:0:COMP_POINT}"
    current=${words[-1]}
    if [[ ${#words[@]} -le 2 ]]; then
        compopt +o default
        for each in rollup check format summarizable prove verify prove-short verify-short needs breaks implies satisfiable frozen shapes audit store answer append retract cube cubeview generate version; do
            if [[ $each == "$current"* ]]; then COMPREPLY+=("$each"); fi
        done
        return
    fi
    if [[ ${words[1]} == cube || ${words[1]} == cubeview ]]; then _olap_cube; return; fi
    _olap_places "${words[1]}"
    place=${places:${#words[@]}-3:1}
    if [[ ! $place && ${places: -1} == d ]]; then place=d; fi
    if [[ $place == f ]]; then return; fi
    compopt +o default
    if [[ $place != [crd] ]] || ! _olap_categories "${words[2]}"; then return; fi
    # Sources are completed after the target, and the categories of a store after the facts.
    used=" ${words[*]:$((${#places} + 1)):$((${#words[@]} - ${#places} - 2))} "
    for each in "${categories[@]}"; do
        if [[ $each != "$current"* || ($place == r && $each == All) ]]; then continue; fi
        if [[ $place == d && $used == *" $each "* ]]; then continue; fi
        COMPREPLY+=("$each")
    done
}

complete -o default -F _olap olap
