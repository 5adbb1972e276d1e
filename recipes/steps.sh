# What the recipes have in common, to be read into a script with `set -euo pipefail`.

# Ends the script with a line that says why.
give_up() {
    printf 'recipe: %s\n' "$1" >&2
    exit 1
}

top=$(CDPATH='' cd -- "$(dirname -- "${BASH_SOURCE[0]}")/.." && pwd -P)
olap=${OLAP:-$top/olap}
[ "${OLAP-}" ] || [ -e "$olap" ] || olap=olap # recipes that came with a package run the program in PATH
olap=$(command -v -- "$olap") || give_up "no such program: $olap"
olap=$(realpath -- "$olap")

# Does this when the script ends, however it ends, before what was said so far.
end=
at_end() {
    end="$1; $end"
    trap -- "$end" EXIT
}

# Goes into a new folder, which is removed at the end.
enter_new_folder() {
    work=$(mktemp -d)
    at_end 'rm -rf -- "$work"'
    cd -- "$work"
}

# The same for a way to keep the dimension, a folder of shapes/ or any other, with the schema in the new folder.
enter_shape() {
    local each
    case "$1" in
    */*) shape=$(realpath -- "$1") ;;
    *) shape=$top/recipes/shapes/$1 ;;
    esac
    for each in tables members totals; do
        [ -f "$shape/$each.sql" ] || give_up "no such file: $shape/$each.sql"
    done
    schema=$shape/schema.txt
    [ -f "$schema" ] || schema=$top/recipes/shapes/schema.txt
    enter_new_folder
    cp -- "$schema" schema.txt
}

# Says which words the program is asked.
tell() {
    printf '+ olap'
    printf ' %s' "$@"
}

# Asks the program these words, and expects that it ends with this status.
ask() {
    local wanted=$1 status=0
    shift
    tell "$@" && echo
    "$olap" "$@" || status=$?
    [ "$status" -eq "$wanted" ] || give_up "the program ended with status $status, and not with $wanted"
}

# Asks the program these words, and keeps what it prints in a file.
keep() {
    local file=$1
    shift
    tell "$@" && echo " > $file"
    "$olap" "$@" >"$file" || give_up "the program ended with status $?: $(head -n 1 "$file")"
}

# From instance.csv and facts.csv to Store.csv, Region.csv and Country.csv, where the database has so many members.
ask_all() {
    ask 0 check schema.txt instance.csv | tee checked
    [ "$(tail -n 1 checked)" = "legal $1" ] || give_up "the database has $1 members"
    keep Store.csv rollup schema.txt instance.csv facts.csv Store
    ask 1 summarizable schema.txt Country State Province
    ask 0 summarizable schema.txt Country City
    keep store.csv store schema.txt instance.csv facts.csv City State Province
    keep Region.csv answer schema.txt instance.csv store.csv Region
    keep Country.csv answer schema.txt instance.csv store.csv Country
    cat Region.csv Country.csv
}

# Whether the file `differences` is empty: what a comparison with the totals of this database printed.
say_whether_equal() {
    cat differences
    [ ! -s differences ] || give_up "the totals are not those of $1"
    echo "the totals are those of $1"
}
